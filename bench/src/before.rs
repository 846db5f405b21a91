//! An earlier archive of the library beside the linked one (feature `before`), to be timed against
//! it in one process, and a second copy of that archive: equal code at other addresses, whose times
//! tell how large noise is. `build.rs` links both with their calls renamed: both searches and the space
//! needed, which the archive must have as they are in the present `include/planner.h`. The linked one is
//! called here just as they are: by way of `rust/` and `library.rs` a call takes 3 ns more. Only the
//! linked one takes lists, conjoins and reduces.

use planner::lent;

use crate::library::{answer_of, space_of, Library, UNWRITTEN, UNWRITTEN_SPACE};
use crate::planner::{
    Answer, ConjoinSlices, CycleSlices, GuidedSlices, Planner, Space, SweepSlices,
};

/// Declares the calls of a copy and makes it an implementation, with further methods of it at the end.
macro_rules! copy {
    (
        $(#[$text:meta])* $planner:ident, $name:literal, $space:ident, $sweep:ident, $guided:ident
        $(, $($more:tt)*)?
    ) => {
        extern "C" {
            fn $space(
                chart: *const u8,
                chart_len: usize,
                rules: *const u8,
                rules_len: usize,
                space: *mut lent::Space,
            ) -> u32;

            fn $sweep(
                chart: *const u8,
                chart_len: usize,
                rules: *const u8,
                rules_len: usize,
                cost: *mut u32,
                cost_len: usize,
                via: *mut u32,
                via_len: usize,
                nodes: *mut u32,
                nodes_len: usize,
                plan: *mut u16,
                plan_len: usize,
                answer: *mut lent::Answer,
            ) -> u32;

            fn $guided(
                chart: *const u8,
                chart_len: usize,
                rules: *const u8,
                rules_len: usize,
                keys: *mut u32,
                keys_len: usize,
                via: *mut u32,
                via_len: usize,
                heap: *mut u32,
                heap_len: usize,
                pos: *mut u32,
                pos_len: usize,
                stack: *mut u32,
                stack_len: usize,
                log: *mut u32,
                log_len: usize,
                plan: *mut u16,
                plan_len: usize,
                answer: *mut lent::Answer,
            ) -> u32;
        }

        $(#[$text])*
        pub struct $planner;

        impl Planner for $planner {
            fn name(&self) -> &'static str {
                $name
            }

            fn sweep(&self, chart: &[u8], rules: &[u8], lent: &mut SweepSlices) -> Answer {
                let SweepSlices { cost, via, nodes, plan } = lent;
                let mut answer = UNWRITTEN;
                // SAFETY: every pointer comes with the length of the live slice that it belongs to. Mutable
                // slices are borrowed as such, so they overlap nothing.
                let returned = unsafe {
                    $sweep(
                        chart.as_ptr(),
                        chart.len(),
                        rules.as_ptr(),
                        rules.len(),
                        cost.as_mut_ptr(),
                        cost.len(),
                        via.as_mut_ptr(),
                        via.len(),
                        nodes.as_mut_ptr(),
                        nodes.len(),
                        plan.as_mut_ptr(),
                        plan.len(),
                        &mut answer,
                    )
                };
                answer_of(returned, answer)
            }

            fn guided(&self, chart: &[u8], rules: &[u8], lent: &mut GuidedSlices) -> Answer {
                let GuidedSlices { keys, via, heap, pos, stack, log, plan } = lent;
                let mut answer = UNWRITTEN;
                // SAFETY: as for the sweep.
                let returned = unsafe {
                    $guided(
                        chart.as_ptr(),
                        chart.len(),
                        rules.as_ptr(),
                        rules.len(),
                        keys.as_mut_ptr(),
                        keys.len(),
                        via.as_mut_ptr(),
                        via.len(),
                        heap.as_mut_ptr(),
                        heap.len(),
                        pos.as_mut_ptr(),
                        pos.len(),
                        stack.as_mut_ptr(),
                        stack.len(),
                        log.as_mut_ptr(),
                        log.len(),
                        plan.as_mut_ptr(),
                        plan.len(),
                        &mut answer,
                    )
                };
                answer_of(returned, answer)
            }

            fn space_needed(&self, chart: &[u8], rules: &[u8]) -> Option<Space> {
                let mut space = UNWRITTEN_SPACE;
                // SAFETY: the pointers of live slices with their lengths; a `repr(C)` struct.
                let returned = unsafe {
                    let (chart_at, rules_at) = (chart.as_ptr(), rules.as_ptr());
                    $space(chart_at, chart.len(), rules_at, rules.len(), &mut space)
                };
                Some(space_of(returned, space))
            }

            $($($more)*)?
        }
    };
}

copy! {
    /// The linked library.
    Linked, "library",
    planner_space_needed, planner_sweep, planner_guided,
    fn cycles(&self, chart: &[u8], rules: &[u8], lent: &mut CycleSlices) -> Option<Answer> {
        Library { guarded: false }.cycles(chart, rules, lent)
    }

    fn conjoin(
        &self,
        chart: &[u8],
        rules: &[u8],
        more: &[u8],
        lent: &mut ConjoinSlices,
    ) -> Option<Answer> {
        Library { guarded: false }.conjoin(chart, rules, more, lent)
    }

    fn reduce(&self, chart: &[u8], rules: &[u8], file: &mut [u8]) -> Option<Answer> {
        Library { guarded: false }.reduce(chart, rules, file)
    }
}
copy! {
    /// The earlier library.
    Before, "before",
    before_planner_space_needed, before_planner_sweep, before_planner_guided
}
copy! {
    /// Its second copy.
    Control, "control",
    control_planner_space_needed, control_planner_sweep, control_planner_guided
}
