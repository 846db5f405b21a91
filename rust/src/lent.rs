//! The library's calls as they are, on slices that the caller lends. Slices of any length may be
//! lent: one that is too short gives the number 7. What each slice holds after a call, and what
//! stays as it was, is said in `include/planner.h`.

use std::mem::{size_of, MaybeUninit};
use std::ptr::addr_of;

use crate::raw;

/// The cost slice's entry at a pair that isn't reached.
pub const UNREACHED: u32 = u32::MAX;

/// An answer. Its number is 0, or that of a refusal; later versions of the library add numbers.
/// [`Refusal::of`](crate::Refusal::of) names it.
#[repr(C)]
#[derive(Clone, Copy, Debug, Default, PartialEq, Eq)]
pub struct Answer {
    /// 0 accepted, any other number refused.
    pub number: usize,
    /// The mark of the file at fault: 1 the chart, 2 the diagram, 3 the second diagram of a
    /// conjunction; 0 where none is.
    pub file: usize,
    /// The byte position of the faulty field, or of the first byte too many (9).
    pub place: usize,
    /// The plan's cost in ns: the costs of its steps, each rounded up to a multiple of [`TICK`](crate::TICK).
    pub cost: usize,
    /// The plan's steps; of a file that is written, its bytes.
    pub length: usize,
    /// Reached pairs of a sweep, settled pairs of a guided search; under 8 too.
    pub count: usize,
}

/// The entries that two files need.
#[repr(C)]
#[derive(Clone, Copy, Debug, Default, PartialEq, Eq)]
pub struct Space {
    /// 0 accepted, any other number refused; never 7 or 8.
    pub number: usize,
    pub file: usize,
    pub place: usize,
    /// Entries of each work slice.
    pub work: usize,
    /// Entries of a plan slice.
    pub plan: usize,
}

/// The slices lent to a sweep.
#[derive(Debug)]
pub struct SweepSlices<'a> {
    /// By pair: the least cost, or [`UNREACHED`]; a result.
    pub cost: &'a mut [u32],
    /// Left free.
    pub via: &'a mut [u32],
    /// Left free.
    pub nodes: &'a mut [u32],
    /// The plan's step numbers; a result.
    pub plan: &'a mut [u16],
}

/// The slices lent to a guided search.
#[derive(Debug)]
pub struct GuidedSlices<'a> {
    /// Left free.
    pub keys: &'a mut [u32],
    /// Left free.
    pub via: &'a mut [u32],
    /// Left free.
    pub heap: &'a mut [u32],
    /// Left free.
    pub pos: &'a mut [u32],
    /// Left free.
    pub stack: &'a mut [u32],
    /// The settled pairs in order; a result.
    pub log: &'a mut [u32],
    /// The plan's step numbers; a result.
    pub plan: &'a mut [u16],
}

/// A start, an end and space for the answer to them: an entry of the list of [`cycles`].
#[repr(C)]
#[derive(Clone, Copy, Debug, Default, PartialEq, Eq)]
pub struct Cycle {
    /// The stage where the cycle begins; stays as it is given.
    pub start: u16,
    /// The stage where it ends; stays as it is given.
    pub end: u16,
    /// 0; 4 where start or end is no stage of the chart; 8 where there is no legal plan.
    pub number: u32,
    /// The cost of a cheapest legal plan in ns, as in an [`Answer`]; 0 where the number is not 0.
    pub cost: u32,
    /// The settled pairs of its guided search, under 8 too; 0 under 4.
    pub count: usize,
}

impl Cycle {
    /// A start and an end, without an answer.
    pub fn new(start: u16, end: u16) -> Cycle {
        Cycle { start, end, ..Cycle::default() }
    }
}

/// Where each field of a cycle lies.
const fn offsets() -> [isize; 5] {
    let unset = MaybeUninit::<Cycle>::uninit();
    let cycle = unset.as_ptr();
    let front = cycle as *const u8;
    // SAFETY: nothing is read; all five places lie inside `unset`.
    unsafe {
        [
            (addr_of!((*cycle).start) as *const u8).offset_from(front),
            (addr_of!((*cycle).end) as *const u8).offset_from(front),
            (addr_of!((*cycle).number) as *const u8).offset_from(front),
            (addr_of!((*cycle).cost) as *const u8).offset_from(front),
            (addr_of!((*cycle).count) as *const u8).offset_from(front),
        ]
    }
}

// The layout that the library knows; with another one this does not compile.
const _: () = {
    let [start, end, number, cost, count] = offsets();
    assert!(start == 0 && end == 2 && number == 4 && cost == 8 && count == 16);
    assert!(size_of::<Cycle>() == 24);
};

/// The slices lent for a list of cycles: those of a guided search without a plan slice.
#[derive(Debug)]
pub struct CycleSlices<'a> {
    /// Left free.
    pub keys: &'a mut [u32],
    /// Left free.
    pub via: &'a mut [u32],
    /// Left free.
    pub heap: &'a mut [u32],
    /// Left free.
    pub pos: &'a mut [u32],
    /// Left free.
    pub stack: &'a mut [u32],
    /// Left free.
    pub log: &'a mut [u32],
}

/// The slices lent to a conjunction.
#[derive(Debug)]
pub struct ConjoinSlices<'a> {
    /// Left free: an entry for each pair of nodes; [`MOST_PAIRS`](crate::MOST_PAIRS) are enough.
    pub work: &'a mut [u32],
    /// The reduced diagram's file; a result. [`MOST_FILE`](crate::MOST_FILE) bytes are enough.
    pub file: &'a mut [u8],
}

/// Reads both files and tells how long the slices must be. Returns the number, never 7 or 8.
pub fn space_needed(chart: &[u8], rules: &[u8], space: &mut Space) -> u32 {
    // SAFETY: the pointers of live slices with their lengths; a reference to a `repr(C)` struct.
    unsafe {
        raw::planner_space_needed(chart.as_ptr(), chart.len(), rules.as_ptr(), rules.len(), space)
    }
}

/// The sweep: the least cost of every pair and a cheapest legal plan. Returns the number.
pub fn sweep(chart: &[u8], rules: &[u8], lent: SweepSlices, answer: &mut Answer) -> u32 {
    let SweepSlices { cost, via, nodes, plan } = lent;
    // SAFETY: every pointer comes with the length of the live slice that it belongs to. Mutable
    // slices are borrowed as such, so they overlap nothing.
    unsafe {
        raw::planner_sweep(
            chart.as_ptr(),
            chart.len(),
            rules.as_ptr(),
            rules.len(),
            cost.as_mut_ptr(),
            cost.len(),
            via.as_mut_ptr(),
            via.len(),
            nodes.as_mut_ptr(),
            nodes.len(),
            plan.as_mut_ptr(),
            plan.len(),
            answer,
        )
    }
}

/// The guided search: a cheapest legal plan. Returns the number.
pub fn guided(chart: &[u8], rules: &[u8], lent: GuidedSlices, answer: &mut Answer) -> u32 {
    let GuidedSlices { keys, via, heap, pos, stack, log, plan } = lent;
    // SAFETY: as for the sweep.
    unsafe {
        raw::planner_guided(
            chart.as_ptr(),
            chart.len(),
            rules.as_ptr(),
            rules.len(),
            keys.as_mut_ptr(),
            keys.len(),
            via.as_mut_ptr(),
            via.len(),
            heap.as_mut_ptr(),
            heap.len(),
            pos.as_mut_ptr(),
            pos.len(),
            stack.as_mut_ptr(),
            stack.len(),
            log.as_mut_ptr(),
            log.len(),
            plan.as_mut_ptr(),
            plan.len(),
            answer,
        )
    }
}

/// A guided search for each entry of a list, from its start to its end on one chart, whatever the
/// chart's own head says: the entry gets its number, cost and count. The files are read and checked
/// once. Returns the number; where it isn't 0 no entry and no slice was touched, else every field of
/// the answer is 0, whatever the entries' own numbers are.
pub fn cycles(
    chart: &[u8],
    rules: &[u8],
    lent: CycleSlices,
    list: &mut [Cycle],
    answer: &mut Answer,
) -> u32 {
    let CycleSlices { keys, via, heap, pos, stack, log } = lent;
    // SAFETY: as for the sweep.
    unsafe {
        raw::planner_cycles(
            chart.as_ptr(),
            chart.len(),
            rules.as_ptr(),
            rules.len(),
            keys.as_mut_ptr(),
            keys.len(),
            via.as_mut_ptr(),
            via.len(),
            heap.as_mut_ptr(),
            heap.len(),
            pos.as_mut_ptr(),
            pos.len(),
            stack.as_mut_ptr(),
            stack.len(),
            log.as_mut_ptr(),
            log.len(),
            list.as_mut_ptr(),
            list.len(),
            answer,
        )
    }
}

/// Both searches, each on its own slices and with its own answer: the sweep's first. Returns the
/// guided search's number.
pub fn both(
    chart: &[u8],
    rules: &[u8],
    sweep: SweepSlices,
    guided: GuidedSlices,
    answers: (&mut Answer, &mut Answer),
) -> u32 {
    let GuidedSlices { keys, via, heap, pos, stack, log, plan } = guided;
    // SAFETY: as for the sweep.
    unsafe {
        raw::planner_both(
            chart.as_ptr(),
            chart.len(),
            rules.as_ptr(),
            rules.len(),
            sweep.cost.as_mut_ptr(),
            sweep.cost.len(),
            sweep.via.as_mut_ptr(),
            sweep.via.len(),
            sweep.nodes.as_mut_ptr(),
            sweep.nodes.len(),
            sweep.plan.as_mut_ptr(),
            sweep.plan.len(),
            keys.as_mut_ptr(),
            keys.len(),
            via.as_mut_ptr(),
            via.len(),
            heap.as_mut_ptr(),
            heap.len(),
            pos.as_mut_ptr(),
            pos.len(),
            stack.as_mut_ptr(),
            stack.len(),
            log.as_mut_ptr(),
            log.len(),
            plan.as_mut_ptr(),
            plan.len(),
            answers.0,
            answers.1,
        )
    }
}

/// The conjunction of the diagrams `rules` (file 2) and `more` (file 3) over one chart, reduced and
/// written as a diagram file. Returns the number.
pub fn conjoin(
    chart: &[u8],
    rules: &[u8],
    more: &[u8],
    lent: ConjoinSlices,
    answer: &mut Answer,
) -> u32 {
    let ConjoinSlices { work, file } = lent;
    // SAFETY: as for the sweep.
    unsafe {
        raw::planner_conjoin(
            chart.as_ptr(),
            chart.len(),
            rules.as_ptr(),
            rules.len(),
            more.as_ptr(),
            more.len(),
            work.as_mut_ptr(),
            work.len(),
            file.as_mut_ptr(),
            file.len(),
            answer,
        )
    }
}

/// The reduction of the diagram `rules`, padded or not, written to the front of `file` as a diagram
/// file; [`MOST_FILE`](crate::MOST_FILE) bytes are enough. Returns the number, never 8, 12 or 13.
pub fn reduce(chart: &[u8], rules: &[u8], file: &mut [u8], answer: &mut Answer) -> u32 {
    // SAFETY: as for the sweep.
    unsafe {
        raw::planner_reduce(
            chart.as_ptr(),
            chart.len(),
            rules.as_ptr(),
            rules.len(),
            file.as_mut_ptr(),
            file.len(),
            answer,
        )
    }
}

/// Copies the bytes of the field at a place of a file (1 the chart, 2 the diagram) to the front of
/// `field` as far as they fit, and returns the field's whole length. A place at or past the end, or
/// another file mark, is an empty field: for one of file 3 hand that file in as `rules`, with mark 2.
pub fn refused_field(
    chart: &[u8],
    rules: &[u8],
    file: u32,
    place: usize,
    field: &mut [u8],
) -> usize {
    // SAFETY: as for the sweep.
    unsafe {
        raw::planner_refused_field(
            chart.as_ptr(),
            chart.len(),
            rules.as_ptr(),
            rules.len(),
            file,
            place,
            field.as_mut_ptr(),
            field.len(),
        )
    }
}
