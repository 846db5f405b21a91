//! What every implementation offers: both searches over lent slices, and, where it has them, both in
//! one call, a list of starts and ends, the space that they need, the refused field, the conjunction of
//! two diagrams and the reduction of one.

use crate::generate::Random;
use crate::lent::{Lent, Side, Span};

/// The answer of a search, or of a call that writes a file: then the length is bytes and cost and count
/// are 0.
#[derive(Clone, Copy, Debug, Default, PartialEq, Eq)]
pub struct Answer {
    pub number: u32,
    pub file: u32,
    pub place: usize,
    pub cost: u32,
    pub length: u32,
    pub count: u32,
}

impl Answer {
    pub fn accepted(cost: u32, length: usize, count: usize) -> Answer {
        Answer { cost, length: length as u32, count: count as u32, ..Answer::default() }
    }

    /// Every number but 8: a fault of a file or of a slice.
    pub fn refused(number: u32, file: u32, place: usize) -> Answer {
        Answer { number, file, place, ..Answer::default() }
    }

    /// 8: no legal plan.
    pub fn no_plan(count: usize) -> Answer {
        Answer { number: 8, count: count as u32, ..Answer::default() }
    }
}

/// What a call answers that is asked for the space of two files.
#[derive(Clone, Copy, Debug, Default, PartialEq, Eq)]
pub struct Space {
    pub number: u32,
    pub file: u32,
    pub place: usize,
    /// Entries of each work slice.
    pub work: usize,
    /// Entries of a plan slice.
    pub plan: usize,
}

/// The slices lent to a sweep.
#[derive(Clone, Debug, Default, PartialEq, Eq)]
pub struct SweepSlices {
    /// By pair: the least cost, a result.
    pub cost: Lent<u32>,
    /// By pair: step and node it was reached by; left free.
    pub via: Lent<u32>,
    /// By row: the reached nodes of a stage; left free.
    pub nodes: Lent<u32>,
    /// The plan's step numbers, a result.
    pub plan: Lent<u16>,
}

impl SweepSlices {
    /// So many entries in each work slice and in the plan slice, all 0.
    pub fn of(work: usize, plan: usize) -> SweepSlices {
        SweepSlices::with(|| vec![0; work].into(), vec![0; plan].into())
    }

    /// Work slices as they are made in turn.
    pub fn with(mut work: impl FnMut() -> Lent<u32>, plan: Lent<u16>) -> SweepSlices {
        SweepSlices { cost: work(), via: work(), nodes: work(), plan }
    }

    /// The same content, each slice beside a page that faults.
    pub fn beside_guards(&self, random: &mut Random) -> SweepSlices {
        let mut side = || Side::drawn(random);
        SweepSlices {
            cost: Lent::beside_guard(&self.cost, side()),
            via: Lent::beside_guard(&self.via, side()),
            nodes: Lent::beside_guard(&self.nodes, side()),
            plan: Lent::beside_guard(&self.plan, side()),
        }
    }

    /// Where the slices lie.
    pub fn spans(&self) -> [Span; 4] {
        [
            self.cost.span("cost"),
            self.via.span("via"),
            self.nodes.span("nodes"),
            self.plan.span("plan"),
        ]
    }

    pub fn work_lengths(&self) -> [usize; 3] {
        [self.cost.len(), self.via.len(), self.nodes.len()]
    }

    /// The work slices whose first entries are left free, with their names.
    pub fn free(&self) -> [(&'static str, &[u32]); 2] {
        [("via", &self.via), ("nodes", &self.nodes)]
    }
}

/// The slices lent to a guided search.
#[derive(Clone, Debug, Default, PartialEq, Eq)]
pub struct GuidedSlices {
    /// By pair: least cost so far plus estimate; left free.
    pub keys: Lent<u32>,
    /// By pair: step and node it was opened by; left free.
    pub via: Lent<u32>,
    /// The open pairs in heap order; left free.
    pub heap: Lent<u32>,
    /// By pair: its position in the heap; left free.
    pub pos: Lent<u32>,
    /// The open pairs with the smallest key, last in first out; left free.
    pub stack: Lent<u32>,
    /// The settled pairs in order, a result.
    pub log: Lent<u32>,
    /// The plan's step numbers, a result.
    pub plan: Lent<u16>,
}

impl GuidedSlices {
    /// So many entries in each work slice and in the plan slice, all 0.
    pub fn of(work: usize, plan: usize) -> GuidedSlices {
        GuidedSlices::with(|| vec![0; work].into(), vec![0; plan].into())
    }

    /// Work slices as they are made in turn.
    pub fn with(mut work: impl FnMut() -> Lent<u32>, plan: Lent<u16>) -> GuidedSlices {
        GuidedSlices {
            keys: work(),
            via: work(),
            heap: work(),
            pos: work(),
            stack: work(),
            log: work(),
            plan,
        }
    }

    /// The same content, each slice beside a page that faults.
    pub fn beside_guards(&self, random: &mut Random) -> GuidedSlices {
        let mut side = || Side::drawn(random);
        GuidedSlices {
            keys: Lent::beside_guard(&self.keys, side()),
            via: Lent::beside_guard(&self.via, side()),
            heap: Lent::beside_guard(&self.heap, side()),
            pos: Lent::beside_guard(&self.pos, side()),
            stack: Lent::beside_guard(&self.stack, side()),
            log: Lent::beside_guard(&self.log, side()),
            plan: Lent::beside_guard(&self.plan, side()),
        }
    }

    /// Where the slices lie.
    pub fn spans(&self) -> [Span; 7] {
        [
            self.keys.span("keys"),
            self.via.span("via"),
            self.heap.span("heap"),
            self.pos.span("pos"),
            self.stack.span("stack"),
            self.log.span("log"),
            self.plan.span("plan"),
        ]
    }

    pub fn work_lengths(&self) -> [usize; 6] {
        [
            self.keys.len(),
            self.via.len(),
            self.heap.len(),
            self.pos.len(),
            self.stack.len(),
            self.log.len(),
        ]
    }

    /// The work slices whose first entries are left free, with their names.
    pub fn free(&self) -> [(&'static str, &[u32]); 5] {
        [
            ("keys", &self.keys),
            ("via", &self.via),
            ("heap", &self.heap),
            ("pos", &self.pos),
            ("stack", &self.stack),
        ]
    }
}

/// A record of a list: a start, an end and space for the answer to them, laid out as in
/// `include/planner.h`.
#[repr(C)]
#[derive(Clone, Copy, Debug, Default, PartialEq, Eq)]
pub struct Cycle {
    pub start: u16,
    pub end: u16,
    pub number: u32,
    pub cost: u32,
    pub count: usize,
}

impl Cycle {
    /// A start and an end, without an answer.
    pub fn new(start: u16, end: u16) -> Cycle {
        Cycle { start, end, ..Cycle::default() }
    }

    /// Start and end.
    pub fn ends(&self) -> (u16, u16) {
        (self.start, self.end)
    }

    /// The same start and end with the answer of a guided search.
    pub fn answered(self, Answer { number, cost, count, .. }: Answer) -> Cycle {
        Cycle { number, cost, count: count as usize, ..self }
    }
}

/// The slices lent for a list: the work slices of a guided search, and the list itself.
#[derive(Clone, Debug, Default, PartialEq, Eq)]
pub struct CycleSlices {
    /// All six left free, the log too.
    pub keys: Lent<u32>,
    pub via: Lent<u32>,
    pub heap: Lent<u32>,
    pub pos: Lent<u32>,
    pub stack: Lent<u32>,
    pub log: Lent<u32>,
    /// The records, their answers a result.
    pub list: Lent<Cycle>,
}

impl CycleSlices {
    /// So many entries in each work slice, all 0.
    pub fn of(work: usize, list: Vec<Cycle>) -> CycleSlices {
        CycleSlices::with(|| vec![0; work].into(), list.into())
    }

    /// Work slices as they are made in turn.
    pub fn with(mut work: impl FnMut() -> Lent<u32>, list: Lent<Cycle>) -> CycleSlices {
        CycleSlices {
            keys: work(),
            via: work(),
            heap: work(),
            pos: work(),
            stack: work(),
            log: work(),
            list,
        }
    }

    /// The six work slices, with their names.
    fn work(&self) -> [(&'static str, &Lent<u32>); 6] {
        let CycleSlices { keys, via, heap, pos, stack, log, .. } = self;
        let names = ["keys", "via", "heap", "pos", "stack", "log"];
        let mut slices = [keys, via, heap, pos, stack, log].into_iter();
        names.map(|name| (name, slices.next().expect("a slice for each name")))
    }

    /// The same content, each slice beside a page that faults.
    pub fn beside_guards(&self, random: &mut Random) -> CycleSlices {
        let guarded = self.work().map(|(_, slice)| Lent::beside_guard(slice, Side::drawn(random)));
        let list = Lent::beside_guard(&self.list, Side::drawn(random));
        let mut work = guarded.into_iter();
        CycleSlices::with(|| work.next().expect("six work slices"), list)
    }

    /// Where the slices lie.
    pub fn spans(&self) -> Vec<Span> {
        let work = self.work().map(|(name, slice)| slice.span(name));
        work.into_iter().chain([self.list.span("list")]).collect()
    }

    pub fn work_lengths(&self) -> [usize; 6] {
        self.work().map(|(_, slice)| slice.len())
    }

    /// The work slices, whose first entries are left free, with their names.
    pub fn free(&self) -> [(&'static str, &[u32]); 6] {
        self.work().map(|(name, slice)| (name, &slice[..]))
    }
}

/// The slices lent to a conjunction.
#[derive(Clone, Debug, Default, PartialEq, Eq)]
pub struct ConjoinSlices {
    /// By pair of references; left free.
    pub work: Lent<u32>,
    /// The reduced diagram's file, a result.
    pub file: Lent<u8>,
}

impl ConjoinSlices {
    /// So many entries and bytes, all 0.
    pub fn of(work: usize, file: usize) -> ConjoinSlices {
        ConjoinSlices { work: vec![0; work].into(), file: vec![0; file].into() }
    }

    /// The same content, each slice beside a page that faults.
    pub fn beside_guards(&self, random: &mut Random) -> ConjoinSlices {
        let mut side = || Side::drawn(random);
        ConjoinSlices {
            work: Lent::beside_guard(&self.work, side()),
            file: Lent::beside_guard(&self.file, side()),
        }
    }

    /// Where the slices lie.
    pub fn spans(&self) -> [Span; 2] {
        [self.work.span("work"), self.file.span("file")]
    }
}

/// One implementation of the planner.
pub trait Planner: Send + Sync {
    fn name(&self) -> &'static str;

    fn sweep(&self, chart: &[u8], rules: &[u8], lent: &mut SweepSlices) -> Answer;

    fn guided(&self, chart: &[u8], rules: &[u8], lent: &mut GuidedSlices) -> Answer;

    /// Both searches, each on its own slices: the sweep's answer, then the guided search's. None
    /// where an implementation has no such call.
    fn both(
        &self,
        _chart: &[u8],
        _rules: &[u8],
        _sweep: &mut SweepSlices,
        _guided: &mut GuidedSlices,
    ) -> Option<(Answer, Answer)> {
        None
    }

    /// The space that both files need; none where an implementation has no such call.
    fn space_needed(&self, _chart: &[u8], _rules: &[u8]) -> Option<Space> {
        None
    }

    /// Copies the bytes of a refused field to the front of a lent slice as far as they fit, and
    /// gives the field's whole length; none where an implementation has no such call.
    fn refused_field(
        &self,
        _chart: &[u8],
        _rules: &[u8],
        _file: u32,
        _place: usize,
        _field: &mut [u8],
    ) -> Option<usize> {
        None
    }

    /// Answers every record of a list as a guided search on the chart with its start and end would; none
    /// where an implementation has no such call.
    fn cycles(&self, _chart: &[u8], _rules: &[u8], _lent: &mut CycleSlices) -> Option<Answer> {
        None
    }

    /// Writes the reduced diagram that says yes where both diagrams do, `rules` and `more`; none where
    /// an implementation has no such call.
    fn conjoin(
        &self,
        _chart: &[u8],
        _rules: &[u8],
        _more: &[u8],
        _lent: &mut ConjoinSlices,
    ) -> Option<Answer> {
        None
    }

    /// Writes the reduced diagram that says what `rules` does, whatever padding that has, to the front
    /// of a lent buffer; none where an implementation has no such call.
    fn reduce(&self, _chart: &[u8], _rules: &[u8], _file: &mut [u8]) -> Option<Answer> {
        None
    }
}

/// Every implementation of this build, the linked library first; it writes its answers beside pages
/// that fault when touched.
pub fn all() -> Vec<Box<dyn Planner>> {
    vec![
        #[cfg(feature = "library")]
        Box::new(crate::library::Library { guarded: true }),
        Box::new(crate::same::Same),
        Box::new(crate::textbook::Textbook),
    ]
}

/// Those to be timed. Where an earlier library is beside the linked one, in two copies, all three are
/// called alike.
pub fn timed() -> Vec<Box<dyn Planner>> {
    vec![
        #[cfg(all(feature = "library", not(feature = "before")))]
        Box::new(crate::library::Library { guarded: false }),
        #[cfg(feature = "before")]
        Box::new(crate::before::Linked),
        #[cfg(feature = "before")]
        Box::new(crate::before::Before),
        #[cfg(feature = "before")]
        Box::new(crate::before::Control),
        Box::new(crate::same::Same),
        Box::new(crate::textbook::Textbook),
    ]
}

/// Those with all calls, whose stack is measured: the library writes its answers on it.
pub fn complete() -> Vec<Box<dyn Planner>> {
    vec![
        #[cfg(feature = "library")]
        Box::new(crate::library::Library { guarded: false }),
        Box::new(crate::same::Same),
    ]
}
