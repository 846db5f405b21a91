//! How far a conjunction goes.

use crate::cases::Case;
use crate::check::conjunction::is_reduced;
use crate::files::{read_chart, read_diagram, Refusal, DIAGRAM_FILE, MAX_NODES, MORE_FILE};
use crate::generate::remarks::count_before;
use crate::reference::conjunction::{Conjoined, Conjunction};

/// What two diagrams over a chart have, and what the calls on them answer; 0 or false where it makes no
/// sense.
#[derive(Clone, Copy, Debug, Default, PartialEq, Eq)]
pub struct Conjoining {
    /// All three files pass.
    pub sound: bool,
    /// Entries that the work slice needs.
    pub pairs: usize,
    /// Pairs that are come to, and those on a longest path.
    pub visited: usize,
    pub depth: usize,
    /// Inner nodes of the reduced diagram, any number of them.
    pub nodes: usize,
    /// The result is "no", or "yes".
    pub constant: Option<bool>,
    /// More nodes than either diagram has.
    pub grown: bool,
    /// A diagram has nodes that nothing leads to, or another order.
    pub disordered: bool,
    /// Compared with the verdicts on every set.
    pub by_truth: bool,
    pub calls: Calls,
    pub fault: Option<Refusal>,
    /// The fault of the second diagram that one of the first hides.
    pub hidden: Option<Refusal>,
    /// Remarks of the second diagram, up to its fault.
    pub remarks: usize,
    /// Bytes of a second diagram that passes.
    pub bytes: usize,
    /// Both diagrams, padded or not, say yes to the same sets.
    pub same: bool,
    /// So they do, but their files differ.
    pub same_differs: bool,
    /// They do not, but their reductions have as many nodes.
    pub other_as_large: bool,
}

/// How many calls on one case ended so.
#[derive(Clone, Copy, Debug, Default, PartialEq, Eq)]
pub struct Calls {
    pub accepted: usize,
    /// With just the entries and the bytes that are needed.
    pub exact: usize,
    pub too_large: usize,
    /// With a buffer in which the largest file has no room.
    pub too_large_before_file: usize,
    pub short_work: usize,
    /// By one entry.
    pub one_entry: usize,
    /// The result is too large besides.
    pub short_work_before_too_large: usize,
    pub short_file: usize,
    /// By one byte.
    pub one_byte: usize,
}

/// Bytes of the largest file.
const LARGEST: usize = 5 + 9 * MAX_NODES;

impl Calls {
    fn of(found: &Conjunction, lent: &[(usize, usize)]) -> Calls {
        let (pairs, length) = (found.operands.pairs(), found.length());
        let is_too_large = found.is_too_large();
        let ended = |such: &dyn Fn(usize, usize) -> bool| {
            lent.iter().filter(|(work, file)| such(*work, *file)).count()
        };
        let is_12 = |work: usize| work >= pairs && is_too_large;
        let is_file_7 = |work: usize, file: usize| work >= pairs && !is_too_large && file < length;
        Calls {
            accepted: ended(&|work, file| work >= pairs && !is_too_large && file >= length),
            exact: ended(&|work, file| !is_too_large && (work, file) == (pairs, length)),
            too_large: ended(&|work, _| is_12(work)),
            too_large_before_file: ended(&|work, file| is_12(work) && file < LARGEST),
            short_work: ended(&|work, _| work < pairs),
            one_entry: ended(&|work, _| work + 1 == pairs),
            short_work_before_too_large: ended(&|work, _| work < pairs && is_too_large),
            short_file: ended(&is_file_7),
            one_byte: ended(&|work, file| is_file_7(work, file) && file + 1 == length),
        }
    }
}

impl Conjoining {
    pub fn of(
        case: &Case,
        conjoined: &Conjoined,
        reduced: &[Conjoined; 2],
        (lent, by_truth): (&[(usize, usize)], bool),
    ) -> Conjoining {
        let more = case.more.as_deref().unwrap_or_default();
        let found = match conjoined {
            Err(fault) => Conjoining::of_refusal(case, more, fault),
            Ok(found) => Conjoining {
                by_truth,
                calls: Calls::of(found, lent),
                remarks: count_before(more, usize::MAX),
                bytes: more.len(),
                ..Conjoining::of_operands(found)
            },
        };
        let [Ok(first), Ok(second)] = reduced else { return found };
        let same = first.reduced == second.reduced;
        Conjoining {
            same,
            same_differs: same && case.rules != more,
            other_as_large: !same && first.reduced.nodes.len() == second.reduced.nodes.len(),
            ..found
        }
    }

    fn of_operands(found: &Conjunction) -> Conjoining {
        let nodes = found.reduced.nodes.len();
        let operands = [&found.operands.first, &found.operands.second];
        Conjoining {
            sound: true,
            pairs: found.operands.pairs(),
            visited: found.product.pairs,
            depth: found.product.depth,
            nodes,
            constant: (nodes == 0).then_some(found.reduced.root == 1),
            grown: operands.iter().all(|operand| nodes > operand.nodes.len()),
            disordered: operands.iter().any(|operand| is_reduced(operand).is_err()),
            ..Conjoining::default()
        }
    }

    fn of_refusal(case: &Case, more: &[u8], fault: &Refusal) -> Conjoining {
        let in_more = fault.file == MORE_FILE;
        let place = if in_more && fault.number != 9 { fault.place } else { 0 };
        Conjoining {
            fault: Some(*fault),
            hidden: fault_of(case, more).filter(|_| fault.file == DIAGRAM_FILE),
            remarks: count_before(more, place),
            ..Conjoining::default()
        }
    }

    /// Whether the second diagram is refused with a number.
    pub fn refuses_more(&self, number: u32) -> bool {
        self.fault.is_some_and(|fault| (fault.file, fault.number) == (MORE_FILE, number))
    }

    /// Whether the root of the second diagram is refused.
    pub fn refuses_root(&self) -> bool {
        self.fault == Some(Refusal { number: 6, file: MORE_FILE, place: 0 })
    }

    /// Whether faults of the first diagram and of the second have these numbers, where they are given.
    pub fn hides(&self, number: Option<u32>, hidden: Option<u32>) -> bool {
        let has = |fault: Option<Refusal>, number: Option<u32>| {
            fault.is_some_and(|fault| number.is_none_or(|number| fault.number == number))
        };
        has(self.fault, number) && has(self.hidden, hidden)
    }

    /// Whether another file is refused.
    pub fn refuses(&self, file: u32) -> bool {
        self.fault.is_some_and(|fault| fault.file == file)
    }

    /// Whether such a result was written.
    pub fn wrote(&self, such: impl Fn(usize) -> bool) -> bool {
        self.calls.accepted > 0 && such(self.nodes)
    }
}

/// The fault of the second diagram.
fn fault_of(case: &Case, more: &[u8]) -> Option<Refusal> {
    let groups = read_chart(&case.chart).ok()?.groups();
    read_diagram(more, groups).err()
}
