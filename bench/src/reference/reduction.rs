//! The reduction of a diagram, whatever padding it has: its conjunction with one that always says yes, by
//! both methods of that.

use super::conjunction::{
    conjunction_answer, named_groups, sets_of, Conjoined, Conjunction, GROUPS_BY_TRUTH,
};
use super::rules::verdict;
use crate::files::{read_padded, Diagram, Operands, Problem};
use crate::planner::Answer;

/// Reads both files, with padding taken, and reduces the diagram.
pub fn reduce(chart: &[u8], rules: &[u8]) -> Conjoined {
    read_padded(chart, rules).map(reduction)
}

pub fn reduction(Problem { chart, diagram }: Problem) -> Conjunction {
    Conjunction::of(Operands { chart, first: diagram, second: Diagram::YES })
}

/// The answer of a call that is lent a file buffer of this length. No work slice is lent, and no result
/// is too large.
pub fn reduction_answer(reduced: &Conjoined, file: usize) -> Answer {
    conjunction_answer(reduced, usize::MAX, file)
}

/// Whether two diagrams over one chart say yes to the same sets, by a look at every set of the groups
/// that they name; none where these are too many.
pub fn say_the_same(groups: usize, first: &Diagram, second: &Diagram) -> Option<bool> {
    let named = named_groups(first, second);
    let agree = |set: Vec<bool>| verdict(first, &set) == verdict(second, &set);
    (named.len() <= GROUPS_BY_TRUTH).then(|| sets_of(groups, &named).all(agree))
}
