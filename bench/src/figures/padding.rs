//! How much alike a diagram's nodes are, and how far its reduction goes.

use std::collections::HashSet;
use std::hash::Hash;

use crate::check::conjunction::walked;
use crate::files::{Diagram, Node, Refusal};
use crate::generate::remarks::count_before;
use crate::reference::conjunction::{named_groups, Conjoined, Conjunction, GROUPS_BY_TRUTH};

/// What nodes of a diagram without padding have in common.
#[derive(Clone, Copy, Debug, Default, PartialEq, Eq)]
pub struct Likeness {
    /// Two of them differ in the step alone.
    pub but_step: bool,
    /// In lo alone.
    pub but_lo: bool,
    /// In hi alone.
    pub but_hi: bool,
    /// In what is lo and what is hi alone.
    pub exchanged: bool,
    /// In high bytes alone.
    pub low_bytes: bool,
    /// Nothing leads to one of them.
    pub stray: bool,
    /// They do not stand as a walk leaves them.
    pub disordered: bool,
}

impl Likeness {
    pub fn of(diagram: &Diagram) -> Likeness {
        let nodes = &diagram.nodes;
        let left = walked(diagram);
        Likeness {
            but_step: has_twice(nodes, |node| (node.lo, node.hi)),
            but_lo: has_twice(nodes, |node| (node.step, node.hi)),
            but_hi: has_twice(nodes, |node| (node.step, node.lo)),
            exchanged: has_twice(nodes, |node| {
                (node.step, node.lo.min(node.hi), node.lo.max(node.hi))
            }),
            low_bytes: has_twice(nodes, |node| [node.step, node.lo, node.hi].map(|n| n as u8)),
            stray: left.len() < nodes.len(),
            disordered: !left.is_sorted(),
        }
    }
}

/// Whether two nodes have the same of something.
fn has_twice<T: Hash + Eq>(nodes: &[Node], of: impl Fn(&Node) -> T) -> bool {
    let mut known = HashSet::new();
    !nodes.iter().all(|node| known.insert(of(node)))
}

/// What a diagram and its reduction have, and what the calls answer; 0 or false where it makes no sense.
#[derive(Clone, Copy, Debug, Default, PartialEq, Eq)]
pub struct Reducing {
    /// Both files pass, padding taken.
    pub sound: bool,
    /// Inner nodes of the file and of its reduction.
    pub before: usize,
    pub nodes: usize,
    /// Nodes with equal children, and alike ones.
    pub equal: usize,
    pub doubles: usize,
    /// Nothing leads to some node.
    pub stray: bool,
    /// An inner root comes to "no", or to "yes".
    pub constant: Option<bool>,
    /// The file is its own reduction, byte for byte.
    pub unchanged: bool,
    /// Compared with the verdicts on every set.
    pub by_truth: bool,
    pub remarks: usize,
    pub fault: Option<Refusal>,
    /// How many calls ended so: accepted, with just the bytes needed, with too few, with one too few.
    pub accepted: usize,
    pub exact: usize,
    pub short: usize,
    pub one_byte: usize,
}

impl Reducing {
    /// Of a diagram's file, lent buffers of these lengths.
    pub fn of(rules: &[u8], reduced: &Conjoined, buffers: &[usize]) -> Reducing {
        let found = match reduced {
            Ok(found) => found,
            Err(fault) => return Reducing { fault: Some(*fault), ..Reducing::default() },
        };
        let length = found.length();
        let lent = |such: &dyn Fn(usize) -> bool| buffers.iter().filter(|n| such(**n)).count();
        Reducing {
            unchanged: found.file().as_deref() == Some(rules),
            remarks: count_before(rules, usize::MAX),
            accepted: lent(&|bytes| bytes >= length),
            exact: lent(&|bytes| bytes == length),
            short: lent(&|bytes| bytes < length),
            one_byte: lent(&|bytes| bytes + 1 == length),
            ..Reducing::of_diagram(found)
        }
    }

    fn of_diagram(found: &Conjunction) -> Reducing {
        let (diagram, yes) = (&found.operands.first, &found.operands.second);
        let different: HashSet<&Node> = diagram.nodes.iter().collect();
        let nodes = found.reduced.nodes.len();
        let is_constant = diagram.root > 1 && nodes == 0;
        Reducing {
            sound: true,
            before: diagram.nodes.len(),
            nodes,
            equal: diagram.nodes.iter().filter(|node| node.lo == node.hi).count(),
            doubles: diagram.nodes.len() - different.len(),
            stray: walked(diagram).len() < diagram.nodes.len(),
            constant: is_constant.then_some(found.reduced.root == 1),
            by_truth: named_groups(diagram, yes).len() <= GROUPS_BY_TRUTH,
            ..Reducing::default()
        }
    }

    /// Whether the searches would refuse the file with 13.
    pub fn is_padded(&self) -> bool {
        self.equal + self.doubles > 0
    }

    pub fn refuses(&self, number: u32) -> bool {
        self.fault.is_some_and(|fault| fault.number == number)
    }
}
