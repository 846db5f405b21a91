//! Diagrams of one shape over as many steps as there may be: rules, rows of nodes, trees.

use super::diagrams::Padding;
use super::rules::{diagram_of, AllOf, AtMost, Modulo, Needs, Rule};
use crate::files::{Diagram, Node, MAX_STEPS};

/// The last step.
pub const LAST: u16 = MAX_STEPS as u16 - 1;

/// The diagram of a rule without padding.
pub fn rule(rule: &dyn Rule) -> Diagram {
    diagram_of(rule, Padding::Without).expect("at most 510 nodes")
}

pub fn all_of(steps: impl Iterator<Item = usize>) -> Diagram {
    rule(&AllOf(steps.map(|step| step as u16).collect()))
}

pub fn none_of(steps: impl Iterator<Item = usize>) -> Diagram {
    rule(&AtMost { most: 0, steps: steps.map(|step| step as u16).collect() })
}

/// The number of the steps from one on is even or odd.
pub fn parity(from: u16, steps: u16, rest: u64) -> Diagram {
    rule(&Modulo { divisor: 2, rest, steps: (from..from + steps).collect() })
}

/// 510 nodes: each of eight steps needs one that comes behind all of them.
pub fn eight_needs() -> Diagram {
    rule(&Needs((0..8).map(|at| (100 * at, 1_000 + 2 * at)).collect()))
}

pub fn even(count: usize) -> impl DoubleEndedIterator<Item = usize> {
    (0..count).map(|at| 2 * at)
}

pub fn odd(count: usize) -> impl DoubleEndedIterator<Item = usize> {
    (0..count).map(|at| 2 * at + 1)
}

/// Tests that change nothing, one after the other.
pub fn idle(steps: impl DoubleEndedIterator<Item = usize>, end: u16) -> Diagram {
    let mut nodes: Vec<Node> = Vec::new();
    let mut next = end;
    for step in steps.rev() {
        nodes.push(Node { step: step as u16, lo: next, hi: next });
        next = nodes.len() as u16 + 1;
    }
    Diagram { root: next, nodes }
}

/// A tree over eight steps from one on, above some nodes, with a reference at each of its 256 ends.
pub fn tree(first: u16, mut nodes: Vec<Node>, end: impl FnMut(usize) -> u16) -> Diagram {
    let mut row: Vec<u16> = (0..256).map(end).collect();
    for step in (first..first + 8).rev() {
        let mut above = |below: &[u16]| {
            nodes.push(Node { step, lo: below[0], hi: below[1] });
            nodes.len() as u16 + 1
        };
        row = row.chunks(2).map(&mut above).collect();
    }
    Diagram { root: row[0], nodes }
}

/// A tree whose ends are 255 nodes that are alike, the last of them twice.
pub fn tree_of_doubles(first: u16, leaf: Node) -> Diagram {
    tree(first, vec![leaf; 255], |at| at.min(254) as u16 + 2)
}

/// A tree with 255 different nodes and a constant at its ends. The first is given; each other one leads
/// to that where its own step is taken, and else to the one before, the second to the constant. Their
/// steps are those before a given one.
pub fn tree_of_leaves(first: u16, before: u16, leaf: Node, constant: u16) -> Diagram {
    let mut nodes = vec![leaf];
    let lo = |at: u16| if at == 1 { constant } else { at + 1 };
    nodes.extend((1..255).map(|at| Node { step: before - at, lo: lo(at), hi: 2 }));
    tree(first, nodes, |at| if at < 255 { at as u16 + 2 } else { constant })
}
