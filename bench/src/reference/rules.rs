//! What a diagram says: the verdict on a set of groups, advancing, finishing.

use crate::files::Diagram;

/// Whether the diagram says yes to a set of groups, given as one flag for each group.
pub fn verdict(diagram: &Diagram, present: &[bool]) -> bool {
    let mut reference = diagram.root;
    while let Some(node) = diagram.inner(reference) {
        reference = if present[usize::from(node.step)] { node.hi } else { node.lo };
    }
    reference == 1
}

/// The node got by advancing `reference` by the group of one step. The group may come again: the node is
/// then of a later one and stays.
pub fn advance(diagram: &Diagram, reference: u16, group: u16) -> u16 {
    let mut at = reference;
    while let Some(node) = diagram.inner(at) {
        if node.step >= group {
            return if node.step == group { node.hi } else { at };
        }
        at = node.lo;
    }
    at
}

/// Goes to lo until 0 or 1.
pub fn finish(diagram: &Diagram, reference: u16) -> u16 {
    let mut at = reference;
    while let Some(node) = diagram.inner(at) {
        at = node.lo;
    }
    at
}

/// The node at which a way from the start stands, by the groups of its steps in turn.
pub fn stands_at(diagram: &Diagram, groups: &[u16]) -> u16 {
    groups.iter().fold(diagram.root, |node, group| advance(diagram, node, *group))
}
