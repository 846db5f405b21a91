//! The node at fault of a refused diagram: its values, and each of their faults by itself, whether it is
//! the one that is told or not.

use crate::files::{
    node_of, read_diagram_by, Diagram, Node, Refusal, DIAGRAM_HEAD, HEADER, MAX_NODES, NODE,
};

/// The faults of a node's values.
#[derive(Clone, Copy, Debug, Default, PartialEq, Eq)]
pub struct NodeFaults {
    /// 510 nodes stand before it.
    pub surplus: bool,
    /// Its group is above all of the chart, or a child is no earlier node of a later group.
    pub beyond: bool,
    /// Lo is hi.
    pub equal: bool,
    /// How far before it the first node stands that is alike.
    pub twin: Option<usize>,
}

impl NodeFaults {
    /// Those of a node behind the nodes of a diagram, over groups below a number.
    pub fn of(before: &Diagram, node: Node, groups: usize) -> NodeFaults {
        let own = before.references();
        let is_earlier = |child: u16| usize::from(child) < own;
        let is_later = |child: u16| before.inner(child).is_none_or(|inner| inner.step > node.step);
        let fits = |child: u16| is_earlier(child) && is_later(child);
        let twin = before.nodes.iter().position(|other| *other == node);
        NodeFaults {
            surplus: before.nodes.len() == MAX_NODES,
            beyond: usize::from(node.step) >= groups || !fits(node.lo) || !fits(node.hi),
            equal: node.lo == node.hi,
            twin: twin.map(|at| before.nodes.len() - at),
        }
    }

    /// What is 13.
    pub fn is_padding(&self) -> bool {
        self.equal || self.twin.is_some()
    }
}

/// A node field at fault, in its values or before they are looked at.
#[derive(Clone, Copy, Debug, PartialEq, Eq)]
pub struct NodeAtFault {
    /// The number that is told, and the file.
    pub number: u32,
    pub file: u32,
    /// How many nodes stand before it.
    pub before: usize,
    pub node: Node,
    pub faults: NodeFaults,
    /// The first fault of its file besides padding, where it is 13.
    pub hidden: Option<Refusal>,
}

impl NodeAtFault {
    /// The node field of a refusal, in a diagram over so many groups; none where it is another field, or
    /// ends before its last byte. Of a cut body the missing byte is taken as 0.
    pub fn of(rules: &[u8], groups: usize, fault: &Refusal) -> Option<NodeAtFault> {
        let Refusal { number, file, place } = *fault;
        if !matches!(number, 1 | 3 | 6 | 13) || place == 0 || rules.get(place) != Some(&NODE.tag) {
            return None;
        }
        let values = rules.get(place + HEADER..).filter(|body| body.len() >= NODE.length - 1)?;
        let mut body = [0; NODE.length];
        body.iter_mut().zip(values).for_each(|(byte, value)| *byte = *value);
        let before = nodes_before(rules, file, place, groups)?;
        let node = node_of(&body);
        Some(NodeAtFault {
            number,
            file,
            before: before.nodes.len(),
            node,
            faults: NodeFaults::of(&before, node, groups),
            hidden: (number == 13)
                .then(|| read_diagram_by(rules, file, groups, |_, _| false).err())
                .flatten(),
        })
    }
}

/// The nodes that stand before a place, whatever the root is.
fn nodes_before(rules: &[u8], file: u32, place: usize, groups: usize) -> Option<Diagram> {
    let nodes = rules.get(HEADER + DIAGRAM_HEAD.length..place)?;
    let rootless = [&rules[..HEADER], &[0; DIAGRAM_HEAD.length], nodes].concat();
    read_diagram_by(&rootless, file, groups, |_, _| false).ok()
}
