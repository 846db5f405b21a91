//! Nodes whose values are at fault, and such that are padding: each alone, with a fault of the field itself,
//! with other fields at fault behind them, and far behind the one that they are alike to.

use super::broken::{single_tests, spoiled_fields, Fields, Files};
use super::charts::parallel;
use super::diagrams::{layers_among, layers_of_width, Padding};
use super::mutate::fields;
use super::padded::inserted;
use super::Random;
use crate::files::{
    claiming, node_field, node_of, tagged, write_chart, write_diagram, Diagram, Node, HEADER,
    MAX_NODES, MAX_STEPS, NODE,
};

const WRONG_TAGS: [u8; 4] = [0x11, 0x02, 0x13, 0x7f];
const WRONG_LENGTHS: [u16; 6] = [0, 5, 7, 8, 256 + 6, u16::MAX];
/// Bytes of a node field.
pub const WHOLE: usize = HEADER + NODE.length;

/// The steps of the systematic charts, and the nodes of the diagrams, from 2 on.
const STEPS: usize = 5;
const FRONT: [Node; 3] = [
    Node { step: 4, lo: 0, hi: 1 },
    Node { step: 3, lo: 2, hi: 1 },
    Node { step: 2, lo: 0, hi: 3 },
];

/// The reference of a node behind them.
const OWN: u16 = 5;

/// Diagrams with a last node of any values, the 510th and the 511th too; and such nodes with faults of
/// their field, of what follows and of the root; and diagrams of up to 510 nodes with a double anywhere.
pub fn systematic() -> Vec<Files> {
    let references = [0, 1, 2, 3, 4, 5, 6, 256, 258, 65_535];
    let all = each_node(&[0, 1, 2, 3, 4, 5, 256, 259, 65_535], &references);
    let few = each_node(&[0, 2, 4, 5], &[0, 1, 2, 5]);
    let chart = write_chart(&parallel(STEPS));
    let mut files: Vec<Files> = Vec::new();
    let mut add = |front: Diagram, nodes: &[Node], made: &dyn Fn(Vec<u8>) -> Fields| {
        let front = write_diagram(&front);
        let ends = nodes.iter().flat_map(|node| made(node_field(*node)));
        files.extend(ends.map(|end| (chart.clone(), [&front[..], &end].concat())));
    };
    let front = |root: u16| Diagram { root, nodes: FRONT.into() };
    add(front(OWN), &all, &|node| vec![node]);
    for root in [1, 3, 9] {
        add(front(root), &few, &|node| vec![node]);
    }
    add(front(OWN), &few, &|node| spoiled_fields(&node, &WRONG_TAGS, &WRONG_LENGTHS));
    for root in [OWN, 9] {
        add(front(root), &few, &followed);
    }
    add(front(4), &FRONT, &beside_remarks);
    files.extend(near_limit());
    files.extend(far_apart());
    files
}

fn each_node(steps: &[u16], references: &[u16]) -> Vec<Node> {
    let mut nodes = Vec::new();
    for step in steps {
        for lo in references {
            nodes.extend(references.iter().map(|hi| Node { step: *step, lo: *lo, hi: *hi }));
        }
    }
    nodes
}

/// A node with one more field behind it, sound or at fault.
fn followed(node: Vec<u8>) -> Fields {
    let other = |step: u16, lo: u16, hi: u16| node_field(Node { step, lo, hi });
    let fields = [
        other(1, 1, 0),
        other(1, 1, 1),
        other(4, 0, 1),
        other(5, 0, 1),
        other(1, 0, 9),
        node.clone(),
        vec![0x7f, 0, 0],
        vec![NODE.tag, 5, 0],
        other(1, 1, 0)[..WHOLE - 1].to_vec(),
        tagged(0x80, &[1, 2]),
    ];
    fields.map(|field| [&node[..], &field].concat()).into()
}

/// A node behind remarks, before them, and among such that have its bytes.
fn beside_remarks(node: Vec<u8>) -> Fields {
    let body = &node[HEADER..];
    let remarks = [tagged(0x80, &[]), tagged(NODE.tag | 0x80, body), tagged(0xff, &node)];
    let beside = |remark: &Vec<u8>| {
        let sound = node_field(Node { step: 1, lo: 0, hi: 1 });
        let behind = [&remark[..], &node].concat();
        // The remark is no earlier node, so that this one is sound.
        let once = [&tagged(0x92, &sound[HEADER..]), &sound[..], &remark[..]].concat();
        [behind, [&node[..], remark].concat(), once]
    };
    remarks.iter().flat_map(beside).collect()
}

/// The 510th node and the 511th: sound, alike to the first, to one amid them and to the last, with equal
/// children, and beyond a limit as well.
fn near_limit() -> Vec<Files> {
    let chart = write_chart(&parallel(MAX_STEPS));
    let mut files = Vec::new();
    for count in [MAX_NODES - 1, MAX_NODES] {
        let nodes = single_tests(count);
        let node = |step: usize, lo: u16, hi: u16| Node { step: step as u16, lo, hi };
        let last = [
            node(1_000, 1, 0),
            node(0, 0, 1),
            nodes[0],
            nodes[255],
            nodes[256],
            nodes[count - 1],
            node(1_000, 0, 0),
            node(1_000, 1, 1),
            node(0, 500, 500),
            node(MAX_STEPS, 1, 1),
            node(1_000, 5, 5),
            node(0, 600, 600),
        ];
        let front = write_diagram(&Diagram { root: count as u16 + 1, nodes });
        for field in last.map(node_field) {
            let mut ends = spoiled_fields(&field, &WRONG_TAGS, &WRONG_LENGTHS);
            ends.extend(followed(field.clone()));
            ends.push(field);
            files.extend(ends.iter().map(|end| (chart.clone(), [&front[..], end].concat())));
        }
    }
    files
}

/// 509 different nodes, and with a double of each of many of them at the end or right behind it.
fn far_apart() -> Vec<Files> {
    let chart = write_chart(&parallel(MAX_STEPS));
    let steps: Vec<u16> = (0..MAX_STEPS as u16).step_by(7).collect();
    let layers = &steps[..layers_among(MAX_NODES - 1, 8)];
    let sound = layers_of_width(&mut Random::new(1), layers, 8, Padding::Without);
    let last = sound.nodes.len();
    let mut diagrams = vec![sound.clone()];
    for twin in (0..last).step_by(3).chain([last - 1]) {
        diagrams.push(inserted(&sound, last, sound.nodes[twin]));
        diagrams.push(inserted(&sound, twin + 1, sound.nodes[twin]));
    }
    diagrams.iter().map(|diagram| (chart.clone(), write_diagram(diagram))).collect()
}

/// Where the whole node fields stand behind the head.
pub fn node_places(rules: &[u8]) -> Vec<usize> {
    let header = claiming(NODE.tag, NODE.length, &[]);
    let is_node =
        |(from, to): &(usize, usize)| to - from == WHOLE && rules[*from..].starts_with(&header);
    fields(rules).into_iter().skip(1).filter(is_node).map(|(from, _)| from).collect()
}

/// Gives one node of a diagram file equal children, or the values of another one, at times but for one of
/// them; says whether there is a node.
pub fn spoil(random: &mut Random, rules: &mut [u8]) -> bool {
    let places = node_places(rules);
    if places.is_empty() {
        return false;
    }
    let (at, other) = (random.pick(&places) + HEADER, random.pick(&places) + HEADER);
    let Node { step, lo, hi } = node_of(&rules[at..]);
    let twin = node_of(&rules[other..]);
    let node = match random.below(8) {
        0 | 1 => Node { step, lo, hi: lo },
        2 => Node { step, lo: hi, hi },
        3 => Node { step, ..twin },
        4 => Node { lo, ..twin },
        5 => Node { hi, ..twin },
        _ => twin,
    };
    rules[at..at + NODE.length].copy_from_slice(&node_field(node)[HEADER..]);
    true
}
