//! Diagrams that say the same, or the opposite, of another, with other nodes: without padding and with it.
//! And padded ones of every size, to be reduced.

use super::charts::{parallel, random_chart};
use super::diagrams::{drawn, layers_of_width, random_diagram, scattered, Padding};
use super::shapes::{
    all_of, eight_needs, even, idle, none_of, parity, tree, tree_of_doubles, LAST,
};
use super::Random;
use crate::cases::example_problem;
use crate::files::{Chart, Diagram, Node, Problem, Step, MAX_NODES, MAX_STEPS};

/// The diagram that says yes where this one says no.
pub fn complement(diagram: &Diagram) -> Diagram {
    let other = |reference: u16| if reference < 2 { 1 - reference } else { reference };
    let node = |node: &Node| Node { lo: other(node.lo), hi: other(node.hi), ..*node };
    Diagram { root: other(diagram.root), nodes: diagram.nodes.iter().map(node).collect() }
}

/// The same verdicts by up to so many nodes over so many steps, in any order that the limits allow: with
/// doubles, tests that change nothing and nodes that nothing leads to.
pub fn padded(random: &mut Random, diagram: &Diagram, steps: usize, nodes: usize) -> Diagram {
    let mut padded = diagram.clone();
    let room = nodes.saturating_sub(diagram.nodes.len());
    let more = random.between(room / 2, room);
    for _ in 0..more {
        match random.below(4) {
            0 if steps > 0 => add_stray(random, &mut padded, steps, Padding::With),
            1 | 2 if !padded.nodes.is_empty() => add_double(random, &mut padded),
            _ => add_idle_test(random, &mut padded, steps),
        }
    }
    reordered(random, &padded)
}

/// The same without padding, where the diagram has none: with nodes that nothing leads to, and in any
/// order.
pub fn rearranged(random: &mut Random, diagram: &Diagram, steps: usize, nodes: usize) -> Diagram {
    let known = diagram.nodes.len();
    let nodes = random.between(known, nodes.max(known));
    let filled = filled_up(random, diagram, steps, nodes);
    reordered(random, &filled)
}

/// A diagram with nodes behind it that nothing leads to and that are no padding: so many in all, where
/// there are as many.
pub fn filled_up(random: &mut Random, diagram: &Diagram, steps: usize, nodes: usize) -> Diagram {
    let mut filled = diagram.clone();
    let room = if steps == 0 { 0 } else { nodes.saturating_sub(diagram.nodes.len()) };
    for _ in 0..room {
        add_stray(random, &mut filled, steps, Padding::Without);
    }
    filled
}

/// A node is made once more, and some of what led to it leads there.
fn add_double(random: &mut Random, diagram: &mut Diagram) {
    let at = random.below(diagram.nodes.len());
    let double = diagram.references() as u16;
    diagram.nodes.push(diagram.nodes[at]);
    lead_astray(random, diagram, at as u16 + 2, double, 0);
}

/// Some of what leads from the root, or from the nodes from one on, to a reference leads to another.
fn lead_astray(random: &mut Random, diagram: &mut Diagram, known: u16, other: u16, from: usize) {
    let mut either = |child: &mut u16| {
        if *child == known && random.percent(50) {
            *child = other;
        }
    };
    either(&mut diagram.root);
    for node in &mut diagram.nodes[from..] {
        either(&mut node.lo);
        either(&mut node.hi);
    }
}

/// A node with equal children comes between a node, or the root, and a child, if a step is free there.
fn add_idle_test(random: &mut Random, diagram: &mut Diagram, steps: usize) {
    let parent = random.between(0, diagram.nodes.len());
    let is_hi = random.percent(50);
    let (first, child) = match diagram.nodes.get(parent) {
        None => (0, diagram.root),
        Some(node) => (usize::from(node.step) + 1, if is_hi { node.hi } else { node.lo }),
    };
    let past = diagram.inner(child).map_or(steps, |below| below.step.into());
    if first >= past {
        return;
    }
    let (step, between) = (random.between(first, past - 1) as u16, diagram.references() as u16);
    match diagram.nodes.get_mut(parent) {
        None => diagram.root = between,
        Some(node) if is_hi => node.hi = between,
        Some(node) => node.lo = between,
    }
    diagram.nodes.push(Node { step, lo: child, hi: child });
}

/// A node that nothing leads to.
fn add_stray(random: &mut Random, diagram: &mut Diagram, steps: usize, padding: Padding) {
    let step = random.below(steps) as u16;
    let below = (2..).zip(&diagram.nodes).filter(|(_, node)| node.step > step);
    let children: Vec<u16> = below.map(|(reference, _)| reference).chain([0, 1]).collect();
    let mut child = || random.pick(&children);
    let stray = padding.node(&diagram.nodes, || Node { step, lo: child(), hi: child() });
    diagram.nodes.extend(stray);
}

/// The same nodes in another order: any one whose children have their numbers comes next.
fn reordered(random: &mut Random, diagram: &Diagram) -> Diagram {
    let mut numbers: Vec<Option<u16>> = vec![None; diagram.references()];
    (numbers[0], numbers[1]) = (Some(0), Some(1));
    let mut left: Vec<usize> = (0..diagram.nodes.len()).collect();
    let mut nodes = Vec::new();
    while !left.is_empty() {
        let number = |reference: u16| numbers[usize::from(reference)];
        let renumbered = |at: usize| {
            let Node { step, lo, hi } = diagram.nodes[at];
            Some(Node { step, lo: number(lo)?, hi: number(hi)? })
        };
        let from = random.below(left.len());
        let ready = (0..left.len()).map(|at| (from + at) % left.len());
        let mut ready = ready.filter_map(|at| Some((at, renumbered(left[at])?)));
        let (at, node) = ready.next().expect("no node is its own child");
        numbers[left.swap_remove(at) + 2] = Some(nodes.len() as u16 + 2);
        nodes.push(node);
    }
    Diagram { root: numbers[usize::from(diagram.root)].unwrap_or(0), nodes }
}

/// A diagram with one node of padding put in anywhere: a double, or one with equal children. Where it has
/// 510 nodes it has one too many then.
pub fn with_one(random: &mut Random, diagram: &Diagram, steps: usize) -> Diagram {
    match diagram.nodes.len() {
        0 if steps == 0 => diagram.clone(),
        1.. if random.percent(50) => with_double(random, diagram),
        _ => with_equal_children(random, diagram, steps),
    }
}

fn with_double(random: &mut Random, diagram: &Diagram) -> Diagram {
    let twin = random.below(diagram.nodes.len());
    let at = random.between(twin + 1, diagram.nodes.len());
    let mut padded = inserted(diagram, at, diagram.nodes[twin]);
    lead_astray(random, &mut padded, twin as u16 + 2, at as u16 + 2, at + 1);
    padded
}

fn with_equal_children(random: &mut Random, diagram: &Diagram, steps: usize) -> Diagram {
    let at = random.between(0, diagram.nodes.len());
    let child = random.below(at + 2) as u16;
    let past = diagram.inner(child).map_or(steps, |below| below.step.into());
    // Before the first step there is none.
    let (child, past) = if past == 0 { (child % 2, steps) } else { (child, past) };
    let step = random.below(past) as u16;
    inserted(diagram, at, Node { step, lo: child, hi: child })
}

/// A node put in at a place; those from there on have a higher number by one.
pub fn inserted(diagram: &Diagram, at: usize, node: Node) -> Diagram {
    let raised = |reference: u16| reference + u16::from(usize::from(reference) >= at + 2);
    let (before, behind) = diagram.nodes.split_at(at);
    let behind =
        behind.iter().map(|node| Node { lo: raised(node.lo), hi: raised(node.hi), ..*node });
    let nodes = before.iter().copied().chain([node]).chain(behind).collect();
    Diagram { root: raised(diagram.root), nodes }
}

/// Every node twice, and both of them as children of those that follow.
fn doubled(diagram: &Diagram) -> Diagram {
    let first = |reference: u16| if reference < 2 { reference } else { 2 * reference - 2 };
    let second = |reference: u16| first(reference) + u16::from(reference >= 2);
    let twice = |node: &Node| [Node { lo: first(node.lo), hi: second(node.hi), ..*node }; 2];
    let nodes = diagram.nodes.iter().flat_map(twice).collect();
    Diagram { root: second(diagram.root), nodes }
}

/// Corners of the limits: constants, single nodes, rows of tests that change nothing, trees with alike
/// leaves, each node twice, nothing that leads to any node, 510 nodes that are reduced already.
pub fn systematic(random: &mut Random) -> Vec<Problem> {
    let mut all = small();
    all.extend(large(random).into_iter().flat_map(with_other_roots));
    let over = |steps: usize, diagram: Diagram| Problem { chart: parallel(steps), diagram };
    let mut problems = vec![over(0, Diagram::NO), over(0, Diagram::YES)];
    problems.extend(before_the_start());
    problems.extend(all.into_iter().map(|diagram| over(MAX_STEPS, diagram)));
    problems
}

/// Rules about steps that no way from the start takes; sets with them count as well.
fn before_the_start() -> Vec<Problem> {
    let ends = [(0, 1), (0, 2), (1, 2), (1, 2)];
    let steps = ends.map(|(from, to)| Step::new(from, to, 5)).to_vec();
    let chart = Chart { stages: 3, start: 1, end: 2, steps };
    let test = |step: u16, hi: u16| Node { step, lo: 1 - hi.min(1), hi };
    let nodes = [
        vec![test(0, 1)],
        vec![test(1, 0)],
        vec![test(3, 1), test(0, 2)],
        vec![test(1, 0), test(1, 0), test(0, 3)],
    ];
    let over = |nodes: Vec<Node>| Diagram { root: nodes.len() as u16 + 1, nodes };
    nodes.map(|nodes| Problem { chart: chart.clone(), diagram: over(nodes) }).into()
}

/// Constants and up to two nodes, with every child and every root.
fn small() -> Vec<Diagram> {
    let mut all = vec![Diagram::NO, Diagram::YES];
    let children = |past: u16| (0..past).flat_map(move |lo| (0..past).map(move |hi| (lo, hi)));
    for (lo, hi) in children(2) {
        let first = Node { step: LAST, lo, hi };
        all.extend((0..3).map(|root| Diagram { root, nodes: vec![first] }));
        for step in [0, 255, LAST - 1] {
            let second = children(3).map(|(lo, hi)| Node { step, lo, hi });
            all.extend(second.map(|node| Diagram { root: 3, nodes: vec![first, node] }));
        }
    }
    all
}

/// As many nodes as there may be, or nearly.
fn large(random: &mut Random) -> Vec<Diagram> {
    let leaf = Node { step: LAST, lo: 0, hi: 1 };
    let steps: Vec<u16> = (0..=LAST).collect();
    let mut all: Vec<Diagram> = [0, 1].map(|end| idle(even(MAX_NODES), end)).into();
    all.extend([
        all_of(0..MAX_NODES),
        none_of(514..MAX_STEPS),
        eight_needs(),
        tree_of_doubles(0, leaf),
        complement(&tree_of_doubles(300, leaf)),
        comb(),
        doubled(&parity(8, 128, 1)),
        doubled(&all_of(even(255))),
        with_one(random, &all_of(even(MAX_NODES - 1)), MAX_STEPS),
        scattered(random, MAX_STEPS, MAX_NODES, Padding::With),
        scattered(random, 40, MAX_NODES, Padding::With),
    ]);
    for width in [1, 2, 16, 51, 102] {
        let layers = &steps[..MAX_NODES / width];
        all.push(layers_of_width(random, layers, width, Padding::With));
        all.push(layers_of_width(random, layers, width, Padding::Without));
    }
    for diagram in [parity(3, 100, 1), eight_needs(), all_of(even(60)), comb()] {
        all.push(padded(random, &diagram, MAX_STEPS, MAX_NODES));
        all.push(padded(random, &complement(&diagram), MAX_STEPS, MAX_NODES));
        all.push(rearranged(random, &diagram, MAX_STEPS, MAX_NODES));
    }
    all
}

/// A tree whose nodes of its last step have one hi, and different nodes far apart as lo.
pub(super) fn comb() -> Diagram {
    let mut nodes = vec![Node { step: LAST, lo: 0, hi: 1 }];
    nodes.extend((0..128).map(|at| Node { step: 20 + at, lo: 1, hi: 0 }));
    tree(8, nodes, |at| if at % 2 == 0 { at as u16 / 2 + 3 } else { 2 })
}

/// From its own root, and from others: then nothing leads to many nodes.
fn with_other_roots(diagram: Diagram) -> Vec<Diagram> {
    let last = diagram.references() as u16 - 1;
    let roots = [diagram.root, 0, 1, 2, last / 2, last - 1];
    roots.map(|root| Diagram { root, nodes: diagram.nodes.clone() }).into()
}

/// Those whose reduction is timed, by their names.
pub fn named() -> Vec<(&'static str, Problem)> {
    let over = |chart: Chart, diagram: Diagram| Problem { chart, diagram };
    let whole = |diagram: Diagram| over(parallel(MAX_STEPS), diagram);
    let Problem { chart, diagram } = example_problem();
    let example = padded(&mut Random::new(14), &diagram, chart.groups(), 8);
    let leaf = Node { step: LAST, lo: 0, hi: 1 };
    vec![
        ("example, padded", over(chart, example)),
        ("odd of 128, each node twice", whole(doubled(&parity(0, 128, 1)))),
        ("tree with 255 alike leaves", whole(tree_of_doubles(0, leaf))),
        ("8 needs, reduced already", whole(eight_needs())),
        ("510 tests that change nothing", whole(idle(even(MAX_NODES), 1))),
    ]
}

/// A padded diagram over a chart: as drawn, made of one without padding, or with one node of it.
pub fn any(random: &mut Random) -> Problem {
    let (stages, steps, nodes) = match random.below(100) {
        0..=3 => (20, MAX_STEPS, MAX_NODES),
        4..=9 => (40, 400, 200),
        10..=29 => (12, 60, 60),
        _ => (6, 12, 14),
    };
    let chart = random_chart(random, stages, steps);
    let diagram = over_chart(random, &chart, nodes);
    Problem { chart, diagram }
}

/// The same over a given chart.
pub fn over_chart(random: &mut Random, chart: &Chart, nodes: usize) -> Diagram {
    let steps = chart.groups();
    match random.below(10) {
        0..=2 => drawn(random, chart, nodes, Padding::With),
        3..=5 => {
            let sound = random_diagram(random, chart, nodes);
            padded(random, &sound, steps, nodes)
        }
        _ => {
            let sound = random_diagram(random, chart, nodes);
            with_one(random, &sound, steps)
        }
    }
}
