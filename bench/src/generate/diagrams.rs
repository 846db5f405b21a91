//! Random diagrams within the limits over a chart's groups.

use super::rules::{diagram_of, AllOf, AtMost, Both, ExactlyOne, Modulo, Needs, Rule};
use super::{groups, Random};
use crate::files::{is_padding, Chart, Diagram, Node};

/// Whether nodes may have equal children or be alike.
#[derive(Clone, Copy, Debug, PartialEq, Eq)]
pub enum Padding {
    Without,
    With,
}

/// Draws of a node after which it is left out.
const DRAWS: usize = 40;

impl Padding {
    /// A node behind those that are there; none where all that are drawn are padding and may not be.
    pub fn node(self, before: &[Node], mut draw: impl FnMut() -> Node) -> Option<Node> {
        let may_be = |node: &Node| self == Padding::With || !is_padding(before, *node);
        (0..DRAWS).map(|_| draw()).find(may_be)
    }
}

/// A diagram of up to that many inner nodes without padding: random nodes, random layers or a rule.
pub fn random_diagram(random: &mut Random, chart: &Chart, nodes: usize) -> Diagram {
    drawn(random, chart, nodes, Padding::Without)
}

/// The same in which padding may come.
pub fn drawn(random: &mut Random, chart: &Chart, nodes: usize, padding: Padding) -> Diagram {
    let named = groups::named(random, chart);
    let steps = named.len();
    if steps == 0 || nodes == 0 {
        return constant(random);
    }
    let diagram = match random.below(8) {
        0 => constant(random),
        1 | 2 => scattered(random, steps, nodes, padding),
        3 => layered(random, steps, nodes, padding),
        _ => {
            let rule = random_rule(random, steps);
            match diagram_of(rule.as_ref(), padding) {
                Some(diagram) if diagram.nodes.len() <= nodes => diagram,
                _ => scattered(random, steps, nodes, padding),
            }
        }
    };
    groups::renamed(&diagram, &named)
}

/// Without inner nodes, mostly "yes".
fn constant(random: &mut Random) -> Diagram {
    Diagram { root: u16::from(random.percent(80)), nodes: Vec::new() }
}

/// Nodes with any steps and any children that the limits allow; those that nothing leads to come by
/// chance, and so does padding where it may.
pub fn scattered(random: &mut Random, steps: usize, nodes: usize, padding: Padding) -> Diagram {
    let count = random.between(1, nodes);
    let mut order: Vec<u16> = (0..count).map(|_| random.below(steps) as u16).collect();
    if random.percent(70) {
        order.sort_unstable_by(|a, b| b.cmp(a));
    }
    let constants = random.between(5, 50);
    let mut all: Vec<Node> = Vec::new();
    for step in order {
        let below: Vec<u16> =
            (0..all.len()).filter(|at| all[*at].step > step).map(|at| at as u16 + 2).collect();
        let mut child = || child(random, &below, constants);
        all.extend(padding.node(&all, || Node { step, lo: child(), hi: child() }));
    }
    let last = all.len() + 1;
    let root = if random.percent(80) { last } else { random.between(0, last) };
    Diagram { root: root as u16, nodes: all }
}

/// A constant in so many of a hundred cases, else one of the last few nodes, else any.
fn child(random: &mut Random, below: &[u16], constants: usize) -> u16 {
    if below.is_empty() || random.percent(constants) {
        return u16::from(random.percent(65));
    }
    let recent = &below[below.len().saturating_sub(4)..];
    if random.percent(60) {
        random.pick(recent)
    } else {
        random.pick(below)
    }
}

/// Layers of equal width over rising steps; every node's children lie in the layer after it.
fn layered(random: &mut Random, steps: usize, nodes: usize, padding: Padding) -> Diagram {
    let width = random.between(1, nodes.min(16));
    let layers = (nodes / width).min(steps);
    let chosen = random.subset(steps, layers);
    layers_of_width(random, &chosen, width, padding)
}

/// Layers of a given width, one for each of the rising steps. Without padding the last ones are narrower,
/// since they have few children to choose from, and constants are among these.
pub fn layers_of_width(
    random: &mut Random,
    steps: &[u16],
    width: usize,
    padding: Padding,
) -> Diagram {
    let mut all: Vec<Node> = Vec::new();
    let mut after = vec![0, 1, 1];
    for step in steps.iter().rev() {
        let first = all.len() + 2;
        for _ in 0..width {
            let mut child = || random.pick(&after);
            all.extend(padding.node(&all, || Node { step: *step, lo: child(), hi: child() }));
        }
        after = (first..all.len() + 2).map(|reference| reference as u16).collect();
        if padding == Padding::Without && after.len() < width.max(2) {
            after.extend([0, 1]);
        } else if random.percent(30) {
            after.push(u16::from(random.percent(50)));
        }
    }
    Diagram { root: all.len() as u16 + 1, nodes: all }
}

/// How many layers of a width there is room for, without padding.
pub fn layers_among(nodes: usize, width: usize) -> usize {
    let (mut left, mut layer, mut layers) = (nodes, width.min(2), 0);
    while layer <= left {
        left -= layer;
        layers += 1;
        // Any two different ones of those after it and the constants.
        layer = if layer < width { width.min((layer + 2) * (layer + 1)) } else { width };
    }
    layers
}

/// One of the rules with meaning, over random steps. There is at least one step.
fn random_rule(random: &mut Random, steps: usize) -> Box<dyn Rule> {
    let count = random.between(1, steps.min(40));
    match random.below(8) {
        0..=2 => Box::new(random_needs(random, steps)),
        3 => Box::new(AtMost { most: random.below(5) as u64, steps: random.subset(steps, count) }),
        4 => Box::new(ExactlyOne(random.subset(steps, count))),
        5 => Box::new(Modulo { divisor: 2, rest: 1, steps: random.subset(steps, count) }),
        6 => {
            let divisor = random.between(2, 6) as u64;
            let rest = random.below(divisor as usize) as u64;
            Box::new(Modulo { divisor, rest, steps: random.subset(steps, count) })
        }
        _ => {
            let other = AllOf(random.subset(steps, 1));
            Box::new(Both(Box::new(random_needs(random, steps)), Box::new(other)))
        }
    }
}

fn random_needs(random: &mut Random, steps: usize) -> Needs {
    let pairs = random.between(1, 5);
    Needs((0..pairs).map(|_| (random.below(steps) as u16, random.below(steps) as u16)).collect())
}
