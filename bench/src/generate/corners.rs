//! Charts and diagrams in the corners of the limits: dearest plans, largest sums, most reached and
//! settled pairs, longest rows of nodes.

use super::costs::{of_some_ticks, of_ticks, MOST_TICKS};
use super::diagrams::random_diagram;
use super::Random;
use crate::files::{
    Chart, Diagram, Node, Problem, Step, MAX_COST, MAX_NODES, MAX_STAGES, MAX_STEPS,
};

/// How much of the limits a corner takes.
#[derive(Clone, Copy, Debug)]
pub struct Size {
    /// At least 8.
    pub stages: usize,
    /// At least 8.
    pub nodes: usize,
}

impl Size {
    pub const FULL: Size = Size { stages: MAX_STAGES as usize, nodes: MAX_NODES };

    /// Any size, large ones as well.
    pub fn drawn(random: &mut Random) -> Size {
        let stages = random.pick(&[8, 10, 30, 100, 255, MAX_STAGES as usize]);
        Size { stages, nodes: random.pick(&[8, 30, 100, 250, MAX_NODES - 1, MAX_NODES]) }
    }

    fn last(self) -> u16 {
        self.stages as u16 - 1
    }
}

/// A maker of problems of one corner.
pub type Shape = fn(&mut Random, Size) -> Problem;

/// Every corner.
pub const SHAPES: [Shape; 10] = [
    dearest_plan,
    dear_and_ruled,
    largest_sum,
    largest_open_sum,
    most_reached,
    most_settled,
    most_settled_without_plan,
    most_open,
    row_by_lo,
    row,
];

/// A problem of any corner and size.
pub fn any(random: &mut Random) -> Problem {
    let shape = random.pick(&SHAPES);
    let size = Size::drawn(random);
    shape(random, size)
}

const YES: u16 = 1;

/// Steps from each stage to the next, rounded all at the largest cost: the plan takes one of each stage.
pub fn dearest_plan(random: &mut Random, size: Size) -> Problem {
    Problem { chart: dear_chart(random, size), diagram: Diagram::YES }
}

/// The same under any diagram.
fn dear_and_ruled(random: &mut Random, size: Size) -> Problem {
    let chart = dear_chart(random, size);
    let diagram = random_diagram(random, &chart, size.nodes);
    Problem { chart, diagram }
}

fn dear_chart(random: &mut Random, size: Size) -> Chart {
    let more = random.below(MAX_STEPS + 2 - size.stages);
    linked(random, size, more, |random| of_ticks(random, MOST_TICKS))
}

/// A step from each stage to the next, and that many more such steps.
fn linked(
    random: &mut Random,
    size: Size,
    more: usize,
    mut cost: impl FnMut(&mut Random) -> u32,
) -> Chart {
    let mut froms: Vec<u16> = (0..size.last()).collect();
    froms.extend((0..more).map(|_| random.below(size.stages - 1) as u16));
    froms.sort_unstable();
    let steps = froms.iter().map(|from| to_next(*from, cost(random))).collect();
    Chart { stages: size.stages as u16, start: 0, end: size.last(), steps }
}

fn to_next(from: u16, cost: u32) -> Step {
    Step::new(from, from + 1, cost)
}

/// The largest cost everywhere, and at the end stage a root that wants all of many parallel steps: its
/// pair has the largest sum. No plan takes two of them.
fn largest_sum(_: &mut Random, size: Size) -> Problem {
    let chart = parallel_at_the_end(size, 1 + size.nodes);
    let first = chart.steps.len() - size.nodes;
    let mut nodes = Vec::new();
    let root = all_from(&mut nodes, first, chart.steps.len());
    Problem { chart, diagram: Diagram { root, nodes } }
}

/// The same below the hi of a root that says yes where its step, also parallel, is not taken: the
/// pair of the largest sum is opened, and the plan found before it is settled.
fn largest_open_sum(_: &mut Random, size: Size) -> Problem {
    let below = size.nodes - 1;
    let chart = parallel_at_the_end(size, 2 + below);
    let (first, last) = (chart.steps.len() - below - 2, chart.steps.len());
    let mut nodes = Vec::new();
    let hi = all_from(&mut nodes, first + 2, last);
    nodes.push(Node { step: first as u16, lo: YES, hi });
    Problem { chart, diagram: Diagram { root: nodes.len() as u16 + 1, nodes } }
}

/// One step from each stage to the next, and that many to the last one, at the largest cost.
fn parallel_at_the_end(size: Size, parallel: usize) -> Chart {
    let before = size.last() - 1;
    let mut steps: Vec<Step> = (0..before).map(|from| to_next(from, MAX_COST)).collect();
    steps.extend(vec![to_next(before, MAX_COST); parallel]);
    Chart { stages: size.stages as u16, start: 0, end: size.last(), steps }
}

/// Nodes that say yes where all of the steps are taken; the reference of the first.
fn all_from(nodes: &mut Vec<Node>, first: usize, past: usize) -> u16 {
    let mut at = YES;
    for step in (first..past).rev() {
        nodes.push(Node { step: step as u16, lo: 0, hi: at });
        at = nodes.len() as u16 + 1;
    }
    at
}

/// Every leaf stands at every stage, and says yes.
pub fn most_reached(random: &mut Random, size: Size) -> Problem {
    fan(random, size, Fan { leaves_say: YES, ..FAN })
}

/// Every leaf stands at every stage, seems cheap and says no; the plan is one dear step.
fn most_settled(random: &mut Random, size: Size) -> Problem {
    fan(random, size, Fan { direct: true, ..FAN })
}

fn most_settled_without_plan(random: &mut Random, size: Size) -> Problem {
    fan(random, size, FAN)
}

/// From each leaf's pair at the second stage nearly all stages are opened before one of them is
/// settled: most open pairs at once.
fn most_open(random: &mut Random, size: Size) -> Problem {
    fan(random, size, Fan { star: true, ..FAN })
}

#[derive(Clone, Copy)]
struct Fan {
    /// A legal step from the start to the end, dearer than any other way.
    direct: bool,
    /// From the second stage a step to each that follows, and from there one to the last; else steps
    /// from each stage to the next.
    star: bool,
    /// What a leaf comes to where no more steps are taken.
    leaves_say: u16,
}

const FAN: Fan = Fan { direct: false, star: false, leaves_say: 0 };

/// Parallel steps from the first stage to the second, each with a node of its own and a leaf below it,
/// and ways on from there. Each leaf has a step of its own at the end, and below their hi stands a node of
/// the last step there: no way takes both, but the estimate doesn't know. The first step at the end is
/// free, so that the leaves stand there too.
fn fan(random: &mut Random, size: Size, fan: Fan) -> Problem {
    let Fan { direct, leaves_say, .. } = fan;
    let split = (size.nodes - 2 - usize::from(direct)) / 2;
    let chart = fan_chart(random, size, split + 1, fan);
    let steps = chart.steps.len() as u16;
    let mut nodes = vec![Node { step: steps - 1, lo: 0, hi: YES }];
    let leaves: Vec<u16> = (0..=split as u16).map(|leaf| leaf + 3).collect();
    let own = |leaf: &u16| Node { step: steps + 1 - leaf, lo: leaves_say, hi: 2 };
    nodes.extend(leaves.iter().map(own));
    let mut root = leaves[split];
    for at in (0..split).rev() {
        let step = at as u16 + u16::from(direct);
        nodes.push(Node { step, lo: root, hi: leaves[at] });
        root = nodes.len() as u16 + 1;
    }
    if direct {
        nodes.push(Node { step: 0, lo: root, hi: YES });
        root = nodes.len() as u16 + 1;
    }
    Problem { chart, diagram: Diagram { root, nodes } }
}

fn fan_chart(random: &mut Random, size: Size, parallel: usize, fan: Fan) -> Chart {
    let last = size.last();
    // No way but the direct one costs a million, rounded or not.
    let most = 900_000 / size.stages;
    let first = if fan.star { 9 } else { most };
    let mut cost = |most: usize| random.between(0, most) as u32;
    let mut steps = Vec::new();
    if fan.direct {
        steps.push(Step::new(0, last, MAX_COST));
    }
    steps.extend((0..parallel).map(|_| to_next(0, cost(first))));
    if fan.star {
        steps.extend((2..last).map(|to| Step::new(1, to, cost(most))));
        steps.extend((2..last - 1).map(|from| Step::new(from, last, cost(most))));
    } else {
        let links = (1..last - 1).flat_map(|from| [from, from]);
        steps.extend(links.map(|from| to_next(from, cost(most))));
    }
    steps.extend((0..parallel + 2).map(|_| to_next(last - 1, cost(most))));
    Chart { stages: size.stages as u16, start: 0, end: last, steps }
}

/// A row of nodes, each the lo of the one before, over steps that leave stages before the start, so
/// that the first step of a way passes all; at times the start is the first stage.
fn row_by_lo(random: &mut Random, size: Size) -> Problem {
    let mut chart = full_chart(random, size);
    let start = random.between(size.stages - size.stages / 4, size.stages - 2) as u16;
    let before = chart.steps.partition_point(|step| step.from < start);
    if random.percent(75) {
        chart.start = start;
    }
    let row = random.subset(before, size.nodes);
    row_over(random, chart, &row, |_| true)
}

/// A row of nodes, each the lo or the hi of the one before.
fn row(random: &mut Random, size: Size) -> Problem {
    let chart = full_chart(random, size);
    let row = random.subset(chart.steps.len(), size.nodes);
    row_over(random, chart, &row, |random| random.percent(60))
}

/// As many steps as there may be, to the next stage, of few different costs.
fn full_chart(random: &mut Random, size: Size) -> Chart {
    let more = MAX_STEPS + 1 - size.stages;
    linked(random, size, more, |random| of_some_ticks(random, 0, 9))
}

/// One node for each of the rising steps; the child that doesn't continue the row is a constant or
/// stands further down in it.
fn row_over(
    random: &mut Random,
    chart: Chart,
    steps: &[u16],
    by_lo: impl Fn(&mut Random) -> bool,
) -> Problem {
    let mut nodes: Vec<Node> = Vec::new();
    let mut next = YES;
    for step in steps.iter().rev() {
        let other = match random.below(4) {
            0 => 0,
            1 if next != YES => YES,
            _ => random.below(next.into()) as u16,
        };
        let (lo, hi) = if by_lo(random) { (next, other) } else { (other, next) };
        nodes.push(Node { step: *step, lo, hi });
        next = nodes.len() as u16 + 1;
    }
    Problem { chart, diagram: Diagram { root: next, nodes } }
}
