//! The cases of the differential test: first the corners of the limits, among them those of rows, of ticks
//! and of groups, then every systematic damage, then padding, then conjunctions in corners and of broken files,
//! then random ones. A case is fixed by the seed and its number.

use std::ops::Range;

use crate::compare::slices::are_exact;
use crate::files::{write_chart, write_diagram, Chart, Diagram, Node, Problem, Step};
use crate::files::{MAX_NODES, MAX_STAGES, MAX_STEPS};
use crate::generate::broken::{at_limits, damaged, noise, systematic, Files};
use crate::generate::charts::{long_steps, random_chart, Costs, Ends, Shape, Spans};
use crate::generate::corners::{self, Size};
use crate::generate::diagrams::{
    layers_among, layers_of_width, random_diagram, scattered, Padding,
};
use crate::generate::load::load;
use crate::generate::long::{self, near_longest};
use crate::generate::mutate::mutated;
use crate::generate::remarks::{self, with_remarks};
use crate::generate::three_files::{self, ThreeFiles};
use crate::generate::{groups, nodes, operands, padded, rows, steps, ticks, Random};

/// Two or three files, and the seed from which the lent slices and their content are drawn. Every diagram
/// of a case is reduced as well.
#[derive(Clone, Debug)]
pub struct Case {
    pub kind: &'static str,
    pub chart: Vec<u8>,
    pub rules: Vec<u8>,
    /// File 3, where the case is a conjunction; the searches are then left out.
    pub more: Option<Vec<u8>>,
    /// Where it is odd, no slice is too short.
    pub dirt: u64,
}

impl Case {
    /// A case of the searches.
    pub fn new(kind: &'static str, (chart, rules): Files, dirt: u64) -> Case {
        Case { kind, chart, rules, more: None, dirt }
    }

    /// A case of the conjunction.
    pub fn conjunction(kind: &'static str, files: ThreeFiles, dirt: u64) -> Case {
        let (chart, rules, more) = files;
        Case { kind, chart, rules, more: Some(more), dirt }
    }

    /// File 2, and file 3 where there is one.
    pub fn diagrams(&self) -> impl Iterator<Item = &[u8]> {
        [Some(&self.rules), self.more.as_ref()].into_iter().flatten().map(|file| &file[..])
    }

    pub fn lends_enough(&self) -> bool {
        self.dirt % 2 == 1
    }
}

/// So many of a hundred random cases are conjunctions.
const CONJUNCTIONS: usize = 9;

/// All cases of one seed.
pub struct Cases {
    seed: u64,
    corners: Vec<Files>,
    /// Each makes two cases: slices of just the length needed, and longer ones.
    rows: Vec<Files>,
    ticks: Vec<Files>,
    /// Problems in which groups decide.
    groups: Vec<Files>,
    systematic: Vec<Files>,
    /// Nodes that are padding, or nearly, and padded diagrams.
    padding: Vec<Files>,
    /// Each makes two cases: one that lends enough, and one that need not.
    conjunctions: Vec<ThreeFiles>,
    broken_conjunctions: Vec<ThreeFiles>,
}

impl Cases {
    pub fn new(seed: u64) -> Cases {
        let mut random = Random::of(seed, u64::MAX);
        let mut files = at_limits();
        files.extend(remarks::at_limits());
        files.extend(steps::systematic());
        files.extend(groups::systematic());
        files.extend(long::systematic(&example_problem()));
        let small = [(); 2].map(|()| small_problem(&mut random));
        let grouped = [grouped_problem(), small_grouped(&mut random)];
        for problem in [example_problem()].iter().chain(&small).chain(&grouped) {
            files.extend(systematic(problem));
            files.extend(remarks::systematic(problem));
        }
        let mut padding = nodes::systematic();
        padding.extend(padded::systematic(&mut random).iter().map(written));
        let mut corners_of_conjunctions = operands::systematic(&mut random);
        corners_of_conjunctions.extend(operands::with_padding(&mut random));
        corners_of_conjunctions.extend(groups::operands(&mut random));
        let mut broken_conjunctions = three_files::broken(&example_problem());
        broken_conjunctions.extend(three_files::broken(&grouped_problem()).into_iter().step_by(3));
        let corner = |shape: &corners::Shape| written(&shape(&mut random, Size::FULL));
        Cases {
            seed,
            corners: corners::SHAPES.iter().map(corner).collect(),
            rows: rows::systematic().iter().map(written).collect(),
            ticks: ticks::systematic().iter().map(written).collect(),
            groups: groups::corners(&mut random).iter().map(written).collect(),
            systematic: files,
            padding,
            conjunctions: corners_of_conjunctions.iter().map(three_files::written).collect(),
            broken_conjunctions,
        }
    }

    /// How many cases are in the corners; they come first.
    pub fn corners(&self) -> usize {
        self.first_of_groups() + self.groups.len()
    }

    /// The first of those in which groups decide; they end the corners.
    pub fn first_of_groups(&self) -> usize {
        self.first_of_ticks() + self.ticks.len()
    }

    /// The first of those in which rounding decides.
    pub fn first_of_ticks(&self) -> usize {
        self.corners.len() + 2 * self.rows.len()
    }

    /// The cases of systematic damage.
    pub fn systematic(&self) -> Range<usize> {
        self.corners()..self.corners() + self.systematic.len()
    }

    /// The cases of padding.
    pub fn padding(&self) -> Range<usize> {
        let first = self.systematic().end;
        first..first + self.padding.len()
    }

    /// The conjunctions in corners and of broken files.
    pub fn conjunctions(&self) -> Range<usize> {
        let first = self.padding().end;
        first..first + 2 * self.conjunctions.len() + self.broken_conjunctions.len()
    }

    /// The first random case.
    pub fn first_random(&self) -> usize {
        self.conjunctions().end
    }

    /// The case with a number.
    pub fn case(&self, number: usize) -> Case {
        let mut random = Random::of(self.seed, number as u64);
        if let Some(files) = self.corners.get(number).cloned() {
            return Case::new("corner", files, random.word() | 1);
        }
        let in_rows = number - self.corners.len();
        if let Some(files) = self.rows.get(in_rows / 2).cloned() {
            let dirt = enough(&mut random, in_rows % 2 == 0);
            return Case::new("rows", files, dirt);
        }
        let in_ticks = number - self.first_of_ticks();
        if let Some(files) = self.ticks.get(in_ticks).cloned() {
            return Case::new("ticks", files, random.word() | 1);
        }
        let in_groups = number - self.first_of_groups();
        if let Some(files) = self.groups.get(in_groups).cloned() {
            return Case::new("groups", files, random.word() | 1);
        }
        if let Some(files) = self.systematic.get(number - self.corners()).cloned() {
            return Case::new("systematic damage", files, random.word());
        }
        if let Some(files) = self.padding.get(number - self.padding().start).cloned() {
            return Case::new("padding", files, random.word());
        }
        match number.checked_sub(self.first_random()) {
            None => self.conjunction(number - self.conjunctions().start, &mut random),
            Some(_) => random_case(&mut random),
        }
    }

    /// One of the conjunctions in corners and of broken files.
    fn conjunction(&self, at: usize, random: &mut Random) -> Case {
        let dirt = random.word();
        if let Some(files) = self.conjunctions.get(at / 2).cloned() {
            return Case::conjunction("conjunction corner", files, dirt & !1 | at as u64 & 1);
        }
        let files = self.broken_conjunctions[at - 2 * self.conjunctions.len()].clone();
        Case::conjunction("broken conjunction", files, dirt)
    }
}

/// A seed of slices that have just what they need, or of longer ones.
fn enough(random: &mut Random, exact: bool) -> u64 {
    loop {
        let dirt = random.word() | 1;
        if are_exact(&mut Random::new(dirt)) == exact {
            return dirt;
        }
    }
}

fn written(Problem { chart, diagram }: &Problem) -> Files {
    (write_chart(chart), write_diagram(diagram))
}

/// A problem without groups as it is drawn, or with each step as a group alone.
fn written_alone(random: &mut Random, draw: fn(&mut Random) -> Problem) -> Files {
    let problem = draw(random);
    written(&groups::maybe_alone(random, problem))
}

/// The shipped example: its chart and its diagram.
pub fn example_problem() -> Problem {
    let steps = [(0, 1, 40), (0, 1, 90), (1, 2, 200), (1, 3, 30), (2, 3, 20), (3, 4, 50)];
    let steps = steps.iter().map(|(from, to, cost)| Step::new(*from, *to, *cost));
    let chart = Chart { stages: 5, start: 0, end: 4, steps: steps.collect() };
    let nodes = vec![Node { step: 2, lo: 0, hi: 1 }, Node { step: 0, lo: 1, hi: 2 }];
    Problem { chart, diagram: Diagram { root: 3, nodes } }
}

/// The same chart and rule with groups, one of them without steps: raising A13 needs settling, however it
/// is done.
pub fn grouped_problem() -> Problem {
    let Problem { chart, diagram } = example_problem();
    let chart = chart.with_groups(|at| Some([0, 0, 2, 3, 3, 5][at]));
    let mut nodes = diagram.nodes;
    nodes.push(Node { step: 1, lo: 1, hi: 2 });
    Problem { chart, diagram: Diagram { nodes, ..diagram } }
}

/// A small problem with at least two steps and two nodes.
fn small_problem(random: &mut Random) -> Problem {
    let shape = Shape {
        stages: random.between(3, 5),
        steps: random.between(2, 4),
        costs: Costs::Few,
        spans: Spans::Short,
        ends: Ends::Outermost,
    };
    loop {
        let chart = shape.chart(random);
        let diagram = scattered(random, chart.groups(), 4, Padding::Without);
        if diagram.nodes.len() >= 2 {
            return Problem { chart, diagram };
        }
    }
}

/// The same with groups, some of them without steps.
fn small_grouped(random: &mut Random) -> Problem {
    loop {
        let Problem { chart, .. } = small_problem(random);
        let chart = groups::grouped(random, &chart);
        let has_gaps = chart.group_costs().contains(&None);
        let diagram = random_diagram(random, &chart, 4);
        if has_gaps && chart.groups() < 12 && diagram.nodes.len() >= 2 {
            return Problem { chart, diagram };
        }
    }
}

fn random_case(random: &mut Random) -> Case {
    if random.percent(CONJUNCTIONS) {
        return Case::conjunction("conjunction", three_files::drawn(random), random.word());
    }
    let (kind, files) = random_files(random);
    Case::new(kind, files, random.word())
}

fn random_files(random: &mut Random) -> (&'static str, Files) {
    match random.below(1_000) {
        0..=99 => ("remarks", remarked(random)),
        100..=129 => ("damaged remarks", damaged_remarks(random)),
        130..=134 => ("long", long_files(random)),
        _ => plain_files(random),
    }
}

/// Files without remarks, unless damage makes one.
fn plain_files(random: &mut Random) -> (&'static str, Files) {
    match random.below(1_000) {
        0..=9 => ("full size", full_size(random)),
        10..=12 => ("corner", written_alone(random, corners::any)),
        13..=29 => ("large", sized(random, 120, 500, 300)),
        30..=149 => ("medium", sized(random, 40, 120, 100)),
        150..=279 => ("damaged", damaged_files(random)),
        280..=299 => ("large damaged", large_damaged(random)),
        300..=329 => ("noise", (noise(random, 40), noise(random, 30))),
        330..=399 => ("many ways", many_ways(random)),
        400..=449 => ("parallel", sized(random, 3, 30, 30)),
        450..=499 => ("bad steps", bad_steps(random)),
        500..=549 => ("ticks", written_alone(random, ticks::any)),
        550..=599 => ("padded", written(&padded::any(random))),
        600..=614 => ("damaged padded", damaged_padded(random)),
        615..=644 => ("groups", written(&groups::any(random))),
        645..=674 => ("broken groups", groups::broken(random)),
        _ => ("small", sized(random, 8, 14, 12)),
    }
}

fn sized(random: &mut Random, stages: usize, steps: usize, nodes: usize) -> Files {
    let chart = random_chart(random, stages, steps);
    let diagram = random_diagram(random, &chart, nodes);
    (write_chart(&chart), write_diagram(&diagram))
}

/// Any files with remarks in one of them or in both.
fn remarked(random: &mut Random) -> Files {
    let (_, files) = plain_files(random);
    changed(random, files, with_remarks)
}

/// The same with faults anywhere.
fn damaged_remarks(random: &mut Random) -> Files {
    let (chart, rules) = sized(random, 8, 14, 12);
    let files = (with_remarks(random, &chart), with_remarks(random, &rules));
    changed(random, files, |random, file| mutated(random, file, &chart))
}

/// Small files filled up to about the greatest length; at times they are damaged as well.
fn long_files(random: &mut Random) -> Files {
    let files = if random.percent(50) { sized(random, 8, 14, 12) } else { damaged_files(random) };
    changed(random, files, near_longest)
}

/// The chart, the diagram or both changed.
fn changed(
    random: &mut Random,
    (mut chart, mut rules): Files,
    mut change: impl FnMut(&mut Random, &[u8]) -> Vec<u8>,
) -> Files {
    let which = random.below(3);
    if which != 0 {
        chart = change(random, &chart);
    }
    if which != 1 {
        rules = change(random, &rules);
    }
    (chart, rules)
}

/// Steps to the next stage, two or three at each: many ways of equal or nearly equal cost.
fn many_ways(random: &mut Random) -> Files {
    let stages = random.between(3, 9);
    let costs = random.pick(&[Costs::Zero, Costs::Equal, Costs::Few, Costs::MostlyZero]);
    let steps = 2 * stages;
    let shape = Shape { stages, steps, costs, spans: Spans::Next, ends: Ends::Outermost };
    let mut chart = shape.chart(random);
    for (at, step) in chart.steps.iter_mut().enumerate() {
        step.from = (at * (stages - 1) / steps) as u16;
        step.to = step.from + 1;
    }
    let chart = groups::maybe(random, chart);
    let diagram = random_diagram(random, &chart, 40);
    (write_chart(&chart), write_diagram(&diagram))
}

/// A chart with a step whose values are at fault.
fn bad_steps(random: &mut Random) -> Files {
    let (stages, steps) = random.pick(&[(6, 6), (12, 20), (12, 20), (40, 120)]);
    let (stages, steps) = (random.between(2, stages), random.between(1, steps));
    let chart = Shape { stages, steps, ..Shape::random(random, stages, steps) }.chart(random);
    let chart = groups::maybe(random, chart);
    let rules = write_diagram(&random_diagram(random, &chart, 12));
    let mut bytes = write_chart(&chart);
    steps::spoil(random, &mut bytes, 22);
    (bytes, rules)
}

fn damaged_files(random: &mut Random) -> Files {
    let (mut chart, mut rules) = sized(random, 6, 5, 5);
    let which = random.below(8);
    if which != 0 {
        rules = damaged(random, &rules);
    }
    if which < 4 {
        chart = damaged(random, &chart);
    }
    (chart, rules)
}

/// A padded diagram spoiled anywhere.
fn damaged_padded(random: &mut Random) -> Files {
    let (chart, rules) = written(&padded::any(random));
    let spoiled = match random.below(2) {
        0 => damaged(random, &rules),
        _ => mutated(random, &rules, &rules),
    };
    (chart, spoiled)
}

/// A chart and a diagram above 1,000 bytes, one or both spoiled anywhere.
fn large_damaged(random: &mut Random) -> Files {
    let (steps, nodes) = (random.between(100, MAX_STEPS), random.between(120, MAX_NODES));
    let stages = random.between(10, usize::from(MAX_STAGES));
    let shape =
        Shape { stages, steps, costs: Costs::Wide, spans: Spans::Any, ends: Ends::Outermost };
    let chart = shape.chart(random);
    let chart = groups::maybe(random, chart);
    let row = random.subset(chart.groups(), nodes);
    let rules = write_diagram(&layers_of_width(random, &row, 1, Padding::Without));
    let chart = write_chart(&chart);
    match random.below(10) {
        0..=5 => (mutated(random, &chart, &rules), rules),
        6..=8 => (chart.clone(), mutated(random, &rules, &chart)),
        _ => (mutated(random, &chart, &chart), mutated(random, &rules, &rules)),
    }
}

/// Near all limits at once.
fn full_size(random: &mut Random) -> Files {
    let stages = random.pick(&[MAX_STAGES as usize, 255, 200, 64, 32, 2]);
    let chart = match random.below(3) {
        0 => load(random.word() as u32 | 1, stages as u32).expect("a word and stages in range"),
        1 => long_steps(random, stages, MAX_STEPS),
        _ => {
            let costs = random.pick(&[Costs::Zero, Costs::Equal, Costs::Few, Costs::Wide]);
            let spans = random.pick(&[Spans::Next, Spans::Short, Spans::Hubs]);
            Shape { stages, steps: MAX_STEPS, costs, spans, ends: Ends::Outermost }.chart(random)
        }
    };
    let chart = groups::maybe(random, chart);
    let diagram = match random.below(4) {
        0 => {
            let width = random.pick(&[1, 2, 10, 51, 102]);
            let steps = random.subset(chart.groups(), layers_among(MAX_NODES, width));
            let layers = layers_of_width(random, &steps, width, Padding::Without);
            padded::filled_up(random, &layers, chart.groups(), MAX_NODES)
        }
        1 => scattered(random, chart.groups(), MAX_NODES, Padding::Without),
        _ => random_diagram(random, &chart, MAX_NODES),
    };
    (write_chart(&chart), write_diagram(&diagram))
}
