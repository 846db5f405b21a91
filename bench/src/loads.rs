//! The benchmark's loads: charts and diagrams of many shapes and of growing size.

use crate::cases::example_problem;
use crate::files::{
    chart_head_field, diagram_head_field, tagged, write_chart, write_diagram, Chart, Diagram,
    Problem, MAX_NODES,
};
use crate::generate::charts::{long_steps, Costs, Ends, Shape, Spans};
use crate::generate::diagrams::{layers_among, layers_of_width, Padding};
use crate::generate::load::load;
use crate::generate::rules::{diagram_of, AllOf, AtMost, Both, ExactlyOne, Modulo, Needs, Rule};
use crate::generate::Random;

/// A named pair of files.
#[derive(Clone, Debug)]
pub struct Load {
    pub name: String,
    pub group: Group,
    pub chart: Vec<u8>,
    /// The chart with every cost in whole ticks already, for libraries that do not round.
    pub rounded: Vec<u8>,
    pub rules: Vec<u8>,
}

impl Load {
    fn new(name: impl Into<String>, chart: &Chart, diagram: &Diagram) -> Load {
        Load {
            name: name.into(),
            group: Group::Other,
            chart: write_chart(chart),
            rounded: write_chart(&chart.rounded()),
            rules: write_diagram(diagram),
        }
    }

    fn of(self, group: Group) -> Load {
        Load { group, ..self }
    }
}

/// What a load has in common with others that have a target of their own.
#[derive(Clone, Copy, Debug, PartialEq, Eq)]
pub enum Group {
    /// The example's chart, and small charts.
    Small,
    /// Long steps, and the guided search settles less than one of a thousand pairs.
    LongSteps,
    /// Files with remarks, which earlier libraries may refuse.
    Remarks,
    /// Charts with groups, which earlier libraries are not asked for.
    Groups,
    Other,
}

/// The word of every generated chart.
const WORD: u32 = 2_017;
/// The seed of random layers.
const LAYERS: u64 = 6;

/// Every load but those of the growth.
pub fn standard() -> Vec<Load> {
    let mut loads = small();
    for stages in [32, 128, 256] {
        loads.extend(over(&format!("load {stages}"), &generated(stages)));
    }
    loads.extend(long());
    loads.extend(equal_costs());
    loads
}

/// Long steps, over up to 40 stages ("dag") and over any number of them ("far").
fn long() -> Vec<Load> {
    let random = &mut Random::new(3);
    let dag = over("dag 256", &long_steps(random, 256, 1_024));
    let shape = Shape {
        stages: 256,
        steps: 1_024,
        costs: Costs::Wide,
        spans: Spans::Any,
        ends: Ends::Outermost,
    };
    let far = over("far 256", &shape.chart(random));
    let few = |load: &Load| FEW_SETTLED.iter().any(|rule| load.name.ends_with(rule));
    let grouped = dag.into_iter().chain(far);
    grouped.map(|load| if few(&load) { load.of(Group::LongSteps) } else { load }).collect()
}

/// The rules under which the guided search settles few pairs of the charts with long steps.
const FEW_SETTLED: [&str; 7] = [
    ", 7 needs",
    ", 8 needs",
    ", 7 cheap needs",
    ", parity of 255",
    ", random 2 wide",
    ", random 16 wide",
    ", random 128 wide",
];

/// Diagrams of growing size on a chart of 256 stages, and charts of fewer stages under one of them.
pub fn growth() -> Vec<Load> {
    let chart = generated(256);
    let nodes = (1..=8).map(|pairs| {
        let diagram = must_fit(&needs(&chart, pairs));
        Load::new(format!("growth: 256 stages, {pairs} needs"), &chart, &diagram)
    });
    let stages = [16, 32, 64, 128].into_iter().map(|stages| {
        let chart = generated(stages);
        let diagram = must_fit(&needs(&chart, 6));
        Load::new(format!("growth: {stages} stages, 6 needs"), &chart, &diagram)
    });
    nodes.chain(stages).collect()
}

/// The example's files with 10,000 remarks without a body behind each head.
pub fn remarks() -> Vec<Load> {
    let Problem { chart, diagram } = example_problem();
    let remarks = tagged(0x80, &[]).repeat(10_000);
    let behind = |head: Vec<u8>, file: Vec<u8>| [&head, &remarks, &file[head.len()..]].concat();
    let [head, rules_head] = [chart_head_field(&chart), diagram_head_field(&diagram)];
    let plain = Load::new("example, 10,000 remarks", &chart, &diagram).of(Group::Remarks);
    vec![Load {
        chart: behind(head.clone(), plain.chart),
        rounded: behind(head, plain.rounded),
        rules: behind(rules_head, plain.rules),
        ..plain
    }]
}

/// Generated charts of 1,024 steps in groups of few steps one after the other, some of which leave two stages:
/// rules that name groups.
pub fn groups() -> Vec<Load> {
    let in_groups = |stages: u32, size: usize| {
        let chart = generated(stages);
        let grouped = chart.with_groups(|at| Some((at / size) as u16));
        (chart, grouped)
    };
    let (chart, pairs) = in_groups(256, 2);
    let Needs(steps) = needs(&chart, 8);
    let of_groups = steps.iter().map(|(a, b)| (pairs.group(*a), pairs.group(*b))).collect();
    let needs = must_fit(&Needs(of_groups));
    let (_, eights) = in_groups(32, 8);
    let every_fourth = (0..31).map(|at| 4 * at + 1).collect();
    let rest_5 = Modulo { divisor: 16, rest: 5, steps: every_fourth };
    let loads = [
        Load::new("groups: 256 stages, 8 needs", &pairs, &needs),
        Load::new("groups: 32 stages, modulo 16 of 31", &eights, &must_fit(&rest_5)),
    ];
    loads.map(|load| load.of(Group::Groups)).into()
}

/// A generated chart of so many stages.
fn generated(stages: u32) -> Chart {
    load(WORD, stages).expect("a word and stages in range")
}

/// Charts as users draw them, from 5 to 40 stages.
fn small() -> Vec<Load> {
    let example = example_problem();
    let mut loads = vec![Load::new("example", &example.chart, &example.diagram)];
    let mut random = Random::new(1);
    for stages in [8, 12, 24, 40] {
        let shape = Shape {
            stages,
            steps: 3 * stages,
            costs: Costs::Wide,
            spans: Spans::Short,
            ends: Ends::Outermost,
        };
        let chart = shape.chart(&mut random);
        let steps = cheapest_steps(&chart, 8);
        let at_most = must_fit(&AtMost { most: 2, steps: steps.clone() });
        let layers = layers_of_width(&mut Random::new(LAYERS), &steps, 3, Padding::Without);
        loads.push(Load::new(
            format!("small {stages}, 3 needs"),
            &chart,
            &must_fit(&needs(&chart, 3)),
        ));
        loads.push(Load::new(format!("small {stages}, at most 2 of 8"), &chart, &at_most));
        loads.push(Load::new(format!("small {stages}, random"), &chart, &layers));
    }
    loads.into_iter().map(|load| load.of(Group::Small)).collect()
}

/// Every kind of diagram over one chart.
fn over(name: &str, chart: &Chart) -> Vec<Load> {
    let mut random = Random::new(LAYERS);
    let mut loads = Vec::new();
    let mut add = |what: &str, diagram: &Diagram| {
        loads.push(Load::new(format!("{name}, {what}"), chart, diagram));
    };
    add("no rule", &Diagram::YES);
    for pairs in [4, 7, 8] {
        add(&format!("{pairs} needs"), &must_fit(&needs(chart, pairs)));
    }
    add("7 cheap needs", &must_fit(&needs_step(chart, 7, second_cheapest)));
    add("at most 4 of 100", &must_fit(&AtMost { most: 4, steps: cheapest_steps(chart, 100) }));
    add("exactly one of 255", &must_fit(&ExactlyOne(cheapest_steps(chart, 255))));
    let odd = Modulo { divisor: 2, rest: 1, steps: cheapest_steps(chart, 255) };
    add("parity of 255", &must_fit(&odd));
    let rest_5 = Modulo { divisor: 16, rest: 5, steps: cheapest_steps(chart, 31) };
    add("modulo 16 of 31", &must_fit(&rest_5));
    for width in [2, 16, 128] {
        let steps = random.subset(chart.steps.len(), layers_among(MAX_NODES, width));
        let layers = layers_of_width(&mut random, &steps, width, Padding::Without);
        add(&format!("random {width} wide"), &layers);
    }
    add("no plan", &must_fit(&impossible(chart)));
    loads
}

/// Ties everywhere.
fn equal_costs() -> Vec<Load> {
    let mut chart = generated(256);
    let mut loads = Vec::new();
    for (name, cost) in [("all costs equal", 100), ("all costs zero", 0)] {
        chart.steps.iter_mut().for_each(|step| step.cost = cost);
        let diagram = must_fit(&needs(&chart, 7));
        loads.push(Load::new(format!("load 256, {name}, 7 needs"), &chart, &diagram));
    }
    loads
}

fn must_fit(rule: &dyn Rule) -> Diagram {
    diagram_of(rule, Padding::Without).expect("at most 510 nodes")
}

/// The cheapest step out of each of the first stages needs the dearest out of one of the last:
/// hard for the estimates.
fn needs(chart: &Chart, pairs: usize) -> Needs {
    needs_step(chart, pairs, dearest)
}

/// The same with another step out of the late stage.
fn needs_step(chart: &Chart, pairs: usize, needed: fn(&Chart, u16) -> u16) -> Needs {
    let stages: Vec<u16> = (0..chart.stages).filter(|s| leaving(chart, *s).count() > 0).collect();
    let late = &stages[stages.len() - pairs.min(stages.len() / 2)..];
    let pairs = stages.iter().zip(late);
    Needs(pairs.map(|(a, b)| (cheapest(chart, *a), needed(chart, *b))).collect())
}

/// Seven needs, and two steps out of the last stage that has two: no way takes both.
fn impossible(chart: &Chart) -> Both {
    let last = (0..chart.stages).rev().find(|stage| leaving(chart, *stage).count() > 1);
    let steps = leaving(chart, last.unwrap_or(0)).take(2).collect();
    Both(Box::new(needs(chart, 7)), Box::new(AllOf(steps)))
}

fn leaving(chart: &Chart, stage: u16) -> impl Iterator<Item = u16> + '_ {
    let steps = chart.steps.iter().enumerate();
    steps.filter(move |(_, step)| step.from == stage).map(|(number, _)| number as u16)
}

fn cost(chart: &Chart, step: u16) -> u32 {
    chart.steps[usize::from(step)].cost
}

fn cheapest(chart: &Chart, stage: u16) -> u16 {
    leaving(chart, stage).min_by_key(|step| cost(chart, *step)).unwrap_or(0)
}

fn second_cheapest(chart: &Chart, stage: u16) -> u16 {
    let mut steps: Vec<u16> = leaving(chart, stage).collect();
    steps.sort_by_key(|step| cost(chart, *step));
    steps.get(1).or(steps.first()).copied().unwrap_or(0)
}

fn dearest(chart: &Chart, stage: u16) -> u16 {
    leaving(chart, stage).max_by_key(|step| cost(chart, *step)).unwrap_or(0)
}

/// The cheapest steps of the whole chart, rising.
fn cheapest_steps(chart: &Chart, count: usize) -> Vec<u16> {
    let mut steps: Vec<u16> = (0..chart.steps.len() as u16).collect();
    steps.sort_by_key(|step| cost(chart, *step));
    steps.truncate(count);
    steps.sort_unstable();
    steps
}
