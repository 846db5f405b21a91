//! Problems in which rounding up to whole ticks decides: what a plan costs, which is the cheapest, which
//! sums are equal and so which pairs are settled.

use super::corners::{most_reached, Size};
use super::costs::SOUND;
use super::diagrams::random_diagram;
use super::rules::{AtMost, Rule};
use super::shapes::rule;
use super::Random;
use crate::files::{Chart, Diagram, Node, Problem, Step, MAX_COST, MAX_STAGES, TICK};

/// Small problems first.
pub fn systematic() -> Vec<Problem> {
    let mut problems = single_steps();
    problems.extend(close_routes());
    problems.extend(chains());
    problems.extend(ties());
    problems
}

/// A problem of two routes, or one of equal sums.
pub fn any(random: &mut Random) -> Problem {
    if random.percent(60) {
        let (small, large) = (random.between(0, 400), random.between(0, MAX_COST as usize));
        let total = random.pick(&[small, small, small, large]);
        let costs = [(); 2].map(|()| drawn_costs(random, total));
        let known = random.pick(&[Known::ByChart, Known::ByDiagram, Known::ByNeither]);
        return two_routes([&costs[0], &costs[1]], known);
    }
    let (layers, width) = (random.between(0, 4), random.between(1, 4));
    let span = random.pick(&SPANS);
    let chart = grid(layers, width, |_| span.drawn(random));
    let diagram = random_diagram(random, &chart, 20);
    Problem { chart, diagram }
}

/// Up to six costs that come to about a total.
fn drawn_costs(random: &mut Random, total: usize) -> Vec<u32> {
    let links = random.between(1, 6);
    let mut cost = || (total / links + random.below(30)) as u32;
    (0..links).map(|_| cost().min(MAX_COST)).collect()
}

/// One step of each cost, under no rule and under one that wants it, so that either estimate shows it.
fn single_steps() -> Vec<Problem> {
    let wants_it = Diagram { root: 2, nodes: vec![Node { step: 0, lo: 0, hi: 1 }] };
    let chart = |cost| Chart { stages: 2, start: 0, end: 1, steps: vec![step(0, 1, cost)] };
    let problem = |cost| [&Diagram::YES, &wants_it].map(|rules| (chart(cost), rules.clone()));
    let all = SOUND.into_iter().flat_map(problem);
    all.map(|(chart, diagram)| Problem { chart, diagram }).collect()
}

fn step(from: usize, to: usize, cost: u32) -> Step {
    Step::new(from as u16, to as u16, cost)
}

/// Two routes that cost about the same, rounded or not.
fn close_routes() -> Vec<Problem> {
    let routes = routes();
    let mut problems = Vec::new();
    for (at, first) in routes.iter().enumerate() {
        for second in routes[..at].iter().filter(|second| are_close(first, second)) {
            let known = [Known::ByChart, Known::ByDiagram, Known::ByNeither];
            problems.extend(known.map(|known| two_routes([first, second], known)));
        }
    }
    problems
}

/// Up to three links of the same cost, and such with a last one that costs less.
fn routes() -> Vec<Vec<u32>> {
    let mut costs = [&[17, 26, 34, 75], &SOUND[..]].concat();
    costs.sort_unstable();
    let mut routes = Vec::new();
    for links in 1..=3 {
        routes.extend(costs.iter().map(|cost| vec![*cost; links]));
        let uneven = costs.windows(4).filter(|_| links > 1);
        routes.extend(uneven.map(|costs| [vec![costs[3]; links - 1], vec![costs[0]]].concat()));
    }
    routes
}

/// Whether two routes cost the same to less than a tick, as the file has it, or to a tick, rounded.
fn are_close(first: &[u32], second: &[u32]) -> bool {
    let in_file = |route: &[u32]| route.iter().sum::<u32>();
    let in_ticks = |route: &[u32]| route.iter().map(|cost| cost.div_ceil(TICK)).sum::<u32>();
    in_file(first).abs_diff(in_file(second)) < TICK
        || in_ticks(first).abs_diff(in_ticks(second)) <= 1
}

/// Which estimate knows what the routes cost.
#[derive(Clone, Copy, Debug, PartialEq, Eq)]
enum Known {
    ByChart,
    ByDiagram,
    ByNeither,
}

/// Two ways from the first stage to the last that share no stage between them. Without a rule the chart
/// estimate knows what they cost. With one, a free step leads to the end from everywhere, but is never
/// legal. If the rule wants one of the routes, the diagram estimate knows; else none does.
fn two_routes(costs: [&[u32]; 2], known: Known) -> Problem {
    let end = costs[0].len() + costs[1].len() - 1;
    let mut links: Vec<(usize, Step)> = Vec::new();
    for (route, first) in [1, costs[0].len()].into_iter().enumerate() {
        let last = costs[route].len() - 1;
        for (at, cost) in costs[route].iter().enumerate() {
            let from = if at == 0 { 0 } else { first + at - 1 };
            let to = if at == last { end } else { first + at };
            links.push((route, step(from, to, *cost)));
        }
    }
    if known != Known::ByChart {
        links.extend((0..end).map(|from| (FREE, step(from, end, 0))));
    }
    links.sort_by_key(|(_, step)| step.from);
    let route_of: Vec<usize> = links.iter().map(|(route, _)| *route).collect();
    let steps = links.into_iter().map(|(_, step)| step).collect();
    let diagram = match known {
        Known::ByChart => Diagram::YES,
        Known::ByDiagram => rule(&OneRoute(route_of)),
        Known::ByNeither => {
            let free = (0..).zip(&route_of).filter(|(_, route)| **route == FREE);
            rule(&AtMost { most: 0, steps: free.map(|(step, _)| step).collect() })
        }
    };
    Problem { chart: Chart { stages: end as u16 + 1, start: 0, end: end as u16, steps }, diagram }
}

/// All steps of one route and no other step, by the route of each.
struct OneRoute(Vec<usize>);

/// The route of a step that is on neither of the two.
const FREE: usize = 2;

impl OneRoute {
    /// The state in which a step is taken: its route's, or at first none.
    fn before(&self, step: u16) -> u64 {
        let route = self.0[usize::from(step)];
        let begun = self.0[..usize::from(step)].contains(&route);
        if begun {
            1 + route as u64
        } else {
            0
        }
    }
}

impl Rule for OneRoute {
    fn steps(&self) -> Vec<u16> {
        (0..self.0.len() as u16).collect()
    }

    fn next(&self, state: u64, step: u16, taken: bool) -> Option<u64> {
        let route = self.0[usize::from(step)];
        let own = 1 + route as u64;
        if taken {
            return (route != FREE && state == self.before(step)).then_some(own);
        }
        (route == FREE || state != own).then_some(state)
    }

    fn accepts(&self, state: u64) -> bool {
        state != 0
    }
}

/// As many links as there may be, of one cost and of all in turn.
fn chains() -> Vec<Problem> {
    let chain = |cost: &dyn Fn(usize) -> u32| Problem {
        chart: grid(usize::from(MAX_STAGES) - 2, 1, cost),
        diagram: Diagram::YES,
    };
    let mut problems: Vec<Problem> = SOUND.iter().map(|cost| chain(&|_| *cost)).collect();
    problems.push(chain(&|at| SOUND[at % SOUND.len()]));
    problems
}

/// Costs that are rounded to the same, or some of them to 0.
#[derive(Clone, Copy, Debug)]
struct Span {
    ticks: u32,
    has_zeros: bool,
}

const SPANS: [Span; 4] = [
    Span { ticks: 1, has_zeros: false },
    Span { ticks: 20, has_zeros: false },
    Span { ticks: MAX_COST / TICK, has_zeros: false },
    Span { ticks: 1, has_zeros: true },
];

impl Span {
    /// Up to the 50th step no two are the same, but for zeros.
    fn of(self, at: usize) -> u32 {
        let is_zero = self.has_zeros && at % 3 == 0;
        if is_zero {
            0
        } else {
            self.ticks * TICK - (7 * at as u32) % TICK
        }
    }

    fn drawn(self, random: &mut Random) -> u32 {
        self.of(random.below(3 * TICK as usize))
    }
}

/// Charts in which many pairs have a sum that is the plan's cost, all or most of them by rounding alone:
/// layers of stages, and few stages with many nodes at each.
pub fn ties() -> Vec<Problem> {
    const GRIDS: [(usize, usize); 9] =
        [(0, 1), (1, 1), (1, 20), (2, 3), (3, 10), (8, 8), (2, 127), (127, 2), (15, 16)];
    const FANS: [Size; 3] =
        [Size { stages: 8, nodes: 8 }, Size { stages: 40, nodes: 100 }, Size::FULL];
    let grids = GRIDS.iter().flat_map(|(layers, width)| {
        SPANS.map(|span| Problem {
            chart: grid(*layers, *width, |at| span.of(at)),
            diagram: Diagram::YES,
        })
    });
    let fans = FANS.iter().flat_map(|size| {
        let Problem { chart, diagram } = most_reached(&mut Random::new(1), *size);
        SPANS.map(|span| Problem {
            chart: chart.with_costs(|at, _| span.of(at)),
            diagram: diagram.clone(),
        })
    });
    grids.chain(fans).collect()
}

/// Stages in layers of some width between the first and the last: from each stage three steps lead to
/// the next layer, if it has as many stages. Without layers there are parallel steps.
fn grid(layers: usize, width: usize, mut cost: impl FnMut(usize) -> u32) -> Chart {
    let last = layers * width + 1;
    let stage = |layer: usize, column: usize| 1 + layer * width + column % width;
    let mut ends: Vec<(usize, usize)> = match layers {
        0 => vec![(0, last); TICK as usize],
        _ => (0..width).map(|column| (0, stage(0, column))).collect(),
    };
    for layer in 1..layers {
        let steps = (0..width).flat_map(|column| (0..width.min(3)).map(move |more| (column, more)));
        let steps =
            steps.map(|(column, more)| (stage(layer - 1, column), stage(layer, column + more)));
        ends.extend(steps);
    }
    if layers > 0 {
        ends.extend((0..width).map(|column| (stage(layers - 1, column), last)));
    }
    let steps = ends.iter().enumerate().map(|(at, (from, to))| step(*from, *to, cost(at)));
    Chart { stages: last as u16 + 1, start: 0, end: last as u16, steps: steps.collect() }
}
