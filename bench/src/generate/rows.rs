//! Problems in which few pairs are reached, but in rows and at nodes where a wrong number of a pair
//! shows: in the first row, one amid them and the last, at low nodes and at the highest.

use std::ops::Range;

use crate::files::{Chart, Diagram, Node, Problem, Step, TICK};

/// Stage counts above 1, and numbers N of node references.
const STAGES: [u16; 5] = [2, 3, 128, 255, 256];
const REFERENCES: [u16; 6] = [2, 3, 128, 129, 511, 512];

/// Parallel steps of the link that the diagram asks about.
const FAN: u16 = 6;
/// A node that wants the fan's last step, and one that doesn't want it.
const WANTS_LAST: u16 = 2;
const WITHOUT_LAST: u16 = 3;

/// Stages that steps link in turn, and what else there is to choose.
struct Route {
    stops: Vec<u16>,
    /// Which link is the fan.
    fan: usize,
    start: u16,
    end: u16,
    /// The lo of the root, where there are so many nodes.
    lo: u16,
    /// The fan's last step leads only to the stage after its own.
    stray: bool,
}

/// One stage, and every stage count with every N on routes of all kinds.
pub fn systematic() -> Vec<Problem> {
    let mut problems = vec![single_stage()];
    for stages in STAGES {
        for references in REFERENCES {
            let routes = routes(stages - 1);
            problems.extend(routes.iter().map(|route| route.problem(stages, references)));
        }
    }
    problems
}

/// Without steps there are no nodes.
fn single_stage() -> Problem {
    let chart = Chart { stages: 1, start: 0, end: 0, steps: Vec::new() };
    Problem { chart, diagram: Diagram::YES }
}

/// By a stage amid them or by all of them; from the first stage, the second and the last; to the last
/// stage, to a lower one and back.
fn routes(last: u16) -> Vec<Route> {
    let middle = last.div_ceil(2);
    let by_middle = || {
        let stops = distinct_stops(&[0, middle, last]);
        let fan = stops.len() - 2;
        Route { stops, fan, start: 0, end: last, lo: WITHOUT_LAST, stray: false }
    };
    let by_all = |fan: u16| Route { stops: (0..=last).collect(), fan: fan.into(), ..by_middle() };
    let by_second = distinct_stops(&[0, 1, middle, last]);
    vec![
        by_middle(),
        Route { lo: WANTS_LAST, ..by_middle() },
        Route { lo: WANTS_LAST, stray: true, ..by_middle() },
        Route { fan: 0, lo: WANTS_LAST, ..by_middle() },
        Route { fan: 0, end: middle, ..by_middle() },
        Route { fan: by_second.len() - 2, stops: by_second, start: 1, ..by_middle() },
        by_all(last - 1),
        Route { start: 1, end: last - 1, lo: WANTS_LAST, ..by_all(middle - 1) },
        Route { start: last, ..by_middle() },
        Route { start: last, end: 0, ..by_middle() },
    ]
}

/// Rising stages, each once.
fn distinct_stops(stages: &[u16]) -> Vec<u16> {
    let mut stops = stages.to_vec();
    stops.dedup();
    stops
}

impl Route {
    fn problem(&self, stages: u16, references: u16) -> Problem {
        let Route { start, end, .. } = *self;
        let chart = Chart { stages, start, end, steps: self.steps() };
        Problem { chart, diagram: self.diagram(references) }
    }

    /// No two steps have the same cost when it is rounded.
    fn steps(&self) -> Vec<Step> {
        let mut steps = Vec::new();
        for (link, ends) in self.stops.windows(2).enumerate() {
            let parallel = if link == self.fan { FAN } else { 1 };
            for at in 0..parallel {
                let to = if self.stray && at == FAN - 1 { ends[0] + 1 } else { ends[1] };
                steps.push(Step::new(ends[0], to, cost(steps.len() as u32)));
            }
        }
        steps
    }

    /// The root has the highest number and asks about the fan's second step: by the first one a way
    /// stays at it, by the second it comes to the node below it, by others to low nodes.
    fn diagram(&self, references: u16) -> Diagram {
        if references == 2 {
            return Diagram::YES;
        }
        let first = self.fan as u16;
        let mut nodes = different_nodes(first + 2..first + FAN, usize::from(references) - 3);
        let lo = if nodes.is_empty() { 0 } else { self.lo };
        nodes.push(Node { step: first + 1, lo, hi: references - 2 });
        Diagram { root: references - 1, nodes }
    }
}

/// The cost of a step: three ticks more than the one before has, and less than a tick to round up.
fn cost(step: u32) -> u32 {
    TICK * (10 + 3 * step) - step % TICK
}

/// So many nodes over these steps, no two alike and none with equal children.
fn different_nodes(steps: Range<u16>, count: usize) -> Vec<Node> {
    let mut nodes: Vec<Node> = Vec::new();
    for step in steps.rev() {
        let below = nodes.len() as u16 + 2;
        let children = (0..below).flat_map(|lo| (0..below).map(move |hi| (lo, hi)));
        let left = count - nodes.len();
        let different = children.filter(|(lo, hi)| lo != hi).take(left);
        nodes.extend(different.map(|(lo, hi)| Node { step, lo, hi }));
    }
    nodes
}
