//! What both searches must write on a problem, worked out by hand: the whole cost slice, log and plan.

use planner_bench::check;
use planner_bench::files::{write_chart, write_diagram, Chart, Diagram, Node, Problem, Step};
use planner_bench::lent::Lent;
use planner_bench::planner::{self, Answer, GuidedSlices, Planner, SweepSlices};
use planner_bench::reference::{cost_slice, judge, Facts, Judged, UNREACHED};

/// What slices hold before a call: nothing that a result has.
const DIRT: u32 = 77_777;
const PLAN_DIRT: u16 = 7_777;

/// What both searches must write.
pub struct Wanted<'a> {
    /// Pair and least cost of each reached pair; all other entries are 4,294,967,295.
    pub cost: &'a [(usize, u32)],
    /// The only log there can be.
    pub log: &'a [u32],
    /// None under 8.
    pub plan: Option<&'a [u16]>,
}

/// From, to and the file's cost of each step.
pub fn steps(steps: &[(u16, u16, u32)]) -> Vec<Step> {
    steps.iter().map(|(from, to, cost)| Step::new(*from, *to, *cost)).collect()
}

/// Nodes from 2 on: step, lo, hi.
pub fn diagram(root: u16, nodes: &[(u16, u16, u16)]) -> Diagram {
    let nodes = nodes.iter().map(|(step, lo, hi)| Node { step: *step, lo: *lo, hi: *hi });
    Diagram { root, nodes: nodes.collect() }
}

pub fn problem(stages: u16, ends: (u16, u16), steps: Vec<Step>, diagram: Diagram) -> Problem {
    Problem { chart: Chart { stages, start: ends.0, end: ends.1, steps }, diagram }
}

/// The facts of a problem's files.
pub fn judged(problem: &Problem) -> Facts {
    let files = (write_chart(&problem.chart), write_diagram(&problem.diagram));
    judge(&files.0, &files.1).expect("sound files")
}

impl Wanted<'_> {
    /// A plan costs what its goal pair does, the last of the log.
    fn answer(&self, count: usize) -> Answer {
        let goal = self.log.last().map(|pair| *pair as usize);
        let cost = self.cost.iter().find(|(pair, _)| Some(*pair) == goal);
        match (self.plan, cost) {
            (Some(plan), Some((_, cost))) => Answer::accepted(*cost, plan.len(), count),
            _ => Answer::no_plan(count),
        }
    }

    /// A cost slice of so many entries more than are needed.
    fn cost_slice(&self, problem: &Problem, more: usize) -> Vec<u32> {
        let mut cost = vec![UNREACHED; problem.pairs()];
        self.cost.iter().for_each(|(pair, least)| cost[*pair] = *least);
        cost.resize(problem.pairs() + more, DIRT);
        cost
    }

    fn log_slice(&self, problem: &Problem, more: usize) -> Vec<u32> {
        let mut log = self.log.to_vec();
        log.resize(problem.pairs() + more, DIRT);
        log
    }

    fn plan_slice(&self, problem: &Problem, more: usize) -> Vec<u16> {
        let mut plan = self.plan.unwrap_or_default().to_vec();
        plan.resize(problem.longest_plan() + more, PLAN_DIRT);
        plan
    }
}

/// The reference and every implementation write just this, into slices of the length needed and into
/// longer ones; and the checks let nothing pass that stands elsewhere.
pub fn writes(problem: &Problem, wanted: &Wanted) {
    let facts = judged(problem);
    assert_eq!(cost_slice(&facts), wanted.cost_slice(problem, 0));
    let settled = wanted.log.len() as u32;
    assert_eq!(facts.settled_range(), (settled, settled));
    for planner in planner::all() {
        for more in [0, 1, 5] {
            sweeps(planner.as_ref(), problem, wanted, more);
            guides(planner.as_ref(), problem, wanted, more);
        }
    }
    let judged = Ok(facts);
    elsewhere_in_cost(&judged, problem, wanted);
    elsewhere_in_log(&judged, problem, wanted);
}

fn work(problem: &Problem, more: usize) -> Lent<u32> {
    vec![DIRT; problem.pairs() + more].into()
}

fn plan(problem: &Problem, more: usize) -> Lent<u16> {
    vec![PLAN_DIRT; problem.longest_plan() + more].into()
}

fn sweep_slices(problem: &Problem, more: usize) -> SweepSlices {
    SweepSlices::with(|| work(problem, more), plan(problem, more))
}

fn guided_slices(problem: &Problem, more: usize) -> GuidedSlices {
    GuidedSlices::with(|| work(problem, more), plan(problem, more))
}

fn sweeps(planner: &dyn Planner, problem: &Problem, wanted: &Wanted, more: usize) {
    let mut lent = sweep_slices(problem, more);
    let files = (write_chart(&problem.chart), write_diagram(&problem.diagram));
    let answer = planner.sweep(&files.0, &files.1, &mut lent);
    assert_eq!(answer, wanted.answer(wanted.cost.len()), "{}", planner.name());
    assert!(lent.cost[..] == wanted.cost_slice(problem, more), "{}", planner.name());
    assert_eq!(lent.plan[..], wanted.plan_slice(problem, more), "{}", planner.name());
    let free = lent.free().map(|(_, slice)| slice[problem.pairs()..].to_vec());
    assert!(free.concat().iter().all(|entry| *entry == DIRT), "{}", planner.name());
}

fn guides(planner: &dyn Planner, problem: &Problem, wanted: &Wanted, more: usize) {
    let mut lent = guided_slices(problem, more);
    let files = (write_chart(&problem.chart), write_diagram(&problem.diagram));
    let answer = planner.guided(&files.0, &files.1, &mut lent);
    assert_eq!(answer, wanted.answer(wanted.log.len()), "{}", planner.name());
    assert_eq!(lent.log[..wanted.log.len()], *wanted.log, "{}", planner.name());
    assert!(lent.log[..] == wanted.log_slice(problem, more), "{}", planner.name());
    assert_eq!(lent.plan[..], wanted.plan_slice(problem, more), "{}", planner.name());
    let free = lent.free().map(|(_, slice)| slice[problem.pairs()..].to_vec());
    assert!(free.concat().iter().all(|entry| *entry == DIRT), "{}", planner.name());
}

/// Numbers beside a pair's own: a node, a row, half a number.
fn beside(problem: &Problem, pair: usize) -> impl Iterator<Item = usize> {
    let width = problem.diagram.references();
    let numbers = [pair + 1, pair.wrapping_sub(1), pair + width, pair.wrapping_sub(width)];
    let short = [pair & 0xffff, pair & 0x7fff, pair & 0xff];
    numbers.into_iter().chain(short).filter(move |number| *number != pair)
}

/// One least cost at another place, where that has another one.
fn elsewhere_in_cost(judged: &Judged, problem: &Problem, wanted: &Wanted) {
    let before = sweep_slices(problem, 0);
    let mut after = before.clone();
    after.cost = wanted.cost_slice(problem, 0).into();
    after.plan = wanted.plan_slice(problem, 0).into();
    let answer = wanted.answer(wanted.cost.len());
    assert_eq!(check::sweep(judged, &before, &after, answer), Ok(()));
    for (pair, _) in wanted.cost.iter().rev().take(10) {
        for other in beside(problem, *pair).filter(|other| *other < problem.pairs()) {
            if after.cost[*pair] == after.cost[other] {
                continue;
            }
            after.cost.swap(*pair, other);
            assert!(check::sweep(judged, &before, &after, answer).is_err(), "{pair} at {other}");
            after.cost.swap(*pair, other);
        }
    }
}

/// Another number in the log.
fn elsewhere_in_log(judged: &Judged, problem: &Problem, wanted: &Wanted) {
    let before = guided_slices(problem, 0);
    let mut after = before.clone();
    after.log = wanted.log_slice(problem, 0).into();
    after.plan = wanted.plan_slice(problem, 0).into();
    let answer = wanted.answer(wanted.log.len());
    assert_eq!(check::guided(judged, &before, &after, answer), Ok(()));
    for (at, pair) in wanted.log.iter().enumerate().rev().take(10) {
        for other in beside(problem, *pair as usize) {
            after.log[at] = other as u32;
            let found = check::guided(judged, &before, &after, answer);
            assert!(found.is_err(), "log[{at}] {other} for {pair}");
        }
        after.log[at] = *pair;
    }
}
