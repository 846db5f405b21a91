//! Planners with the mistakes that REFERENCE rules out: the differential test must find each soon.

use planner_bench::cases::Cases;
use planner_bench::compare::run;
use planner_bench::files::{Chart, Diagram, Problem, TICK};
use planner_bench::generate::steps::file_costs;
use planner_bench::planner::{Answer, GuidedSlices, Planner, SweepSlices};
use planner_bench::reference::rules::{advance, finish};
use planner_bench::reference::{judge, too_short, UNREACHED};
use planner_bench::same::Same;

#[derive(Clone, Copy, PartialEq, Eq)]
enum Mistake {
    None,
    OnlyNodeOne,
    NodeZeroThroughHi,
    TraceStopsEarly,
    TraceWithoutPlan,
    OneWayPerStage,
    CostsOfTheFile,
    SumsRounded,
}

/// A plain sweep with one mistake; its guided search is sound.
struct Mistaken(Mistake);

impl Planner for Mistaken {
    fn name(&self) -> &'static str {
        "mistaken"
    }

    fn sweep(&self, chart: &[u8], rules: &[u8], lent: &mut SweepSlices) -> Answer {
        let mut problem = match judge(chart, rules) {
            Err(fault) => {
                return Answer::refused(fault.number, fault.file, fault.place);
            }
            Ok(facts) if too_short(&facts.problem, &lent.work_lengths(), lent.plan.len()) => {
                return Answer::refused(7, 0, 0);
            }
            Ok(facts) => facts.problem,
        };
        if matches!(self.0, Mistake::CostsOfTheFile | Mistake::SumsRounded) {
            let costs = file_costs(chart);
            problem.chart = problem.chart.with_costs(|number, _| costs[number]);
        }
        let answer = self.search(&problem, lent);
        if self.0 == Mistake::SumsRounded {
            return rounded(&problem, lent, answer);
        }
        answer
    }

    fn guided(&self, chart: &[u8], rules: &[u8], lent: &mut GuidedSlices) -> Answer {
        Same.guided(chart, rules, lent)
    }
}

impl Mistaken {
    fn search(&self, problem: &Problem, lent: &mut SweepSlices) -> Answer {
        let Problem { chart, diagram } = problem;
        let references = diagram.references();
        let mut before: Vec<Option<(usize, u16)>> = vec![None; problem.pairs()];
        lent.cost[..problem.pairs()].fill(UNREACHED);
        if diagram.root != 0 {
            lent.cost[usize::from(chart.start) * references + usize::from(diagram.root)] = 0;
        }
        for number in 0..chart.steps.len() {
            self.relax(problem, number, &mut lent.cost, &mut before);
        }
        let count = lent.cost[..problem.pairs()].iter().filter(|cost| **cost != UNREACHED).count();
        let row = usize::from(chart.end) * references;
        let goal = (row..row + references)
            .filter(|pair| lent.cost[*pair] != UNREACHED && self.is_goal(diagram, pair - row))
            .min_by_key(|pair| lent.cost[*pair]);
        let Some(goal) = goal else {
            if self.0 == Mistake::TraceWithoutPlan {
                lent.plan.iter_mut().for_each(|entry| *entry = 0);
            }
            return Answer::no_plan(count);
        };
        let plan = self.trace(&before, goal);
        lent.plan[..plan.len()].copy_from_slice(&plan);
        Answer::accepted(lent.cost[goal], plan.len(), count)
    }

    fn relax(
        &self,
        Problem { chart, diagram }: &Problem,
        number: usize,
        cost: &mut [u32],
        before: &mut [Option<(usize, u16)>],
    ) {
        let step = chart.steps[number];
        let references = diagram.references();
        for node in 0..references {
            let from = usize::from(step.from) * references + node;
            if cost[from] == UNREACHED || self.is_beaten(chart, references, from, cost) {
                continue;
            }
            let next = usize::from(advance(diagram, node as u16, chart.group(number as u16)));
            if next == 0 && self.0 != Mistake::NodeZeroThroughHi {
                continue;
            }
            let to = usize::from(step.to) * references + next;
            if cost[from] + step.cost < cost[to] {
                cost[to] = cost[from] + step.cost;
                before[to] = Some((from, number as u16));
            }
        }
    }

    /// With one way kept per stage: whether another pair of this stage is cheaper.
    fn is_beaten(&self, _chart: &Chart, references: usize, pair: usize, cost: &[u32]) -> bool {
        let row = pair - pair % references;
        self.0 == Mistake::OneWayPerStage
            && cost[row..row + references].iter().any(|other| *other < cost[pair])
    }

    fn is_goal(&self, diagram: &Diagram, node: usize) -> bool {
        match self.0 {
            Mistake::OnlyNodeOne => node == 1,
            _ => finish(diagram, node as u16) == 1,
        }
    }

    fn trace(&self, before: &[Option<(usize, u16)>], goal: usize) -> Vec<u16> {
        let mut plan = Vec::new();
        let mut pair = goal;
        while let Some((from, step)) = before[pair] {
            plan.insert(0, step);
            pair = from;
        }
        if self.0 == Mistake::TraceStopsEarly && !plan.is_empty() {
            plan.remove(0);
        }
        plan
    }
}

/// Sums rounded at the end.
fn rounded(problem: &Problem, lent: &mut SweepSlices, answer: Answer) -> Answer {
    let costs = lent.cost[..problem.pairs()].iter_mut();
    costs.filter(|cost| **cost != UNREACHED).for_each(|cost| *cost = cost.next_multiple_of(TICK));
    Answer { cost: answer.cost.next_multiple_of(TICK), ..answer }
}

/// How many random cases pass before the first difference, up to a limit.
fn passed_cases(mistake: Mistake, limit: usize) -> usize {
    let planners: Vec<Box<dyn Planner>> = vec![Box::new(Mistaken(mistake))];
    let cases = Cases::new(10);
    let first = cases.first_random();
    (0..limit).find(|at| run(&cases.case(first + at), &planners).is_err()).unwrap_or(limit)
}

#[test]
fn each_named_mistake_is_found_within_some_hundred_cases() {
    assert_eq!(passed_cases(Mistake::None, 2_000), 2_000);
    for mistake in [
        Mistake::OnlyNodeOne,
        Mistake::NodeZeroThroughHi,
        Mistake::TraceStopsEarly,
        Mistake::TraceWithoutPlan,
        Mistake::OneWayPerStage,
        Mistake::CostsOfTheFile,
        Mistake::SumsRounded,
    ] {
        assert!(passed_cases(mistake, 300) < 300);
    }
}
