//! The shipped example, and the marked cases (a) to (j).

use planner_bench::cases::example_problem;
use planner_bench::files::{
    read_both, write_chart, write_diagram, Chart, Diagram, Node, Problem, Step,
};
use planner_bench::lent::Lent;
use planner_bench::planner::{self, Answer, GuidedSlices, SweepSlices};
use planner_bench::reference::rules::verdict;
use planner_bench::reference::ways::{cost_of, set_of};
use planner_bench::reference::{cost_slice, Facts, UNREACHED};

/// What the files of a problem are read as.
fn read(problem: &Problem) -> Problem {
    let files = (write_chart(&problem.chart), write_diagram(&problem.diagram));
    read_both(&files.0, &files.1).expect("sound files")
}

/// The facts, by both methods.
fn facts(problem: &Problem) -> Facts {
    let problem = read(problem);
    let facts = Facts::by_dynamic_programming(&problem);
    assert_eq!(Some(&facts), Facts::by_enumeration(&problem, 1_000).as_ref());
    facts
}

fn problem(stages: u16, ends: (u16, u16), steps: &[(u16, u16, u32)], diagram: Diagram) -> Problem {
    let steps = steps.iter().map(|(from, to, cost)| Step::new(*from, *to, *cost));
    let chart = Chart { stages, start: ends.0, end: ends.1, steps: steps.collect() };
    Problem { chart, diagram }
}

fn constant(root: u16) -> Diagram {
    Diagram { root, nodes: Vec::new() }
}

fn legal_cost(problem: &Problem, steps: &[u16]) -> (u32, bool) {
    let problem = read(problem);
    let present = set_of(&problem.chart, steps);
    (cost_of(&problem.chart, steps), verdict(&problem.diagram, &present))
}

/// Answers of both searches of every implementation, with the plans.
fn answers(problem: &Problem) -> Vec<(Answer, Vec<u16>)> {
    let (chart, rules) = (write_chart(&problem.chart), write_diagram(&problem.diagram));
    let work = || Lent::from(vec![7; problem.pairs()]);
    let plan = Lent::from(vec![9_999; problem.longest_plan()]);
    let sweep = SweepSlices::with(work, plan.clone());
    let guided = GuidedSlices::with(work, plan);
    let mut found = Vec::new();
    for planner in planner::all() {
        let (mut sweep, mut guided) = (sweep.clone(), guided.clone());
        found.push((planner.sweep(&chart, &rules, &mut sweep), sweep.plan.to_vec()));
        found.push((planner.guided(&chart, &rules, &mut guided), guided.plan.to_vec()));
    }
    found
}

/// What every implementation answers: sweep, guided search.
fn assert_answers(problem: &Problem, sweep: Answer, guided: Answer, plan: &[u16]) {
    for (at, (answer, written)) in answers(problem).into_iter().enumerate() {
        assert_eq!(answer, if at % 2 == 0 { sweep } else { guided });
        let length = answer.length as usize;
        assert_eq!(&written[..length], plan);
        assert!(written[length..].iter().all(|entry| *entry == 9_999));
    }
}

#[test]
fn a_the_cheapest_legal_plan_costs_200() {
    let problem = example_problem();
    let facts = facts(&problem);
    assert_eq!(facts.cheapest.map(|cheapest| cheapest.cost), Some(200));
    let sweep = Answer::accepted(200, 3, 6);
    assert_answers(&problem, sweep, Answer::accepted(200, 3, 4), &[1, 3, 5]);
    assert_eq!(facts.settled_range(), (4, 4));
}

#[test]
fn b_the_reached_pairs() {
    let facts = facts(&example_problem());
    let reached: Vec<usize> = (0..20).filter(|pair| facts.least[*pair].is_some()).collect();
    assert_eq!(reached, [3, 5, 6, 9, 13, 17]);
    assert_eq!(facts.reached(), 6);
    let costs = cost_slice(&facts);
    assert_eq!((costs[3], costs[5], costs[6], costs[17]), (0, 100, 50, 200));
    assert_eq!(costs[4], UNREACHED);
}

#[test]
fn c_the_estimates() {
    let facts = facts(&example_problem());
    let stages: Vec<u32> = facts.chart_estimate.iter().flatten().copied().collect();
    assert_eq!(stages, [150, 100, 100, 50, 0]);
    assert_eq!(facts.chart_estimate.len(), 256);
    assert!(facts.chart_estimate[5..].iter().all(Option::is_none));
    assert_eq!(facts.diagram_estimate, [None, Some(0), Some(200), Some(0)]);
}

#[test]
fn d_the_sums() {
    let facts = facts(&example_problem());
    let sums = [3, 5, 13, 17, 6, 9].map(|pair| facts.sum(pair));
    assert_eq!(sums, [150, 200, 200, 200, 250, 350].map(Some));
}

#[test]
fn e_and_f_one_plan_is_legal_and_one_is_not() {
    let problem = example_problem();
    assert_eq!(legal_cost(&problem, &[0, 3, 5]), (150, false));
    assert_eq!(legal_cost(&problem, &[0, 2, 4, 5]), (350, true));
}

#[test]
fn g_the_empty_plan() {
    let problem = problem(1, (0, 0), &[], constant(1));
    assert_eq!(facts(&problem).cheapest.map(|c| (c.cost, c.lengths)), Some((0, (0, 0))));
    let answer = Answer::accepted(0, 0, 1);
    assert_answers(&problem, answer, answer, &[]);
}

#[test]
fn h_no_plan_where_the_root_is_no() {
    let problem = problem(1, (0, 0), &[], constant(0));
    assert_eq!(facts(&problem).cheapest, None);
    assert_answers(&problem, Answer::no_plan(0), Answer::no_plan(0), &[]);
}

#[test]
fn i_a_goal_pair_that_is_not_at_node_1() {
    let diagram = Diagram { root: 2, nodes: vec![Node { step: 1, lo: 1, hi: 0 }] };
    let problem = problem(3, (0, 2), &[(0, 2, 5), (1, 2, 1)], diagram);
    let facts = facts(&problem);
    let goals: Vec<usize> = (0..9).filter(|pair| facts.is_goal(*pair)).collect();
    assert_eq!(goals, [8]);
    let answer = Answer::accepted(50, 1, 2);
    assert_answers(&problem, answer, answer, &[0]);
}

#[test]
fn j_no_plan_backwards() {
    let problem = problem(2, (1, 0), &[], constant(1));
    assert_eq!(facts(&problem).cheapest, None);
    assert_answers(&problem, Answer::no_plan(1), Answer::no_plan(0), &[]);
}

#[test]
fn start_equal_to_end_allows_the_empty_plan_alone() {
    let steps = [(0, 1, 0), (1, 2, 0)];
    let legal = problem(3, (0, 0), &steps, constant(1));
    assert_answers(&legal, Answer::accepted(0, 0, 3), Answer::accepted(0, 0, 1), &[]);
    let needs_step_0 = Diagram { root: 2, nodes: vec![Node { step: 0, lo: 0, hi: 1 }] };
    let illegal = problem(3, (0, 0), &steps, needs_step_0);
    assert_answers(&illegal, Answer::no_plan(3), Answer::no_plan(1), &[]);
}
