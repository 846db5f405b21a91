//! The benchmark's groups of loads are what their names say.

use planner_bench::cases::example_problem;
use planner_bench::files::read_both;
use planner_bench::loads::{groups, growth, remarks, standard, Group};
use planner_bench::planner::{GuidedSlices, Planner};
use planner_bench::same::Same;

#[test]
fn few_pairs_of_charts_with_long_steps_are_settled() {
    let loads: Vec<_> =
        standard().into_iter().filter(|load| load.group == Group::LongSteps).collect();
    assert_eq!(loads.len(), 14);
    for load in loads {
        let problem = read_both(&load.chart, &load.rules).expect("sound files");
        let pairs = problem.pairs();
        let mut lent = GuidedSlices::of(pairs, problem.longest_plan());
        let answer = Same.guided(&load.chart, &load.rules, &mut lent);
        assert!([0, 8].contains(&answer.number), "{}: {answer:?}", load.name);
        assert!(1_000 * (answer.count as usize) < pairs, "{}: {}", load.name, answer.count);
        assert_eq!(problem.chart.steps.len(), 1_024);
        let longest = problem.chart.steps.iter().map(|step| step.to - step.from).max();
        assert!(longest >= Some(30), "{}", load.name);
    }
}

#[test]
fn small_charts_are_small() {
    let small: Vec<_> = standard().into_iter().filter(|load| load.group == Group::Small).collect();
    assert_eq!(small.len(), 13);
    for load in small {
        let problem = read_both(&load.chart, &load.rules).expect("sound files");
        assert!(problem.chart.stages <= 40 && problem.chart.steps.len() <= 120, "{}", load.name);
    }
}

/// Every rule names groups that are taken and some that need not be: a plan goes past each stage once.
#[test]
fn charts_with_groups_are_a_group_of_their_own() {
    let loads = groups();
    let sizes = loads.iter().map(|load| {
        let problem = read_both(&load.chart, &load.rules).expect("sound files");
        let mut lent = GuidedSlices::of(problem.pairs(), problem.longest_plan());
        let answer = Same.guided(&load.chart, &load.rules, &mut lent);
        assert_eq!((answer.number, load.group), (0, Group::Groups), "{}", load.name);
        assert!(answer.count > 50, "{}: {}", load.name, answer.count);
        (problem.chart.steps.len(), problem.chart.groups(), problem.diagram.nodes.len())
    });
    assert_eq!(sizes.collect::<Vec<_>>(), [(1_024, 512, 510), (1_024, 128, 271)]);
    let mut others = standard().into_iter().chain(growth()).chain(remarks());
    assert!(others.all(|load| load.group != Group::Groups));
}

#[test]
fn remarks_are_a_group_of_their_own() {
    let [load] = &remarks()[..] else { panic!("one load") };
    assert_eq!(read_both(&load.chart, &load.rules), Ok(example_problem().rounded()));
    assert_eq!((load.chart.len(), load.rules.len()), (30_075, 30_023));
    let mut others = standard().into_iter().chain(growth());
    assert!(load.group == Group::Remarks && others.all(|load| load.group != Group::Remarks));
}
