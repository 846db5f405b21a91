//! Costs in whole ticks of 50 ns: which cost a file's value becomes, which values are refused, and
//! problems in which rounding decides. All numbers are worked out by hand.

mod by_hand;

use std::collections::BTreeSet;

use by_hand::{diagram, judged, problem, steps, writes, Wanted};
use planner_bench::cases::Case;
use planner_bench::check;
use planner_bench::compare::run;
use planner_bench::files::{read_both, write_chart, write_diagram, Problem};
use planner_bench::generate::ticks::{any, systematic, ties};
use planner_bench::generate::Random;
use planner_bench::planner::{self, Answer, GuidedSlices, Planner};
use planner_bench::textbook::Textbook;

/// Values of a file and what they cost.
const COSTS: [(u32, u32); 19] = [
    (0, 0),
    (1, 50),
    (25, 50),
    (49, 50),
    (50, 50),
    (51, 100),
    (99, 100),
    (100, 100),
    (101, 150),
    (999, 1_000),
    (1_000, 1_000),
    (1_001, 1_050),
    (65_536, 65_550),
    (819_201, 819_250),
    (999_949, 999_950),
    (999_950, 999_950),
    (999_951, 1_000_000),
    (999_999, 1_000_000),
    (1_000_000, 1_000_000),
];

/// Values beyond the limit; from the last but one on they are 0 when rounded in 32 bits.
const BEYOND: [u32; 9] = [
    1_000_001,
    1_000_024,
    1_000_049,
    1_000_050,
    16_777_216,
    2_147_483_648,
    4_294_967_246,
    4_294_967_247,
    4_294_967_295,
];

/// Without a rule N is 2 and the chart estimate tells the cost: pairs 1 and 3. With node 2, which wants
/// the step, N is 3 and both estimates tell it: pairs 2 and 4.
#[test]
fn each_value_costs_whole_ticks() {
    for (value, cost) in COSTS {
        let all = || steps(&[(0, 1, value)]);
        let free = problem(2, (0, 1), all(), diagram(1, &[]));
        writes(&free, &Wanted { cost: &[(1, 0), (3, cost)], log: &[1, 3], plan: Some(&[0]) });
        let wanted = problem(2, (0, 1), all(), diagram(2, &[(0, 0, 1)]));
        writes(&wanted, &Wanted { cost: &[(2, 0), (4, cost)], log: &[2, 4], plan: Some(&[0]) });
        let facts = judged(&wanted);
        assert_eq!((facts.chart_estimate[0], facts.diagram_estimate[2]), (Some(cost), Some(cost)));
    }
}

/// Each value as one of the two steps from 0 to 1 and from 1 to 2; the other one costs a tick.
#[test]
fn costs_are_rounded_one_by_one() {
    for (value, cost) in COSTS {
        let (first, second) =
            ([(1, 0), (3, cost), (5, cost + 50)], [(1, 0), (3, 50), (5, cost + 50)]);
        for (values, sums) in [([value, 1], first), ([1, value], second)] {
            let all = steps(&[(0, 1, values[0]), (1, 2, values[1])]);
            let two = problem(3, (0, 2), all, diagram(1, &[]));
            writes(&two, &Wanted { cost: &sums, log: &[1, 3, 5], plan: Some(&[0, 1]) });
        }
    }
}

/// N is 2: node 1 of stage s is pair 2s + 1. The dearest plan costs 255,000,000.
#[test]
fn sums_of_255_steps() {
    for (value, cost) in [(999_951, 1_000_000), (1_000_000, 1_000_000), (999_949, 999_950), (1, 50)]
    {
        let links: Vec<(u16, u16, u32)> = (0..255).map(|from| (from, from + 1, value)).collect();
        let chain = problem(256, (0, 255), steps(&links), diagram(1, &[]));
        let costs: Vec<(usize, u32)> =
            (0..256).map(|at| (2 * at as usize + 1, at * cost)).collect();
        let log: Vec<u32> = (0..256).map(|at| 2 * at + 1).collect();
        let plan: Vec<u16> = (0..255).collect();
        writes(&chain, &Wanted { cost: &costs, log: &log, plan: Some(&plan) });
    }
}

/// A chart of three stages with a sound step and one of a cost, and what every implementation shows of
/// the second.
fn shows_its_bytes(ends: [u8; 4], cost: u32, refused: (u32, usize)) {
    let [a, b, c, d] = cost.to_le_bytes();
    let field = [&[0x02, 8, 0][..], &ends, &[a, b, c, d]].concat();
    let sound = [0x02, 8, 0, 0, 0, 1, 0, 7, 0, 0, 0];
    let chart = [&[0x01, 6, 0, 3, 0, 0, 0, 2, 0][..], &sound, &field].concat();
    let rules = [0x11, 2, 0, 1, 0];
    let fault = read_both(&chart, &rules).expect_err("a bad step");
    assert_eq!(((fault.number, fault.place), fault.file), (refused, 1), "{cost}");
    for dirt in 0..2 {
        let case = Case::new("test", (chart.clone(), rules.to_vec()), dirt);
        assert!(run(&case, &planner::all()).is_ok(), "{cost}");
    }
    for planner in planner::complete() {
        let mut shown = [0; 11];
        let length = planner.refused_field(&chart, &rules, 1, fault.place, &mut shown);
        assert_eq!((length, &shown[..]), (Some(11), &field[..]), "{}", planner.name());
    }
}

#[test]
fn the_limit_judges_the_files_value_and_the_field_shows_it() {
    for cost in BEYOND {
        shows_its_bytes([1, 0, 2, 0], cost, (11, 20));
        // From is not below to: that comes first.
        shows_its_bytes([1, 0, 1, 0], cost, (10, 20));
    }
    for (cost, _) in COSTS {
        shows_its_bytes([2, 0, 2, 0], cost, (10, 20));
    }
}

/// By the file three steps cost 51 and one costs 100; in whole ticks 150 and 100. Estimates of stages
/// 0 to 3: 100, 100, 50, 0. Sums of pairs 1, 3, 5, 7: 100, 150, 150, 100.
#[test]
fn one_long_step_beats_three_short_ones() {
    let all = steps(&[(0, 1, 17), (0, 3, 100), (1, 2, 17), (2, 3, 17)]);
    let problem = problem(4, (0, 3), all, diagram(1, &[]));
    let cost = [(1, 0), (3, 50), (5, 100), (7, 100)];
    writes(&problem, &Wanted { cost: &cost, log: &[1, 7], plan: Some(&[1]) });
}

/// By the file three steps cost 103 and two cost 102; in whole ticks 150 and 200. Estimates of stages 0
/// to 4: 150, 100, 50, 100, 0. Sums of pairs 1, 3, 5, 9: 150, of pair 7: 200.
#[test]
fn three_steps_beat_two() {
    let all = steps(&[(0, 1, 50), (0, 3, 51), (1, 2, 50), (2, 4, 3), (3, 4, 51)]);
    let problem = problem(5, (0, 4), all, diagram(1, &[]));
    let cost = [(1, 0), (3, 50), (5, 100), (7, 100), (9, 150)];
    writes(&problem, &Wanted { cost: &cost, log: &[1, 3, 5, 9], plan: Some(&[0, 2, 3]) });
}

/// Three ways to stage 6. By stage 1 for 51 and 1: in whole ticks 150, by the file 52. By stage 2 for
/// 50 and 50, by stages 3, 4, 5 for 1 each; the last step of both is not legal. N is 4. Estimates of
/// stages 0 to 6: 100, 50, 50, 150, 100, 50, 0, of nodes 2 and 3: 0. Sums of pairs 3, 11: 100 (by the
/// file 100 of pair 11 is too much), of 7, 27: 150, of 15, 18, 22: 200 (by the file 4, too little).
#[test]
fn the_settled_pairs_are_those_by_whole_ticks() {
    let all = steps(&[
        (0, 1, 51),
        (0, 2, 50),
        (0, 3, 1),
        (1, 6, 1),
        (2, 6, 50),
        (3, 4, 1),
        (4, 5, 1),
        (5, 6, 1),
    ]);
    let problem = problem(7, (0, 6), all, diagram(3, &[(7, 1, 0), (4, 2, 0)]));
    let sums = [3, 11, 7, 27, 15, 18, 22].map(|pair| judged(&problem).sum(pair));
    assert_eq!(sums, [100, 100, 150, 150, 200, 200, 200].map(Some));
    let cost = [(3, 0), (7, 100), (11, 50), (15, 50), (18, 100), (22, 150), (27, 150)];
    writes(&problem, &Wanted { cost: &cost, log: &[3, 11, 7, 27], plan: Some(&[0, 3]) });
}

/// A free step leads to stage 4 from everywhere, so that chart estimates are 0, but the root, 6, wants
/// steps 0 and 3 (node 5) or steps 1, 5, 7 (nodes 4, 3, 2). N is 7. Estimates of nodes 2 to 6: 50, 100,
/// 150, 50, 100; that of node 3 is 2 by the file, and that rounded 50. Sums of pairs 6, 12, 29: 100, of
/// 17, 23: 150.
#[test]
fn the_diagram_estimate_is_of_whole_ticks() {
    let all = steps(&[
        (0, 1, 50),
        (0, 2, 1),
        (0, 4, 0),
        (1, 4, 50),
        (1, 4, 0),
        (2, 3, 1),
        (2, 4, 0),
        (3, 4, 1),
        (3, 4, 0),
    ]);
    let rules = diagram(6, &[(7, 0, 1), (5, 0, 2), (1, 0, 3), (3, 0, 1), (0, 4, 5)]);
    let problem = problem(5, (0, 4), all, rules);
    let estimates = [None, Some(0), Some(50), Some(100), Some(150), Some(50), Some(100)];
    assert_eq!(judged(&problem).diagram_estimate, estimates);
    let cost = [(6, 0), (12, 50), (17, 50), (23, 100), (29, 100)];
    writes(&problem, &Wanted { cost: &cost, log: &[6, 12, 29], plan: Some(&[0, 3]) });
}

/// Two ways of two steps, for 26 each by stage 1 and for 40 each by stage 2: both cost 100 in whole
/// ticks, and so do all sums. Either way may be the plan, with the other's stage settled or not.
#[test]
fn rounding_makes_ties() {
    let all = steps(&[(0, 1, 26), (0, 2, 40), (1, 3, 26), (2, 3, 40)]);
    let problem = problem(4, (0, 3), all, diagram(1, &[]));
    let facts = judged(&problem);
    assert_eq!([1, 3, 5, 7].map(|pair| facts.sum(pair)), [Some(100); 4]);
    assert_eq!(facts.settled_range(), (3, 4));
    let right: [(&[u32], [u16; 2]); 6] = [
        (&[1, 3, 7], [0, 2]),
        (&[1, 5, 7], [1, 3]),
        (&[1, 3, 5, 7], [0, 2]),
        (&[1, 3, 5, 7], [1, 3]),
        (&[1, 5, 3, 7], [0, 2]),
        (&[1, 5, 3, 7], [1, 3]),
    ];
    let before = GuidedSlices::of(problem.pairs(), 3);
    for (log, plan) in right {
        let mut after = before.clone();
        after.log[..log.len()].copy_from_slice(log);
        after.plan[..2].copy_from_slice(&plan);
        let checked = |cost| {
            let answer = Answer::accepted(cost, 2, log.len());
            check::guided(&Ok(facts.clone()), &before, &after, answer)
        };
        assert_eq!(checked(100), Ok(()));
        assert!([52, 80, 99, 101, 150].into_iter().all(|cost| checked(cost).is_err()));
    }
}

/// A planner's guided search, which finds a plan.
fn guided(planner: &dyn Planner, problem: &Problem) -> Answer {
    let (chart, rules) = (write_chart(&problem.chart), write_diagram(&problem.diagram));
    let mut lent = GuidedSlices::of(problem.pairs(), problem.longest_plan());
    let answer = planner.guided(&chart, &rules, &mut lent);
    assert_eq!(answer.number, 0, "{}: {answer:?}", planner.name());
    answer
}

/// Of pairs with a sum that is the plan's cost, those that are opened last are settled first: the search
/// goes on along one way and finds the goal without the others, be they nearly all that are reached.
#[test]
fn ties_are_broken_for_the_way_that_is_furthest() {
    let mut wide = 0;
    for problem in ties() {
        let facts = judged(&problem);
        let (fewest, most) = facts.settled_range();
        for planner in planner::complete() {
            let Answer { count, length, .. } = guided(planner.as_ref(), &problem);
            assert!(count <= fewest + length, "{}: {count}, {fewest}", planner.name());
            wide += usize::from(fewest <= length + 1 && most > 8 * fewest);
        }
    }
    // More than eight times as many could be settled.
    assert!(wide >= 10, "{wide}");
}

/// One that prefers the lowest stage among equal sums settles nearly all of them.
#[test]
fn ties_that_are_broken_badly_show() {
    let mut bad = 0;
    for problem in ties() {
        let (fewest, most) = judged(&problem).settled_range();
        let Answer { count, length, .. } = guided(&Textbook, &problem);
        bad += usize::from(count > fewest + length && 2 * count > most);
    }
    assert!(bad >= 10, "{bad}");
}

/// The costs of the steps as written and as read.
fn costs(problem: &Problem) -> [Vec<u32>; 2] {
    let of = |problem: &Problem| problem.chart.steps.iter().map(|step| step.cost).collect();
    [of(problem), of(&judged(problem).problem)]
}

#[test]
fn ties_have_different_costs_that_are_rounded_to_the_same() {
    let mut different = 0;
    for problem in ties() {
        let [written, read] =
            costs(&problem).map(|costs| costs.into_iter().collect::<BTreeSet<_>>());
        assert!(read.len() <= 2 && read.iter().all(|cost| cost % 50 == 0));
        let all = problem.chart.steps.len();
        assert!(read.contains(&0) || written.len() == all.min(50), "{all} steps, {written:?}");
        different += usize::from(written.len() == all && read.len() == 1);
    }
    assert!(different >= 10, "{different}");
}

#[test]
fn problems_of_ticks_are_sound() {
    let mut random = Random::new(71);
    let drawn: Vec<Problem> = (0..2_000).map(|_| any(&mut random)).collect();
    for problem in systematic().iter().chain(&drawn) {
        let files = (write_chart(&problem.chart), write_diagram(&problem.diagram));
        assert_eq!(read_both(&files.0, &files.1), Ok(problem.rounded()));
    }
}
