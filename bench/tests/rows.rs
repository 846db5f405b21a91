//! Where pairs stand: at stage × N + node in the cost slice, and by that number in the log. The charts
//! are small or sparse, and all numbers are worked out by hand, costs and sums in ticks of 50 ns. No sums
//! are equal but along a way, so that there is one log.

mod by_hand;

use by_hand::{diagram, problem, writes, Wanted};
use planner_bench::files::{Problem, Step};

/// From, to and ticks of each step. In the file the costs are rounded up to them.
fn steps(steps: &[(u16, u16, u32)]) -> Vec<Step> {
    let steps = steps.iter().zip(0..);
    let in_file =
        |((from, to, ticks), at): (&(u16, u16, u32), u32)| (*from, *to, 50 * ticks - at % 50);
    by_hand::steps(&steps.map(in_file).collect::<Vec<_>>())
}

/// Pairs with their costs in nanoseconds, by those in ticks.
fn of_ticks(pairs: &[(usize, u32)]) -> Vec<(usize, u32)> {
    pairs.iter().map(|(pair, ticks)| (*pair, 50 * ticks)).collect()
}

/// N is 3: rows start at 0, 3, 6, 9. From stage 1 at node 2: pair 5, cost 0. By step 1 to stage 2,
/// still at node 2: pair 8, cost 5. By step 3 to node 0; by step 4 to stage 3 at node 1: pair 10,
/// cost 9. Estimates of stages 1, 2, 3: 6, 1, 0, of node 2: 0. So the sums are 6, 6, 9.
#[test]
fn four_stages_of_three() {
    let steps = steps(&[(0, 1, 9), (1, 2, 5), (1, 2, 7), (2, 3, 1), (2, 3, 4)]);
    let problem = problem(4, (1, 3), steps, diagram(2, &[(3, 1, 0)]));
    let cost = of_ticks(&[(5, 0), (8, 5), (10, 9)]);
    writes(&problem, &Wanted { cost: &cost, log: &[5, 8, 10], plan: Some(&[1, 4]) });
}

/// N is 4: rows start at 0, 4, 8, 12, 16, 20; stages 1 and 3 are passed over. Step 0 takes node 3 to
/// node 2: pair 10, cost 10. By step 2 that stays: pair 18, cost 30, the goal. Past it step 4 leads to
/// stage 5 at node 1: pair 21, cost 33, without an estimate. Estimates of stages 0, 2, 4: 30, 20, 0,
/// of nodes 2, 3: 0, 10. So all three sums are 30.
#[test]
fn rows_that_are_passed_over_are_empty() {
    let steps = steps(&[(0, 2, 10), (0, 5, 1), (2, 4, 20), (2, 5, 2), (4, 5, 3)]);
    let problem = problem(6, (0, 4), steps, diagram(3, &[(3, 1, 0), (0, 0, 2)]));
    let cost = of_ticks(&[(3, 0), (10, 10), (18, 30), (21, 33)]);
    writes(&problem, &Wanted { cost: &cost, log: &[3, 10, 18], plan: Some(&[0, 2]) });
}

/// Two links of parallel steps.
fn two_links() -> Vec<Step> {
    steps(&[(0, 1, 1), (0, 1, 2), (0, 1, 4), (1, 2, 8), (1, 2, 16)])
}

/// N is 5: rows start at 0, 5, 10. The root, 4, asks about step 1: then step 4 must come (node 2), else
/// it must not (node 3). Stage 1 is reached by step 0 at node 4 (pair 9, cost 1), by 1 at 2 (pair 7,
/// cost 2), by 2 at 3 (pair 8, cost 4). From 9 and 8 step 3 leads to node 3 (pair 13, cost 9), from 7
/// to node 2 (pair 12, cost 10), and step 4 from 7 to node 1 (pair 11, cost 18). Estimates of stages:
/// 9, 8, 0, of nodes 1 to 4: 0, 16, 0, 0. Sums of 4, 9, 13: 9; of 8: 12, of 7: 18.
#[test]
fn every_inner_node_of_a_row() {
    let rules = diagram(4, &[(4, 0, 1), (4, 1, 0), (1, 3, 2)]);
    let problem = problem(3, (0, 2), two_links(), rules);
    let cost = of_ticks(&[(4, 0), (7, 2), (8, 4), (9, 1), (11, 18), (12, 10), (13, 9)]);
    writes(&problem, &Wanted { cost: &cost, log: &[4, 9, 13], plan: Some(&[0, 3]) });
}

/// N is 4: rows start at 0, 4, 8. The root, 3, wants step 3 and node 2 wants step 4; no way takes both.
/// Pairs 3, 7, 10 at costs 0, 1, 9. Estimates of stages: 9, 8, 0, of nodes 2, 3: 16, 24. Sums: 24,
/// 25, 25.
#[test]
fn without_a_plan() {
    let problem = problem(3, (0, 2), two_links(), diagram(3, &[(4, 0, 1), (3, 0, 2)]));
    let cost = of_ticks(&[(3, 0), (7, 1), (10, 9)]);
    writes(&problem, &Wanted { cost: &cost, log: &[3, 7, 10], plan: None });
}

/// N is 2: row starts are the even numbers up to 510, and node 1 of stage s is 2s + 1. A step of cost
/// 1 leads from each stage to the next.
#[test]
fn a_way_through_256_rows() {
    let links: Vec<(u16, u16, u32)> = (0..255).map(|from| (from, from + 1, 1)).collect();
    let ways: [(u16, u16); 6] = [(0, 255), (0, 254), (0, 128), (1, 255), (128, 255), (254, 255)];
    for (start, end) in ways {
        let problem = problem(256, (start, end), steps(&links), diagram(1, &[]));
        let reached = start..256;
        let cost: Vec<(usize, u32)> =
            reached.map(|stage| (2 * usize::from(stage) + 1, u32::from(stage - start))).collect();
        let cost = of_ticks(&cost);
        let log: Vec<u32> = (start..=end).map(|stage| 2 * u32::from(stage) + 1).collect();
        let plan: Vec<u16> = (start..end).collect();
        writes(&problem, &Wanted { cost: &cost, log: &log, plan: Some(&plan) });
    }
}

/// Pair 511 alone: stage 255 at node 1. It is the goal, or the end lies before it.
#[test]
fn the_start_in_the_last_row() {
    let cost = of_ticks(&[(511, 0)]);
    let here = problem(256, (255, 255), steps(&[(0, 255, 1)]), diagram(1, &[]));
    writes(&here, &Wanted { cost: &cost, log: &[511], plan: Some(&[]) });
    let back = problem(256, (255, 0), steps(&[(0, 255, 1)]), diagram(1, &[]));
    writes(&back, &Wanted { cost: &cost, log: &[], plan: None });
}

/// N is 511: row 128 starts at 65,408, below 65,536, and its node 510 is pair 65,918. The root, 510,
/// asks about the last step, which leaves stage 127; nothing leads there.
#[test]
fn a_row_across_65536() {
    let mut all = vec![(0, 128, 7)];
    all.extend(vec![(127, 128, 1); 509]);
    let nodes: Vec<(u16, u16, u16)> = (2..=510).map(|node| (node - 1, 1, 0)).collect();
    let problem = problem(129, (0, 128), steps(&all), diagram(510, &nodes));
    let cost = of_ticks(&[(510, 0), (65_918, 7)]);
    writes(&problem, &Wanted { cost: &cost, log: &[510, 65_918], plan: Some(&[0]) });
}

/// 256 stages and N = 512: rows 127, 128 and 255 start at 65,024, 65,536 and 130,560. The root, 511,
/// asks about step 4: then step 7 must come (node 2), else step 6 is judged by node 510. The nodes
/// from 2 to 509 want one of the steps 7 to 514 each, which leave stage 254; nothing leads there.
fn full_size(judges_step_6: (u16, u16)) -> Problem {
    let mut all = vec![
        (0, 127, 1),
        (0, 128, 3),
        (127, 128, 1),
        (128, 255, 10),
        (128, 255, 20),
        (128, 255, 30),
        (128, 255, 40),
    ];
    all.extend(vec![(254, 255, 5); 508]);
    let mut nodes: Vec<(u16, u16, u16)> = (2..=509).map(|node| (node + 5, 0, 1)).collect();
    let (lo, hi) = judges_step_6;
    nodes.push((6, lo, hi));
    nodes.push((4, 510, 2));
    problem(256, (0, 255), steps(&all), diagram(511, &nodes))
}

/// Step 6 must not come. The ways stand at node 511 at stage 127 (pair 65,535, cost 1), at 128 (pair
/// 66,047, cost 2 by steps 0 and 2) and by step 3 at 255 (pair 131,071, cost 12). Step 4 leads to node
/// 2 (pair 130,562, cost 22), step 5 to node 510 (pair 131,070, cost 32), step 6 to node 0. Estimates
/// of stages 0, 127, 128, 255: 12, 11, 10, 0, of node 511: 0. So the sums up to 131,071 are 12.
#[test]
fn up_to_pair_131071() {
    let cost = of_ticks(&[
        (511, 0),
        (65_535, 1),
        (66_047, 2),
        (131_071, 12),
        (130_562, 22),
        (131_070, 32),
    ]);
    let log = [511, 65_535, 66_047, 131_071];
    let wanted = Wanted { cost: &cost, log: &log, plan: Some(&[0, 2, 3]) };
    writes(&full_size((1, 0)), &wanted);
}

/// Step 6 must come: it leads to node 1 (pair 130,561, cost 42), the only goal. Estimates of nodes 2,
/// 510, 511: 5, 40, 25. Sums: 511: 25, 65,535: 26, 66,047: 27, 130,562: 22 + 5, 131,071: 12 + 25,
/// 131,070: 32 + 40, 130,561: 42.
#[test]
fn several_pairs_of_the_last_row_are_settled() {
    let cost = of_ticks(&[
        (511, 0),
        (65_535, 1),
        (66_047, 2),
        (131_071, 12),
        (130_562, 22),
        (131_070, 32),
        (130_561, 42),
    ]);
    let log = [511, 65_535, 66_047, 130_562, 131_071, 130_561];
    let wanted = Wanted { cost: &cost, log: &log, plan: Some(&[0, 2, 6]) };
    writes(&full_size((0, 1)), &wanted);
}
