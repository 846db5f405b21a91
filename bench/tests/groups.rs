//! Groups of steps: small charts by hand, with all that both searches write, lists, conjunctions and reductions;
//! every refusal that has to do with groups, by hand-written bytes; and charts without groups beside the same ones
//! with each step as a group alone.

mod by_hand;

use by_hand::{diagram, judged, problem, writes, Wanted};
use planner_bench::cases::{grouped_problem, Case, Cases};
use planner_bench::compare::run;
use planner_bench::files::{
    read_both, read_chart, tagged, write_chart, write_diagram, Problem, Step,
};
use planner_bench::generate::charts::random_chart_without_groups;
use planner_bench::generate::diagrams::random_diagram;
use planner_bench::generate::{groups, Random};
use planner_bench::planner::{
    self, Answer, ConjoinSlices, Cycle, CycleSlices, GuidedSlices, Space, SweepSlices,
};
use planner_bench::reference::judge;
use planner_bench::reference::rules::{stands_at, verdict};
use planner_bench::reference::ways::set_of;
use planner_bench::steps::{StepAtFault, DEAR, ENDS, FALLS, GROUP, SURPLUS};

const YES: [u8; 5] = [0x11, 2, 0, 1, 0];

/// Four stages from 0 to 3. Groups 2, 5 and 7 have steps; 0, 1, 3, 4 and 6 have none.
const CHART: [u8; 87] = [
    0x01, 6, 0, 4, 0, 0, 0, 3, 0, //
    0x03, 10, 0, 0, 0, 1, 0, 120, 0, 0, 0, 2, 0, // 150
    0x03, 10, 0, 0, 0, 2, 0, 40, 0, 0, 0, 2, 0, // 50
    0x03, 10, 0, 1, 0, 2, 0, 60, 0, 0, 0, 2, 0, // 100
    0x03, 10, 0, 1, 0, 3, 0, 44, 1, 0, 0, 5, 0, // 300
    0x03, 10, 0, 2, 0, 3, 0, 90, 0, 0, 0, 5, 0, // 100
    0x03, 10, 0, 2, 0, 3, 0, 180, 0, 0, 0, 7, 0, // 200
];

/// Group 2 is wanted, and then group 7, unless group 4 is there, which never is.
const RULES: [u8; 32] = [
    0x11, 2, 0, 4, 0, //
    0x12, 6, 0, 7, 0, 0, 0, 1, 0, //
    0x12, 6, 0, 4, 0, 2, 0, 1, 0, //
    0x12, 6, 0, 2, 0, 0, 0, 3, 0,
];

/// From, to, the file's cost and the group of each step.
fn steps(all: &[(u16, u16, u32, u16)]) -> Vec<Step> {
    let alone: Vec<_> = all.iter().map(|(from, to, cost, _)| (*from, *to, *cost)).collect();
    let alone = by_hand::steps(&alone).into_iter();
    alone.zip(all).map(|(step, (.., group))| step.of_group(*group)).collect()
}

fn example() -> Problem {
    let steps = [
        (0, 1, 120, 2),
        (0, 2, 40, 2),
        (1, 2, 60, 2),
        (1, 3, 300, 5),
        (2, 3, 90, 5),
        (2, 3, 180, 7),
    ];
    let diagram = diagram(4, &[(7, 0, 1), (4, 2, 1), (2, 0, 3)]);
    problem(4, (0, 3), self::steps(&steps), diagram)
}

#[test]
fn the_example_is_the_one_of_the_bytes() {
    assert_eq!(write_chart(&example().chart), CHART);
    assert_eq!(write_diagram(&example().diagram), RULES);
    let read = read_both(&CHART, &RULES).expect("sound files");
    assert_eq!(read, example().rounded());
    assert_eq!((read.chart.groups(), read.pairs(), read.longest_plan()), (8, 20, 3));
    let costs = [None, None, Some(50), None, None, Some(100), None, Some(200)];
    assert_eq!(read.chart.group_costs(), costs);
}

/// Pairs are stage × 5 + node. Step 2 is the second of group 2 on its way: node 3, of group 4, stays. Steps of
/// group 5 pass node 3 by lo and stand at node 2. The cheapest step of group 2 is its second.
#[test]
fn both_searches_write_the_example() {
    let facts = judged(&example());
    let stages = [Some(150), Some(200), Some(100), Some(0)];
    assert_eq!(facts.chart_estimate[..4], stages);
    assert_eq!(facts.diagram_estimate, [None, Some(0), Some(200), Some(200), Some(250)]);
    let sums = [4, 8, 13, 16, 17].map(|pair| facts.sum(pair));
    assert_eq!(sums, [Some(250), Some(350), Some(250), Some(250), Some(350)]);
    let wanted = Wanted {
        cost: &[(4, 0), (8, 150), (13, 50), (16, 250), (17, 150)],
        log: &[4, 13, 16],
        plan: Some(&[1, 5]),
    };
    writes(&example(), &wanted);
}

/// Steps 1 and 4 cost 150 and lack group 7.
#[test]
fn sets_are_of_groups() {
    let Problem { chart, diagram } = example();
    for (way, legal) in
        [(&[1, 5][..], true), (&[0, 2, 5], true), (&[1, 4], false), (&[0, 3], false)]
    {
        assert_eq!(verdict(&diagram, &set_of(&chart, way)), legal, "{way:?}");
    }
    assert_eq!(chart.groups_of(&[0, 2, 5]), [2, 2, 7]);
    let set = [false, false, true, false, false, false, false, true];
    assert_eq!(set_of(&chart, &[0, 2, 5]), set);
    let nodes = [(&[][..], 4), (&[2], 3), (&[2, 2], 3), (&[2, 5], 2), (&[2, 2, 7], 1), (&[5], 0)];
    for (groups, node) in nodes {
        assert_eq!(stands_at(&diagram, groups), node, "{groups:?}");
    }
}

/// From 0 to 2 no way takes group 7: pairs 4, 8 and 13 are settled. From 1 to 3 steps 2 and 5 are the plan, over
/// pairs 9, 13 and 16. From 0 to itself, from 2, and from 1 to 2 the start has an estimate, and all that follows
/// with one are pair 13 from 1 to 2: every other step leads to node 0 or past the end.
#[test]
fn a_list_over_groups() {
    let ends = [(0, 3), (0, 2), (1, 3), (0, 0), (2, 3), (0, 4), (1, 2), (3, 0), (0, 3)];
    let want = [
        (0, 250, 3),
        (8, 0, 3),
        (0, 300, 3),
        (8, 0, 1),
        (8, 0, 1),
        (4, 0, 0),
        (8, 0, 2),
        (8, 0, 0),
        (0, 250, 3),
    ];
    for planner in planner::all() {
        let list = ends.map(|(start, end)| Cycle::new(start, end)).to_vec();
        let mut lent = CycleSlices::of(20, list);
        let Some(answer) = planner.cycles(&CHART, &RULES, &mut lent) else { continue };
        assert_eq!(answer, Answer::default());
        for (record, want) in lent.list.iter().zip(want) {
            let found = (record.number, record.cost, record.count);
            assert_eq!(found, want, "{}: {record:?}", planner.name());
        }
    }
}

/// Two steps of group 1 one after the other: the node of group 3 stays.
#[test]
fn the_second_step_of_a_group_stays() {
    let steps = steps(&[(0, 1, 10, 1), (1, 2, 10, 1), (2, 3, 10, 3)]);
    let rules = diagram(3, &[(3, 0, 1), (1, 0, 2)]);
    let wanted = Wanted {
        cost: &[(3, 0), (6, 50), (10, 100), (13, 150)],
        log: &[3, 6, 10, 13],
        plan: Some(&[0, 1, 2]),
    };
    writes(&problem(4, (0, 3), steps.clone(), rules), &wanted);
    // Group 1 forbids nothing the second time.
    let rules = diagram(3, &[(3, 1, 0), (1, 0, 2)]);
    let wanted =
        Wanted { cost: &[(3, 0), (6, 50), (10, 100)], log: &[3, 6, 10], plan: Some(&[0, 1]) };
    writes(&problem(4, (0, 2), steps, rules), &wanted);
}

/// A group without steps is never there: with lo 0 its node has no estimate, though its hi is 1.
#[test]
fn a_group_without_steps() {
    let steps = steps(&[(0, 1, 1, 3)]);
    let over = |root, nodes: &[_]| problem(2, (0, 1), steps.clone(), diagram(root, nodes));
    let none = over(2, &[(1, 0, 1)]);
    assert_eq!(judged(&none).diagram_estimate, [None, Some(0), None]);
    writes(&none, &Wanted { cost: &[(2, 0)], log: &[], plan: None });
    let free = over(2, &[(1, 1, 0)]);
    assert_eq!(judged(&free).diagram_estimate, [None, Some(0), Some(0)]);
    writes(&free, &Wanted { cost: &[(2, 0), (4, 50)], log: &[2, 4], plan: Some(&[0]) });
    // Lo wants group 3, at 50; hi would be free.
    let dear = over(3, &[(3, 0, 1), (2, 2, 1)]);
    assert_eq!(judged(&dear).diagram_estimate, [None, Some(0), Some(50), Some(50)]);
    writes(&dear, &Wanted { cost: &[(3, 0), (5, 50)], log: &[3, 5], plan: Some(&[0]) });
    // Lo forbids group 3, which is the only way.
    let closed = over(3, &[(3, 1, 0), (0, 2, 1)]);
    assert_eq!(judged(&closed).diagram_estimate, [None, Some(0), Some(0), Some(0)]);
    writes(&closed, &Wanted { cost: &[(3, 0)], log: &[3], plan: None });
}

/// The highest group that there may be, for all steps.
#[test]
fn all_steps_in_group_1023() {
    let steps = steps(&[(0, 1, 49, 1_023), (0, 1, 51, 1_023), (1, 2, 0, 1_023)]);
    let over = |nodes: &[_]| problem(3, (0, 2), steps.clone(), diagram(2, nodes));
    let wanted = over(&[(1_023, 0, 1)]);
    assert_eq!(judged(&wanted).diagram_estimate, [None, Some(0), Some(0)]);
    let cost = &[(2, 0), (4, 50), (7, 50)];
    writes(&wanted, &Wanted { cost, log: &[2, 4, 7], plan: Some(&[0, 2]) });
    writes(&over(&[(1_023, 1, 0)]), &Wanted { cost: &[(2, 0)], log: &[2], plan: None });
}

/// The conjunction with a rule about group 6, which has no steps, keeps that; so does the reduction.
#[test]
fn conjunctions_and_reductions_keep_groups_without_steps() {
    let more = [0x11, 2, 0, 2, 0, 0x12, 6, 0, 6, 0, 1, 0, 0, 0];
    // 2 wants 7; 3 forbids 6 before that; 4 is what is left where 4 is there; 5 asks for 4 and the root for 2.
    let both = [
        0x11, 2, 0, 6, 0, //
        0x12, 6, 0, 7, 0, 0, 0, 1, 0, //
        0x12, 6, 0, 6, 0, 2, 0, 0, 0, //
        0x12, 6, 0, 6, 0, 1, 0, 0, 0, //
        0x12, 6, 0, 4, 0, 3, 0, 4, 0, //
        0x12, 6, 0, 2, 0, 0, 0, 5, 0,
    ];
    for planner in planner::all() {
        let mut lent = ConjoinSlices::of(5 * 3, both.len());
        if let Some(answer) = planner.conjoin(&CHART, &RULES, &more, &mut lent) {
            assert_eq!(answer, Answer::accepted(0, both.len(), 0), "{}", planner.name());
            assert_eq!(lent.file[..], both, "{}", planner.name());
        }
        // A double of node 2 and equal children of group 3 vanish.
        let padded = [
            0x11, 2, 0, 6, 0, //
            0x12, 6, 0, 7, 0, 0, 0, 1, 0, //
            0x12, 6, 0, 7, 0, 0, 0, 1, 0, //
            0x12, 6, 0, 4, 0, 3, 0, 1, 0, //
            0x12, 6, 0, 3, 0, 4, 0, 4, 0, //
            0x12, 6, 0, 2, 0, 0, 0, 5, 0,
        ];
        let mut file = [0xa5; 40];
        if let Some(answer) = planner.reduce(&CHART, &padded, &mut file) {
            assert_eq!(answer, Answer::accepted(0, RULES.len(), 0), "{}", planner.name());
            assert_eq!((&file[..32], &file[32..]), (&RULES[..], &[0xa5; 8][..]));
        }
    }
}

/// Every call of every implementation refuses these files so.
fn refuses(chart: &[u8], rules: &[u8], number: u32, file: u32, place: usize) {
    let fault = judge(chart, rules).expect_err("a fault");
    assert_eq!((fault.number, fault.file, fault.place), (number, file, place));
    let refused = Answer::refused(number, file, place);
    for planner in planner::all() {
        let name = planner.name();
        assert_eq!(planner.sweep(chart, rules, &mut SweepSlices::of(90, 9)), refused, "{name}");
        assert_eq!(planner.guided(chart, rules, &mut GuidedSlices::of(90, 9)), refused, "{name}");
        if let Some(space) = planner.space_needed(chart, rules) {
            assert_eq!(space, Space { number, file, place, work: 0, plan: 0 }, "{name}");
        }
        let mut lent = CycleSlices::of(90, vec![Cycle::new(0, 1)]);
        if let Some(answer) = planner.cycles(chart, rules, &mut lent) {
            assert_eq!((answer, &lent.list[..]), (refused, &[Cycle::new(0, 1)][..]), "{name}");
        }
        if let Some(answer) = planner.conjoin(chart, rules, &YES, &mut ConjoinSlices::of(90, 90)) {
            assert_eq!(answer, refused, "{name}");
        }
        if let Some(answer) = planner.reduce(chart, rules, &mut [0; 90]) {
            assert_eq!(answer, refused, "{name}");
        }
    }
    agree(chart, rules);
}

/// All calls are checked on slices of every kind.
fn agree(chart: &[u8], rules: &[u8]) {
    for dirt in 0..4 {
        let case = Case::new("test", (chart.to_vec(), rules.to_vec()), dirt);
        run(&case, &planner::all()).expect("no difference");
    }
}

const HEAD: [u8; 9] = [0x01, 6, 0, 4, 0, 0, 0, 3, 0];
/// From 1 to 2 at 5: without a group, and with groups 2, 1 and so on.
const STEP: [u8; 11] = [0x02, 8, 0, 1, 0, 2, 0, 5, 0, 0, 0];

const fn grouped(from: u8, to: u8, cost: u32, group: u16) -> [u8; 13] {
    let [a, b, c, d] = cost.to_le_bytes();
    let [low, high] = group.to_le_bytes();
    [0x03, 10, 0, from, 0, to, 0, a, b, c, d, low, high]
}

fn chart(fields: &[&[u8]]) -> Vec<u8> {
    [&[&HEAD[..]], fields].concat().concat()
}

/// The second step stands at 22, the third at 35.
#[test]
fn groups_beyond_their_limits_are_14() {
    let first = grouped(1, 2, 5, 2);
    for group in [1_024, 1_025, 1_026, 2_047, 0x7fff, 0x8000, 65_534, 65_535] {
        refuses(&chart(&[&grouped(1, 2, 5, group)]), &YES, 14, 1, 9);
        refuses(&chart(&[&first, &grouped(1, 2, 5, group)]), &YES, 14, 1, 22);
    }
    for group in [0, 1] {
        refuses(&chart(&[&first, &grouped(1, 2, 5, group)]), &YES, 14, 1, 22);
        refuses(&chart(&[&first, &first, &grouped(2, 3, 5, group)]), &YES, 14, 1, 35);
    }
    // Not below the first one, but below the one before.
    let high = grouped(1, 2, 5, 258);
    refuses(&chart(&[&first, &high, &grouped(1, 2, 5, 257)]), &YES, 14, 1, 35);
    refuses(&chart(&[&first, &high, &first]), &YES, 14, 1, 35);
    for groups in [[2, 2, 2], [0, 0, 1_023], [1_023, 1_023, 1_023], [5, 255, 256], [0, 1, 2]] {
        let fields = groups.map(|group| grouped(1, 2, 5, group));
        let sound = chart(&[&fields[0], &fields[1], &fields[2]]);
        assert!(read_chart(&sound).is_ok(), "{groups:?}");
        agree(&sound, &YES);
    }
}

#[test]
fn faults_of_a_step_come_before_its_group() {
    let first = grouped(1, 2, 5, 2);
    let behind = |step: [u8; 13]| chart(&[&first, &step]);
    for group in [1, 1_024, 65_535] {
        refuses(&behind(grouped(1, 1, 5, group)), &YES, 10, 1, 22);
        refuses(&behind(grouped(1, 4, 5, group)), &YES, 10, 1, 22);
        refuses(&behind(grouped(0, 1, 5, group)), &YES, 5, 1, 22);
        refuses(&behind(grouped(1, 2, 1_000_001, group)), &YES, 11, 1, 22);
        refuses(&behind(grouped(0, 4, u32::MAX, group)), &YES, 10, 1, 22);
        refuses(&behind(grouped(0, 1, u32::MAX, group)), &YES, 5, 1, 22);
        refuses(&behind(grouped(1, 2, 1_000_000, group)), &YES, 14, 1, 22);
        // 1,024 steps and one more, at 9 + 1,024 × 13.
        let full = [&HEAD[..], &first.repeat(1_024)].concat();
        for last in [grouped(1, 2, 5, group), grouped(0, 4, 1_000_001, group)] {
            refuses(&[&full[..], &last].concat(), &YES, 5, 1, 13_321);
        }
        let one_less = [&HEAD[..], &first.repeat(1_023), &grouped(1, 2, 5, group)].concat();
        refuses(&one_less, &YES, 14, 1, 13_308);
    }
    let full = [&HEAD[..], &first.repeat(1_024)].concat();
    assert!(read_chart(&full).is_ok_and(|chart| chart.steps.len() == 1_024 && chart.groups() == 3));
}

/// The first step fixes the kind, and the other kind is 2 before its length is looked at.
#[test]
fn the_other_kind_is_2() {
    let with = grouped(1, 2, 5, 2);
    refuses(&chart(&[&STEP, &with]), &YES, 2, 1, 20);
    refuses(&chart(&[&with, &STEP]), &YES, 2, 1, 22);
    refuses(&chart(&[&STEP, &with, &with]), &YES, 2, 1, 20);
    refuses(&chart(&[&with, &with, &STEP]), &YES, 2, 1, 35);
    // With every wrong length, and with its own that the other kind has.
    for length in [0, 7, 8, 9, 10, 11, 255] {
        refuses(&chart(&[&STEP, &[0x03, length, 0], &with[3..]]), &YES, 2, 1, 20);
        refuses(&chart(&[&with, &[0x02, length, 0], &STEP[3..]]), &YES, 2, 1, 22);
    }
    // Cut in its body; cut in its header it is 1.
    refuses(&chart(&[&STEP, &with[..12]]), &YES, 2, 1, 20);
    refuses(&chart(&[&STEP, &with[..3]]), &YES, 2, 1, 20);
    refuses(&chart(&[&STEP, &with[..2]]), &YES, 1, 1, 20);
    refuses(&chart(&[&with, &STEP[..10]]), &YES, 2, 1, 22);
    refuses(&chart(&[&with, &STEP[..1]]), &YES, 1, 1, 22);
    // With values at fault.
    refuses(&chart(&[&STEP, &grouped(3, 3, u32::MAX, 65_535)]), &YES, 2, 1, 20);
    // The 1,025th too: the tag comes before all values.
    let full = [&HEAD[..], &with.repeat(1_024), &STEP].concat();
    refuses(&full, &YES, 2, 1, 13_321);
    let full = [&HEAD[..], &STEP.repeat(1_024), &with].concat();
    refuses(&full, &YES, 2, 1, 9 + 1_024 * 11);
}

/// Remarks fix no kind, even with the tags 82 and 83 and the bytes of a step.
#[test]
fn remarks_fix_no_kind() {
    let with = grouped(1, 2, 5, 2);
    for tag in [0x82, 0x83, 0x80, 0xff] {
        for body in [&STEP[3..], &with[3..], &[]] {
            let remark = tagged(tag, body);
            for (own, other) in [(&STEP[..], &with[..]), (&with, &STEP)] {
                let sound = chart(&[&remark, own, &remark, own, &remark]);
                assert!(read_chart(&sound).is_ok());
                agree(&sound, &YES);
                let place = 9 + 2 * remark.len() + own.len();
                refuses(&chart(&[&remark, own, &remark, other]), &YES, 2, 1, place);
            }
        }
    }
}

#[test]
fn a_wrong_length_is_3_and_a_cut_1() {
    let with = grouped(1, 2, 5, 2);
    for length in [0, 7, 8, 9, 11, 12, 255] {
        refuses(&chart(&[&[0x03, length, 0], &with[3..], &[0; 250]]), &YES, 3, 1, 9);
        refuses(&chart(&[&with, &[0x03, length, 0], &with[3..]]), &YES, 3, 1, 22);
    }
    refuses(&chart(&[&[0x03, 10, 1], &with[3..]]), &YES, 3, 1, 9);
    refuses(&chart(&[&[0x02, 10, 0], &with[3..]]), &YES, 3, 1, 9);
    refuses(&chart(&[&STEP, &[0x02, 10, 0], &with[3..]]), &YES, 3, 1, 20);
    for end in 1..13 {
        refuses(&chart(&[&with[..end]]), &YES, 1, 1, 9);
        refuses(&chart(&[&with, &with[..end]]), &YES, 1, 1, 22);
    }
    // A wrong length comes before a cut body.
    refuses(&chart(&[&[0x03, 8, 0, 1]]), &YES, 3, 1, 9);
    // No head, or one behind a step.
    refuses(&with, &YES, 2, 1, 0);
    refuses(&chart(&[&with, &HEAD]), &YES, 2, 1, 22);
    // 04 is no tag of a chart.
    refuses(&chart(&[&[0x04, 10, 0], &with[3..]]), &YES, 2, 1, 9);
}

/// A diagram of one node that names a group.
fn naming(group: u16) -> Vec<u8> {
    let [low, high] = group.to_le_bytes();
    vec![0x11, 2, 0, 2, 0, 0x12, 6, 0, low, high, 1, 0, 0, 0]
}

/// The highest group is that of the last step; a node that names one above it is 6.
#[test]
fn a_node_above_the_highest_group_is_6() {
    for highest in [0, 1, 2, 255, 256, 1_022, 1_023] {
        let fields = [grouped(1, 2, 5, 0), grouped(1, 2, 5, highest)];
        let chart = chart(&[&fields[0], &fields[1]]);
        for group in [0, highest / 2, highest] {
            assert!(read_both(&chart, &naming(group)).is_ok());
            agree(&chart, &naming(group));
        }
        for group in [highest + 1, highest + 2, highest + 256, 2_000, 65_535] {
            refuses(&chart, &naming(group), 6, 2, 5);
        }
    }
    // Many steps in one group: not as many groups as steps.
    let many = [&HEAD[..], &grouped(1, 2, 5, 3).repeat(20)].concat();
    assert!(read_both(&many, &naming(3)).is_ok());
    refuses(&many, &naming(4), 6, 2, 5);
    refuses(&many, &naming(19), 6, 2, 5);
    // Without steps no group is there, and the chart has no kind.
    for group in [0, 1, 1_023] {
        refuses(&HEAD, &naming(group), 6, 2, 5);
    }
    // Equal groups of a node and its child, as of steps.
    let [ok, equal] = [4, 5].map(|child| {
        [
            &[0x11, 2, 0, 3, 0][..],
            &[0x12, 6, 0, 5, 0, 0, 0, 1, 0],
            &[0x12, 6, 0, child, 0, 0, 0, 2, 0],
        ]
        .concat()
    });
    assert!(read_both(&CHART, &ok).is_ok());
    refuses(&CHART, &equal, 6, 2, 14);
}

/// The field that is shown is the whole one, with its group.
#[test]
fn the_refused_field_has_its_group() {
    let bad = grouped(1, 2, 5, 1_024);
    let chart = chart(&[&grouped(1, 2, 5, 2), &bad]);
    for planner in planner::all() {
        let mut field = [0xa5; 15];
        if let Some(length) = planner.refused_field(&chart, &YES, 1, 22, &mut field) {
            assert_eq!((length, &field[..13], &field[13..]), (13, &bad[..], &[0xa5; 2][..]));
        }
    }
}

#[test]
fn the_faults_of_a_step_with_a_group_are_told_apart() {
    let first = grouped(1, 2, 5, 2);
    let of = |step: [u8; 13]| {
        let bytes = chart(&[&first, &step]);
        let fault = read_chart(&bytes).expect_err("a fault");
        StepAtFault::of(&bytes, &fault).map(|step| (step.number, step.faults.set()))
    };
    assert_eq!(of(grouped(1, 2, 5, 1)), Some((14, GROUP)));
    assert_eq!(of(grouped(1, 2, 1_000_001, 1_024)), Some((11, DEAR | GROUP)));
    assert_eq!(of(grouped(0, 2, 5, 0)), Some((5, FALLS | GROUP)));
    assert_eq!(of(grouped(0, 0, 1_000_001, 0)), Some((10, ENDS | FALLS | DEAR | GROUP)));
    let full = [&HEAD[..], &first.repeat(1_024), &grouped(1, 2, 5, 1)].concat();
    let fault = read_chart(&full).expect_err("a fault");
    let step = StepAtFault::of(&full, &fault).expect("a step");
    assert_eq!((step.number, step.faults.set()), (5, SURPLUS | GROUP));
}

/// A chart without groups and the same with groups 0, 1, 2 .. have the same answers throughout; so has one with
/// higher groups, with what the diagram names.
#[test]
fn a_step_alone_is_a_group_of_its_own() {
    let mut random = Random::new(81);
    for _ in 0..400 {
        let chart = random_chart_without_groups(&mut random, 9, 20);
        let diagram = random_diagram(&mut random, &chart, 20);
        let (spread, [renamed]) = groups::alone(&mut random, &chart, [&diagram]);
        let own = chart.with_groups(|at| Some(at as u16));
        let rules = [write_diagram(&diagram), write_diagram(&renamed)];
        let charts = [&chart, &own, &spread].map(write_chart);
        let twins = [(&charts[0], &rules[0]), (&charts[1], &rules[0]), (&charts[2], &rules[1])];
        let facts = twins.map(|(chart, rules)| judge(chart, rules).expect("sound files"));
        assert_eq!(facts[0].least, facts[2].least);
        assert!(facts.iter().all(|other| other.diagram_estimate == facts[0].diagram_estimate));
        let pairs = facts[0].problem.pairs();
        for planner in planner::all() {
            let found = twins.map(|(chart, rules)| {
                let mut swept = SweepSlices::of(pairs, 256);
                let mut searched = GuidedSlices::of(pairs, 256);
                let sweep = planner.sweep(chart, rules, &mut swept);
                let guided = planner.guided(chart, rules, &mut searched);
                let space = planner.space_needed(chart, rules);
                let answers = [sweep, guided].map(|answer| (answer.number, answer.cost));
                (answers, (sweep.count, guided.count), swept.cost, searched.log, space)
            });
            assert!(found.iter().all(|other| *other == found[0]), "{}", planner.name());
            let mut files = [[0; 400], [0; 400]];
            let reduced = [0, 1].map(|at| planner.reduce(&charts[at], &rules[0], &mut files[at]));
            assert_eq!((reduced[0], files[0]), (reduced[1], files[1]), "{}", planner.name());
        }
    }
}

/// The shipped example with its raising steps in one group.
#[test]
fn the_example_with_groups_passes() {
    let Problem { chart, diagram } = grouped_problem();
    let files = (write_chart(&chart), write_diagram(&diagram));
    let facts = judge(&files.0, &files.1).expect("sound files");
    // Whatever raises A13, group 0, needs settling, group 2: 50, 200, 50 and 50.
    assert_eq!(facts.cheapest.map(|plan| plan.cost), Some(350));
    agree(&files.0, &files.1);
}

/// Cases in which groups decide come in every seed, and the reference's methods are compared in them.
#[test]
fn cases_of_groups_are_enumerated() {
    let cases = Cases::new(82);
    let (mut enumerated, mut all) = (0, 0);
    for number in cases.first_of_groups()..cases.corners() {
        let case = cases.case(number);
        assert_eq!(case.kind, "groups");
        let outcome = run(&case, &planner::all()).expect("no difference");
        enumerated += usize::from(outcome.enumerated);
        all += 1;
    }
    assert!(all > 300 && enumerated > 300, "{enumerated} of {all}");
}
