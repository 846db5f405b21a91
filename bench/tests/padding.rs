//! Padding: which nodes are refused with 13, where, and before or after which other faults; and the reduction
//! of files that have it. Bytes, numbers and places are worked out by hand.

mod bytes;

use bytes::{CHART, NEEDS, NO, YES};
use planner_bench::cases::{example_problem, Case, Cases};
use planner_bench::check::conjunction::{is_reduced, reduction as checked};
use planner_bench::compare::run;
use planner_bench::files::{
    read_both, read_chart, read_diagram, read_padded, tagged, write_chart, write_diagram, Diagram,
    Node, Operands, Problem, Refusal,
};
use planner_bench::generate::charts::random_chart;
use planner_bench::generate::diagrams::{drawn, random_diagram, Padding};
use planner_bench::generate::operands;
use planner_bench::generate::padded::{any, named, padded, rearranged};
use planner_bench::generate::Random;
use planner_bench::nodes::{NodeAtFault, NodeFaults};
use planner_bench::planner::{self, Answer, GuidedSlices, Planner, Space, SweepSlices};
use planner_bench::reference::conjunction::{by_truth, conjoin, sets_of, Conjunction};
use planner_bench::reference::reduction::{reduce, reduction, reduction_answer, say_the_same};
use planner_bench::reference::rules::verdict;
use planner_bench::reference::{judge, Facts};
use planner_bench::same::Same;

/// The same with a double of node 2, a test of step 1 that changes nothing then, and a node that nothing
/// leads to.
const PADDED: [u8; 50] = [
    0x11, 2, 0, 6, 0, //
    0x12, 6, 0, 2, 0, 0, 0, 1, 0, //
    0x12, 6, 0, 2, 0, 0, 0, 1, 0, //
    0x12, 6, 0, 1, 0, 2, 0, 3, 0, //
    0x12, 6, 0, 5, 0, 1, 0, 0, 0, //
    0x12, 6, 0, 0, 0, 1, 0, 4, 0,
];

/// Every call of every implementation on two files agrees with the reference.
fn implementations_agree(chart: &[u8], rules: &[u8]) {
    for dirt in 0..4 {
        let case = Case::new("test", (chart.to_vec(), rules.to_vec()), dirt);
        if let Err(found) = run(&case, &planner::all()) {
            panic!("{found:?}");
        }
    }
}

/// Number and place that the searches refuse a diagram with; none where it passes.
fn refusal(chart: &[u8], rules: &[u8]) -> Option<(u32, u32, usize)> {
    implementations_agree(chart, rules);
    read_both(chart, rules).err().map(|fault| (fault.number, fault.file, fault.place))
}

fn refuses(rules: &[u8], number: u32, place: usize) {
    assert_eq!(refusal(&CHART, rules), Some((number, 2, place)), "{rules:?}");
}

fn accepts(rules: &[u8]) {
    assert_eq!(refusal(&CHART, rules), None, "{rules:?}");
}

/// A diagram's file, by its root and its nodes from 2 on.
fn file(root: u16, nodes: &[(u16, u16, u16)]) -> Vec<u8> {
    let head = [&[0x11, 2, 0][..], &root.to_le_bytes()].concat();
    let bytes = nodes.iter().flat_map(|values| node(*values));
    head.into_iter().chain(bytes).collect()
}

fn node((step, lo, hi): (u16, u16, u16)) -> Vec<u8> {
    let values = [step, lo, hi].map(u16::to_le_bytes).concat();
    [&[0x12, 6, 0][..], &values].concat()
}

#[test]
fn equal_children_are_13() {
    refuses(&[0x11, 2, 0, 2, 0, 0x12, 6, 0, 5, 0, 0, 0, 0, 0], 13, 5);
    refuses(&[0x11, 2, 0, 2, 0, 0x12, 6, 0, 5, 0, 1, 0, 1, 0], 13, 5);
    accepts(&[0x11, 2, 0, 2, 0, 0x12, 6, 0, 5, 0, 1, 0, 0, 0]);
    // An inner child: step 2 below step 0.
    refuses(
        &[
            0x11, 2, 0, 3, 0, //
            0x12, 6, 0, 2, 0, 0, 0, 1, 0, //
            0x12, 6, 0, 0, 0, 2, 0, 2, 0,
        ],
        13,
        14,
    );
}

#[test]
fn an_alike_node_is_13_at_its_own_place() {
    refuses(&PADDED, 13, 14);
    // With a node between them, as the last one.
    refuses(
        &[
            0x11, 2, 0, 3, 0, //
            0x12, 6, 0, 2, 0, 0, 0, 1, 0, //
            0x12, 6, 0, 0, 0, 1, 0, 2, 0, //
            0x12, 6, 0, 2, 0, 0, 0, 1, 0,
        ],
        13,
        23,
    );
    // Inner children too.
    refuses(
        &[
            0x11, 2, 0, 4, 0, //
            0x12, 6, 0, 2, 0, 0, 0, 1, 0, //
            0x12, 6, 0, 1, 0, 1, 0, 2, 0, //
            0x12, 6, 0, 1, 0, 1, 0, 2, 0,
        ],
        13,
        23,
    );
    // The first of three that are alike passes, the second doesn't.
    refuses(&file(1, &[(2, 0, 1), (2, 0, 1), (2, 0, 1)]), 13, 14);
}

#[test]
fn nodes_that_differ_in_one_value_pass() {
    // In the step alone, in lo alone, in hi alone, and in which child is which.
    accepts(&file(3, &[(2, 0, 1), (3, 0, 1)]));
    accepts(&file(5, &[(4, 0, 1), (3, 1, 0), (1, 0, 2), (1, 3, 2)]));
    accepts(&file(5, &[(4, 0, 1), (3, 1, 0), (1, 2, 0), (1, 2, 3)]));
    accepts(&file(3, &[(2, 0, 1), (2, 1, 0)]));
    // They mean the same only when their children do: 4 and 5 are no doubles of each other.
    accepts(&file(6, &[(4, 0, 1), (5, 0, 1), (3, 0, 2), (3, 0, 3), (1, 4, 5)]));
}

#[test]
fn nodes_that_nothing_leads_to_pass_once() {
    accepts(&file(1, &[(2, 0, 1), (3, 1, 0)]));
    accepts(&file(0, &[(2, 0, 1)]));
    accepts(&file(2, &[(2, 0, 1), (3, 1, 0), (0, 2, 3)]));
    refuses(&file(1, &[(2, 0, 1), (3, 1, 0), (2, 0, 1)]), 13, 23);
    refuses(&file(2, &[(2, 0, 1), (3, 1, 1)]), 13, 14);
}

#[test]
fn remarks_are_no_nodes() {
    // A remark with the bytes of node 2 but for its tag, before it and behind it.
    let remark = [0x92, 6, 0, 2, 0, 0, 0, 1, 0];
    accepts(&[&NEEDS[..5], &remark, &NEEDS[5..], &remark].concat());
    // Places count remarks: node 3, the double, stands at 14 + 9.
    refuses(&[&PADDED[..5], &remark, &PADDED[5..]].concat(), 13, 23);
    refuses(&[&PADDED[..14], &tagged(0x80, &[7; 40]), &PADDED[14..]].concat(), 13, 57);
}

#[test]
fn six_comes_before_13_in_a_field() {
    // Step 6 is none of the chart; 2 is the node's own number; 3 is none yet.
    for bad in [(6, 0, 0), (6, 1, 1), (0, 2, 2), (0, 3, 3), (65_535, 0, 0), (0, 65_535, 65_535)] {
        refuses(&file(1, &[bad]), 6, 5);
    }
    // Both children are node 2, which does not test a later step.
    for step in [2, 3, 5] {
        refuses(&file(1, &[(2, 0, 1), (step, 2, 2)]), 6, 14);
    }
    refuses(&file(1, &[(2, 0, 1), (1, 2, 2)]), 13, 14);
    // Alike in the low bytes alone: step 258 is no step 2, node 258 is no node 2.
    refuses(&file(1, &[(2, 0, 1), (258, 0, 1)]), 6, 14);
    refuses(&file(1, &[(4, 0, 1), (2, 0, 2), (2, 0, 258)]), 6, 23);
}

#[test]
fn header_and_body_come_before_13() {
    let front = &[0x11, 2, 0, 2, 0, 0x12, 6, 0, 2, 0, 0, 0, 1, 0][..];
    let double = &PADDED[14..23];
    let equal = [0x12, 6, 0, 5, 0, 1, 0, 1, 0];
    for field in [double, &equal] {
        let with = |header: [u8; 3]| [front, &header, &field[3..]].concat();
        refuses(&with([0x12, 6, 0]), 13, 14);
        refuses(&with([0x13, 6, 0]), 2, 14);
        refuses(&with([0x11, 6, 0]), 2, 14);
        refuses(&with([0x12, 5, 0]), 3, 14);
        refuses(&with([0x12, 7, 0]), 3, 14);
        refuses(&with([0x12, 6, 1]), 3, 14);
        for end in 1..9 {
            refuses(&[front, &field[..end]].concat(), 1, 14);
        }
        accepts(&with([0x92, 6, 0]));
    }
}

#[test]
fn the_first_field_at_fault_counts() {
    let double = &PADDED[..23];
    let later: [&[u8]; 8] = [
        &[0x12, 6, 0, 6, 0, 0, 0, 1, 0],
        &[0x12, 6, 0, 5, 0, 1, 0, 1, 0],
        &[0x12, 6, 0, 2, 0, 0, 0, 1, 0],
        &[0x12, 5, 0, 0, 0],
        &[0x7f, 0, 0],
        &[0x11, 2, 0, 1, 0],
        &[0x12],
        &[0x80, 9, 0],
    ];
    for field in later {
        refuses(&[double, field].concat(), 13, 14);
    }
    // And the other way round.
    refuses(&[&PADDED[..14], later[0], &PADDED[14..]].concat(), 6, 14);
    refuses(&[&PADDED[..14], later[3], &PADDED[14..]].concat(), 3, 14);
    refuses(&[&PADDED[..14], later[4], &PADDED[14..]].concat(), 2, 14);
    // The root, which is none, comes after all nodes.
    refuses(&[&[0x11, 2, 0, 9, 0], &PADDED[5..23]].concat(), 13, 14);
    refuses(&[&[0x11, 2, 0, 9, 0], &PADDED[5..14]].concat(), 6, 0);
}

#[test]
fn the_chart_and_9_come_before_13() {
    let bad_cost = [&CHART[..74], &[1]].concat();
    assert_eq!(refusal(&bad_cost, &PADDED), Some((11, 1, 64)));
    assert_eq!(refusal(&CHART[..74], &PADDED), Some((1, 1, 64)));
    assert_eq!(refusal(&[], &PADDED), Some((2, 1, 0)));
    let mut long = PADDED.to_vec();
    long.resize(32_769, 0x80);
    refuses(&long, 9, 32_768);
    long.pop();
    refuses(&long, 13, 14);
}

/// 1,024 steps from 0 to 1, and 510 nodes over the first of them that differ in the step alone.
fn full() -> (Vec<u8>, Vec<(u16, u16, u16)>) {
    let chart = [&[0x01, 6, 0, 2, 0, 0, 0, 1, 0], &CHART[9..20].repeat(1_024)[..]].concat();
    (chart, (0..510).map(|step| (step, 1, 0)).collect())
}

#[test]
fn the_510th_is_13_and_the_511th_is_6() {
    let (chart, nodes) = full();
    let with = |count: usize, last: (u16, u16, u16)| [&nodes[..count], &[last]].concat();
    let judged = |nodes: &[(u16, u16, u16)]| refusal(&chart, &file(1, nodes));
    assert_eq!(judged(&nodes), None);
    for padding in [(0, 1, 0), (255, 1, 0), (256, 1, 0), (508, 1, 0), (1_000, 0, 0), (0, 510, 510)]
    {
        assert_eq!(judged(&with(509, padding)), Some((13, 2, 4_586)), "{padding:?}");
        assert_eq!(judged(&with(510, padding)), Some((6, 2, 4_595)), "{padding:?}");
    }
    assert_eq!(judged(&with(509, (509, 0, 1))), None);
    assert_eq!(judged(&with(510, (511, 1, 0))), Some((6, 2, 4_595)));
    // Behind 510 nodes a field at fault is what it was.
    let whole = file(1, &nodes);
    assert_eq!(refusal(&chart, &[&whole[..], &[0x12, 5, 0]].concat()), Some((3, 2, 4_595)));
    assert_eq!(refusal(&chart, &[&whole[..], &[0x12, 6, 0]].concat()), Some((1, 2, 4_595)));
}

/// A double of each node, right behind it and at the end.
#[test]
fn every_node_may_be_the_one_that_is_alike() {
    let (chart, nodes) = full();
    for twin in (0..509).step_by(11).chain([1, 2, 254, 255, 256, 257, 507, 508]) {
        let last = [&nodes[..509], &[nodes[twin]]].concat();
        let fault = read_both(&chart, &file(1, &last)).expect_err("a double");
        assert_eq!((fault.number, fault.place), (13, 4_586), "{twin}");
        let next = [&nodes[..=twin], &[nodes[twin]], &nodes[twin + 1..509]].concat();
        let fault = read_both(&chart, &file(1, &next)).expect_err("a double");
        assert_eq!((fault.number, fault.place), (13, 5 + 9 * (twin + 1)), "{twin}");
        for rules in [file(1, &last), file(1, &next)] {
            implementations_agree(&chart, &rules);
        }
    }
}

/// What a planner answers on enough space, and that it leaves all slices.
fn refused_by(planner: &dyn Planner, rules: &[u8], want: Answer) {
    let (sweep, guided) = (SweepSlices::of(60, 9), GuidedSlices::of(60, 9));
    let (mut swept, mut found) = (sweep.clone(), guided.clone());
    assert_eq!(planner.sweep(&CHART, rules, &mut swept), want);
    assert_eq!(planner.guided(&CHART, rules, &mut found), want);
    if let Some(answers) = planner.both(&CHART, rules, &mut swept, &mut found) {
        assert_eq!(answers, (want, want));
    }
    assert_eq!((swept, found), (sweep, guided));
    if let Some(space) = planner.space_needed(&CHART, rules) {
        let Answer { number, file, place, .. } = want;
        assert_eq!(space, Space { number, file, place, work: 0, plan: 0 });
    }
    let mut field = [0; 12];
    if let Some(length) = planner.refused_field(&CHART, rules, 2, want.place, &mut field) {
        assert_eq!((length, &field[..9]), (9, &rules[want.place..want.place + 9]));
    }
}

#[test]
fn every_call_but_the_reduction_refuses_padding() {
    let idle = file(3, &[(2, 0, 1), (0, 2, 2)]);
    for planner in planner::all() {
        refused_by(planner.as_ref(), &PADDED, Answer::refused(13, 2, 14));
        refused_by(planner.as_ref(), &idle, Answer::refused(13, 2, 14));
    }
    let refused = |rules: &[u8], more: &[u8]| {
        let files = (CHART.to_vec(), rules.to_vec(), more.to_vec());
        if let Err(found) = run(&Case::conjunction("test", files, 1), &planner::all()) {
            panic!("{found:?}");
        }
        conjoin(&CHART, rules, more).map(|_| ())
    };
    let at = |number, file, place| Err(Refusal { number, file, place });
    assert_eq!(refused(&PADDED, &NEEDS), at(13, 2, 14));
    assert_eq!(refused(&NEEDS, &PADDED), at(13, 3, 14));
    assert_eq!(refused(&PADDED, &idle), at(13, 2, 14));
    // All of file 2 comes before file 3, the root too.
    assert_eq!(refused(&file(9, &[]), &PADDED), at(6, 2, 0));
    assert_eq!(refused(&PADDED, &file(9, &[])), at(13, 2, 14));
    assert_eq!(refused(&file(9, &[(2, 0, 0)]), &PADDED), at(13, 2, 5));
}

/// Demands a reduction over a chart, of the reference and of every implementation.
fn reduces_over(chart: &[u8], rules: &[u8], want: &[u8]) {
    implementations_agree(chart, rules);
    let found = reduce(chart, rules);
    assert_eq!(reduction_answer(&found, want.len()), Answer::accepted(0, want.len(), 0));
    assert_eq!(found.ok().and_then(|found| found.file()).as_deref(), Some(want), "{rules:?}");
    for planner in planner::all() {
        let mut buffer = vec![0xa5; want.len() + 3];
        let Some(answer) = planner.reduce(chart, rules, &mut buffer) else { continue };
        assert_eq!(answer, Answer::accepted(0, want.len(), 0), "{}", planner.name());
        assert_eq!(buffer, [want, &[0xa5; 3]].concat(), "{}", planner.name());
    }
}

fn reduces(rules: &[u8], want: &[u8]) {
    reduces_over(&CHART, rules, want);
}

#[test]
fn padding_vanishes() {
    reduces(&PADDED, &NEEDS);
    reduces(&NEEDS, &NEEDS);
    // Behind a remark, with remarks between and with a remark of the greatest length.
    let remark = tagged(0x80, &[7; 40]);
    reduces(&[&PADDED[..5], &remark, &PADDED[5..], &remark].concat(), &NEEDS);
    reduces(&[&PADDED[..], &tagged(0xff, &vec![1; 32_768 - 53])].concat(), &NEEDS);
}

/// Nodes 2 and 3 are alike. So 4 and 5 mean the same, and both ways from 6 are one: step 3 with step 4.
#[test]
fn doubles_above_doubles_vanish() {
    let padded = [
        0x11, 2, 0, 6, 0, //
        0x12, 6, 0, 4, 0, 0, 0, 1, 0, //
        0x12, 6, 0, 4, 0, 0, 0, 1, 0, //
        0x12, 6, 0, 3, 0, 0, 0, 2, 0, //
        0x12, 6, 0, 3, 0, 0, 0, 3, 0, //
        0x12, 6, 0, 1, 0, 4, 0, 5, 0,
    ];
    let reduced = [
        0x11, 2, 0, 3, 0, //
        0x12, 6, 0, 4, 0, 0, 0, 1, 0, //
        0x12, 6, 0, 3, 0, 0, 0, 2, 0,
    ];
    reduces(&padded, &reduced);
}

#[test]
fn constants_are_a_head_alone() {
    for (end, want) in [(0, NO), (1, YES)] {
        reduces(&want, &want);
        // A test that changes nothing, two of them, and nodes that nothing leads to.
        reduces(&file(2, &[(5, end, end)]), &want);
        reduces(&file(3, &[(5, end, end), (1, end, 2)]), &want);
        reduces(&file(end, &[(5, 0, 1), (5, 0, 1), (0, 2, 3)]), &want);
    }
    // Yes to step 3 with or without step 4, and to step 4 with or without step 3: no test is left.
    reduces(&file(4, &[(4, 1, 1), (4, 1, 1), (3, 2, 3)]), &YES);
    // Without steps there are no nodes.
    let no_steps = [0x01, 6, 0, 1, 0, 0, 0, 0, 0];
    reduces_over(&no_steps, &YES, &YES);
    reduces_over(&no_steps, &NO, &NO);
}

#[test]
fn a_walk_numbers_lo_before_hi() {
    // The root's lo is node 5 and its hi node 4, and both lead to node 3: a walk leaves 2, 3, 5, 4, 6.
    let given = [
        0x11, 2, 0, 6, 0, //
        0x12, 6, 0, 5, 0, 1, 0, 0, 0, //
        0x12, 6, 0, 4, 0, 2, 0, 1, 0, //
        0x12, 6, 0, 2, 0, 0, 0, 3, 0, //
        0x12, 6, 0, 2, 0, 2, 0, 3, 0, //
        0x12, 6, 0, 0, 0, 5, 0, 4, 0,
    ];
    let walked = [
        0x11, 2, 0, 6, 0, //
        0x12, 6, 0, 5, 0, 1, 0, 0, 0, //
        0x12, 6, 0, 4, 0, 2, 0, 1, 0, //
        0x12, 6, 0, 2, 0, 2, 0, 3, 0, //
        0x12, 6, 0, 2, 0, 0, 0, 3, 0, //
        0x12, 6, 0, 0, 0, 4, 0, 5, 0,
    ];
    reduces(&given, &walked);
    reduces(&walked, &walked);
    // With hi first the nodes of steps 3 and 2 would change places.
    reduces(
        &file(4, &[(2, 0, 1), (3, 0, 1), (1, 3, 2)]),
        &file(4, &[(3, 0, 1), (2, 0, 1), (1, 2, 3)]),
    );
}

/// From stage 3 on steps 0 and 1 are never taken; sets with them count all the same.
#[test]
fn sets_that_no_plan_takes_count() {
    let chart = [&[0x01, 6, 0, 5, 0, 3, 0, 4, 0], &CHART[9..]].concat();
    let wants_0 = [0x11, 2, 0, 2, 0, 0x12, 6, 0, 0, 0, 0, 0, 1, 0];
    reduces_over(&chart, &wants_0, &wants_0);
    reduces_over(&chart, &PADDED, &NEEDS);
    // No way leads from the start to the end.
    let back = [&[0x01, 6, 0, 5, 0, 4, 0, 0, 0], &CHART[9..]].concat();
    reduces_over(&back, &PADDED, &NEEDS);
}

/// Demands the same refusal from the reference and from every implementation, which leave the buffer.
fn reduction_refuses(chart: &[u8], rules: &[u8], room: usize, want: (u32, u32, usize)) {
    let want = Answer::refused(want.0, want.1, want.2);
    let found = reduce(chart, rules);
    assert_eq!(reduction_answer(&found, room), want, "{rules:?}");
    for planner in planner::all() {
        let mut buffer = vec![0xa5; room];
        let Some(answer) = planner.reduce(chart, rules, &mut buffer) else { continue };
        assert_eq!(answer, want, "{}", planner.name());
        assert!(buffer.iter().all(|byte| *byte == 0xa5), "{}", planner.name());
    }
    implementations_agree(chart, rules);
}

#[test]
fn every_other_refusal_holds() {
    let refused = |rules: &[u8], number: u32, place: usize| {
        for room in [0, 4, 5, 60] {
            reduction_refuses(&CHART, rules, room, (number, 2, place));
        }
    };
    refused(&[], 2, 0);
    refused(&[0x11], 1, 0);
    refused(&[0x11, 3, 0, 1, 0], 3, 0);
    refused(&PADDED[5..], 2, 0);
    refused(&PADDED[..49], 1, 41);
    refused(&[&PADDED[..], &[0x7f, 0, 0]].concat(), 2, 50);
    refused(&[&PADDED[..], &[0x80, 1, 0]].concat(), 1, 50);
    // The root comes after all nodes, padded ones too; here N is 7.
    refused(&[&[0x11, 2, 0, 7, 0], &PADDED[5..]].concat(), 6, 0);
    refused(&[&[0x11, 2, 0, 7, 0], &PADDED[5..49]].concat(), 1, 41);
    // A padded node that breaks a limit.
    refused(&[&PADDED[..], &[0x12, 6, 0, 6, 0, 1, 0, 1, 0]].concat(), 6, 50);
    refused(&[&PADDED[..], &[0x12, 6, 0, 3, 0, 4, 0, 4, 0]].concat(), 6, 50);
    let mut long = PADDED.to_vec();
    long.resize(32_769, 0);
    refused(&long, 9, 32_768);
    // The chart comes first, whatever the diagram is.
    for rules in [&PADDED[..], &[], &long] {
        reduction_refuses(&CHART[..74], rules, 60, (1, 1, 64));
        reduction_refuses(&[&CHART[..74], &[1]].concat(), rules, 60, (11, 1, 64));
        reduction_refuses(&[0x01, 6, 0, 0, 0, 0, 0, 0, 0], rules, 60, (4, 1, 0));
    }
}

#[test]
fn the_511th_node_is_6_however_padded() {
    let (chart, nodes) = full();
    let double = [&nodes[..], &[nodes[0]]].concat();
    let equal = [&nodes[..], &[(1_000, 1, 1)]].concat();
    for nodes in [double, equal] {
        reduction_refuses(&chart, &file(1, &nodes), 5_000, (6, 2, 4_595));
        // One less, and it is left out: nothing leads to it.
        reduces_over(&chart, &file(1, &nodes[1..]), &YES);
    }
}

#[test]
fn a_buffer_that_is_too_short_is_7() {
    for (rules, length) in [(&PADDED[..], 23), (&NEEDS, 23), (&YES, 5), (&NO, 5)] {
        for room in [0, 1, length - 1] {
            reduction_refuses(&CHART, rules, room, (7, 0, 0));
        }
    }
    // Not as much as the padded file has, but as much as is written.
    let mut buffer = [0; 23];
    assert_eq!(Same.reduce(&CHART, &PADDED, &mut buffer), Some(Answer::accepted(0, 23, 0)));
    assert_eq!(buffer, NEEDS);
}

/// The reference of the node before the one at a place of a row, or "yes".
fn before(at: u16) -> u16 {
    if at == 0 {
        1
    } else {
        at + 1
    }
}

/// None of so many steps from one on: a row of nodes, the last step first.
fn none_of(first: u16, steps: u16) -> Vec<(u16, u16, u16)> {
    (0..steps).map(|at| (first + steps - 1 - at, before(at), 0)).collect()
}

/// 510 nodes that say "none of the steps 0 to 509" are reduced: 4,595 bytes. Twice 255 are 255, 510 tests
/// that change nothing are none. No reduction is too large.
#[test]
fn as_many_nodes_as_there_may_be() {
    let (chart, _) = full();
    let whole = file(511, &none_of(0, 510));
    assert_eq!(whole.len(), 4_595);
    reduces_over(&chart, &whole, &whole);
    reduction_refuses(&chart, &whole, 4_594, (7, 0, 0));
    // Node r of the row becomes 2r - 2 and 2r - 1.
    let double = |reference: u16| if reference == 1 { 1 } else { 2 * reference - 2 };
    let twice = none_of(7, 255).into_iter().flat_map(|(step, lo, hi)| [(step, double(lo), hi); 2]);
    let twice: Vec<(u16, u16, u16)> = twice.collect();
    assert_eq!((twice[0], twice[2], twice[509]), ((261, 1, 0), (260, 2, 0), (7, 508, 0)));
    reduces_over(&chart, &file(511, &twice), &file(256, &none_of(7, 255)));
    let idle: Vec<(u16, u16, u16)> =
        (0..510).map(|at| (1_000 - at, before(at), before(at))).collect();
    reduces_over(&chart, &file(511, &idle), &YES);
}

/// Few groups, so that all sets can be judged.
fn small(random: &mut Random) -> Problem {
    let chart = loop {
        let chart = random_chart(random, 5, 7);
        if chart.groups() <= 9 {
            break chart;
        }
    };
    let diagram = drawn(random, &chart, 9, Padding::With);
    let diagram = padded(random, &diagram, chart.groups(), 14);
    Problem { chart, diagram }
}

fn groups_of(problem: &Problem) -> Vec<u16> {
    (0..problem.chart.groups() as u16).collect()
}

#[test]
fn the_reduction_says_what_the_file_says() {
    let mut random = Random::new(91);
    let (mut smaller, mut inner) = (0, 0);
    for _ in 0..4_000 {
        let problem = small(&mut random);
        let found = reduction(problem.clone());
        assert_eq!(by_truth(&found.operands).as_ref(), Some(&found.reduced), "{problem:?}");
        let diagram = found.reduced.diagram().expect("no more nodes than the file has");
        assert_eq!(is_reduced(&diagram), Ok(()));
        assert!(diagram.nodes.len() <= problem.diagram.nodes.len());
        let groups = groups_of(&problem);
        for set in sets_of(groups.len(), &groups) {
            assert_eq!(verdict(&diagram, &set), verdict(&problem.diagram, &set), "{problem:?}");
        }
        smaller += usize::from(diagram.nodes.len() + 3 < problem.diagram.nodes.len());
        inner += usize::from(diagram.nodes.len() > 1);
    }
    assert!(smaller > 2_000 && inner > 800, "{smaller} {inner}");
}

/// The file that a planner writes.
fn written_by(planner: &dyn Planner, problem: &Problem) -> Option<Vec<u8>> {
    let (chart, rules) = (write_chart(&problem.chart), write_diagram(&problem.diagram));
    let mut buffer = vec![0; 4_595];
    let answer = planner.reduce(&chart, &rules, &mut buffer)?;
    assert_eq!(answer.number, 0, "{problem:?}");
    buffer.truncate(answer.length as usize);
    Some(buffer)
}

/// Two files over one chart have the same reduction exactly when they say yes to the same sets.
#[test]
fn the_same_sets_have_the_same_reduction() {
    let mut random = Random::new(92);
    let (mut same, mut others) = (0, 0);
    for turn in 0..3_000 {
        let first = small(&mut random);
        let groups = first.chart.groups();
        let diagram = match turn % 3 {
            0 => padded(&mut random, &first.diagram, groups, 14),
            // One child of one node is another.
            1 if !first.diagram.nodes.is_empty() => {
                let mut other = first.diagram.clone();
                let at = random.below(other.nodes.len());
                other.nodes[at].lo = random.below(2) as u16;
                other
            }
            _ => drawn(&mut random, &first.chart, 9, Padding::With),
        };
        let second = Problem { chart: first.chart.clone(), diagram };
        let all = groups_of(&first);
        let agree = sets_of(groups, &all)
            .all(|set| verdict(&first.diagram, &set) == verdict(&second.diagram, &set));
        assert_eq!(say_the_same(groups, &first.diagram, &second.diagram), Some(agree));
        for planner in planner::all() {
            let files = [&first, &second].map(|problem| written_by(planner.as_ref(), problem));
            assert_eq!(files[0] == files[1], agree, "{}: {first:?} {second:?}", planner.name());
        }
        same += usize::from(agree && first.diagram != second.diagram);
        others += usize::from(!agree);
    }
    assert!(same > 1_000 && others > 800, "{same} {others}");
}

#[test]
fn reducing_twice_is_reducing_once() {
    let mut random = Random::new(93);
    for _ in 0..1_000 {
        let problem = any(&mut random);
        if problem.diagram.nodes.len() > 510 {
            continue;
        }
        for planner in planner::all() {
            let Some(once) = written_by(planner.as_ref(), &problem) else { continue };
            let diagram = read_diagram(&once, problem.chart.groups()).expect("no padding");
            let again = Problem { chart: problem.chart.clone(), diagram };
            assert_eq!(written_by(planner.as_ref(), &again), Some(once), "{}", planner.name());
        }
    }
}

/// Reached pairs, cost of the cheapest plan and fewest and most settled pairs.
fn counts(problem: &Problem) -> (u32, Option<u32>, (u32, u32)) {
    let facts = Facts::by_dynamic_programming(&problem.rounded());
    (facts.reached(), facts.cheapest.map(|plan| plan.cost), facts.settled_range())
}

/// Sweep and guided search of every implementation: number and cost, and the sweep's count.
fn searched(problem: &Problem) -> Vec<(u32, u32, u32)> {
    let (chart, rules) = (write_chart(&problem.chart), write_diagram(&problem.diagram));
    let (pairs, plan) = (problem.pairs(), problem.longest_plan());
    let mut all = Vec::new();
    for planner in planner::all() {
        let swept = planner.sweep(&chart, &rules, &mut SweepSlices::of(pairs, plan));
        let guided = planner.guided(&chart, &rules, &mut GuidedSlices::of(pairs, plan));
        assert_eq!((swept.number, swept.cost), (guided.number, guided.cost));
        all.push((swept.number, swept.cost, swept.count));
    }
    all
}

/// Files without padding that say the same, however they are numbered and whatever nothing leads to, have
/// the same counts. Padded ones have not always, but plans of the same cost.
#[test]
fn files_that_mean_the_same_have_the_same_counts() {
    let mut random = Random::new(94);
    let (mut with_plan, mut other_counts) = (0, 0);
    for _ in 0..2_000 {
        let chart = random_chart(&mut random, 7, 14);
        let groups = chart.groups();
        let first = random_diagram(&mut random, &chart, 14);
        let second = rearranged(&mut random, &first, groups, 24);
        let third = padded(&mut random, &first, groups, 24);
        let over = |diagram: &Diagram| Problem { chart: chart.clone(), diagram: diagram.clone() };
        let reduced = reduction(over(&third)).reduced.diagram().expect("few nodes");
        let known = counts(&over(&first));
        for other in [&second, &reduced] {
            assert_eq!(counts(&over(other)), known, "{first:?} {other:?}");
            assert_eq!(searched(&over(other)), searched(&over(&first)));
        }
        let (reached, cost, settled) = counts(&over(&third));
        assert_eq!(cost, known.1);
        other_counts += usize::from((reached, settled) != (known.0, known.2));
        with_plan += usize::from(cost.is_some());
    }
    assert!(with_plan > 800 && other_counts > 200, "{with_plan} {other_counts}");
}

/// What no file is refused for is what the conjunction with "yes" gives.
#[test]
fn a_reduction_is_the_conjunction_with_yes() {
    let mut random = Random::new(95);
    for _ in 0..1_000 {
        let Operands { chart, first, .. } = operands::any(&mut random);
        let (chart, rules) = (write_chart(&chart), write_diagram(&first));
        assert_eq!(reduce(&chart, &rules), conjoin(&chart, &rules, &YES));
    }
    for (name, problem) in named() {
        let found: Conjunction = reduction(problem.clone());
        assert!(!found.is_too_large(), "{name}");
        for planner in planner::all() {
            let written = written_by(planner.as_ref(), &problem);
            assert_eq!(written, found.file(), "{name}: {}", planner.name());
        }
    }
}

type Falsify = fn(&mut Answer, &mut Vec<u8>) -> bool;

/// Each is wrong wherever it says so.
const FALSIFIED: [(&str, Falsify); 13] = [
    ("number", |a, _| changed(&mut a.number, 12)),
    ("13", |a, _| changed(&mut a.number, 13)),
    ("file", |a, _| changed(&mut a.file, 2)),
    ("cost", |a, _| changed(&mut a.cost, 50)),
    ("count", |a, _| changed(&mut a.count, 1)),
    ("length one more", |a, _| changed(&mut a.length, 1)),
    ("length a node more", |a, _| changed(&mut a.length, 9)),
    ("the root", |_, file| flipped(file, 3)),
    ("the head's tag", |_, file| flipped(file, 0)),
    ("the last byte", |a, file| flipped(file, a.length as usize - 1)),
    ("a step", |a, file| a.length > 5 && flipped(file, 8)),
    ("a byte behind the file", |a, file| flipped(file, a.length as usize)),
    ("the buffer's end", |_, file| {
        let last = file.len() - 1;
        flipped(file, last)
    }),
];

fn changed(entry: &mut u32, by: u32) -> bool {
    *entry += by;
    true
}

fn flipped(bytes: &mut [u8], at: usize) -> bool {
    bytes[at] ^= 1;
    true
}

#[test]
fn every_falsified_reduction_is_caught() {
    let mut random = Random::new(96);
    let mut caught = [0; FALSIFIED.len()];
    for _ in 0..400 {
        let problem = small(&mut random);
        let (chart, rules) = (write_chart(&problem.chart), write_diagram(&problem.diagram));
        let found = reduce(&chart, &rules);
        let before = vec![0xa5; 5 + 9 * problem.diagram.nodes.len() + 20];
        let mut after = before.clone();
        let answer = Same.reduce(&chart, &rules, &mut after).expect("the call is there");
        assert_eq!(checked(&found, &before, &after, answer), Ok(()));
        for ((name, falsify), count) in FALSIFIED.iter().zip(&mut caught) {
            let (mut answer, mut after) = (answer, after.clone());
            if falsify(&mut answer, &mut after) {
                assert!(checked(&found, &before, &after, answer).is_err(), "{name}");
                *count += 1;
            }
        }
    }
    assert!(caught.iter().all(|count| *count > 100), "{caught:?}");
}

/// Mistakes in the reading of padding and in the reduction.
#[derive(Clone, Copy, Debug, PartialEq, Eq)]
enum Mistake {
    None,
    PaddingTaken,
    EqualChildrenTaken,
    DoublesTaken,
    ReductionRefuses,
    ReductionCopies,
    ReductionKeepsOrder,
}

/// Sound but for one mistake.
struct Mistaken(Mistake);

impl Mistaken {
    /// What the searches read: a file that passes where this one shouldn't.
    fn rules(&self, chart: &[u8], rules: &[u8]) -> Vec<u8> {
        let read = read_chart(chart).ok().map(|chart| chart.groups());
        let fault = read_both(chart, rules).err().filter(|fault| fault.number == 13);
        let node =
            fault.zip(read).and_then(|(fault, groups)| NodeAtFault::of(rules, groups, &fault));
        let passes = |NodeFaults { equal, twin, .. }: NodeFaults| match self.0 {
            Mistake::PaddingTaken => true,
            Mistake::EqualChildrenTaken => equal,
            Mistake::DoublesTaken => twin.is_some(),
            _ => false,
        };
        match node.filter(|node| passes(node.faults)) {
            Some(_) => YES.to_vec(),
            None => rules.to_vec(),
        }
    }

    fn copied(&self, problem: Problem) -> Diagram {
        match self.0 {
            Mistake::ReductionCopies => problem.diagram,
            // Without padding, but otherwise as it was.
            _ => {
                let mut kept: Vec<Node> = Vec::new();
                let mut numbers = vec![0, 1];
                for Node { step, lo, hi } in problem.diagram.nodes {
                    let (lo, hi) = (numbers[usize::from(lo)], numbers[usize::from(hi)]);
                    let node = Node { step, lo, hi };
                    let known = kept.iter().position(|other| *other == node);
                    numbers.push(match known {
                        _ if lo == hi => lo,
                        Some(at) => at as u16 + 2,
                        None => {
                            kept.push(node);
                            kept.len() as u16 + 1
                        }
                    });
                }
                Diagram { root: numbers[usize::from(problem.diagram.root)], nodes: kept }
            }
        }
    }
}

impl Planner for Mistaken {
    fn name(&self) -> &'static str {
        "mistaken"
    }

    fn sweep(&self, chart: &[u8], rules: &[u8], lent: &mut SweepSlices) -> Answer {
        Same.sweep(chart, &self.rules(chart, rules), lent)
    }

    fn guided(&self, chart: &[u8], rules: &[u8], lent: &mut GuidedSlices) -> Answer {
        Same.guided(chart, &self.rules(chart, rules), lent)
    }

    fn reduce(&self, chart: &[u8], rules: &[u8], file: &mut [u8]) -> Option<Answer> {
        match (self.0, read_both(chart, rules)) {
            (Mistake::ReductionRefuses, Err(fault)) => {
                Some(Answer::refused(fault.number, fault.file, fault.place))
            }
            (Mistake::ReductionCopies | Mistake::ReductionKeepsOrder, _) => {
                let Ok(problem) = read_padded(chart, rules) else {
                    return Same.reduce(chart, rules, file);
                };
                let bytes = write_diagram(&self.copied(problem));
                let Some(room) = file.get_mut(..bytes.len()) else {
                    return Some(Answer::refused(7, 0, 0));
                };
                room.copy_from_slice(&bytes);
                Some(Answer::accepted(0, bytes.len(), 0))
            }
            _ => Same.reduce(chart, rules, file),
        }
    }
}

#[test]
fn each_mistake_is_found_within_some_hundred_cases() {
    let passed_cases = |mistake: Mistake, limit: usize| {
        let planners: Vec<Box<dyn Planner>> = vec![Box::new(Mistaken(mistake))];
        let cases = Cases::new(97);
        let first = cases.first_random();
        (0..limit).find(|at| run(&cases.case(first + at), &planners).is_err()).unwrap_or(limit)
    };
    assert_eq!(passed_cases(Mistake::None, 2_000), 2_000);
    for mistake in [
        Mistake::PaddingTaken,
        Mistake::EqualChildrenTaken,
        Mistake::DoublesTaken,
        Mistake::ReductionRefuses,
        Mistake::ReductionCopies,
        Mistake::ReductionKeepsOrder,
    ] {
        assert!(passed_cases(mistake, 400) < 400, "{mistake:?}");
    }
}

#[test]
fn the_faults_of_a_node_are_told_apart() {
    let (chart, nodes) = full();
    let groups = read_chart(&chart).expect("a sound chart").groups();
    let of = |nodes: &[(u16, u16, u16)]| {
        let rules = file(9_999, nodes);
        let fault = read_both(&chart, &rules).expect_err("a node at fault");
        NodeAtFault::of(&rules, groups, &fault).expect("a node")
    };
    let equal = of(&[(3, 0, 1), (2, 2, 2)]);
    assert_eq!((equal.number, equal.before, equal.node.step), (13, 1, 2));
    let faults = NodeFaults { equal: true, ..NodeFaults::default() };
    assert_eq!(equal.faults, faults);
    // The root is at fault as well.
    assert_eq!(equal.hidden, Some(Refusal { number: 6, file: 2, place: 0 }));
    let twin = of(&[(3, 0, 1), (2, 0, 2), (3, 0, 1), (4, 5, 5)]);
    assert_eq!((twin.number, twin.faults.twin, twin.faults.equal), (13, Some(2), false));
    assert_eq!(twin.hidden, Some(Refusal { number: 6, file: 2, place: 32 }));
    let beyond = of(&[(3, 0, 1), (4, 2, 2)]);
    assert_eq!((beyond.number, beyond.faults), (6, NodeFaults { beyond: true, ..faults }));
    let surplus = of(&[&nodes[..], &[nodes[9]]].concat());
    let faults = NodeFaults { surplus: true, twin: Some(501), ..NodeFaults::default() };
    assert_eq!((surplus.number, surplus.before, surplus.faults), (6, 510, faults));
}

#[test]
fn the_example_is_the_one_of_the_bytes() {
    let problem = example_problem();
    assert_eq!(write_chart(&problem.chart), CHART);
    assert_eq!(write_diagram(&problem.diagram), NEEDS);
    assert!(judge(&CHART, &NEEDS).is_ok() && judge(&CHART, &PADDED).is_err());
}
