//! The table of refusals and the order of the tests, on bytes written out by hand.

use planner_bench::cases::Case;
use planner_bench::compare::run;
use planner_bench::files::read_both;
use planner_bench::lent::Lent;
use planner_bench::planner::{self, GuidedSlices, SweepSlices};
use planner_bench::reference::refused_field;

/// 3 stages from 0 to 2; steps 0, 1, 5 and 1, 2, 7.
const CHART: [u8; 31] = [
    0x01, 6, 0, 3, 0, 0, 0, 2, 0, //
    0x02, 8, 0, 0, 0, 1, 0, 5, 0, 0, 0, //
    0x02, 8, 0, 1, 0, 2, 0, 7, 0, 0, 0,
];
/// Root 3; node 2 with step 1, node 3 with step 0.
const RULES: [u8; 23] = [
    0x11, 2, 0, 3, 0, //
    0x12, 6, 0, 1, 0, 0, 0, 1, 0, //
    0x12, 6, 0, 0, 0, 1, 0, 2, 0,
];

/// Demands number, file and place from the reference, and that every implementation agrees.
fn refuses(chart: &[u8], rules: &[u8], expected: (u32, u32, usize)) {
    let found = read_both(chart, rules).map(|_| "accepted");
    let fault = found.map_err(|fault| (fault.number, fault.file, fault.place));
    assert_eq!(fault, Err(expected), "chart {chart:?} rules {rules:?}");
    implementations_agree(chart, rules);
}

fn accepts(chart: &[u8], rules: &[u8]) {
    assert!(read_both(chart, rules).is_ok(), "chart {chart:?} rules {rules:?}");
    implementations_agree(chart, rules);
}

fn implementations_agree(chart: &[u8], rules: &[u8]) {
    for dirt in 0..4 {
        let case = Case::new("test", (chart.to_vec(), rules.to_vec()), dirt);
        if let Err(found) = run(&case, &planner::all()) {
            panic!("{found:?}");
        }
    }
}

fn edited<const N: usize>(file: &[u8; N], at: usize, bytes: &[u8]) -> Vec<u8> {
    let mut changed = file.to_vec();
    changed[at..at + bytes.len()].copy_from_slice(bytes);
    changed
}

fn chart_refuses(chart: &[u8], number: u32, place: usize) {
    refuses(chart, &RULES, (number, 1, place));
}

fn rules_refuse(rules: &[u8], number: u32, place: usize) {
    refuses(&CHART, rules, (number, 2, place));
}

#[test]
fn the_base_files_pass() {
    accepts(&CHART, &RULES);
}

#[test]
fn empty_files_are_2() {
    chart_refuses(&[], 2, 0);
    rules_refuse(&[], 2, 0);
    refuses(&[], &[], (2, 1, 0));
}

#[test]
fn a_cut_header_is_1_whatever_it_holds() {
    chart_refuses(&[0xff], 1, 0);
    chart_refuses(&[0x01, 6], 1, 0);
    rules_refuse(&[0x01], 1, 0);
    chart_refuses(&[&CHART[..], &[0xff]].concat(), 1, 31);
    chart_refuses(&[&CHART[..], &[0x01, 6]].concat(), 1, 31);
    rules_refuse(&[&RULES[..], &[0, 0]].concat(), 1, 23);
}

#[test]
fn a_cut_body_is_1_after_tag_and_length() {
    chart_refuses(&CHART[..3], 1, 0);
    chart_refuses(&CHART[..8], 1, 0);
    chart_refuses(&CHART[..12], 1, 9);
    chart_refuses(&CHART[..30], 1, 20);
    rules_refuse(&RULES[..4], 1, 0);
    rules_refuse(&RULES[..13], 1, 5);
    chart_refuses(&[0x07, 6, 0], 2, 0);
    chart_refuses(&[0x01, 7, 0], 3, 0);
    chart_refuses(&[0x01, 0xff, 0xff], 3, 0);
    chart_refuses(&[&CHART[..9], &[0x02, 9, 0]].concat(), 3, 9);
}

#[test]
fn a_tag_of_another_file_or_a_head_out_of_place_is_2() {
    chart_refuses(&CHART[9..], 2, 0);
    chart_refuses(&edited(&CHART, 9, &[0x12]), 2, 9);
    chart_refuses(&edited(&CHART, 20, &[0x03]), 2, 20);
    chart_refuses(&edited(&CHART, 20, &[0x7f]), 2, 20);
    chart_refuses(&edited(&CHART, 0, &[0x11]), 2, 0);
    chart_refuses(&[&CHART[..], &CHART[..9]].concat(), 2, 31);
    chart_refuses(&[&CHART[..], &[0x01, 0, 0]].concat(), 2, 31);
    rules_refuse(&RULES[5..], 2, 0);
    rules_refuse(&edited(&RULES, 5, &[0x02]), 2, 5);
    rules_refuse(&[&RULES[..], &RULES[..5]].concat(), 2, 23);
}

#[test]
fn a_length_that_is_not_the_tags_is_3() {
    chart_refuses(&edited(&CHART, 1, &[5]), 3, 0);
    chart_refuses(&edited(&CHART, 2, &[1]), 3, 0);
    chart_refuses(&edited(&CHART, 10, &[7]), 3, 9);
    rules_refuse(&edited(&RULES, 1, &[3]), 3, 0);
    rules_refuse(&edited(&RULES, 15, &[0]), 3, 14);
}

#[test]
fn a_chart_head_beyond_a_limit_is_4() {
    let head = |stages: u16, start: u16, end: u16| {
        let values: Vec<u8> = [stages, start, end].iter().flat_map(|v| v.to_le_bytes()).collect();
        [&[0x01, 6, 0], &values[..]].concat()
    };
    let yes = [0x11, 2, 0, 1, 0];
    accepts(&head(1, 0, 0), &yes);
    accepts(&head(256, 255, 255), &yes);
    accepts(&head(2, 1, 0), &yes);
    for bad in [head(0, 0, 0), head(257, 0, 0), head(3, 3, 0), head(3, 0, 3), head(256, 0, 256)] {
        refuses(&bad, &yes, (4, 1, 0));
    }
}

#[test]
fn a_step_beyond_a_limit_is_10_5_or_11() {
    chart_refuses(&edited(&CHART, 14, &[0]), 10, 9);
    chart_refuses(&edited(&CHART, 12, &[1]), 10, 9);
    chart_refuses(&edited(&CHART, 25, &[3]), 10, 20);
    accepts(&edited(&CHART, 23, &[0]), &RULES);
    let falling = [&CHART[..9], &CHART[20..], &CHART[9..20]].concat();
    chart_refuses(&falling, 5, 20);
    accepts(&edited(&CHART, 16, &1_000_000_u32.to_le_bytes()), &RULES);
    for cost in [1_000_001_u32, 16_777_216, u32::MAX, 1 << 31] {
        chart_refuses(&edited(&CHART, 16, &cost.to_le_bytes()), 11, 9);
    }
}

#[test]
fn the_step_after_1024_is_5_unless_its_field_is_at_fault() {
    let step = &CHART[9..20];
    let full = [&CHART[..9], &step.repeat(1_024)].concat();
    let yes = [0x11, 2, 0, 1, 0];
    accepts(&full, &yes);
    let place = 9 + 11 * 1_024;
    refuses(&[&full[..], step].concat(), &yes, (5, 1, place));
    refuses(&[&full[..], &step[..10]].concat(), &yes, (1, 1, place));
    refuses(&[&full[..], &[0x02, 7, 0]].concat(), &yes, (3, 1, place));
    refuses(&[&full[..], &[0x01, 6, 0]].concat(), &yes, (2, 1, place));
    assert_eq!(place, 11_273);
}

#[test]
fn a_node_beyond_a_limit_is_6() {
    rules_refuse(&edited(&RULES, 8, &[2]), 6, 5);
    rules_refuse(&edited(&RULES, 10, &[2]), 6, 5);
    rules_refuse(&edited(&RULES, 12, &[2]), 6, 5);
    rules_refuse(&edited(&RULES, 21, &[3]), 6, 14);
    rules_refuse(&edited(&RULES, 17, &[1]), 6, 14);
    rules_refuse(&edited(&RULES, 19, &[0, 1]), 6, 14);
    accepts(&CHART, &edited(&RULES, 19, &[0]));
    accepts(&CHART, &edited(&RULES, 10, &[1, 0, 0]));
    refuses(&CHART[..9], &RULES, (6, 2, 5));
}

/// A chart of 1,024 steps from 0 to 1.
fn many_steps() -> Vec<u8> {
    [&CHART[..9], &CHART[9..20].repeat(1_024)].concat()
}

/// A node that forbids a step.
fn forbids(step: u16) -> Vec<u8> {
    let [low, high] = step.to_le_bytes();
    vec![0x12, 6, 0, low, high, 1, 0, 0, 0]
}

/// The nodes 2 to 511, which forbid the steps 0 to 509, each followed by some bytes.
fn nodes_with(more: &[u8]) -> Vec<u8> {
    (0..510).flat_map(|step| [&forbids(step)[..], more].concat()).collect()
}

#[test]
fn the_node_after_510_is_6_unless_its_field_is_at_fault() {
    let (chart, node) = (many_steps(), forbids(510));
    let full = [&[0x11, 2, 0, 255, 1], &nodes_with(&[])[..]].concat();
    accepts(&chart, &full);
    let place = 5 + 9 * 510;
    refuses(&chart, &[&full[..], &node].concat(), (6, 2, place));
    refuses(&chart, &[&full[..], &node[..8]].concat(), (1, 2, place));
    refuses(&chart, &[&full[..], &[0x12, 5, 0]].concat(), (3, 2, place));
    refuses(&chart, &[&full[..], &[0x11, 2, 0]].concat(), (2, 2, place));
    assert_eq!(place, 4_595);
}

#[test]
fn the_root_is_judged_after_all_nodes() {
    let root = |root: u16| edited(&RULES, 3, &root.to_le_bytes());
    accepts(&CHART, &root(0));
    accepts(&CHART, &root(2));
    for bad in [4, 5, 256, 65_535] {
        rules_refuse(&root(bad), 6, 0);
    }
    let mut bad_node = root(9);
    bad_node[21] = 3;
    rules_refuse(&bad_node, 6, 14);
    rules_refuse(&[&root(9)[..], &[0]].concat(), 1, 23);
    rules_refuse(&[&root(9)[..], &[0x7f, 0, 0]].concat(), 2, 23);
    refuses(&CHART, &[0x11, 2, 0, 2, 0], (6, 2, 0));
    accepts(&CHART, &[0x11, 2, 0, 1, 0]);
}

#[test]
fn the_chart_comes_before_the_diagram() {
    refuses(&CHART[..30], &[], (1, 1, 20));
    refuses(&edited(&CHART, 25, &[3]), &RULES[..4], (10, 1, 20));
    refuses(&edited(&CHART, 30, &[1]), &RULES[..4], (11, 1, 20));
}

#[test]
fn the_first_faulty_field_counts() {
    let mut two = edited(&CHART, 14, &[0]);
    two[20] = 0x7f;
    chart_refuses(&two, 10, 9);
    two[0] = 0;
    chart_refuses(&two, 2, 0);
}

/// Slices of these lengths, all with content that no search would write.
fn answers(chart: &[u8], rules: &[u8], work: usize, plan: usize) -> Vec<u32> {
    let slice = vec![77; work];
    let steps = Lent::from(vec![77; plan]);
    let mut numbers = Vec::new();
    for planner in planner::all() {
        for short in 0..9 {
            let cut = |at: usize| Lent::from(slice[..work - usize::from(at == short)].to_vec());
            let mut sweep =
                SweepSlices { cost: cut(0), via: cut(1), nodes: cut(2), plan: steps.clone() };
            let before = sweep.clone();
            let number = planner.sweep(chart, rules, &mut sweep).number;
            assert!(number != 7 || sweep == before);
            let mut guided = GuidedSlices {
                keys: cut(3),
                via: cut(4),
                heap: cut(5),
                pos: cut(6),
                stack: cut(7),
                log: cut(8),
                plan: steps.clone(),
            };
            let before = guided.clone();
            let other = planner.guided(chart, rules, &mut guided).number;
            assert!(other != 7 || guided == before);
            numbers.push(if short < 3 { number } else { other });
        }
    }
    numbers
}

#[test]
fn each_slice_that_is_too_short_is_7() {
    assert!(answers(&CHART, &RULES, 12, 2).iter().all(|number| *number == 7));
    assert!(answers(&CHART, &RULES, 13, 2).iter().all(|number| *number == 0));
    assert!(answers(&CHART, &RULES, 13, 1).iter().all(|number| *number == 7));
    assert!(answers(&CHART, &RULES, 13, 3).iter().all(|number| *number == 0));
}

#[test]
fn too_short_comes_before_no_plan() {
    let one_stage = [0x01, 6, 0, 1, 0, 0, 0, 0, 0];
    let no = [0x11, 2, 0, 0, 0];
    assert!(answers(&one_stage, &no, 2, 0).iter().all(|number| *number == 7));
    assert!(answers(&one_stage, &no, 3, 0).iter().all(|number| *number == 8));
}

/// The chart with remarks behind every field; one of them is its first step but for the tag.
const REMARKED_CHART: [u8; 56] = [
    0x01, 6, 0, 3, 0, 0, 0, 2, 0, //
    0x80, 0, 0, //
    0x02, 8, 0, 0, 0, 1, 0, 5, 0, 0, 0, //
    0xff, 1, 0, 0x02, //
    0x82, 8, 0, 0, 0, 1, 0, 5, 0, 0, 0, //
    0x02, 8, 0, 1, 0, 2, 0, 7, 0, 0, 0, //
    0x91, 4, 0, 0x02, 8, 0, 1,
];
/// The diagram in the same way.
const REMARKED_RULES: [u8; 42] = [
    0x11, 2, 0, 3, 0, //
    0x92, 6, 0, 1, 0, 0, 0, 1, 0, //
    0x12, 6, 0, 1, 0, 0, 0, 1, 0, //
    0x80, 0, 0, //
    0xc0, 1, 0, 0xff, //
    0x12, 6, 0, 0, 0, 1, 0, 2, 0, //
    0xff, 0, 0,
];

#[test]
fn remarks_are_passed_over() {
    assert_eq!(read_both(&REMARKED_CHART, &REMARKED_RULES), read_both(&CHART, &RULES));
    accepts(&REMARKED_CHART, &REMARKED_RULES);
    accepts(&REMARKED_CHART, &RULES);
    accepts(&CHART, &REMARKED_RULES);
    for planner in planner::all() {
        let mut sweep = SweepSlices::of(12, 2);
        let answer = planner.sweep(&REMARKED_CHART, &REMARKED_RULES, &mut sweep);
        assert_eq!((answer.number, answer.cost, answer.length), (0, 100, 2), "{}", planner.name());
        assert_eq!(sweep.plan[..], [0, 1], "{}", planner.name());
    }
}

#[test]
fn a_remark_takes_no_number() {
    // There is no step 2, and no node 4.
    refuses(&REMARKED_CHART, &edited(&RULES, 8, &[2]), (6, 2, 5));
    accepts(&REMARKED_CHART, &edited(&RULES, 3, &[2]));
    refuses(&CHART, &edited(&REMARKED_RULES, 3, &[4]), (6, 2, 0));
    // With its tag changed the last step is a remark, and step 1 is gone.
    chart_refuses(&edited(&CHART, 20, &[0x03]), 2, 20);
    for tag in [0x80, 0x82, 0xff] {
        refuses(&edited(&CHART, 20, &[tag]), &RULES, (6, 2, 5));
        refuses(&CHART, &edited(&RULES, 14, &[tag]), (6, 2, 0));
    }
}

#[test]
fn remarks_have_the_tags_from_80_on() {
    for tag in 0x80..=0xff {
        accepts(&[&CHART[..], &[tag, 0, 0]].concat(), &[&RULES[..], &[tag, 1, 0, 7]].concat());
    }
    for tag in [0x00, 0x03, 0x10, 0x13, 0x40, 0x7e, 0x7f] {
        chart_refuses(&[&CHART[..], &[tag, 0, 0]].concat(), 2, 31);
        rules_refuse(&[&RULES[..], &[tag, 0, 0]].concat(), 2, 23);
        rules_refuse(&[&RULES[..5], &[tag, 0, 0], &RULES[5..]].concat(), 2, 5);
    }
}

#[test]
fn no_remark_may_stand_first() {
    for remark in [&[0x80, 0, 0][..], &[0xff, 2, 0, 1, 2], &[0x81, 6, 0, 3, 0, 0, 0, 2, 0]] {
        chart_refuses(&[remark, &CHART[..]].concat(), 2, 0);
        rules_refuse(&[remark, &RULES[..]].concat(), 2, 0);
        chart_refuses(remark, 2, 0);
        rules_refuse(remark, 2, 0);
    }
    // The tag comes before the cut body, the cut header before the tag.
    chart_refuses(&[0x80, 0xff, 0xff], 2, 0);
    rules_refuse(&[0x80, 1, 0], 2, 0);
    chart_refuses(&[0x80, 0], 1, 0);
    rules_refuse(&[0x80], 1, 0);
    // Behind a remark a head comes again.
    chart_refuses(&[&CHART[..9], &[0x80, 0, 0], &CHART[..9]].concat(), 2, 12);
    rules_refuse(&[&RULES[..5], &[0x80, 0, 0], &RULES[..5]].concat(), 2, 8);
}

#[test]
fn a_cut_remark_is_1_at_its_own_place() {
    let cut: [&[u8]; 8] = [
        &[0x80],
        &[0xff],
        &[0x80, 0],
        &[0xff, 0xff],
        &[0x80, 1, 0],
        &[0x80, 3, 0, 1, 2],
        &[0x80, 0, 1, 1, 2],
        &[0xff, 0xff, 0xff],
    ];
    for end in cut {
        chart_refuses(&[&CHART[..], end].concat(), 1, 31);
        rules_refuse(&[&RULES[..], end].concat(), 1, 23);
        chart_refuses(&[&CHART[..], &[0x80, 2, 0, 1, 2], end].concat(), 1, 36);
        rules_refuse(&[&RULES[..5], end].concat(), 1, 5);
    }
    // The fields behind a header are its body, as far as its length goes.
    refuses(&[&CHART[..9], &[0x80, 22, 0], &CHART[9..]].concat(), &RULES, (6, 2, 5));
    chart_refuses(&[&CHART[..9], &[0x80, 23, 0], &CHART[9..]].concat(), 1, 9);
    chart_refuses(&[&CHART[..9], &[0x80, 21, 0], &CHART[9..]].concat(), 1, 33);
    refuses(&CHART, &[&RULES[..5], &[0x80, 18, 0], &RULES[5..]].concat(), (6, 2, 0));
    rules_refuse(&[&RULES[..5], &[0x80, 19, 0], &RULES[5..]].concat(), 1, 5);
}

#[test]
fn faults_behind_remarks_are_told_at_their_places() {
    let remark = [0x85, 2, 0, 0x02, 8];
    let behind = |end: &[u8]| [&CHART[..20], &remark, end].concat();
    chart_refuses(&behind(&[0x02, 8, 0, 1, 0, 1, 0, 7, 0, 0, 0]), 10, 25);
    chart_refuses(&behind(&[0x02, 8, 0, 1, 0, 2, 0, 7, 0, 0, 1]), 11, 25);
    chart_refuses(&behind(&[0x02, 7, 0]), 3, 25);
    chart_refuses(&behind(&CHART[20..30]), 1, 25);
    chart_refuses(&behind(&[0x7f, 0, 0]), 2, 25);
    // The step before is the one before the remark.
    chart_refuses(&[&CHART[..9], &CHART[20..], &remark, &CHART[9..20]].concat(), 5, 25);
    let behind = |end: &[u8]| [&RULES[..14], &remark, end].concat();
    rules_refuse(&behind(&[0x12, 6, 0, 0, 0, 3, 0, 2, 0]), 6, 19);
    rules_refuse(&behind(&[0x12, 5, 0]), 3, 19);
    rules_refuse(&behind(&RULES[14..22]), 1, 19);
    // The root comes after all remarks as well.
    let bad_root = edited(&RULES, 3, &[9]);
    rules_refuse(&[&bad_root[..], &remark].concat(), 6, 0);
    rules_refuse(&[&bad_root[..], &remark[..4]].concat(), 1, 23);
}

#[test]
fn remarks_do_not_count_to_1024_and_510() {
    let step = &CHART[9..20];
    let remark = [0xaa, 1, 0, 0];
    let yes = [0x11, 2, 0, 1, 0];
    let chart = [&CHART[..9], &[step, &remark].concat().repeat(1_024)].concat();
    accepts(&chart, &yes);
    refuses(&[&chart[..], step].concat(), &yes, (5, 1, 9 + 15 * 1_024));
    refuses(&[&chart[..], &step[..10]].concat(), &yes, (1, 1, 9 + 15 * 1_024));
    let rules = [&[0x11, 2, 0, 255, 1], &nodes_with(&remark)[..]].concat();
    accepts(&many_steps(), &rules);
    let place = 5 + 13 * 510;
    refuses(&many_steps(), &[&rules[..], &forbids(510)].concat(), (6, 2, place));
    refuses(&many_steps(), &[&rules[..], &[0x12, 5, 0]].concat(), (3, 2, place));
}

/// A file with bytes behind it up to a length.
fn up_to(file: &[u8], length: usize, byte: u8) -> Vec<u8> {
    let mut bytes = file.to_vec();
    bytes.resize(length, byte);
    bytes
}

#[test]
fn a_file_above_32768_bytes_is_9_before_its_first_field() {
    for byte in [0x00, 0x02, 0x7f, 0x80, 0xff] {
        for length in [32_769, 32_770, 40_000, 65_536, 100_000] {
            for begin in [&CHART[..], &RULES, &[], &[0x80, 0, 0], &[0x01, 7, 0], &[0x01, 6, 0, 0]] {
                let file = up_to(begin, length, byte);
                chart_refuses(&file, 9, 32_768);
                rules_refuse(&file, 9, 32_768);
            }
        }
    }
    chart_refuses(&up_to(&CHART, 32_768, 0), 2, 31);
    rules_refuse(&up_to(&RULES, 32_768, 0), 2, 23);
    chart_refuses(&up_to(&[], 32_768, 0), 2, 0);
    rules_refuse(&up_to(&[], 32_768, 0xff), 2, 0);
    chart_refuses(&up_to(&CHART, 32_768, 0xff), 1, 31);
}

#[test]
fn the_diagrams_9_comes_after_the_chart() {
    let long = up_to(&RULES, 32_769, 0x80);
    let chart = up_to(&CHART, 32_769, 0x80);
    refuses(&chart, &long, (9, 1, 32_768));
    refuses(&chart, &[], (9, 1, 32_768));
    refuses(&[], &long, (2, 1, 0));
    refuses(&CHART[..30], &long, (1, 1, 20));
    refuses(&edited(&CHART, 9, &[0x7f]), &long, (2, 1, 9));
    refuses(&edited(&CHART, 1, &[7]), &long, (3, 1, 0));
    refuses(&edited(&CHART, 3, &[0]), &long, (4, 1, 0));
    refuses(&edited(&CHART, 25, &[3]), &long, (10, 1, 20));
    refuses(&edited(&CHART, 30, &[1]), &long, (11, 1, 20));
    refuses(&CHART, &long, (9, 2, 32_768));
}

#[test]
fn the_refused_field_of_a_9_is_what_stands_there() {
    let chart = [&up_to(&CHART, 32_768, 0)[..], &[0x80, 2, 0, 1, 2, 3]].concat();
    chart_refuses(&chart, 9, 32_768);
    assert_eq!(refused_field(&chart, &RULES, 1, 32_768), [0x80, 2, 0, 1, 2]);
    assert_eq!(refused_field(&chart[..32_769], &RULES, 1, 32_768), [0x80]);
    assert_eq!(refused_field(&CHART, &REMARKED_RULES, 2, 5), &REMARKED_RULES[5..14]);
}
