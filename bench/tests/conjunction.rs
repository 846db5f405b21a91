//! The conjunction of two diagrams: bytes written out by hand, the order of its refusals, what stays, and
//! both of the reference's methods.

mod bytes;

use std::collections::BTreeSet;

use bytes::{CHART, NEEDS, NO, YES};
use planner_bench::cases::{example_problem, Case, Cases};
use planner_bench::check::conjunction::{conjunction, is_reduced};
use planner_bench::compare::run;
use planner_bench::files::{
    read_diagram, read_padded, read_three, tagged, write_chart, write_diagram, Chart, Diagram,
    Node, Operands, Problem,
};
use planner_bench::generate::operands::{any, most_pairs, named, systematic};
use planner_bench::generate::padded::{complement, padded, rearranged};
use planner_bench::generate::three_files::{broken, written};
use planner_bench::generate::Random;
use planner_bench::planner::{self, Answer, ConjoinSlices, Planner, SweepSlices};
use planner_bench::reference::conjunction::{
    both_say_yes, by_truth, conjoin, conjunction_answer, Conjunction,
};
use planner_bench::reference::rules::verdict;
use planner_bench::reference::ways::{cost_of, each_way, set_of};
use planner_bench::reference::Facts;
use planner_bench::same::Same;
use planner_bench::saved;

/// Not both of steps 1 and 3.
const NOT_BOTH: [u8; 23] = [
    0x11, 2, 0, 3, 0, //
    0x12, 6, 0, 3, 0, 1, 0, 0, 0, //
    0x12, 6, 0, 1, 0, 1, 0, 2, 0,
];

/// Where every implementation agrees with the reference: what that answers with enough space, and the
/// file.
fn conjoined(chart: &[u8], rules: &[u8], more: &[u8]) -> (Answer, Vec<u8>) {
    for dirt in 0..4 {
        let files = (chart.to_vec(), rules.to_vec(), more.to_vec());
        if let Err(found) = run(&Case::conjunction("test", files, dirt), &planner::all()) {
            panic!("{found:?}");
        }
    }
    let found = conjoin(chart, rules, more);
    let file = found.as_ref().ok().and_then(Conjunction::file).unwrap_or_default();
    (conjunction_answer(&found, usize::MAX, usize::MAX), file)
}

/// Demands a file over the example's chart, whichever diagram comes first.
fn gives(rules: &[u8], more: &[u8], want: &[u8]) {
    for (rules, more) in [(rules, more), (more, rules)] {
        let (answer, file) = conjoined(&CHART, rules, more);
        assert_eq!(file, want);
        assert_eq!(answer, Answer::accepted(0, want.len(), 0));
    }
}

fn refuses(chart: &[u8], rules: &[u8], more: &[u8], (number, file, place): (u32, u32, usize)) {
    let (answer, _) = conjoined(chart, rules, more);
    assert_eq!(answer, Answer::refused(number, file, place));
}

#[test]
fn the_example_with_another_rule() {
    gives(
        &NEEDS,
        &NOT_BOTH,
        &[
            0x11, 2, 0, 7, 0, //
            0x12, 6, 0, 3, 0, 1, 0, 0, 0, //
            0x12, 6, 0, 1, 0, 1, 0, 2, 0, //
            0x12, 6, 0, 2, 0, 0, 0, 1, 0, //
            0x12, 6, 0, 2, 0, 0, 0, 2, 0, //
            0x12, 6, 0, 1, 0, 4, 0, 5, 0, //
            0x12, 6, 0, 0, 0, 3, 0, 6, 0,
        ],
    );
}

/// The example of REFERENCE 16.5: no plan does without step 5.
#[test]
fn the_example_without_its_last_step() {
    let forbids = [0x11, 2, 0, 2, 0, 0x12, 6, 0, 5, 0, 1, 0, 0, 0];
    let both = [
        0x11, 2, 0, 4, 0, //
        0x12, 6, 0, 5, 0, 1, 0, 0, 0, //
        0x12, 6, 0, 2, 0, 0, 0, 2, 0, //
        0x12, 6, 0, 0, 0, 2, 0, 3, 0,
    ];
    gives(&NEEDS, &forbids, &both);
    let mut lent = SweepSlices::of(25, 4);
    assert_eq!(Same.sweep(&CHART, &both, &mut lent).number, 8);
}

#[test]
fn constants_are_a_head_alone() {
    for (rules, more, want) in [(NO, NO, NO), (NO, YES, NO), (YES, YES, YES)] {
        gives(&rules, &more, &want);
    }
    gives(&NEEDS, &NO, &NO);
    gives(&NEEDS, &YES, &NEEDS);
    gives(&NEEDS, &NEEDS, &NEEDS);
    // Step 0 without step 2: the opposite.
    let opposite = [
        0x11, 2, 0, 3, 0, //
        0x12, 6, 0, 2, 0, 1, 0, 0, 0, //
        0x12, 6, 0, 0, 0, 0, 0, 2, 0,
    ];
    gives(&NEEDS, &opposite, &NO);
    // Without steps there are no nodes.
    let chart = [0x01, 6, 0, 1, 0, 0, 0, 0, 0];
    assert_eq!(conjoined(&chart, &YES, &YES).1, YES);
    assert_eq!(conjoined(&chart, &YES, &NO).1, NO);
    refuses(&chart, &YES, &NEEDS, (6, 3, 5));
}

#[test]
fn a_walk_leaves_lo_before_hi() {
    // By step 1 to step 3 or to step 2; the file has step 2's node first.
    let either = [
        0x11, 2, 0, 4, 0, //
        0x12, 6, 0, 2, 0, 0, 0, 1, 0, //
        0x12, 6, 0, 3, 0, 0, 0, 1, 0, //
        0x12, 6, 0, 1, 0, 3, 0, 2, 0,
    ];
    let walked = [
        0x11, 2, 0, 4, 0, //
        0x12, 6, 0, 3, 0, 0, 0, 1, 0, //
        0x12, 6, 0, 2, 0, 0, 0, 1, 0, //
        0x12, 6, 0, 1, 0, 2, 0, 3, 0,
    ];
    gives(&either, &YES, &walked);
    gives(&either, &walked, &walked);
    // The node that both children share comes with the first.
    let shared = [
        0x11, 2, 0, 5, 0, //
        0x12, 6, 0, 5, 0, 1, 0, 0, 0, //
        0x12, 6, 0, 4, 0, 2, 0, 1, 0, //
        0x12, 6, 0, 4, 0, 0, 0, 2, 0, //
        0x12, 6, 0, 0, 0, 4, 0, 3, 0,
    ];
    let first = [
        0x11, 2, 0, 5, 0, //
        0x12, 6, 0, 5, 0, 1, 0, 0, 0, //
        0x12, 6, 0, 4, 0, 0, 0, 2, 0, //
        0x12, 6, 0, 4, 0, 2, 0, 1, 0, //
        0x12, 6, 0, 0, 0, 3, 0, 4, 0,
    ];
    gives(&shared, &YES, &first);
}

#[test]
fn nodes_that_nothing_leads_to_vanish() {
    let strewn = [
        0x11, 2, 0, 5, 0, //
        0x12, 6, 0, 5, 0, 1, 0, 0, 0, //
        0x12, 6, 0, 2, 0, 0, 0, 1, 0, //
        0x12, 6, 0, 1, 0, 2, 0, 3, 0, //
        0x12, 6, 0, 0, 0, 1, 0, 3, 0, //
        0x12, 6, 0, 0, 0, 1, 0, 4, 0,
    ];
    gives(&strewn, &YES, &NEEDS);
    gives(&strewn, &strewn, &NEEDS);
    gives(&strewn, &NEEDS, &NEEDS);
}

fn edited(file: &[u8], at: usize, bytes: &[u8]) -> Vec<u8> {
    let mut changed = file.to_vec();
    changed[at..at + bytes.len()].copy_from_slice(bytes);
    changed
}

#[test]
fn the_chart_then_file_2_then_file_3() {
    let bad_chart = edited(&CHART, 3, &[0, 0]);
    let bad_node = edited(&NEEDS, 8, &[6, 0]);
    let bad_root = edited(&NEEDS, 3, &[4, 0]);
    let cut = &NEEDS[..22];
    let long = [&NEEDS[..], &[0x12; 32_768]].concat();
    let double = [&NEEDS[..], &NEEDS[5..14]].concat();
    let idle = edited(&NEEDS, 19, &[2, 0]);
    let faulty: [(&[u8], u32, usize); 8] = [
        (&double, 13, 23),
        (&idle, 13, 14),
        (&bad_node, 6, 5),
        (&bad_root, 6, 0),
        (cut, 1, 14),
        (&[], 2, 0),
        (&[0x12, 6, 0, 1, 0, 0, 0, 1, 0], 2, 0),
        (&long, 9, 32_768),
    ];
    for (first, number, place) in faulty {
        refuses(&CHART, first, &NOT_BOTH, (number, 2, place));
        refuses(&CHART, &NOT_BOTH, first, (number, 3, place));
        for (second, _, _) in faulty {
            refuses(&bad_chart, first, second, (4, 1, 0));
            refuses(&CHART, first, second, (number, 2, place));
        }
    }
    // In file 3 too the root comes after all nodes.
    refuses(&CHART, &NEEDS, &edited(&bad_node, 3, &[9, 0]), (6, 3, 5));
    refuses(&CHART, &NEEDS, &edited(&double, 3, &[9, 0]), (13, 3, 23));
    refuses(&CHART, &NEEDS, &[&bad_root[..], &[0x12]].concat(), (1, 3, 23));
}

#[test]
fn file_3_may_have_remarks() {
    let remark = tagged(0x80, &[7; 40]);
    let remarked = [&NOT_BOTH[..5], &remark, &NOT_BOTH[5..], &remark].concat();
    let plain = conjoined(&CHART, &NEEDS, &NOT_BOTH);
    assert_eq!(conjoined(&CHART, &NEEDS, &remarked), plain);
    assert_eq!(conjoined(&CHART, &remarked, &remarked).1, NOT_BOTH);
    refuses(&CHART, &NEEDS, &[&remark[..], &NOT_BOTH].concat(), (2, 3, 0));
    refuses(&CHART, &NEEDS, &remarked[..remarked.len() - 1], (1, 3, 5 + 43 + 18));
    let full = [&NOT_BOTH[..], &tagged(0xff, &vec![1; 32_768 - 26])].concat();
    assert_eq!(conjoined(&CHART, &NEEDS, &full), plain);
    refuses(&CHART, &NEEDS, &[&full[..], &[0x80]].concat(), (9, 3, 32_768));
}

/// One step after the other is wanted, over steps that alternate with those of the other chain.
fn chain(first: usize, count: usize) -> Diagram {
    let mut nodes: Vec<Node> = Vec::new();
    for at in (0..count).rev() {
        let hi = if nodes.is_empty() { 1 } else { nodes.len() as u16 + 1 };
        nodes.push(Node { step: (first + 2 * at) as u16, lo: 0, hi });
    }
    Diagram { root: nodes.len() as u16 + 1, nodes }
}

/// A chart of 1,024 steps, and two chains over it.
fn chains(first: usize, second: usize) -> (Vec<u8>, Vec<u8>, Vec<u8>) {
    let chart = most_pairs().chart;
    (write_chart(&chart), write_diagram(&chain(0, first)), write_diagram(&chain(1, second)))
}

/// The answer on slices of these lengths, which all implementations give; a refusal leaves the buffer.
fn answer_on(
    (chart, rules, more): &(Vec<u8>, Vec<u8>, Vec<u8>),
    work: usize,
    file: usize,
) -> Answer {
    let found = conjoin(chart, rules, more);
    let want = conjunction_answer(&found, work, file);
    for planner in planner::all() {
        let before = ConjoinSlices { work: vec![7; work].into(), file: vec![9; file].into() };
        let mut after = before.clone();
        let Some(answer) = planner.conjoin(chart, rules, more, &mut after) else { continue };
        assert_eq!(answer, want, "{}", planner.name());
        assert_eq!(conjunction(&found, &before, &after, answer), Ok(()), "{}", planner.name());
        assert!(answer.number == 0 || after.file == before.file);
    }
    want
}

#[test]
fn work_then_12_then_the_buffer() {
    let seven = Answer::refused(7, 0, 0);
    let twelve = Answer::refused(12, 0, 0);
    let largest = chains(255, 255);
    let pairs = 257 * 257;
    assert_eq!(answer_on(&largest, pairs, 4_595), Answer::accepted(0, 4_595, 0));
    assert_eq!(answer_on(&largest, pairs + 5, 5_000), Answer::accepted(0, 4_595, 0));
    assert_eq!(answer_on(&largest, pairs, 4_594), seven);
    assert_eq!(answer_on(&largest, pairs, 0), seven);
    assert_eq!(answer_on(&largest, pairs - 1, 4_595), seven);
    assert_eq!(answer_on(&largest, 0, 0), seven);
    let larger = chains(256, 255);
    let pairs = 258 * 257;
    for file in [0, 4_594, 4_595, 4_604, 9_000] {
        assert_eq!(answer_on(&larger, pairs, file), twelve);
        assert_eq!(answer_on(&larger, pairs - 1, file), seven);
    }
    assert_eq!(answer_on(&chains(510, 510), 262_144, 9_999), twelve);
    assert_eq!(answer_on(&chains(510, 510), 262_143, 9_999), seven);
}

/// Constants count among the references: 2 × 2 entries for two of them.
#[test]
fn entries_are_needed_for_constants_too() {
    let files = (CHART.to_vec(), YES.to_vec(), YES.to_vec());
    assert_eq!(answer_on(&files, 4, 5), Answer::accepted(0, 5, 0));
    assert_eq!(answer_on(&files, 3, 5), Answer::refused(7, 0, 0));
    assert_eq!(answer_on(&files, 4, 4), Answer::refused(7, 0, 0));
    let files = (CHART.to_vec(), NEEDS.to_vec(), NO.to_vec());
    assert_eq!(answer_on(&files, 8, 5), Answer::accepted(0, 5, 0));
    assert_eq!(answer_on(&files, 7, 5), Answer::refused(7, 0, 0));
}

/// Slices behind what is used, and all of them under a refusal.
#[test]
fn what_is_not_used_stays() {
    let files = (CHART.to_vec(), NEEDS.to_vec(), NOT_BOTH.to_vec());
    let (chart, rules, more) = &files;
    for planner in planner::all() {
        let mut lent = ConjoinSlices { work: vec![7; 20].into(), file: vec![9; 70].into() };
        let Some(answer) = planner.conjoin(chart, rules, more, &mut lent) else { continue };
        assert_eq!(answer, Answer::accepted(0, 59, 0));
        assert_eq!((&lent.work[16..], &lent.file[59..]), (&[7; 4][..], &[9; 11][..]));
        let before = ConjoinSlices { work: vec![7; 15].into(), file: vec![9; 59].into() };
        let mut lent = before.clone();
        assert_eq!(planner.conjoin(chart, rules, more, &mut lent).map(|a| a.number), Some(7));
        assert_eq!(lent, before);
        let before = ConjoinSlices { work: vec![7; 16].into(), file: vec![9; 58].into() };
        let mut lent = before.clone();
        assert_eq!(planner.conjoin(chart, rules, more, &mut lent).map(|a| a.number), Some(7));
        assert_eq!(lent.file, before.file);
        let mut lent = before.clone();
        assert_eq!(planner.conjoin(chart, rules, &[], &mut lent).map(|a| a.number), Some(2));
        assert_eq!(lent, before);
    }
}

/// Small diagrams over few steps and groups, so that all ways and all sets can be judged.
fn small(random: &mut Random) -> Operands {
    loop {
        let operands = any(random);
        let is_small = operands.chart.steps.len().max(operands.chart.groups()) <= 12;
        if is_small && operands.pairs() <= 1_000 {
            return operands;
        }
    }
}

fn sets(groups: usize) -> impl Iterator<Item = Vec<bool>> {
    (0..1_u32 << groups).map(move |set| (0..groups).map(|group| set >> group & 1 == 1).collect())
}

#[test]
fn truth_and_product_agree() {
    let mut random = Random::new(61);
    let (mut inner, mut grown) = (0, 0);
    for _ in 0..20_000 {
        let found = Conjunction::of(small(&mut random));
        let by_truth = by_truth(&found.operands).expect("few groups");
        assert_eq!(by_truth, found.reduced, "{:?}", found.operands);
        inner += usize::from(by_truth.nodes.len() > 2);
        grown += usize::from(by_truth.nodes.len() > found.operands.first.nodes.len());
    }
    assert!(inner > 5_000 && grown > 1_000, "{inner} {grown}");
}

#[test]
fn the_file_says_yes_where_both_diagrams_do() {
    let mut random = Random::new(62);
    for _ in 0..2_000 {
        let found = Conjunction::of(small(&mut random));
        let groups = found.operands.chart.groups();
        let file = found.file().expect("few nodes");
        let read = read_diagram(&file, groups).expect("a sound file");
        assert_eq!(is_reduced(&read), Ok(()));
        assert_eq!(file.len(), 5 + 9 * read.nodes.len());
        for set in sets(groups) {
            assert_eq!(verdict(&read, &set), both_say_yes(&found.operands, &set));
        }
    }
}

/// The least cost of a plan that both diagrams allow, by a look at all plans.
fn cheapest_by_both(operands: &Operands, chart: &Chart) -> Option<u32> {
    let mut least = None;
    each_way(chart, chart.start, usize::MAX, &mut |way| {
        if way.leads_to == chart.end && both_say_yes(operands, &set_of(chart, way.steps)) {
            let cost = cost_of(chart, way.steps);
            least = Some(least.map_or(cost, |least: u32| least.min(cost)));
        }
    });
    least
}

#[test]
fn a_plan_under_the_result_is_the_cheapest_that_both_allow() {
    let mut random = Random::new(63);
    let mut found_plans = 0;
    for _ in 0..3_000 {
        let Conjunction { operands, reduced, .. } = Conjunction::of(small(&mut random));
        let chart = operands.chart.rounded();
        let least = cheapest_by_both(&operands, &chart);
        let diagram = reduced.diagram().expect("few nodes");
        let facts = Facts::by_dynamic_programming(&Problem { chart, diagram });
        assert_eq!(facts.cheapest.map(|plan| plan.cost), least);
        found_plans += usize::from(least.is_some());
    }
    assert!(found_plans > 500, "{found_plans}");
}

#[test]
fn other_diagrams_say_the_same_and_complements_the_opposite() {
    let mut random = Random::new(64);
    let (mut unreduced, mut refused) = (0, 0);
    for _ in 0..1_000 {
        let Operands { chart, first, .. } = small(&mut random);
        let (groups, nodes) = (chart.groups(), first.nodes.len() + 12);
        let other = rearranged(&mut random, &first, groups, nodes);
        let padded = padded(&mut random, &first, groups, nodes);
        assert_eq!(read_diagram(&write_diagram(&other), groups), Ok(other.clone()));
        let files = (write_chart(&chart), write_diagram(&padded));
        assert_eq!(read_padded(&files.0, &files.1).map(|read| read.diagram), Ok(padded.clone()));
        for set in sets(groups).step_by(3) {
            assert_eq!(verdict(&other, &set), verdict(&first, &set));
            assert_eq!(verdict(&padded, &set), verdict(&first, &set));
            assert_ne!(verdict(&complement(&first), &set), verdict(&first, &set));
        }
        unreduced += usize::from(is_reduced(&other).is_err());
        refused += usize::from(read_diagram(&files.1, groups).is_err());
    }
    assert!(unreduced > 500 && refused > 500, "{unreduced} {refused}");
}

#[test]
fn corners_are_sound_and_as_far_out_as_they_should_be() {
    let mut random = Random::new(65);
    let timed: Vec<Operands> = named().into_iter().map(|(_, operands)| operands).collect();
    assert_eq!(timed.len(), 9);
    for operands in systematic(&mut random).iter().chain(&timed) {
        let (chart, rules, more) = written(operands);
        let rounded = Operands { chart: operands.chart.rounded(), ..operands.clone() };
        assert_eq!(read_three(&chart, &rules, &more), Ok(rounded));
    }
    let found = Conjunction::of(most_pairs());
    assert_eq!((found.operands.pairs(), found.reduced.nodes.len()), (262_144, 510));
    assert!(found.product.pairs > 129_000, "{:?}", found.product);
}

#[test]
fn broken_files_have_every_number_in_every_file() {
    let files = broken(&example_problem());
    let faults = files.iter().filter_map(|(a, b, c)| read_three(a, b, c).err());
    let found: BTreeSet<(u32, u32)> = faults.map(|fault| (fault.file, fault.number)).collect();
    let of_chart = [1, 2, 3, 4, 5, 9, 10, 11].map(|number| (1, number));
    let of_diagrams = [2, 3].map(|file| [1, 2, 3, 6, 9, 13].map(|number| (file, number)));
    let [first, second] = of_diagrams;
    assert_eq!(found, of_chart.into_iter().chain(first).chain(second).collect());
    assert!(files.iter().any(|(a, b, c)| read_three(a, b, c).is_ok()));
}

type Falsify = fn(&mut Answer, &mut ConjoinSlices) -> bool;

/// Each is wrong wherever it says so.
const FALSIFIED: [(&str, Falsify); 14] = [
    ("number", |a, _| changed(&mut a.number, 12)),
    ("file", |a, _| changed(&mut a.file, 3)),
    ("cost", |a, _| changed(&mut a.cost, 50)),
    ("count", |a, _| changed(&mut a.count, 1)),
    ("length one more", |a, _| changed(&mut a.length, 1)),
    ("length a node more", |a, _| changed(&mut a.length, 9)),
    ("place", |a, _| {
        a.place += 5;
        true
    }),
    ("the root", |_, s| flipped(&mut s.file, 3)),
    ("the head's tag", |_, s| flipped(&mut s.file, 0)),
    ("the last byte", |a, s| flipped(&mut s.file, a.length as usize - 1)),
    ("a step", |a, s| a.length > 5 && flipped(&mut s.file, 8)),
    ("a byte behind the file", |a, s| flipped(&mut s.file, a.length as usize)),
    ("the buffer's end", |_, s| {
        let last = s.file.len() - 1;
        flipped(&mut s.file, last)
    }),
    ("the work slice's end", |_, s| {
        let last = s.work.len() - 1;
        s.work[last] ^= 1;
        true
    }),
];

fn changed(entry: &mut u32, by: u32) -> bool {
    *entry += by;
    true
}

fn flipped(bytes: &mut [u8], at: usize) -> bool {
    bytes[at] ^= 1;
    true
}

#[test]
fn every_falsified_conjunction_is_caught() {
    let mut random = Random::new(66);
    let mut caught = [0; FALSIFIED.len()];
    for _ in 0..400 {
        let (chart, rules, more) = written(&small(&mut random));
        let found = conjoin(&chart, &rules, &more);
        let Ok(conjunction_found) = &found else { panic!("sound files") };
        let work = conjunction_found.operands.pairs() + 2;
        let file = conjunction_found.length() + 20;
        let before = ConjoinSlices { work: vec![7; work].into(), file: vec![9; file].into() };
        let mut after = before.clone();
        let answer = Same.conjoin(&chart, &rules, &more, &mut after).expect("the call is there");
        assert_eq!(conjunction(&found, &before, &after, answer), Ok(()));
        for ((name, falsify), count) in FALSIFIED.iter().zip(&mut caught) {
            let (mut answer, mut after) = (answer, after.clone());
            if falsify(&mut answer, &mut after) {
                assert!(conjunction(&found, &before, &after, answer).is_err(), "{name}");
                *count += 1;
            }
        }
    }
    assert!(caught.iter().all(|count| *count > 100), "{caught:?}");
}

#[test]
fn a_case_with_three_files_is_saved_and_loaded() {
    let folder = std::env::temp_dir().join(format!("conjunction-{}", std::process::id()));
    let cases = Cases::new(67);
    let case = cases.case(cases.conjunctions().start + 3);
    saved::save(&folder, &case, None).expect("a folder");
    let loaded = saved::load(&folder).expect("a case");
    assert_eq!((loaded.chart, loaded.rules, loaded.more), (case.chart, case.rules, case.more));
    let other = cases.case(0);
    saved::save(&folder, &other, None).expect("a folder");
    assert_eq!(saved::load(&folder).expect("a case").more, None);
    std::fs::remove_dir_all(folder).expect("the case was saved");
}

#[test]
fn the_example_is_the_one_of_the_bytes() {
    let problem = example_problem();
    assert_eq!(write_chart(&problem.chart), CHART);
    assert_eq!(write_diagram(&problem.diagram), NEEDS);
}
