//! Lists of starts and ends: all of the example by hand, records outside the chart, the refusals of the call by
//! hand-written bytes, and what stays.

mod bytes;

use bytes::{CHART, NEEDS, NO, YES};
use planner_bench::cases::{Case, Cases};
use planner_bench::check::cycles::{as_searched, cycles as checked};
use planner_bench::compare::run;
use planner_bench::files::{read_both, tagged, write_chart, write_diagram};
use planner_bench::generate::charts::random_chart;
use planner_bench::generate::diagrams::random_diagram;
use planner_bench::generate::lists::{dirty, drawn};
use planner_bench::generate::Random;
use planner_bench::planner::{self, Answer, Cycle, CycleSlices, GuidedSlices, Planner};
use planner_bench::reference::cycles::{list_answer, wanted, wanted_of_all, with_ends, Wanted};
use planner_bench::reference::{judge, Facts};
use planner_bench::same::Same;

/// Stages and references of the example.
const PAIRS: usize = 5 * 4;
const DIRT: u32 = 77_777;

/// A plan of that cost, and so many settled pairs.
const fn plan(cost: u32, count: usize) -> (u32, u32, usize) {
    (0, cost, count)
}

/// The start has no estimate.
const NONE: (u32, u32, usize) = (8, 0, 0);
const OUTSIDE: (u32, u32, usize) = (4, 0, 0);

/// Number, cost and count from each stage of the example to each. The steps cost 50, 100, 200, 50, 50 and 50;
/// step 0 needs step 2. From 0 to 1 step 1 is taken; to 2 steps 0 and 2; to 3 steps 1 and 3, since step 0 needs
/// the long way. A plan from a later stage never takes step 0.
const EXAMPLE: [[(u32, u32, usize); 5]; 5] = [
    [plan(0, 1), plan(100, 2), plan(250, 3), plan(150, 3), plan(200, 4)],
    [NONE, plan(0, 1), plan(200, 2), plan(50, 2), plan(100, 3)],
    [NONE, NONE, plan(0, 1), plan(50, 2), plan(100, 3)],
    [NONE, NONE, NONE, plan(0, 1), plan(50, 2)],
    [NONE, NONE, NONE, NONE, plan(0, 1)],
];

/// All starts and ends of the example.
fn all_ends() -> Vec<(u16, u16)> {
    (0..5).flat_map(|start| (0..5).map(move |end| (start, end))).collect()
}

fn of_example(start: u16, end: u16) -> (u32, u32, usize) {
    EXAMPLE[usize::from(start)][usize::from(end)]
}

fn list(ends: &[(u16, u16)]) -> Vec<Cycle> {
    let random = &mut Random::new(7);
    ends.iter().map(|(start, end)| dirty(random, *start, *end)).collect()
}

/// Slices of which each has so many entries.
fn lent(entries: usize, list: Vec<Cycle>) -> CycleSlices {
    CycleSlices::with(|| vec![DIRT; entries].into(), list.into())
}

/// Every implementation answers all 0 and each record so; all else stays.
fn answers(chart: &[u8], rules: &[u8], ends: &[(u16, u16)], want: &[(u32, u32, usize)]) {
    let pairs = read_both(chart, rules).expect("sound files").pairs();
    let records = list(ends);
    let filled: Vec<Cycle> =
        records.iter().zip(want).map(|(record, want)| filled(record, *want)).collect();
    for planner in planner::all() {
        for more in [0, 1, 9] {
            let mut slices = lent(pairs + more, records.clone());
            let Some(answer) = planner.cycles(chart, rules, &mut slices) else { continue };
            assert_eq!(answer, Answer::default(), "{}", planner.name());
            assert_eq!(slices.list[..], filled, "{}", planner.name());
            let stays = slices.free().iter().all(|(_, slice)| slice[pairs..] == vec![DIRT; more]);
            assert!(stays, "{}", planner.name());
        }
    }
    let wanted = wanted_of_all(chart, rules, &records);
    let of_reference: Vec<Wanted> = filled.iter().map(settled_exactly).collect();
    assert_eq!(wanted, of_reference);
    implementations_agree(chart, rules);
}

fn filled(record: &Cycle, (number, cost, count): (u32, u32, usize)) -> Cycle {
    Cycle { number, cost, count, ..*record }
}

fn settled_exactly(record: &Cycle) -> Wanted {
    let count = record.count as u32;
    Wanted { number: record.number, cost: record.cost, count: (count, count) }
}

/// Every implementation refuses the call and touches nothing, also where the list is empty.
fn refuses(chart: &[u8], rules: &[u8], (number, file, place): (u32, u32, usize)) {
    for ends in [&[][..], &[(0, 4)], &[(0, 4), (5, 5), (4, 0)]] {
        for planner in planner::all() {
            let before = lent(300, list(ends));
            let mut after = before.clone();
            let Some(answer) = planner.cycles(chart, rules, &mut after) else { continue };
            assert_eq!(answer, Answer::refused(number, file, place), "{}", planner.name());
            assert!(after == before, "{}", planner.name());
        }
    }
    assert_eq!(list_answer(&judge(chart, rules), &[300]), Answer::refused(number, file, place));
    implementations_agree(chart, rules);
}

/// The cases that are drawn over these files agree with the reference.
fn implementations_agree(chart: &[u8], rules: &[u8]) {
    for dirt in 0..8 {
        let case = Case::new("test", (chart.to_vec(), rules.to_vec()), dirt);
        if let Err(found) = run(&case, &planner::all()) {
            panic!("{found:?}");
        }
    }
}

#[test]
fn every_start_and_end_of_the_example() {
    let ends = all_ends();
    let want: Vec<_> = ends.iter().map(|(start, end)| of_example(*start, *end)).collect();
    answers(&CHART, &NEEDS, &ends, &want);
    let turned = |mut all: Vec<(u16, u16)>| {
        all.reverse();
        all
    };
    let backwards: Vec<_> = want.iter().rev().copied().collect();
    answers(&CHART, &NEEDS, &turned(ends.clone()), &backwards);
    for (ends, want) in ends.iter().zip(&want) {
        answers(&CHART, &NEEDS, &[*ends], &[*want]);
        answers(&CHART, &NEEDS, &[*ends, *ends, *ends], &[*want; 3]);
    }
}

#[test]
fn the_heads_own_start_and_end_play_no_part() {
    let ends = all_ends();
    let want: Vec<_> = ends.iter().map(|(start, end)| of_example(*start, *end)).collect();
    for head in [(0, 0), (4, 0), (2, 3), (4, 4)] {
        let chart = with_ends(&CHART, head).expect("its head");
        answers(&chart, &NEEDS, &ends, &want);
    }
}

#[test]
fn constants_as_rules() {
    // Without a rule step 0 is taken, and the short way.
    let ends = [(0, 1), (0, 2), (0, 3), (0, 4), (3, 3), (4, 3)];
    let want = [plan(50, 2), plan(250, 3), plan(100, 3), plan(150, 4), plan(0, 1), NONE];
    answers(&CHART, &YES, &ends, &want);
    answers(&CHART, &NO, &ends, &[NONE; 6]);
    // "Yes" only with step 5: from a stage to itself there is none, though the start has an estimate.
    let only = [0x11, 2, 0, 2, 0, 0x12, 6, 0, 5, 0, 0, 0, 1, 0];
    let ends = [(3, 3), (3, 4), (2, 3), (2, 4), (4, 4), (4, 3)];
    let want = [(8, 0, 1), plan(50, 2), (8, 0, 2), plan(100, 3), (8, 0, 1), NONE];
    answers(&CHART, &only, &ends, &want);
}

#[test]
fn a_record_outside_is_4_alone() {
    for outside in [5, 6, 255, 256, 260, 261, 512, 32_768, 65_535] {
        let ends = [(outside, 4), (0, 4), (0, outside), (1, 3), (outside, outside), (4, 0)];
        let want = [OUTSIDE, plan(200, 4), OUTSIDE, plan(50, 2), OUTSIDE, NONE];
        answers(&CHART, &NEEDS, &ends, &want);
        answers(&CHART, &NEEDS, &[(outside, 0)], &[OUTSIDE]);
        answers(&CHART, &NO, &[(0, outside), (0, 0)], &[OUTSIDE, NONE]);
    }
}

#[test]
fn forty_records_and_more() {
    let ends = all_ends();
    for count in [40, 41, 256, 1_000] {
        let many: Vec<_> = (0..count).map(|at| ends[7 * at % 25]).collect();
        let want: Vec<_> = many.iter().map(|(start, end)| of_example(*start, *end)).collect();
        answers(&CHART, &NEEDS, &many, &want);
    }
}

#[test]
fn the_empty_list_is_accepted() {
    answers(&CHART, &NEEDS, &[], &[]);
    // One stage, no steps.
    answers(&[0x01, 6, 0, 1, 0, 0, 0, 0, 0], &NO, &[], &[]);
}

#[test]
fn one_stage() {
    let chart = [0x01, 6, 0, 1, 0, 0, 0, 0, 0];
    let ends = [(0, 0), (0, 1), (1, 0), (256, 0), (0, 0)];
    let want = [plan(0, 1), OUTSIDE, OUTSIDE, OUTSIDE, plan(0, 1)];
    answers(&chart, &YES, &ends, &want);
    answers(&chart, &NO, &ends, &[NONE, OUTSIDE, OUTSIDE, OUTSIDE, NONE]);
}

/// 256 stages, of which a plan slice would need 255 entries.
#[test]
fn no_plan_slice_is_wanted() {
    let head = [0x01, 6, 0, 0, 1, 0, 0, 255, 0];
    let step = [0x02, 8, 0, 254, 0, 255, 0, 1, 0, 0, 0];
    let chart = [&head[..], &step].concat();
    let ends = [(255, 255), (256, 0), (0, 256), (254, 255), (0, 255), (255, 254)];
    let want = [plan(0, 1), OUTSIDE, OUTSIDE, plan(50, 2), NONE, NONE];
    answers(&chart, &YES, &ends, &want);
}

#[test]
fn a_short_work_slice_is_7() {
    for planner in planner::all() {
        for which in 0..6 {
            for entries in [0, 1, PAIRS - 1] {
                let mut lengths = [PAIRS + 3; 6];
                lengths[which] = entries;
                let [keys, via, heap, pos, stack, log] =
                    lengths.map(|length| vec![DIRT; length].into());
                let list = list(&[(0, 4), (9, 9), (4, 0)]).into();
                let before = CycleSlices { keys, via, heap, pos, stack, log, list };
                let mut after = before.clone();
                let Some(answer) = planner.cycles(&CHART, &NEEDS, &mut after) else { continue };
                assert_eq!(answer, Answer::refused(7, 0, 0), "{}, {which}", planner.name());
                assert!(after == before, "{}, {which}", planner.name());
            }
        }
        let mut empty = lent(PAIRS - 1, Vec::new());
        let answer = planner.cycles(&CHART, &NEEDS, &mut empty);
        assert!(answer.is_none_or(|answer| answer == Answer::refused(7, 0, 0)));
    }
}

#[test]
fn a_refused_file_leaves_every_record() {
    refuses(&[], &NEEDS, (2, 1, 0));
    refuses(&CHART, &[], (2, 2, 0));
    refuses(&CHART[..8], &NEEDS, (1, 1, 0));
    refuses(&CHART[..CHART.len() - 1], &NEEDS, (1, 1, 64));
    refuses(&CHART, &NEEDS[..NEEDS.len() - 1], (1, 2, 14));
    refuses(&[&CHART[..], &[0x03, 0, 0]].concat(), &NEEDS, (2, 1, 75));
    refuses(&CHART, &[&NEEDS[..], &[0x12, 5, 0]].concat(), (3, 2, 23));
    let changed = |file: &[u8], at: usize, byte: u8| {
        let mut bytes = file.to_vec();
        bytes[at] = byte;
        bytes
    };
    // No stages, 257 of them, a step from 0 to 0, a cost of 1,000,001, a from that falls.
    refuses(&changed(&CHART, 3, 0), &NEEDS, (4, 1, 0));
    refuses(&changed(&changed(&CHART, 3, 1), 4, 1), &NEEDS, (4, 1, 0));
    refuses(&changed(&CHART, 14, 0), &NEEDS, (10, 1, 9));
    let dear = [0x02, 8, 0, 3, 0, 4, 0, 0x41, 0x42, 0x0f, 0];
    refuses(&[&CHART[..], &dear].concat(), &NEEDS, (11, 1, 75));
    refuses(&changed(&CHART, 67, 1), &NEEDS, (5, 1, 64));
    // A root that is no node, a node of step 6, a node with equal children.
    refuses(&CHART, &changed(&NEEDS, 3, 4), (6, 2, 0));
    refuses(&CHART, &changed(&NEEDS, 8, 6), (6, 2, 5));
    refuses(&CHART, &changed(&NEEDS, 10, 1), (13, 2, 5));
    // 32,768 bytes pass.
    let filled = |bytes: usize| [&CHART[..], &tagged(0x80, &vec![0; bytes - 75 - 3])].concat();
    refuses(&filled(32_769), &NEEDS, (9, 1, 32_768));
    answers(&filled(32_768), &NEEDS, &[(0, 4)], &[plan(200, 4)]);
}

/// Also where all records lie inside the chart.
#[test]
fn the_heads_own_start_and_end_are_checked() {
    for head in [(5, 4), (0, 5), (5, 5), (65_535, 0), (0, 256)] {
        let chart = with_ends(&CHART, head).expect("its head");
        refuses(&chart, &NEEDS, (4, 1, 0));
        refuses(&chart, &[], (4, 1, 0));
    }
}

#[test]
fn refusals_come_in_their_order() {
    let bad_head = with_ends(&CHART, (5, 0)).expect("its head");
    let short = |entries: usize| lent(entries, list(&[(9, 9), (0, 4)]));
    for planner in planner::all() {
        for (chart, rules, want) in [
            (&bad_head[..], &NEEDS[..], Answer::refused(4, 1, 0)),
            (&CHART, &NEEDS[..22], Answer::refused(1, 2, 14)),
            (&CHART, &NEEDS, Answer::refused(7, 0, 0)),
        ] {
            let answer = planner.cycles(chart, rules, &mut short(PAIRS - 1));
            assert!(answer.is_none_or(|answer| answer == want), "{}", planner.name());
        }
    }
}

/// By all ways one by one, from every start to every end of small charts.
#[test]
fn enumeration_gives_the_same() {
    let random = &mut Random::new(91);
    let mut compared = 0;
    for _ in 0..60 {
        let chart = random_chart(random, 6, 9);
        let diagram = random_diagram(random, &chart, 8);
        let (bytes, rules) = (write_chart(&chart), write_diagram(&diagram));
        for start in 0..chart.stages {
            for end in 0..chart.stages {
                let (want, judged) = wanted(&bytes, &rules, (start, end));
                let facts = judged.expect("ends inside the chart");
                let Some(other) = Facts::by_enumeration(&facts.problem, 2_000) else { continue };
                let cost = other.cheapest.map_or(0, |plan| plan.cost);
                let number = if other.cheapest.is_some() { 0 } else { 8 };
                let count = other.settled_range();
                assert_eq!(want, Wanted { number, cost, count });
                compared += 1;
            }
        }
    }
    assert!(compared > 500, "{compared}");
}

/// A list's record, as far as it is fixed, is the guided search on the chart's file with another head.
#[test]
fn a_list_is_its_searches_one_by_one() {
    let random = &mut Random::new(92);
    for planner in planner::all() {
        for _ in 0..40 {
            let chart = random_chart(random, 30, 80);
            let diagram = random_diagram(random, &chart, 40);
            let (bytes, rules) = (write_chart(&chart), write_diagram(&diagram));
            let pairs = read_both(&bytes, &rules).expect("sound files").pairs();
            let mut slices = lent(pairs, drawn(random, chart.stages, (0, 0), 40));
            if planner.cycles(&bytes, &rules, &mut slices).is_none() {
                continue;
            }
            for record in slices.list.iter() {
                let other = with_ends(&bytes, record.ends()).expect("its head");
                let mut guided = GuidedSlices::of(pairs, usize::from(chart.stages) - 1);
                let answer = planner.guided(&other, &rules, &mut guided);
                assert_eq!(as_searched(record, answer), Ok(()));
                let (want, _) = wanted(&bytes, &rules, record.ends());
                let range = want.count.0..=want.count.1;
                assert!(range.contains(&(record.count as u32)) && range.contains(&answer.count));
            }
        }
    }
}

type Falsify = fn(&mut Cycle);

const RECORD: [(&str, Falsify); 9] = [
    ("another number", |r| r.number ^= 4),
    ("a number of more bits", |r| r.number |= 1 << 31),
    ("a cost of a tick more", |r| r.cost += 50),
    ("a cost of one more", |r| r.cost += 1),
    ("a pair more than there are", |r| r.count += 1_000_000),
    ("a count beyond 32 bits", |r| r.count |= 1 << 32),
    ("another start", |r| r.start ^= 1),
    ("another end", |r| r.end ^= 256),
    ("start and end exchanged", |r| (r.start, r.end) = (r.end, r.start ^ 1)),
];

#[test]
fn every_falsified_record_is_caught() {
    let cases = Cases::new(93);
    let random = &mut Random::new(94);
    let mut caught = 0;
    for at in cases.first_random()..cases.first_random() + 300 {
        let Case { chart, rules, more: None, .. } = cases.case(at) else { continue };
        let judged = judge(&chart, &rules);
        let Ok(facts) = &judged else { continue };
        let Facts { problem, .. } = facts;
        if problem.pairs() > 4_000 {
            continue;
        }
        let before = lent(problem.pairs() + 2, drawn(random, problem.chart.stages, (0, 0), 6));
        let wanted = wanted_of_all(&chart, &rules, &before.list);
        let mut after = before.clone();
        let answer = Same.cycles(&chart, &rules, &mut after).expect("the call is there");
        let check = |after: &CycleSlices, answer| checked(&judged, &wanted, &before, after, answer);
        assert_eq!(check(&after, answer), Ok(()));
        for record in 0..after.list.len() {
            for (name, falsify) in RECORD {
                let mut spoiled = after.clone();
                falsify(&mut spoiled.list[record]);
                assert!(check(&spoiled, answer).is_err(), "{name}: {:?}", spoiled.list[record]);
                caught += 1;
            }
        }
        for spoiled in [
            Answer { number: 8, ..answer },
            Answer { file: 1, ..answer },
            Answer { place: 1, ..answer },
            Answer { cost: 50, ..answer },
            Answer { length: 1, ..answer },
            Answer { count: 1, ..answer },
        ] {
            assert!(check(&after, spoiled).is_err(), "{spoiled:?}");
        }
        let mut touched = after.clone();
        touched.log[problem.pairs()] ^= 1;
        assert!(check(&touched, answer).is_err());
    }
    assert!(caught > 3_000, "{caught}");
}

#[test]
fn heads_are_replaced_byte_by_byte() {
    let other = with_ends(&CHART, (0x0102, 0xfffe)).expect("its head");
    assert_eq!(other[..9], [0x01, 6, 0, 5, 0, 0x02, 0x01, 0xfe, 0xff]);
    assert_eq!(other[9..], CHART[9..]);
    assert_eq!(with_ends(&CHART[..8], (0, 0)), None);
}
