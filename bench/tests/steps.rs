//! The values of a step: which number a bad one has, and which comes first where there are several
//! faults. Numbers and places are worked out by hand.

use planner_bench::cases::Case;
use planner_bench::check;
use planner_bench::compare::run;
use planner_bench::files::read_chart;
use planner_bench::planner::{self, Answer, GuidedSlices, Space, SweepSlices};
use planner_bench::reference::judge;
use planner_bench::steps::{StepAtFault, DEAR, ENDS, FALLS, SURPLUS};

/// A diagram that says yes.
const YES: [u8; 5] = [0x11, 2, 0, 1, 0];
/// One above the highest number of a search.
const PAST_NUMBERS: u32 = 12;

/// From, to and cost of a step.
type Values = (u16, u16, u32);

/// Behind a step from 1 to 2 in a chart of four stages.
const SOUND: [Values; 6] =
    [(1, 2, 0), (1, 3, 1_000_000), (2, 3, 999_999), (1, 2, 999_951), (1, 2, 999_950), (1, 2, 5)];
/// 10 alone: from not below to, to not below the stage count, or both.
const TEN: [Values; 18] = [
    (1, 1, 5),
    (2, 2, 5),
    (2, 1, 5),
    (3, 2, 1_000_000),
    (1, 0, 5),
    (1, 4, 5),
    (2, 4, 0),
    (3, 4, 5),
    (1, 5, 5),
    (1, 258, 5),
    (1, 65_535, 5),
    (4, 4, 5),
    (4, 5, 5),
    (5, 4, 5),
    (256, 257, 5),
    (257, 2, 5),
    (65_535, 65_535, 5),
    (65_535, 0, 5),
];
/// A from below that of the step before alone.
const FALLING: [Values; 3] = [(0, 1, 5), (0, 2, 1_000_000), (0, 3, 0)];
/// 11 alone.
const ELEVEN: [Values; 13] = [
    (1, 2, 1_000_001),
    (1, 2, 1_000_049),
    (1, 3, 1_000_050),
    (2, 3, 1_000_051),
    (1, 2, 1_048_576),
    (1, 3, 16_777_216),
    (2, 3, 16_777_221),
    (2, 3, 2_147_483_647),
    (1, 2, 2_147_483_648),
    (1, 3, 4_294_967_246),
    (1, 2, 4_294_967_247),
    (2, 3, 4_294_967_248),
    (1, 3, 4_294_967_295),
];
/// 10 and a falling from.
const TEN_FALLING: [Values; 4] = [(0, 0, 5), (0, 4, 5), (0, 256, 5), (0, 65_535, 5)];
/// 10 and 11.
const TEN_ELEVEN: [Values; 6] = [
    (1, 1, 1_000_001),
    (2, 1, u32::MAX),
    (1, 4, 1_000_001),
    (1, 65_535, 1 << 31),
    (2, 2, 1_000_049),
    (1, 4, 4_294_967_247),
];
/// A falling from and 11.
const FALLING_ELEVEN: [Values; 5] = [
    (0, 1, 1_000_001),
    (0, 3, u32::MAX),
    (0, 2, 16_777_216),
    (0, 1, 1_000_049),
    (0, 2, 4_294_967_247),
];
/// All three.
const ALL: [Values; 6] = [
    (0, 0, 1_000_001),
    (0, 4, u32::MAX),
    (0, 65_535, 16_777_216),
    (0, 65_535, 1 << 31),
    (0, 0, 1_000_049),
    (0, 4, 4_294_967_247),
];

/// Every bad step with its number: 10 comes before a falling from, and that before 11.
fn bad_steps() -> Vec<(Values, u32)> {
    let groups: [(&[Values], u32); 7] = [
        (&TEN, 10),
        (&FALLING, 5),
        (&ELEVEN, 11),
        (&TEN_FALLING, 10),
        (&TEN_ELEVEN, 10),
        (&FALLING_ELEVEN, 5),
        (&ALL, 10),
    ];
    let each = |(steps, number): (&[Values], u32)| -> Vec<(Values, u32)> {
        steps.iter().map(|step| (*step, number)).collect()
    };
    groups.into_iter().flat_map(each).collect()
}

fn step((from, to, cost): Values) -> Vec<u8> {
    let [f, g] = from.to_le_bytes();
    let [t, u] = to.to_le_bytes();
    let [a, b, c, d] = cost.to_le_bytes();
    vec![0x02, 8, 0, f, g, t, u, a, b, c, d]
}

/// A head with so many stages, from the first to the last.
fn head(stages: u16) -> Vec<u8> {
    let [low, high] = stages.to_le_bytes();
    let [last, above] = (stages - 1).to_le_bytes();
    vec![0x01, 6, 0, low, high, 0, 0, last, above]
}

fn chart(stages: u16, steps: &[Values]) -> Vec<u8> {
    [head(stages), steps.iter().flat_map(|values| step(*values)).collect()].concat()
}

/// Four stages, so many steps from 1 to 2, and some bytes.
fn behind(count: usize, end: &[u8]) -> Vec<u8> {
    [&chart(4, &vec![(1, 2, 7); count])[..], end].concat()
}

fn implementations_agree(chart: &[u8], rules: &[u8]) {
    for dirt in 0..2 {
        let case = Case::new("test", (chart.to_vec(), rules.to_vec()), dirt);
        if let Err(found) = run(&case, &planner::all()) {
            panic!("{found:?}");
        }
    }
}

/// The reference and every implementation refuse with this number and place, and the checks let no
/// other pass.
fn refuses(chart: &[u8], number: u32, place: usize) {
    refuses_with(chart, &YES, number, place);
    for other in (0..=PAST_NUMBERS).filter(|other| *other != number) {
        refuted(chart, Answer::refused(other, 1, place));
    }
    let right = Answer::refused(number, 1, place);
    for elsewhere in [0, place - 11, place + 3, place + 7, place + 11] {
        refuted(chart, Answer { place: elsewhere, ..right });
    }
    refuted(chart, Answer { file: 0, ..right });
    refuted(chart, Answer { file: 2, ..right });
    refuted(chart, Answer { cost: 1, ..right });
    refuted(chart, Answer { length: 1, ..right });
    refuted(chart, Answer { count: 1, ..right });
}

fn refuses_with(chart: &[u8], rules: &[u8], number: u32, place: usize) {
    let found = judge(chart, rules).map(|_| "accepted");
    let fault = found.map_err(|fault| (fault.number, fault.file, fault.place));
    assert_eq!(fault, Err((number, 1, place)), "{:?}", &chart[chart.len().saturating_sub(22)..]);
    implementations_agree(chart, rules);
}

/// No check lets the answer pass.
fn refuted(chart: &[u8], answer: Answer) {
    let judged = judge(chart, &YES);
    let (sweep, guided) = (SweepSlices::of(3, 3), GuidedSlices::of(3, 3));
    assert!(check::sweep(&judged, &sweep, &sweep, answer).is_err(), "{answer:?}");
    assert!(check::guided(&judged, &guided, &guided, answer).is_err(), "{answer:?}");
    let Answer { number, file, place, cost, length, .. } = answer;
    let space = Space { number, file, place, work: cost as usize, plan: length as usize };
    assert!(answer.count > 0 || check::space(&judged, space).is_err(), "{space:?}");
}

fn accepts(chart: &[u8]) {
    assert!(read_chart(chart).is_ok(), "{chart:?}");
    implementations_agree(chart, &YES);
}

#[test]
fn one_fault_and_several() {
    for values in SOUND {
        accepts(&behind(1, &step(values)));
    }
    for (values, number) in bad_steps() {
        refuses(&behind(1, &step(values)), number, 20);
        refuses(&behind(2, &step(values)), number, 31);
    }
}

#[test]
fn the_first_step_falls_below_none() {
    for values in [(0, 1, 0), (0, 3, 1_000_000), (2, 3, 5)] {
        accepts(&chart(4, &[values]));
    }
    for (values, number) in [
        ((0, 0, 5), 10),
        ((3, 3, 5), 10),
        ((2, 1, 5), 10),
        ((0, 4, 5), 10),
        ((0, 0, 1_000_001), 10),
        ((0, 65_535, u32::MAX), 10),
        ((0, 1, 1_000_001), 11),
        ((2, 3, u32::MAX), 11),
    ] {
        refuses_with(&chart(4, &[values]), &YES, number, 9);
    }
}

#[test]
fn from_is_held_against_the_step_before() {
    accepts(&chart(4, &[(0, 3, 5), (0, 1, 5), (2, 3, 5), (2, 3, 5)]));
    refuses(&chart(4, &[(0, 1, 5), (2, 3, 5), (1, 2, 5)]), 5, 31);
    refuses(&chart(4, &[(0, 1, 5), (2, 3, 5), (2, 3, 5), (0, 3, 5)]), 5, 42);
    // A from above its to that falls as well.
    refuses(&chart(4, &[(0, 1, 5), (2, 3, 5), (1, 0, 5)]), 10, 31);
    refuses(&chart(256, &[(254, 255, 0), (253, 254, 0)]), 5, 20);
    refuses(&chart(256, &[(254, 255, 0), (0, 255, 0)]), 5, 20);
}

#[test]
fn to_is_held_against_the_stage_count() {
    for values in [(0, 255, 5), (254, 255, 5)] {
        accepts(&chart(256, &[values]));
    }
    for values in [(0, 256, 5), (254, 256, 5), (255, 256, 5), (255, 255, 5), (256, 257, 5)] {
        refuses_with(&chart(256, &[values]), &YES, 10, 9);
    }
    accepts(&chart(2, &[(0, 1, 5)]));
    for values in [(0, 2, 5), (1, 2, 5), (1, 1, 5), (1, 0, 5)] {
        refuses_with(&chart(2, &[values]), &YES, 10, 9);
    }
    // One stage has no steps.
    for values in [(0, 0, 5), (0, 1, 5), (1, 0, 5), (0, 1, 1_000_001)] {
        refuses_with(&chart(1, &[values]), &YES, 10, 9);
    }
}

#[test]
fn the_1024th_step_is_judged_as_any_other() {
    for values in SOUND {
        accepts(&behind(1_023, &step(values)));
    }
    for (values, number) in bad_steps() {
        refuses_with(&behind(1_023, &step(values)), &YES, number, 11_262);
    }
}

#[test]
fn the_1025th_step_is_5_whatever_it_holds() {
    let sound = SOUND.map(|values| (values, 0));
    for (values, _) in sound.into_iter().chain(bad_steps()) {
        refuses_with(&behind(1_024, &step(values)), &YES, 5, 11_273);
    }
    for values in [TEN[0], TEN[5], FALLING[0], ELEVEN[0], TEN_FALLING[1], TEN_ELEVEN[0], ALL[0]] {
        refuses(&behind(1_024, &step(values)), 5, 11_273);
        // The one after it is not looked at.
        let two = [step((1, 2, 7)), step(values)].concat();
        refuses_with(&behind(1_024, &two), &YES, 5, 11_273);
        // Remarks do not count.
        let remarked = [step((1, 2, 7)), vec![0xaa, 1, 0, 0]].concat().repeat(1_024);
        let remarked = [head(4), remarked, step(values)].concat();
        refuses_with(&remarked, &YES, 5, 15_369);
    }
}

#[test]
fn tag_length_and_cut_come_before_the_values() {
    for (count, place) in [(1, 20), (1_024, 11_273)] {
        for (values, _) in bad_steps() {
            let field = step(values);
            let changed = |at: usize, byte: u8| {
                let mut changed = field.clone();
                changed[at] = byte;
                behind(count, &changed)
            };
            for tag in [0x01, 0x03, 0x12, 0x7f] {
                refuses_with(&changed(0, tag), &YES, 2, place);
            }
            for length in [0, 7, 9, 10] {
                refuses_with(&changed(1, length), &YES, 3, place);
            }
            refuses_with(&changed(2, 1), &YES, 3, place);
            for end in [1, 2, 3, 4, 7, 10] {
                refuses_with(&behind(count, &field[..end]), &YES, 1, place);
            }
        }
    }
    // The length comes before the cut body.
    refuses_with(&behind(1, &[0x02, 9, 0, 0, 0, 0, 0]), &YES, 3, 20);
    refuses_with(&behind(1_024, &[0x02, 7, 0]), &YES, 3, 11_273);
}

#[test]
fn the_first_bad_step_counts() {
    let first: [(Values, u32); 5] =
        [(TEN[0], 10), (TEN[5], 10), (FALLING[0], 5), (ELEVEN[0], 11), (ALL[0], 10)];
    for (values, number) in first {
        let ends: [&[u8]; 4] = [&[0x7f, 0, 0], &[0x02, 7, 0], &[0x02, 8, 0, 1], &[0x02]];
        for end in ends {
            refuses(&behind(1, &[&step(values), end].concat()), number, 20);
        }
        for (other, _) in bad_steps() {
            let two = [step(values), step(other)].concat();
            refuses_with(&behind(1, &two), &YES, number, 20);
        }
        // A sound step between them and before them.
        let three = [step((1, 2, 7)), step(values), step((2, 3, 5)), step(TEN[0])].concat();
        refuses_with(&behind(1, &three), &YES, number, 31);
    }
}

#[test]
fn a_remark_is_no_step_before() {
    // Like the step from 3 to 4, and from 0 to 1, but for the tag.
    let high = [0x82, 8, 0, 3, 0, 4, 0, 5, 0, 0, 0];
    let low = [0x82, 8, 0, 0, 0, 1, 0, 5, 0, 0, 0];
    for remark in [high, low] {
        for values in SOUND {
            accepts(&behind(1, &[&remark[..], &step(values)].concat()));
        }
        for (values, number) in bad_steps() {
            let end = [&remark[..], &step(values)].concat();
            refuses_with(&behind(1, &end), &YES, number, 31);
        }
    }
}

#[test]
fn the_last_step_of_a_file_of_32768_bytes() {
    // Head, a step, a remark of 32,734 bytes in its body, a step.
    let remark = [&[0xff, 0xde, 0x7f][..], &vec![0x02; 32_734]].concat();
    for (values, number) in [(TEN[0], 10), (FALLING[0], 5), (ELEVEN[0], 11), (ALL[1], 10)] {
        let file = behind(1, &[&remark[..], &step(values)].concat());
        assert_eq!(file.len(), 32_768);
        refuses_with(&file, &YES, number, 32_757);
        refuses_with(&[&file[..], &[0]].concat(), &YES, 9, 32_768);
    }
}

#[test]
fn a_bad_step_comes_before_the_diagram() {
    let long = vec![0x80; 32_769];
    for (values, number) in bad_steps() {
        let file = behind(1, &step(values));
        for rules in [&[][..], &[0x11], &[0x11, 2, 0, 9, 0], &long] {
            refuses_with(&file, rules, number, 20);
        }
    }
}

#[test]
fn the_faults_of_a_step_are_told_apart() {
    let faults = |count: usize, values: Values| {
        let file = behind(count, &step(values));
        let fault = read_chart(&file).expect_err("a bad step");
        StepAtFault::of(&file, &fault).expect("a step").faults.set()
    };
    let groups: [(&[Values], u8); 7] = [
        (&TEN, ENDS),
        (&FALLING, FALLS),
        (&ELEVEN, DEAR),
        (&TEN_FALLING, ENDS | FALLS),
        (&TEN_ELEVEN, ENDS | DEAR),
        (&FALLING_ELEVEN, FALLS | DEAR),
        (&ALL, ENDS | FALLS | DEAR),
    ];
    for (steps, set) in groups {
        for values in steps {
            assert_eq!(faults(1, *values), set, "{values:?}");
            assert_eq!(faults(1_024, *values), SURPLUS | set, "{values:?}");
        }
    }
    assert_eq!(faults(1_024, SOUND[0]), SURPLUS);
}
