//! The wrapper's calls on the shipped example: plans, lists of starts and ends, conjunctions,
//! reductions, steps in groups, refusals, lent slices, kept work space.

use planner::lent::UNREACHED;
use planner::lent::{self, Answer, ConjoinSlices, CycleSlices, GuidedSlices, Space, SweepSlices};
use planner::{conjoin, cycles, plan, reduce, refused_field, space_needed};
use planner::{ConjoinWork, Cycle, File, Refusal, Work, LONGEST_FILE, MOST_FILE, MOST_PAIRS, TICK};

/// A chart file: stage count, start, end, then from, to and value of each step.
fn chart_file(head: [u16; 3], steps: &[(u16, u16, u32)]) -> Vec<u8> {
    let mut file = vec![0x01, 6, 0];
    file.extend(head.iter().flat_map(|value| value.to_le_bytes()));
    for (from, to, value) in steps {
        file.extend([0x02, 8, 0]);
        file.extend([*from, *to].iter().flat_map(|value| value.to_le_bytes()));
        file.extend(value.to_le_bytes());
    }
    file
}

/// A chart file whose steps name groups: stage count, start, end, then from, to, value and group of
/// each step.
fn grouped_file(head: [u16; 3], steps: &[(u16, u16, u32, u16)]) -> Vec<u8> {
    let mut file = chart_file(head, &[]);
    for (from, to, value, group) in steps {
        file.extend([0x03, 10, 0]);
        file.extend([*from, *to].iter().flat_map(|value| value.to_le_bytes()));
        file.extend(value.to_le_bytes());
        file.extend(group.to_le_bytes());
    }
    file
}

/// A diagram file: root, then group, lo and hi of each node.
fn rules_file(root: u16, nodes: &[[u16; 3]]) -> Vec<u8> {
    let mut file = vec![0x11, 2, 0];
    file.extend(root.to_le_bytes());
    for node in nodes {
        file.extend([0x12, 6, 0]);
        file.extend(node.iter().flat_map(|value| value.to_le_bytes()));
    }
    file
}

const STEPS: [(u16, u16, u32); 6] =
    [(0, 1, 40), (0, 1, 90), (1, 2, 200), (1, 3, 30), (2, 3, 20), (3, 4, 50)];

/// The example's steps in these groups.
fn in_groups(groups: [u16; 6]) -> Vec<u8> {
    let steps: Vec<_> = STEPS
        .iter()
        .zip(groups)
        .map(|((from, to, value), group)| (*from, *to, *value, group))
        .collect();
    grouped_file([5, 0, 4], &steps)
}

fn example() -> (Vec<u8>, Vec<u8>) {
    (chart_file([5, 0, 4], &STEPS), rules_file(3, &[[2, 0, 1], [0, 1, 2]]))
}

#[test]
fn the_plan_of_the_example() {
    let (chart, rules) = example();
    let plan = plan(&chart, &rules).expect("a legal plan");
    assert_eq!((plan.cost, plan.steps), (200, vec![1, 3, 5]));
    assert_eq!((plan.settled, plan.reached), (4, 6));
}

/// The cost of a chart with one step of this value.
fn cost_of(value: u32) -> Result<u32, Refusal> {
    let chart = chart_file([2, 0, 1], &[(0, 1, value)]);
    plan(&chart, &rules_file(1, &[])).map(|plan| plan.cost)
}

#[test]
fn costs_in_whole_ticks() {
    let found = [0, 1, 49, 50, 51, 999_950, 999_951, 1_000_000].map(cost_of);
    let ticks = [0, 1, 1, 1, 2, 19_999, 20_000, 20_000];
    assert_eq!(found, ticks.map(|ticks| Ok(ticks * TICK)));
    for value in [1_000_001, 1_000_049, u32::MAX - TICK, u32::MAX] {
        assert_eq!(cost_of(value), Err(Refusal::Cost { file: File::Chart, place: 9 }));
    }
}

#[test]
fn the_header_has_the_same_numbers() {
    let header = include_str!("../../include/planner.h");
    let number = |name: &str| {
        let line =
            header.lines().find_map(|line| line.strip_prefix("#define ")?.strip_prefix(name));
        line.and_then(|number| number.trim().parse().ok())
    };
    assert_eq!(number("PLANNER_TICK "), Some(TICK as usize));
    assert_eq!(number("PLANNER_LONGEST_FILE "), Some(LONGEST_FILE));
    assert_eq!(number("PLANNER_MOST_PAIRS "), Some(MOST_PAIRS));
    assert_eq!(number("PLANNER_MOST_FILE "), Some(MOST_FILE));
    let (first, later) = (
        ["CUT", "TAG", "LENGTH", "HEAD", "STEP", "NODE", "SPACE"],
        ["NO_PLAN", "LONG", "STAGES", "COST", "LARGE", "PADDED", "GROUP"],
    );
    let header = header.replace(',', " ");
    for (number, cause) in (1..).zip(first.into_iter().chain(later)) {
        assert!(header.contains(&format!(" PLANNER_{cause} = {number} ")), "{cause}");
    }
}

/// Charts that get 4, 5, 10 and 11.
fn spoiled_charts() -> [Vec<u8>; 4] {
    [
        chart_file([0, 0, 0], &[]),
        chart_file([5, 0, 4], &[(1, 2, 7), (0, 1, 7)]),
        chart_file([5, 0, 4], &[(0, 5, 7)]),
        chart_file([5, 0, 4], &[(0, 1, 1_000_001)]),
    ]
}

#[test]
fn every_refusal() {
    let (chart, rules) = example();
    let [bad_head, falling, no_stage, dear] = spoiled_charts();
    let bad_node = rules_file(2, &[[6, 0, 1]]);
    let padded = rules_file(4, &[[2, 0, 1], [1, 2, 2], [0, 1, 3]]);
    let group_falls = in_groups([0, 0, 2, 1, 4, 5]);
    type Case<'a> = (&'a [u8], &'a [u8], Refusal, &'a [u8]);
    let no = rules_file(0, &[]);
    let long = noted(&rules, LONGEST_FILE + 1);
    let cases: [Case; 13] = [
        (&chart[..19], &rules, Refusal::Cut { file: File::Chart, place: 9 }, &chart[9..19]),
        (&[], &rules, Refusal::Tag { file: File::Chart, place: 0 }, &[]),
        (&chart, &rules[5..], Refusal::Tag { file: File::Rules, place: 0 }, &rules[5..14]),
        (&chart, &[0x11, 3, 0], Refusal::Length { file: File::Rules, place: 0 }, &[0x11, 3, 0]),
        (&bad_head, &rules, Refusal::Head { file: File::Chart, place: 0 }, &bad_head),
        (&falling, &rules, Refusal::Step { file: File::Chart, place: 20 }, &falling[20..]),
        (&chart, &bad_node, Refusal::Node { file: File::Rules, place: 5 }, &bad_node[5..]),
        (&chart, &no, Refusal::NoPlan { count: 0 }, &[]),
        (&chart, &long, Refusal::Long { file: File::Rules, place: LONGEST_FILE }, b"."),
        (&no_stage, &rules, Refusal::Stages { file: File::Chart, place: 9 }, &no_stage[9..]),
        (&dear, &rules, Refusal::Cost { file: File::Chart, place: 9 }, &dear[9..]),
        (&chart, &padded, Refusal::Padded { file: File::Rules, place: 14 }, &padded[14..23]),
        (
            &group_falls,
            &rules,
            Refusal::Group { file: File::Chart, place: 48 },
            &group_falls[48..61],
        ),
    ];
    for (chart, rules, refusal, field) in cases {
        assert_eq!(plan(chart, rules), Err(refusal));
        assert_eq!(refusal.field(chart, rules), field);
    }
    let numbers = cases.map(|case| case.2.number());
    assert_eq!(numbers, [1, 2, 2, 3, 4, 5, 6, 8, 9, 10, 11, 13, 14]);
    assert_eq!(cases[5].2.to_string(), "refused 5 file 1 place 20");
    assert_eq!(cases[7].2.to_string(), "refused 8 file 0 place 0");
    assert_eq!(cases[8].2.to_string(), "refused 9 file 2 place 32768");
    assert_eq!(cases[11].2.to_string(), "refused 13 file 2 place 14");
    assert_eq!(cases[12].2.to_string(), "refused 14 file 1 place 48");
}

/// A file with a remark at its end that makes it so many bytes long.
fn noted(file: &[u8], size: usize) -> Vec<u8> {
    let body = size - file.len() - 3;
    let mut noted = [file, &[0x80], &(body as u16).to_le_bytes()].concat();
    noted.resize(size, b'.');
    noted
}

#[test]
fn remarks_change_nothing() {
    let (chart, rules) = example();
    let (noted_chart, noted_rules) = (noted(&chart, LONGEST_FILE), noted(&rules, 100));
    assert_eq!(plan(&noted_chart, &noted_rules), plan(&chart, &rules));
    assert_eq!(space_needed(&noted_chart, &noted_rules), space_needed(&chart, &rules));
    let long = Refusal::Long { file: File::Chart, place: LONGEST_FILE };
    assert_eq!(space_needed(&noted(&chart, LONGEST_FILE + 1), &[]).err(), Some(long));
    let cut = Refusal::Cut { file: File::Chart, place: chart.len() };
    assert_eq!(plan(&noted_chart[..LONGEST_FILE - 1], &rules), Err(cut));
}

/// The refusal of an answer with these entries.
fn refusal_of(number: usize, file: usize, place: usize) -> Option<Refusal> {
    Refusal::of(&Answer { number, file, place, cost: 0, length: 0, count: 5 })
}

/// The name of a refusal and of its file. That the last arms can be reached shows that both enums may
/// grow: without the mark `non_exhaustive` they are errors.
#[deny(unreachable_patterns)]
fn names(refusal: Refusal) -> (&'static str, &'static str) {
    let name = match refusal {
        Refusal::Cut { .. } => "cut",
        Refusal::Tag { .. } => "tag",
        Refusal::Length { .. } => "length",
        Refusal::Head { .. } => "head",
        Refusal::Step { .. } => "step",
        Refusal::Node { .. } => "node",
        Refusal::Space => "space",
        Refusal::NoPlan { .. } => "no plan",
        Refusal::Long { .. } => "long",
        Refusal::Stages { .. } => "stages",
        Refusal::Cost { .. } => "cost",
        Refusal::Large => "large",
        Refusal::Padded { .. } => "padded",
        Refusal::Group { .. } => "group",
        Refusal::Other { .. } => "other",
        _ => "newer",
    };
    let file = match refusal.field_place() {
        Some((File::Chart, _)) => "chart",
        Some((File::Rules, _)) => "rules",
        Some((File::MoreRules, _)) => "more rules",
        Some((_, _)) => "newer",
        None => "none",
    };
    (name, file)
}

#[test]
fn each_number_has_its_own_refusal() {
    let (first, later) =
        (["cut", "tag", "length", "head", "step", "node"], ["long", "stages", "cost"]);
    let last = [(13, "padded"), (14, "group")];
    for (number, name) in (1..).zip(first).chain((9..).zip(later)).chain(last) {
        for (file, file_name) in [(1, "chart"), (2, "rules"), (3, "more rules")] {
            let refusal = refusal_of(number, file, 14).expect("a refusal");
            assert_eq!(refusal.number(), number);
            assert_eq!(names(refusal), (name, file_name));
            assert_eq!(refusal.to_string(), format!("refused {number} file {file} place 14"));
        }
    }
    assert_eq!(refusal_of(0, 0, 0), None);
    assert_eq!(refusal_of(7, 0, 0), Some(Refusal::Space));
    assert_eq!(refusal_of(8, 0, 0), Some(Refusal::NoPlan { count: 5 }));
    assert_eq!(refusal_of(12, 0, 0), Some(Refusal::Large));
    for (number, name) in [(7, "space"), (8, "no plan"), (12, "large")] {
        let refusal = refusal_of(number, 0, 0).expect("a refusal");
        assert_eq!((refusal.number(), names(refusal)), (number, (name, "none")));
        assert_eq!(refusal.to_string(), format!("refused {number} file 0 place 0"));
    }
    for number in [9, 10, 11, 13, 14] {
        assert_eq!(refusal_of(number, 0, 0).map(names), Some(("other", "none")));
    }
}

#[test]
fn a_number_without_a_name_is_kept() {
    let (chart, rules) = example();
    for number in [15, 16, 255, usize::MAX] {
        let refusal = refusal_of(number, 2, 14).expect("a refusal");
        assert_eq!(refusal, Refusal::Other { number, file: 2, place: 14 });
        assert_eq!(refusal.number(), number);
        assert_eq!(refusal.field_place(), Some((File::Rules, 14)));
        assert_eq!(refusal.field(&chart, &rules), &rules[14..]);
        assert_eq!(refusal.to_string(), format!("refused {number} file 2 place 14"));
    }
}

#[test]
fn a_file_without_a_name_is_kept() {
    let (chart, rules) = example();
    for (number, file, place) in
        [(6, 4, 5), (4, 0, 0), (1, usize::MAX, 9), (13, 4, 5), (14, 0, 0), (14, 4, 5), (15, 0, 0)]
    {
        let refusal = refusal_of(number, file, place).expect("a refusal");
        assert_eq!(refusal, Refusal::Other { number, file, place });
        assert_eq!(refusal.field_place(), None);
        assert!(refusal.field(&chart, &rules).is_empty());
        assert_eq!(refusal.to_string(), format!("refused {number} file {file} place {place}"));
    }
}

#[test]
fn the_refused_field_is_a_part_of_the_callers_file() {
    let (chart, rules) = example();
    let part = refused_field(&chart, &rules, File::Rules, 5);
    assert!(std::ptr::eq(part, &rules[5..14]));
    for place in [rules.len(), usize::MAX] {
        assert!(std::ptr::eq(refused_field(&chart, &rules, File::Rules, place), &chart[..0]));
    }
    let mut field = [0xee; 12];
    assert_eq!(lent::refused_field(&chart, &rules, 2, 5, &mut field), 9);
    assert_eq!((&field[..9], &field[9..]), (part, &[0xee; 3][..]));
    assert_eq!(lent::refused_field(&chart, &rules, 3, 5, &mut field), 0);
}

#[test]
fn a_field_of_the_third_file_is_never_taken_from_another() {
    let (chart, rules) = example();
    let more = not_taken(&[1]);
    for number in [1, 6, 13, 14, 15] {
        let refusal = refusal_of(number, 3, 5).expect("a refusal");
        assert!(std::ptr::eq(refusal.field_of_three(&chart, &rules, &more), &more[5..]));
        assert!(std::ptr::eq(refusal.field(&chart, &rules), &chart[..0]));
    }
    for place in [more.len(), usize::MAX] {
        let refusal = refusal_of(1, 3, place).expect("a refusal");
        assert!(std::ptr::eq(refusal.field_of_three(&chart, &rules, &more), &chart[..0]));
    }
    for (file, place, part) in [(1, 9, &chart[9..20]), (2, 5, &rules[5..14])] {
        let refusal = refusal_of(1, file, place).expect("a refusal");
        assert!(std::ptr::eq(refusal.field_of_three(&chart, &rules, &more), part));
        assert!(std::ptr::eq(refusal.field(&chart, &rules), part));
    }
    assert!(std::ptr::eq(refused_field(&chart, &rules, File::MoreRules, 5), &chart[..0]));
}

#[test]
fn the_space_of_two_files() {
    let (chart, rules) = example();
    let space = space_needed(&chart, &rules).expect("sound files");
    assert_eq!(space, Space { work: 20, plan: 4, ..Space::default() });
    let refusal = Refusal::Cut { file: File::Rules, place: 0 };
    assert_eq!(space_needed(&chart, &rules[..4]), Err(refusal));
}

#[test]
fn work_that_is_kept() {
    let (chart, rules) = example();
    let mut work = Work::default();
    assert_eq!(work.plan(&chart, &rules), Err(Refusal::Space));
    work.grow_for(&chart, &rules).expect("sound files");
    assert_eq!(work.plan(&chart, &rules), plan(&chart, &rules));
    let small = chart_file([1, 0, 0], &[]);
    work.grow_for(&small, &rules_file(1, &[])).expect("sound files");
    let (sweep, guided) = work.both(&chart, &rules);
    assert_eq!((sweep.cost, guided.cost), (200, 200));
    assert_eq!(work.sweep_steps(&sweep), work.guided_steps(&guided));
    assert_eq!(work.settled(&guided), [3, 5, 13, 17]);
    assert_eq!((work.costs()[3], work.costs()[17], work.costs()[0]), (0, 200, UNREACHED));
    assert_eq!((work.sweep(&chart, &rules), work.guided(&chart, &rules)), (sweep, guided));
}

/// Slices of these lengths, lent to both searches on the example's chart; the numbers of both answers.
fn numbers(rules: &[u8], work: usize, plan: usize) -> (usize, usize) {
    let (chart, _) = example();
    let mut slices = vec![vec![7_u32; work]; 9];
    let mut plans = [vec![7_u16; plan], vec![7_u16; plan]];
    let [cost, cost_via, nodes, keys, via, heap, pos, stack, log] = &mut slices[..] else {
        unreachable!("nine slices")
    };
    let [cost_plan, plan] = &mut plans;
    let sweep = SweepSlices { cost, via: cost_via, nodes, plan: cost_plan };
    let guided = GuidedSlices { keys, via, heap, pos, stack, log, plan };
    let (mut swept, mut found) = (Answer::default(), Answer::default());
    let number = lent::both(&chart, rules, sweep, guided, (&mut swept, &mut found));
    assert_eq!(number as usize, found.number);
    let untouched = slices.iter().flatten().all(|entry| *entry == 7)
        && plans.iter().flatten().all(|entry| *entry == 7);
    assert_eq!(untouched, number != 0);
    (swept.number, found.number)
}

#[test]
fn slices_of_any_length_may_be_lent() {
    let (_, rules) = example();
    for (work, plan, number) in [(0, 0, 7), (19, 4, 7), (20, 3, 7), (20, 4, 0), (25, 9, 0)] {
        assert_eq!(numbers(&rules, work, plan), (number, number));
    }
}

/// The rule that none of these steps, which rise, is taken: a node for each, the last step's first.
fn not_taken(steps: &[u16]) -> Vec<u8> {
    let lo = |place| if place == 0 { 1 } else { place + 1 };
    let nodes: Vec<_> =
        (0..).zip(steps.iter().rev()).map(|(place, step)| [*step, lo(place), 0]).collect();
    rules_file(lo(steps.len() as u16), &nodes)
}

#[test]
fn a_plan_under_both_rules() {
    let (chart, rules) = example();
    let more = not_taken(&[1]);
    let both = conjoin(&chart, &rules, &more).expect("sound files");
    assert_eq!(both, rules_file(5, &[[1, 1, 0], [2, 0, 1], [1, 3, 0], [0, 2, 4]]));
    let found = [&rules, &more, &both].map(|file| plan(&chart, file).map(|plan| plan.steps));
    assert_eq!(found, [Ok(vec![1, 3, 5]), Ok(vec![0, 3, 5]), Ok(vec![0, 2, 4, 5])]);
    assert_eq!(plan(&chart, &both).map(|plan| plan.cost), Ok(350));
    assert_eq!(conjoin(&chart, &more, &rules), Ok(both.clone()));
    assert_eq!(conjoin(&chart, &both, &noted(&rules, 100)), Ok(both));
}

#[test]
fn conjunctions_that_are_constant_or_the_same() {
    let (chart, rules) = example();
    let (no, yes) = (rules_file(0, &[]), rules_file(1, &[]));
    let opposite = rules_file(3, &[[2, 1, 0], [0, 0, 2]]);
    assert_eq!(no.len(), 5);
    for (rules, more, both) in [
        (&yes, &yes, &yes),
        (&yes, &no, &no),
        (&rules, &no, &no),
        (&rules, &opposite, &no),
        (&rules, &yes, &rules),
        (&rules, &rules, &rules),
    ] {
        assert_eq!(conjoin(&chart, rules, more).as_ref(), Ok(both));
        assert_eq!(conjoin(&chart, more, rules).as_ref(), Ok(both));
    }
}

/// Spoiled charts, and the number and the place that each gets.
fn refused_charts() -> Vec<(Vec<u8>, usize, usize)> {
    let (chart, _) = example();
    let [bad_head, falling, no_stage, dear] = spoiled_charts();
    vec![
        (chart[..19].to_vec(), 1, 9),
        (vec![], 2, 0),
        (vec![0x01, 7, 0], 3, 0),
        (bad_head, 4, 0),
        (falling, 5, 20),
        (noted(&chart, LONGEST_FILE + 1), 9, LONGEST_FILE),
        (no_stage, 10, 9),
        (dear, 11, 9),
    ]
    .into_iter()
    .chain(refused_groups())
    .collect()
}

/// Diagrams that no call takes on the example's chart, the number and the place that each gets, and the
/// bytes of its field.
fn refused_diagrams() -> Vec<(Vec<u8>, usize, usize, Vec<u8>)> {
    let (_, rules) = example();
    let (bad_node, bad_root) =
        (rules_file(2, &[[6, 0, 1]]), rules_file(4, &[[2, 0, 1], [0, 1, 2]]));
    // Nodes that would be padded if they kept the limits.
    let (no_step, not_later) =
        (rules_file(2, &[[6, 1, 1]]), rules_file(3, &[[2, 0, 1], [2, 2, 2]]));
    vec![
        (rules[..13].to_vec(), 1, 5, rules[5..13].to_vec()),
        (vec![], 2, 0, vec![]),
        (rules[5..].to_vec(), 2, 0, rules[5..14].to_vec()),
        (vec![0x11, 3, 0], 3, 0, vec![0x11, 3, 0]),
        (bad_node.clone(), 6, 5, bad_node[5..].to_vec()),
        (bad_root.clone(), 6, 0, bad_root[..5].to_vec()),
        (no_step.clone(), 6, 5, no_step[5..].to_vec()),
        (not_later.clone(), 6, 14, not_later[14..].to_vec()),
        (noted(&rules, LONGEST_FILE + 1), 9, LONGEST_FILE, b".".to_vec()),
    ]
}

/// Padded diagrams on the example's chart, the place of the node that gets 13, and their reductions.
fn padded_diagrams() -> Vec<(Vec<u8>, usize, Vec<u8>)> {
    let (_, rules) = example();
    let (no, yes) = (rules_file(0, &[]), rules_file(1, &[]));
    let double = rules_file(4, &[[2, 0, 1], [2, 0, 1], [0, 1, 3]]);
    let with_remark = [&double[..14], &[0x80, 2, 0, 1, 2], &double[14..]].concat();
    let not_5 = rules_file(2, &[[5, 1, 0]]);
    let deep = rules_file(6, &[[5, 1, 1], [5, 1, 0], [4, 3, 2], [4, 3, 1], [1, 4, 5]]);
    let hi_first = rules_file(6, &[[2, 0, 1], [2, 0, 1], [1, 3, 0], [1, 1, 0], [0, 5, 4]]);
    vec![
        // lo equal to hi: 0, 1, an inner node.
        (rules_file(2, &[[5, 0, 0]]), 5, no.clone()),
        (rules_file(2, &[[5, 1, 1]]), 5, yes.clone()),
        (rules_file(4, &[[2, 0, 1], [1, 2, 2], [0, 1, 3]]), 14, rules.clone()),
        // Doubles of the node before and of an earlier one, a remark between them.
        (double, 14, rules.clone()),
        (with_remark, 19, rules.clone()),
        (rules_file(5, &[[2, 0, 1], [5, 1, 0], [2, 0, 1], [0, 1, 4]]), 23, rules.clone()),
        // Those that the root does not lead to, and one that it leads to.
        (rules_file(1, &[[3, 0, 0]]), 5, yes.clone()),
        (rules_file(2, &[[5, 1, 0], [4, 2, 2]]), 14, not_5.clone()),
        (rules_file(0, &[[2, 0, 1], [2, 0, 1]]), 14, no),
        // Without the padding below them, more nodes are alike or have lo equal to hi.
        (deep, 5, rules_file(3, &[[5, 1, 0], [4, 2, 1]])),
        (rules_file(6, &[[5, 1, 0], [5, 1, 0], [4, 2, 3], [3, 3, 4], [0, 2, 5]]), 14, not_5),
        // In another order than a walk leaves them: those of lo come first.
        (hi_first, 14, rules_file(5, &[[1, 1, 0], [2, 0, 1], [1, 3, 0], [0, 2, 4]])),
    ]
}

#[test]
fn every_refusal_of_a_conjunction() {
    let (chart, rules) = example();
    // A spoiled chart is told before a spoiled diagram.
    for (chart, number, place) in refused_charts() {
        let refusal = conjoin(&chart, &[], &[]).unwrap_err();
        assert_eq!(Some(refusal), refusal_of(number, 1, place));
        assert_eq!(refusal.field_of_three(&chart, &[], &[]), refusal.field(&chart, &rules));
    }
    let padded = padded_diagrams().into_iter().map(|(file, place, _)| {
        let field = file[place..place + 9].to_vec();
        (file, 13, place, field)
    });
    for (spoiled, number, place, field) in refused_diagrams().into_iter().chain(padded) {
        // The second file is told before the third.
        for (file, rules, more) in
            [(2, &spoiled[..], &rules[..]), (2, &spoiled, &[]), (3, &rules, &spoiled)]
        {
            let refusal = conjoin(&chart, rules, more).unwrap_err();
            assert_eq!(Some(refusal), refusal_of(number, file, place));
            assert_eq!(refusal.field_of_three(&chart, rules, more), field);
            assert_eq!(refusal.to_string(), format!("refused {number} file {file} place {place}"));
        }
    }
}

/// A conjunction in slices of these lengths: its answer and what stands in them afterwards. Before, a
/// work entry is 7 and a byte `0xee`.
fn lent_conjoin(files: [&[u8]; 3], work: usize, file: usize) -> (Answer, Vec<u32>, Vec<u8>) {
    let (mut work, mut file) = (vec![7; work], vec![0xee; file]);
    let mut answer = Answer { count: 5, ..Answer::default() };
    let lent = ConjoinSlices { work: &mut work, file: &mut file };
    let number = lent::conjoin(files[0], files[1], files[2], lent, &mut answer);
    assert_eq!(number as usize, answer.number);
    (answer, work, file)
}

/// The answer of a call that refuses for no file.
fn refused(number: usize) -> Answer {
    Answer { number, ..Answer::default() }
}

#[test]
fn slices_lent_to_a_conjunction() {
    let (chart, rules) = example();
    let more = not_taken(&[1]);
    let both = conjoin(&chart, &rules, &more).expect("sound files");
    let files = [&chart[..], &rules, &more];
    let (pairs, bytes) = (4 * 3, 41);
    let accepted = Answer { length: bytes, ..Answer::default() };
    for spare in [0, 1, 100] {
        let (answer, work, file) = lent_conjoin(files, pairs + spare, bytes + spare);
        assert_eq!(answer, accepted);
        assert_eq!((&file[..bytes], &file[bytes..]), (&both[..], &vec![0xee; spare][..]));
        assert_eq!(work[pairs..], vec![7; spare]);
    }
    // The work slice is too short: both stay.
    for (pairs, bytes) in [(pairs - 1, bytes), (pairs - 1, MOST_FILE), (0, 0)] {
        assert_eq!(
            lent_conjoin(files, pairs, bytes),
            (refused(7), vec![7; pairs], vec![0xee; bytes])
        );
    }
    // The buffer is too short: it stays, and so do work entries past the pairs.
    for bytes in [0, 5, bytes - 1] {
        let (answer, work, file) = lent_conjoin(files, pairs + 3, bytes);
        assert_eq!((answer, file), (refused(7), vec![0xee; bytes]));
        assert_eq!(work[pairs..], [7; 3]);
    }
    // A file is refused: both stay.
    let cut = Answer { number: 1, file: 3, place: 5, ..Answer::default() };
    let found = lent_conjoin([&chart, &rules, &more[..9]], pairs, bytes);
    assert_eq!(found, (cut, vec![7; pairs], vec![0xee; bytes]));
    for (padded, place, _) in padded_diagrams() {
        for (file, rules, more) in [(2, &padded, &more), (3, &rules, &padded)] {
            let answer = Answer { number: 13, file, place, ..Answer::default() };
            let found = lent_conjoin([&chart, rules, more], MOST_PAIRS, MOST_FILE);
            assert_eq!(found, (answer, vec![7; MOST_PAIRS], vec![0xee; MOST_FILE]));
        }
    }
}

/// A chart with as many steps, and the rules that none of the first 300 and none of the others is
/// taken.
fn long_rules(steps: u16) -> [Vec<u8>; 3] {
    let all: Vec<u16> = (0..steps).collect();
    let chart = chart_file([2, 0, 1], &vec![(0, 1, 7); all.len()]);
    [chart, not_taken(&all[..300]), not_taken(&all[300..])]
}

#[test]
fn at_most_510_nodes() {
    let [chart, rules, more] = long_rules(510);
    let both = conjoin(&chart, &rules, &more).expect("510 nodes");
    assert_eq!((both.len(), &both), (MOST_FILE, &not_taken(&(0..510).collect::<Vec<_>>())));
    assert!(matches!(plan(&chart, &both), Err(Refusal::NoPlan { .. })));

    let [chart, rules, more] = long_rules(511);
    assert_eq!(conjoin(&chart, &rules, &more), Err(Refusal::Large));
    // After the 7 for the work slice, before that for the buffer.
    let (files, pairs) = ([&chart[..], &rules, &more], 302 * 213);
    for bytes in [0, MOST_FILE, MOST_FILE + 9] {
        let (answer, work, file) = lent_conjoin(files, pairs + 3, bytes);
        assert_eq!((answer, file), (refused(12), vec![0xee; bytes]));
        assert_eq!(work[pairs..], [7; 3]);
        let found = lent_conjoin(files, pairs - 1, bytes);
        assert_eq!(found, (refused(7), vec![7; pairs - 1], vec![0xee; bytes]));
    }
}

#[test]
fn work_of_conjunctions_that_is_kept() {
    let (chart, rules) = example();
    let more = not_taken(&[1]);
    let mut work = ConjoinWork::default();
    for size in [510, 511, 310] {
        let [chart, rules, more] = long_rules(size);
        assert_eq!(
            work.conjoin(&chart, &rules, &more).map(<[u8]>::to_vec),
            conjoin(&chart, &rules, &more)
        );
    }
    let both = conjoin(&chart, &rules, &more).expect("sound files");
    assert_eq!(work.conjoin(&chart, &rules, &more), Ok(&both[..]));
    assert_eq!(work.conjoin(&chart, &more, &rules), Ok(&both[..]));
}

#[test]
fn padded_files_are_taken_by_the_reduction_alone() {
    let (chart, _) = example();
    let mut work = Work::with_entries(MOST_PAIRS, 255);
    for (padded, place, reduced) in padded_diagrams() {
        let refusal = Refusal::Padded { file: File::Rules, place };
        assert_eq!(refusal.field(&chart, &padded), &padded[place..place + 9]);
        assert_eq!(plan(&chart, &padded), Err(refusal));
        assert_eq!(space_needed(&chart, &padded), Err(refusal));
        let answer = Answer { number: 13, file: 2, place, ..Answer::default() };
        assert_eq!(work.sweep(&chart, &padded), answer);
        assert_eq!(work.guided(&chart, &padded), answer);
        assert_eq!(work.both(&chart, &padded), (answer, answer));
        // Before the space is looked at; no slice is touched.
        for (work, plan) in [(0, 0), (100, 4)] {
            assert_eq!(numbers(&padded, work, plan), (13, 13));
        }
        assert_eq!(reduce(&chart, &padded).as_ref(), Ok(&reduced));
        assert_eq!(reduce(&chart, &reduced).as_ref(), Ok(&reduced));
        assert_eq!(conjoin(&chart, &reduced, &reduced), Ok(reduced));
    }
}

#[test]
fn padded_nodes_beside_other_faults() {
    let (chart, rules) = example();
    let padded = rules_file(9, &[[5, 1, 1], [4, 0, 0]]);
    // After the chart, before a later node and before the root; the reduction goes on.
    let refusal = Refusal::Padded { file: File::Rules, place: 5 };
    for (rules, last) in [(&padded[..], (6, 0)), (&padded[..20], (1, 14)), (&padded[..15], (1, 14))]
    {
        assert_eq!(plan(&chart, rules), Err(refusal));
        assert_eq!(plan(&chart[..19], rules), Err(Refusal::Cut { file: File::Chart, place: 9 }));
        assert_eq!(reduce(&chart, rules).err(), refusal_of(last.0, 2, last.1));
    }
    assert_eq!(
        plan(&chart, &noted(&padded, LONGEST_FILE + 1)).err(),
        refusal_of(9, 2, LONGEST_FILE)
    );
    // In one field 6 comes first.
    for (rules, number, place, field) in refused_diagrams() {
        let refusal = plan(&chart, &rules).unwrap_err();
        assert_eq!(Some(refusal), refusal_of(number, 2, place));
        assert_eq!(refusal.field(&chart, &rules), field);
    }
    // Nodes that the root does not lead to, and such as differ in step, lo or hi alone, are taken.
    let beside = [[2, 0, 1], [0, 1, 2], [5, 1, 0], [4, 1, 0], [4, 1, 4], [4, 0, 4], [3, 0, 1]];
    let found = plan(&chart, &rules_file(3, &beside)).expect("no padded node");
    assert_eq!((found.cost, found.steps), (200, vec![1, 3, 5]));
    assert_eq!(reduce(&chart, &rules_file(3, &beside)), Ok(rules));
}

/// Whether a diagram file without remarks says yes to a set of steps, a bit for each.
fn says_yes(rules: &[u8], set: u32) -> bool {
    let number = |at: usize| u16::from_le_bytes([rules[at], rules[at + 1]]);
    let mut node = number(3);
    while node > 1 {
        let body = 5 + 9 * (usize::from(node) - 2) + 3;
        let is_taken = set >> number(body) & 1 == 1;
        node = number(body + if is_taken { 4 } else { 2 });
    }
    node == 1
}

#[test]
fn reductions_tell_meanings_apart() {
    let (chart, rules) = example();
    let mut files = vec![
        rules_file(0, &[]),
        rules_file(1, &[]),
        rules,
        not_taken(&[1]),
        not_taken(&[0, 1, 5]),
        // The same conjunction twice: lo's side first, as a walk leaves it, and hi's side first.
        rules_file(5, &[[1, 1, 0], [2, 0, 1], [1, 3, 0], [0, 2, 4]]),
        rules_file(5, &[[2, 0, 1], [1, 2, 0], [1, 1, 0], [0, 4, 3]]),
        // The third step decides: it is the same step in both branches, or it is not.
        rules_file(4, &[[3, 0, 1], [3, 0, 1], [0, 2, 3]]),
        rules_file(4, &[[3, 0, 1], [4, 0, 1], [0, 2, 3]]),
    ];
    files.extend(padded_diagrams().into_iter().map(|(padded, _, _)| padded));
    // The one with a remark.
    files.retain(|file| file.len() % 9 == 5);
    let sets = 1 << STEPS.len();
    let means = |file: &[u8]| (0..sets).map(|set| says_yes(file, set)).collect::<Vec<_>>();
    for file in &files {
        let reduced = reduce(&chart, file).expect("within the limits");
        assert!(reduced.len() <= file.len());
        assert_eq!(means(&reduced), means(file));
        assert_eq!(reduce(&chart, &reduced).as_ref(), Ok(&reduced));
        for other in &files {
            let is_same = reduce(&chart, other).as_ref() == Ok(&reduced);
            assert_eq!(is_same, means(other) == means(file));
        }
    }
}

#[test]
fn a_plan_under_a_reduction() {
    let (chart, rules) = example();
    let padded = rules_file(6, &[[2, 0, 1], [2, 0, 1], [5, 0, 0], [1, 2, 3], [0, 1, 5]]);
    assert_eq!(plan(&chart, &padded).err(), refusal_of(13, 2, 14));
    let reduced = reduce(&chart, &noted(&padded, LONGEST_FILE)).expect("within the limits");
    assert_eq!(plan(&chart, &reduced), plan(&chart, &rules));
    assert_eq!(plan(&noted(&chart, 100), &reduced).map(|plan| plan.cost), Ok(200));
    // Conjoined with the rule that step 1 is not taken.
    let both = conjoin(&chart, &reduced, &not_taken(&[1])).expect("sound files");
    assert_eq!(
        plan(&chart, &both).map(|plan| (plan.cost, plan.steps)),
        Ok((350, vec![0, 2, 4, 5]))
    );
    // The chart's start and end play no part.
    let backwards = chart_file([5, 4, 0], &STEPS);
    assert_eq!(reduce(&backwards, &padded), Ok(reduced));
}

#[test]
fn every_refusal_of_a_reduction() {
    let (chart, rules) = example();
    // A spoiled chart is told before a spoiled diagram.
    for (chart, number, place) in refused_charts() {
        for rules in [&rules[..], &[]] {
            let refusal = reduce(&chart, rules).unwrap_err();
            assert_eq!(Some(refusal), refusal_of(number, 1, place));
        }
    }
    for (rules, number, place, field) in refused_diagrams() {
        let refusal = reduce(&chart, &rules).unwrap_err();
        assert_eq!(Some(refusal), refusal_of(number, 2, place));
        assert_eq!(refusal.field(&chart, &rules), field);
        assert_eq!(refusal.to_string(), format!("refused {number} file 2 place {place}"));
    }
}

/// A reduction in a buffer of so many bytes: its answer and the buffer afterwards, whose bytes are
/// `0xee` before.
fn lent_reduce(chart: &[u8], rules: &[u8], bytes: usize) -> (Answer, Vec<u8>) {
    let mut file = vec![0xee; bytes];
    let mut answer = Answer { number: 5, file: 5, place: 5, cost: 5, length: 5, count: 5 };
    let number = lent::reduce(chart, rules, &mut file, &mut answer);
    assert_eq!(number as usize, answer.number);
    (answer, file)
}

#[test]
fn buffers_lent_to_a_reduction() {
    let (chart, _) = example();
    for (padded, _, reduced) in padded_diagrams() {
        let bytes = reduced.len();
        for spare in [0, 1, 9, 100] {
            let (answer, file) = lent_reduce(&chart, &padded, bytes + spare);
            assert_eq!(answer, Answer { length: bytes, ..Answer::default() });
            assert_eq!((&file[..bytes], &file[bytes..]), (&reduced[..], &vec![0xee; spare][..]));
        }
        // The buffer is too short: it stays.
        for bytes in [0, 4, bytes - 1] {
            assert_eq!(lent_reduce(&chart, &padded, bytes), (refused(7), vec![0xee; bytes]));
        }
    }
    // A file is refused, however long the buffer is: it stays.
    for bytes in [0, MOST_FILE] {
        for (rules, number, place, _) in refused_diagrams() {
            let answer = Answer { number, file: 2, place, ..Answer::default() };
            assert_eq!(lent_reduce(&chart, &rules, bytes), (answer, vec![0xee; bytes]));
        }
        for (chart, number, place) in refused_charts() {
            let answer = Answer { number, file: 1, place, ..Answer::default() };
            assert_eq!(lent_reduce(&chart, &[], bytes), (answer, vec![0xee; bytes]));
        }
    }
}

#[test]
fn reductions_of_510_nodes() {
    let all: Vec<u16> = (0..511).collect();
    let chart = chart_file([2, 0, 1], &vec![(0, 1, 7); all.len()]);
    let [last, rules] = [&all[510..], &all[..510]].map(not_taken);
    assert_eq!((rules.len(), reduce(&chart, &rules)), (MOST_FILE, Ok(rules.clone())));
    let short = MOST_FILE - 1;
    assert_eq!(lent_reduce(&chart, &rules, short), (refused(7), vec![0xee; short]));
    // Doubles of one node; nodes with lo equal to hi, each on the one before.
    let doubles = rules_file(511, &[[510, 1, 0]; 510]);
    let stack: Vec<_> = (1..510).map(|above| [510 - above, above + 1, above + 1]).collect();
    let stack = rules_file(511, &[&[[510, 1, 0]], &stack[..]].concat());
    for (padded, place) in [(doubles, 14), (stack, 14)] {
        assert_eq!(padded.len(), MOST_FILE);
        assert_eq!(plan(&chart, &padded).err(), refusal_of(13, 2, place));
        assert_eq!(reduce(&chart, &padded).as_ref(), Ok(&last));
    }
    // A 511th node is 6, a double too.
    let more = [&rules[..], &rules[5..14]].concat();
    assert_eq!(plan(&chart, &more).err(), refusal_of(6, 2, MOST_FILE));
    assert_eq!(reduce(&chart, &more).err(), refusal_of(6, 2, MOST_FILE));
}

/// A chart with this start and end in its head.
fn headed(chart: &[u8], start: u16, end: u16) -> Vec<u8> {
    let mut headed = chart.to_vec();
    headed[5..7].copy_from_slice(&start.to_le_bytes());
    headed[7..9].copy_from_slice(&end.to_le_bytes());
    headed
}

/// Entries with these starts and ends, which hold something before they are answered.
fn asked(pairs: &[(u16, u16)]) -> Vec<Cycle> {
    let entry = |&(start, end)| Cycle { start, end, number: 9, cost: 9, count: 9 };
    pairs.iter().map(entry).collect()
}

/// From each of so many stages to each.
fn all_pairs(stages: u16) -> Vec<(u16, u16)> {
    (0..stages).flat_map(|start| (0..stages).map(move |end| (start, end))).collect()
}

/// The entries as guided searches answer them, each on the chart with its start and end in the head;
/// one that is no stage is 4 there too.
fn searched(work: &mut Work, chart: &[u8], rules: &[u8], list: &[Cycle]) -> Vec<Cycle> {
    let search = |cycle: &Cycle| {
        let answer = work.guided(&headed(chart, cycle.start, cycle.end), rules);
        let (number, cost) = (answer.number as u32, answer.cost as u32);
        Cycle { number, cost, count: answer.count, ..*cycle }
    };
    list.iter().map(search).collect()
}

#[test]
fn every_start_with_every_end() {
    let (chart, rules) = example();
    let mut list = asked(&all_pairs(5));
    assert_eq!(cycles(&chart, &rules, &mut list), Ok(()));
    // A row for each start: the cost and the settled pairs. No way leads to a lower stage.
    let found = [
        [Some((0, 1)), Some((100, 2)), Some((250, 3)), Some((150, 3)), Some((200, 4))],
        [None, Some((0, 1)), Some((200, 2)), Some((50, 2)), Some((100, 3))],
        [None, None, Some((0, 1)), Some((50, 2)), Some((100, 3))],
        [None, None, None, Some((0, 1)), Some((50, 2))],
        [None, None, None, None, Some((0, 1))],
    ];
    let expected = all_pairs(5).into_iter().zip(found.into_iter().flatten());
    let expected = expected.map(|((start, end), found)| match found {
        Some((cost, count)) => Cycle { start, end, number: 0, cost, count },
        None => Cycle { start, end, number: 8, cost: 0, count: 0 },
    });
    assert_eq!(list, expected.collect::<Vec<_>>());

    let mut work = Work::for_files(&chart, &rules).expect("sound files");
    assert_eq!(searched(&mut work, &chart, &rules, &list), list);
    // Each by itself, and under any start and end of the head.
    for cycle in &list {
        let mut alone = [Cycle::new(cycle.start, cycle.end)];
        assert_eq!(work.cycles(&chart, &rules, &mut alone), Ok(()));
        assert_eq!(alone, [*cycle]);
        let mut again = asked(&all_pairs(5));
        let other = headed(&chart, cycle.start, cycle.end);
        assert_eq!(work.cycles(&other, &rules, &mut again), Ok(()));
        assert_eq!(again, list);
    }
}

#[test]
fn lists_under_other_rules() {
    let (chart, _) = example();
    let mut work = Work::with_entries(100, 4);
    let diagrams = [rules_file(0, &[]), rules_file(1, &[]), not_taken(&[1]), not_taken(&[2, 3])];
    for rules in diagrams {
        let mut list = asked(&all_pairs(6));
        assert_eq!(work.cycles(&chart, &rules, &mut list), Ok(()));
        assert_eq!(searched(&mut work, &chart, &rules, &list), list);
        let mut noted_list = asked(&all_pairs(6));
        let (noted_chart, noted_rules) = (noted(&chart, LONGEST_FILE), noted(&rules, 100));
        assert_eq!(work.cycles(&noted_chart, &noted_rules, &mut noted_list), Ok(()));
        assert_eq!(noted_list, list);
    }
}

#[test]
fn a_list_may_be_empty_or_long() {
    let (chart, rules) = example();
    assert_eq!(cycles(&chart, &rules, &mut []), Ok(()));
    assert_eq!(cycles(&chart[..19], &rules, &mut []).err(), refusal_of(1, 1, 9));
    assert_eq!(Work::default().cycles(&chart, &rules, &mut []), Err(Refusal::Space));
    // Equal entries, far apart and side by side, have equal answers; filled twice they are the same.
    let pairs = all_pairs(6);
    let (often, twice) = (pairs.repeat(40), pairs.iter().flat_map(|pair| [*pair; 2]));
    let mut list = asked(&pairs);
    assert_eq!(cycles(&chart, &rules, &mut list), Ok(()));
    let mut long = asked(&often);
    assert_eq!(cycles(&chart, &rules, &mut long), Ok(()));
    assert_eq!(long, list.repeat(40));
    assert_eq!(cycles(&chart, &rules, &mut long), Ok(()));
    assert_eq!(long, list.repeat(40));
    let mut doubled = asked(&twice.collect::<Vec<_>>());
    assert_eq!(cycles(&chart, &rules, &mut doubled), Ok(()));
    assert_eq!(doubled, list.iter().flat_map(|cycle| [*cycle; 2]).collect::<Vec<_>>());
}

#[test]
fn entries_outside_the_chart() {
    let (chart, rules) = example();
    let mut work = Work::for_files(&chart, &rules).expect("sound files");
    let inside = [(0, 4), (4, 0), (2, 2)];
    let mut answers = asked(&inside);
    assert_eq!(work.cycles(&chart, &rules, &mut answers), Ok(()));
    for (start, end) in [(5, 0), (0, 5), (5, 5), (4, 256), (256, 4), (u16::MAX, 3), (3, u16::MAX)] {
        let refused = Cycle { start, end, number: 4, cost: 0, count: 0 };
        for place in 0..=inside.len() {
            let (mut pairs, mut expected) = (inside.to_vec(), answers.clone());
            pairs.insert(place, (start, end));
            expected.insert(place, refused);
            let mut list = asked(&pairs);
            assert_eq!(work.cycles(&chart, &rules, &mut list), Ok(()));
            assert_eq!(list, expected);
            assert_eq!(searched(&mut work, &chart, &rules, &list), expected);
        }
        let mut alone = asked(&[(start, end); 3]);
        assert_eq!(work.cycles(&chart, &rules, &mut alone), Ok(()));
        assert_eq!(alone, [refused; 3]);
        // In the head the same start and end refuse the call, whatever is asked.
        let mut list = asked(&inside);
        let refusal = work.cycles(&headed(&chart, start, end), &rules, &mut list);
        assert_eq!((refusal.err(), list), (refusal_of(4, 1, 0), asked(&inside)));
    }
}

/// A list in six slices of these lengths: its answer and what stands in them and in the list
/// afterwards. Before, a work entry is 7.
fn lent_cycles(
    files: [&[u8]; 2],
    lengths: [usize; 6],
    pairs: &[(u16, u16)],
) -> (Answer, [Vec<u32>; 6], Vec<Cycle>) {
    let mut slices = lengths.map(|length| vec![7; length]);
    let mut list = asked(pairs);
    let mut answer = Answer { number: 5, file: 5, place: 5, cost: 5, length: 5, count: 5 };
    let [keys, via, heap, pos, stack, log] = &mut slices;
    let lent = CycleSlices { keys, via, heap, pos, stack, log };
    let number = lent::cycles(files[0], files[1], lent, &mut list, &mut answer);
    assert_eq!(number as usize, answer.number);
    (answer, slices, list)
}

#[test]
fn slices_lent_for_a_list() {
    let (chart, rules) = example();
    let files = [&chart[..], &rules];
    let pairs = all_pairs(6);
    let mut expected = asked(&pairs);
    assert_eq!(cycles(&chart, &rules, &mut expected), Ok(()));
    // Every entry of the answer is 0; entries past those needed stay, the log's too.
    for spare in [0, 1, 100] {
        let (answer, slices, list) = lent_cycles(files, [20 + spare; 6], &pairs);
        assert_eq!((answer, list), (Answer::default(), expected.clone()));
        assert!(slices.iter().all(|slice| slice[20..] == vec![7; spare]));
    }
    let (answer, slices, _) = lent_cycles(files, [20; 6], &[]);
    assert_eq!((answer, slices.map(|slice| slice.len())), (Answer::default(), [20; 6]));
    // Each of the six is asked for, by an empty list too: one that is too short leaves everything.
    for short in 0..6 {
        for (length, pairs) in [(19, &pairs[..]), (0, &pairs), (19, &[])] {
            let mut lengths = [20; 6];
            lengths[short] = length;
            let untouched = (refused(7), lengths.map(|length| vec![7; length]), asked(pairs));
            assert_eq!(lent_cycles(files, lengths, pairs), untouched);
        }
    }
}

#[test]
fn a_refused_file_leaves_a_list() {
    let (chart, rules) = example();
    let pairs = [(0, 4), (5, 5), (4, 0)];
    let left = |files: [&[u8]; 2], length, answer: Answer| {
        let untouched = (answer, [(); 6].map(|()| vec![7; length]), asked(&pairs));
        assert_eq!(lent_cycles(files, [length; 6], &pairs), untouched);
    };
    // Before the space is looked at. A spoiled chart is told before a spoiled diagram.
    for length in [0, 100] {
        for (chart, number, place) in refused_charts() {
            let answer = Answer { number, file: 1, place, ..Answer::default() };
            left([&chart, &rules], length, answer);
            left([&chart, &[]], length, answer);
        }
        for (rules, number, place, _) in refused_diagrams() {
            let answer = Answer { number, file: 2, place, ..Answer::default() };
            left([&chart, &rules], length, answer);
        }
        for (padded, place, _) in padded_diagrams() {
            let answer = Answer { number: 13, file: 2, place, ..Answer::default() };
            left([&chart, &padded], length, answer);
        }
    }
    for (rules, number, place, field) in refused_diagrams() {
        let mut list = asked(&pairs);
        let refusal = cycles(&chart, &rules, &mut list).unwrap_err();
        assert_eq!((Some(refusal), list), (refusal_of(number, 2, place), asked(&pairs)));
        assert_eq!(refusal.field(&chart, &rules), field);
    }
}

#[test]
fn a_list_on_256_stages_without_a_plan_slice() {
    let steps: Vec<_> = (0..255).map(|stage| (stage, stage + 1, 30)).collect();
    let (chart, rules) = (chart_file([256, 0, 255], &steps), not_taken(&[100]));
    // 256 stages, 3 nodes. A search has plan entries to ask for, a list has not.
    let mut work = Work::with_entries(256 * 3, 0);
    assert_eq!(work.guided(&chart, &rules), refused(7));
    let pairs = [(0, 100), (0, 101), (101, 255), (255, 255), (255, 0), (0, 256), (256, 255)];
    let mut list = asked(&pairs);
    assert_eq!(work.cycles(&chart, &rules, &mut list), Ok(()));
    let found: Vec<_> = list.iter().map(|cycle| (cycle.number, cycle.cost)).collect();
    let ticks = |steps| (0, steps * TICK);
    assert_eq!(found, [ticks(100), (8, 0), ticks(154), ticks(0), (8, 0), (4, 0), (4, 0)]);
    let mut searching = Work::for_files(&chart, &rules).expect("sound files");
    assert_eq!(searched(&mut searching, &chart, &rules, &list), list);
    // The same in slices of its own; an entry less is 7.
    let files = [&chart[..], &rules];
    let (answer, _, lent) = lent_cycles(files, [256 * 3; 6], &pairs);
    assert_eq!((answer, lent), (Answer::default(), list));
    let (answer, _, lent) = lent_cycles(files, [256 * 3 - 1; 6], &pairs);
    assert_eq!((answer, lent), (refused(7), asked(&pairs)));
}

/// Charts that are refused for what is new with groups, and the number and the place that each gets.
/// The example's steps stand at 9, 20, 31 .. where they are plain, at 9, 22, 35 .. where they name
/// groups.
fn refused_groups() -> Vec<(Vec<u8>, usize, usize)> {
    let (plain, grouped) = (chart_file([5, 0, 4], &STEPS), in_groups(ONE_RAISE));
    let step = |from, to, value, group| grouped_file([5, 0, 4], &[(from, to, value, group)]);
    let (first, other) = (&plain[9..20], &grouped[9..22]);
    let many = grouped_file([5, 0, 4], &[(0, 1, 7, 9); 1024]);
    vec![
        // A group above 1,023, and one below that of the step before.
        (step(0, 1, 40, 1024), 14, 9),
        (step(0, 1, 40, u16::MAX), 14, 9),
        (in_groups([0, 1, 2, 3, 4, 1024]), 14, 74),
        (in_groups([1, 0, 2, 3, 4, 5]), 14, 22),
        (in_groups([0, 1, 1023, 1022, 1023, 1023]), 14, 48),
        // What else a step is refused for comes first.
        (step(1, 1, 40, 1024), 10, 9),
        (step(0, 5, 40, 1024), 10, 9),
        (step(0, 1, 1_000_001, 1024), 11, 9),
        (grouped_file([5, 0, 4], &[(1, 2, 7, 3), (0, 1, 7, 2)]), 5, 22),
        ([&many[..], &step(0, 1, 7, 2)[9..]].concat(), 5, 9 + 1024 * 13),
        // The kind of the first step is that of all: another one is told before its length and its
        // end, but not where its header is cut.
        ([&plain[..], other].concat(), 2, 75),
        ([&plain[..], &other[..4]].concat(), 2, 75),
        ([&plain[..], &[0x03, 8, 0], &first[3..]].concat(), 2, 75),
        ([&grouped[..], first].concat(), 2, 87),
        ([&grouped[..], &first[..4]].concat(), 2, 87),
        ([&grouped[..], &[0x02, 10, 0], &other[3..]].concat(), 2, 87),
        ([&plain[..], &other[..2]].concat(), 1, 75),
        ([&grouped[..], &first[..2]].concat(), 1, 87),
        // A remark is of neither kind.
        ([&plain[..9], &[0x80, 0, 0], other, first].concat(), 2, 25),
        // The length is that of the kind.
        ([&plain[..9], &[0x03, 8, 0], &plain[12..]].concat(), 3, 9),
        ([&plain[..9], &[0x02, 10, 0], &grouped[12..]].concat(), 3, 9),
        ([&grouped[..], &[0x03, 8, 0], &first[3..]].concat(), 3, 87),
        (grouped[..grouped.len() - 1].to_vec(), 1, 74),
    ]
}

/// Groups of the example's steps: both raises of A13 are group 0, and group 1 has no step.
const ONE_RAISE: [u16; 6] = [0, 0, 2, 3, 4, 5];

#[test]
fn every_refusal_of_groups() {
    let (_, rules) = example();
    for (chart, number, place) in refused_groups() {
        for rules in [&rules[..], &[]] {
            let refusal = plan(&chart, rules).unwrap_err();
            assert_eq!(Some(refusal), refusal_of(number, 1, place));
            assert_eq!(space_needed(&chart, rules), Err(refusal));
            let length = chart.get(place + 1).map_or(0, |length| usize::from(*length)) + 3;
            let end = chart.len().min(place + length);
            assert_eq!(refusal.field(&chart, rules), &chart[place..end]);
        }
        let mut work = Work::with_entries(100, 4);
        let answer = Answer { number, file: 1, place, ..Answer::default() };
        assert_eq!((work.sweep(&chart, &rules), work.guided(&chart, &rules)), (answer, answer));
    }
}

/// All that the calls tell of two files on the example's stages: space, both answers, the sweep's
/// costs, both plans, the log, a list, the conjunction with another diagram and the reduction.
type Told = (Space, [Answer; 2], Vec<u32>, [Vec<u16>; 2], Vec<u32>, Vec<Cycle>, [Vec<u8>; 2]);

fn told(chart: &[u8], rules: &[u8], more: &[u8]) -> Told {
    let space = space_needed(chart, rules).expect("sound files");
    let mut work = Work::for_files(chart, rules).expect("sound files");
    let (sweep, guided) = work.both(chart, rules);
    assert_eq!((work.sweep(chart, rules), work.guided(chart, rules)), (sweep, guided));
    let plans = [work.sweep_steps(&sweep), work.guided_steps(&guided)].map(<[u16]>::to_vec);
    let log = work.settled(&guided).to_vec();
    let mut list = asked(&all_pairs(6));
    assert_eq!(work.cycles(chart, rules, &mut list), Ok(()));
    assert_eq!(searched(&mut work, chart, rules, &list), list);
    let files =
        [conjoin(chart, rules, more), reduce(chart, rules)].map(|file| file.expect("sound files"));
    (space, [sweep, guided], work.costs().to_vec(), plans, log, list, files)
}

#[test]
fn each_step_in_a_group_of_its_own() {
    let (chart, rules) = example();
    let grouped = in_groups([0, 1, 2, 3, 4, 5]);
    assert_eq!(grouped.len(), 9 + 6 * 13);
    for rules in
        [rules, rules_file(0, &[]), rules_file(1, &[]), not_taken(&[1]), not_taken(&[2, 3])]
    {
        for more in [rules_file(1, &[]), not_taken(&[1]), not_taken(&[0, 5])] {
            assert_eq!(told(&grouped, &rules, &more), told(&chart, &rules, &more));
        }
    }
    for (rules, number, place, field) in refused_diagrams() {
        let refusal = plan(&grouped, &rules).unwrap_err();
        assert_eq!(Some(refusal), refusal_of(number, 2, place));
        assert_eq!(refusal.field(&grouped, &rules), field);
    }
    for (padded, place, reduced) in padded_diagrams() {
        assert_eq!(plan(&grouped, &padded).err(), refusal_of(13, 2, place));
        assert_eq!(reduce(&grouped, &padded), Ok(reduced));
    }
}

#[test]
fn both_raises_in_one_group() {
    // The example's rule: what raises A13, group 0, needs settling, group 2. So step 1 does too.
    let (chart, rules) = (in_groups(ONE_RAISE), example().1);
    let more = not_taken(&[5]);
    let (space, [sweep, guided], costs, plans, log, list, files) = told(&chart, &rules, &more);
    assert_eq!(space, Space { work: 20, plan: 4, ..Space::default() });
    let answer = Answer { cost: 350, length: 4, count: 5, ..Answer::default() };
    assert_eq!((sweep, guided), (answer, answer));
    assert_eq!(plans, [[0, 2, 4, 5]; 2]);
    let mut expected = vec![UNREACHED; 20];
    for (pair, cost) in [(3, 0), (6, 50), (9, 250), (13, 300), (17, 350)] {
        expected[pair] = cost;
    }
    assert_eq!((costs, log), (expected, vec![3, 6, 9, 13, 17]));
    // From 0 to 1 both steps are group 0, and neither has settling; two pairs have an estimate.
    let found = list.iter().map(|cycle| (cycle.number, cycle.cost, cycle.count));
    let outside = (4, 0, 0);
    let no_way = (8, 0, 0);
    let rows = [
        [(0, 0, 1), (8, 0, 2), (0, 250, 3), (0, 300, 4), (0, 350, 5), outside],
        [no_way, (0, 0, 1), (0, 200, 2), (0, 50, 2), (0, 100, 3), outside],
        [no_way, no_way, (0, 0, 1), (0, 50, 2), (0, 100, 3), outside],
        [no_way, no_way, no_way, (0, 0, 1), (0, 50, 2), outside],
        [no_way, no_way, no_way, no_way, (0, 0, 1), outside],
        [outside; 6],
    ];
    assert_eq!(found.collect::<Vec<_>>(), rows.concat());
    let both = rules_file(4, &[[5, 1, 0], [2, 0, 2], [0, 2, 3]]);
    assert_eq!(files, [both.clone(), rules]);
    assert!(matches!(plan(&chart, &both), Err(Refusal::NoPlan { .. })));
    // Remarks stand between steps of this kind too.
    let noted_chart =
        [&chart[..9], &[0x80, 1, 0, 3], &chart[9..22], &[0xff, 0, 0], &chart[22..]].concat();
    assert_eq!(told(&noted_chart, &example().1, &more), told(&chart, &example().1, &more));
}

#[test]
fn groups_without_steps() {
    let chart = in_groups(ONE_RAISE);
    let (yes, no) = (rules_file(1, &[]), rules_file(0, &[]));
    // Group 1 is never there: a rule that forbids it allows all plans, one that asks for it none.
    let (without, with) = (not_taken(&[1]), rules_file(2, &[[1, 0, 1]]));
    let found = plan(&chart, &without).expect("a legal plan");
    assert_eq!((found.cost, found.steps), (150, vec![0, 3, 5]));
    // No estimate at the start, since hi does not count: nothing is settled.
    assert_eq!(plan(&chart, &with), Err(Refusal::NoPlan { count: 0 }));
    // They still make a difference to the sets of groups.
    for file in [&without, &with] {
        assert_eq!(reduce(&chart, file).as_ref(), Ok(file));
        assert_eq!(conjoin(&chart, file, &yes).as_ref(), Ok(file));
    }
    assert_eq!(conjoin(&chart, &without, &with), Ok(no));
    let both = conjoin(&chart, &example().1, &without).expect("sound files");
    assert_eq!(both, rules_file(5, &[[1, 1, 0], [2, 0, 1], [1, 3, 0], [0, 2, 4]]));
    assert_eq!(
        plan(&chart, &both).map(|plan| (plan.cost, plan.steps)),
        Ok((350, vec![0, 2, 4, 5]))
    );
}

/// From stage 0 to stage 2: by way of stage 1 for 50 and then 50, 300 or 60 (which costs 100), or
/// straight for 200. Groups are 0, 1, 3, 4 and 4.
fn shared_group(steps: usize) -> Vec<u8> {
    let all = [(0, 1, 50, 0), (0, 2, 200, 1), (1, 2, 50, 3), (1, 2, 300, 4), (1, 2, 60, 4)];
    grouped_file([3, 0, 2], &all[..steps])
}

#[test]
fn estimates_over_groups() {
    // Group 0 needs group 4, or group 2, which has no step. N is 5.
    let rules = rules_file(4, &[[4, 0, 1], [2, 2, 1], [0, 1, 3]]);
    let settled = |steps| {
        let mut work = Work::with_entries(15, 2);
        let (sweep, guided) = work.both(&shared_group(steps), &rules);
        assert_eq!(work.sweep_steps(&sweep), work.guided_steps(&guided));
        let log = work.settled(&guided).to_vec();
        (guided.cost, work.guided_steps(&guided).to_vec(), log, sweep.count)
    };
    // Without the last step group 4 costs 300, so the pair 8 has the sum 350. If the hi of group 2
    // counted, it would be 100, and the pair would be settled.
    assert_eq!(settled(4), (200, vec![1], vec![4, 11], 4));
    // With it the group costs 100, the smaller one.
    assert_eq!(settled(5), (150, vec![0, 4], vec![4, 8, 11], 4));
}

#[test]
fn nodes_name_groups_up_to_the_highest() {
    let node = |group| rules_file(2, &[[group, 1, 0]]);
    for (groups, highest) in
        [([0; 6], 0), ([7; 6], 7), (ONE_RAISE, 5), ([0, 0, 0, 0, 0, 1023], 1023), ([1023; 6], 1023)]
    {
        let chart = in_groups(groups);
        for group in [0, 1, 5, 6, 7, 8, 1022, 1023, 1024, u16::MAX] {
            let space = Space { work: 15, plan: 4, ..Space::default() };
            let refusal = Refusal::Node { file: File::Rules, place: 5 };
            let expected = if group <= highest { Ok(space) } else { Err(refusal) };
            assert_eq!(space_needed(&chart, &node(group)), expected);
            assert_eq!(reduce(&chart, &node(group)).err(), expected.err());
            assert_eq!(conjoin(&chart, &node(group), &rules_file(1, &[])).err(), expected.err());
        }
    }
    // Without steps there is no group, and no kind.
    let empty = chart_file([1, 0, 0], &[]);
    assert_eq!(plan(&empty, &node(0)).err(), refusal_of(6, 2, 5));
    assert_eq!(plan(&empty, &rules_file(1, &[])).map(|plan| plan.cost), Ok(0));
}

#[test]
fn one_group_for_all() {
    let chart = in_groups([0; 6]);
    // Some step is taken: all plans. No step is taken: none of them.
    let found = plan(&chart, &rules_file(2, &[[0, 0, 1]])).expect("a legal plan");
    assert_eq!((found.cost, found.steps), (150, vec![0, 3, 5]));
    assert_eq!((found.settled, found.reached), (4, 5));
    assert!(matches!(plan(&chart, &not_taken(&[0])), Err(Refusal::NoPlan { .. })));
    // 1,024 steps of one group, and of a group each.
    for (group, highest) in [(0, 0), (1, 1023)] {
        let steps: Vec<_> =
            (0..1024).map(|e| (0, 1, 1_000_000 - 50 * u32::from(e), e * group)).collect();
        let chart = grouped_file([2, 0, 1], &steps);
        let found = plan(&chart, &rules_file(2, &[[highest, 0, 1]])).expect("a legal plan");
        assert_eq!((found.cost, found.steps), (948_850, vec![1023]));
    }
}

#[test]
fn calls_from_several_threads() {
    let (chart, rules) = example();
    let expected = plan(&chart, &rules);
    let mut filled = asked(&all_pairs(6));
    assert_eq!(cycles(&chart, &rules, &mut filled), Ok(()));
    std::thread::scope(|scope| {
        for _ in 0..4 {
            scope.spawn(|| {
                let mut work = Work::for_files(&chart, &rules).expect("sound files");
                for _ in 0..1_000 {
                    assert_eq!(work.plan(&chart, &rules), expected);
                    let mut list = asked(&all_pairs(6));
                    assert_eq!(work.cycles(&chart, &rules, &mut list), Ok(()));
                    assert_eq!(list, filled);
                }
            });
        }
    });
}
