//! The shapes in the corners of the limits: sound at every size, and as far out as they should be;
//! and remarks up to the greatest length of a file.

use planner_bench::cases::{example_problem, Case, Cases};
use planner_bench::compare::run;
use planner_bench::figures::CORNERS;
use planner_bench::files::{claiming, read_both, tagged, write_chart, write_diagram};
use planner_bench::fuzz::Corpus;
use planner_bench::generate::corners::{any, Size, SHAPES};
use planner_bench::generate::mutate::mutated;
use planner_bench::generate::Random;
use planner_bench::planner;
use planner_bench::tally::Tally;

#[test]
fn every_shape_is_sound_at_every_size() {
    let mut random = Random::new(51);
    let full: Vec<_> = SHAPES.iter().map(|shape| shape(&mut random, Size::FULL)).collect();
    let drawn = (0..500).map(|_| any(&mut random));
    for problem in full.into_iter().chain(drawn) {
        let files = (write_chart(&problem.chart), write_diagram(&problem.diagram));
        assert_eq!(read_both(&files.0, &files.1), Ok(problem.rounded()));
    }
}

/// The first cases reach all but the counts, and what only refused files have.
#[test]
fn the_first_cases_are_in_the_corners() {
    for seed in [20_170_204, 52, 53] {
        let cases = Cases::new(seed);
        let mut tally = Tally::new();
        for number in 0..cases.corners() {
            let case = cases.case(number);
            let outcome = run(&case, &[]).expect("no implementation, no difference");
            tally.add(&case, &outcome);
        }
        let missed: Vec<&str> = tally.missed().iter().map(|(corner, _)| corner.name).collect();
        let others: Vec<&str> = CORNERS[15..].iter().map(|corner| corner.name).collect();
        assert_eq!(missed, others, "seed {seed}");
    }
}

#[test]
fn a_run_without_cases_misses_every_corner() {
    assert_eq!(Tally::new().missed().len(), CORNERS.len());
}

#[test]
fn mutations_differ_from_the_file_and_are_fixed_by_the_seed() {
    let corpus = Corpus::new(54);
    let other = Corpus::new(54);
    let mut changed = 0;
    for number in 0..2_000 {
        let (a, b) = (corpus.case(number), other.case(number));
        assert_eq!((a.chart, a.rules, a.dirt), (b.chart, b.rules, b.dirt));
        let (file, mut random) = (vec![0x01, 6, 0, 1, 0, 0, 0, 0, 0], Random::of(55, number));
        changed += usize::from(mutated(&mut random, &file, &[]) != file);
    }
    assert!(changed > 1_500, "{changed}");
}

#[test]
fn fuzzed_files_have_every_number_at_near_and_far_places() {
    let corpus = Corpus::new(56);
    let mut seen = std::collections::BTreeMap::new();
    for number in 0..60_000 {
        let case = corpus.case(number);
        let fault = read_both(&case.chart, &case.rules).err();
        let key = fault.map_or((0, 0), |fault| (fault.file, fault.number));
        let (count, place) = seen.entry(key).or_insert((0, 0));
        *count += 1;
        *place = fault.map_or(0, |fault| fault.place).max(*place);
    }
    let keys: Vec<(u32, u32)> = seen.keys().copied().collect();
    let of_chart = [1, 2, 3, 4, 5, 9, 10, 11, 14].map(|number| (1, number));
    let of_rules = [1, 2, 3, 6, 9, 13].map(|number| (2, number));
    assert_eq!(keys, [&[(0, 0)], &of_chart[..], &of_rules].concat());
    assert!(seen.values().all(|(count, _)| *count > 100), "{seen:?}");
    let far = |key| seen[&key].1 > 1_000;
    let deep_chart = [1, 2, 3, 5, 10, 11, 14].map(|number| (1, number));
    let deep_rules = [1, 2, 3, 6, 13].map(|number| (2, number));
    assert!(deep_chart.into_iter().chain(deep_rules).all(far), "{seen:?}");
}

/// Bytes of the heads.
const CHART_HEAD: usize = 9;
const RULES_HEAD: usize = 5;
/// The longest remarks that fit behind a head alone.
const LONGEST_IN_CHART: usize = 32_756;
const LONGEST_IN_RULES: usize = 32_760;

/// The example's files.
fn example() -> (Vec<u8>, Vec<u8>) {
    let problem = example_problem();
    (write_chart(&problem.chart), write_diagram(&problem.diagram))
}

/// The heads alone, of a chart of one stage and of a diagram that says yes.
fn heads() -> (Vec<u8>, Vec<u8>) {
    (vec![0x01, 6, 0, 1, 0, 0, 0, 0, 0], vec![0x11, 2, 0, 1, 0])
}

/// A remark that makes a file of a length of one of another.
fn remark_from_to(bytes: usize, length: usize) -> Vec<u8> {
    tagged(0xd5, &vec![0x02; length - bytes - 3])
}

/// Number, file and place of a refusal, all 0 where both files pass. Every implementation agrees.
fn answer(chart: &[u8], rules: &[u8]) -> (u32, u32, usize) {
    for dirt in 0..2 {
        let case = Case::new("test", (chart.to_vec(), rules.to_vec()), dirt);
        if let Err(found) = run(&case, &planner::all()) {
            panic!("{found:?}");
        }
    }
    read_both(chart, rules).err().map_or((0, 0, 0), |fault| (fault.number, fault.file, fault.place))
}

const PASS: (u32, u32, usize) = (0, 0, 0);

/// Remarks of each length behind every field, and behind the head alone.
#[test]
fn remarks_of_any_length_are_passed_over() {
    let (chart, rules) = example();
    for length in [0, 1, 2, 3, 8, 11, 255, 256, 257, 3_000] {
        let remark = tagged(0x80, &vec![0x02; length]);
        let put = |file: &[u8], head: usize, field: usize| {
            let fields = file[head..].chunks(field);
            let all = fields.flat_map(|field| [field, &remark[..]].concat());
            [&file[..head], &remark, &all.collect::<Vec<_>>()].concat()
        };
        let remarked = (put(&chart, CHART_HEAD, 11), put(&rules, RULES_HEAD, 9));
        assert_eq!(
            read_both(&remarked.0, &remarked.1),
            Ok(example_problem().rounded()),
            "{length}"
        );
        assert_eq!(answer(&remarked.0, &remarked.1), PASS);
    }
}

#[test]
fn the_longest_remark_fills_a_file() {
    let (chart, rules) = heads();
    let in_chart = |length: usize| [&chart[..], &tagged(0xff, &vec![7; length])].concat();
    let in_rules = |length: usize| [&rules[..], &tagged(0xff, &vec![7; length])].concat();
    assert_eq!(in_chart(LONGEST_IN_CHART).len(), 32_768);
    assert_eq!(in_rules(LONGEST_IN_RULES).len(), 32_768);
    assert_eq!(answer(&in_chart(LONGEST_IN_CHART), &in_rules(LONGEST_IN_RULES)), PASS);
    assert_eq!(answer(&in_chart(LONGEST_IN_CHART - 1), &in_rules(LONGEST_IN_RULES - 1)), PASS);
    assert_eq!(answer(&in_chart(LONGEST_IN_CHART + 1), &rules), (9, 1, 32_768));
    assert_eq!(answer(&chart, &in_rules(LONGEST_IN_RULES + 1)), (9, 2, 32_768));
}

#[test]
fn a_remark_that_claims_more_than_there_is_is_1() {
    let (chart, rules) = heads();
    for (length, more) in [(0, 1), (1, 1), (40, 1), (40, 600), (LONGEST_IN_CHART, 1)] {
        let remark = claiming(0x80, length + more, &vec![0x80; length]);
        let place = CHART_HEAD;
        assert_eq!(answer(&[&chart[..], &remark].concat(), &rules), (1, 1, place), "{length}");
        let place = RULES_HEAD;
        assert_eq!(answer(&chart, &[&rules[..], &remark].concat()), (1, 2, place), "{length}");
    }
    // Too long to be whole in any file.
    for length in [0, 1, 32_000, LONGEST_IN_CHART] {
        let remark = claiming(0xff, 65_535, &vec![0xff; length]);
        assert_eq!(answer(&[&chart[..], &remark].concat(), &rules), (1, 1, CHART_HEAD));
        assert_eq!(answer(&chart, &[&rules[..], &remark].concat()), (1, 2, RULES_HEAD));
    }
}

#[test]
fn as_many_remarks_as_fit() {
    let (chart, rules) = heads();
    let remark = tagged(0x80, &[]);
    for count in [1, 2, 10_000, 10_919] {
        let more = remark.repeat(count);
        let files = ([&chart[..], &more].concat(), [&rules[..], &more].concat());
        assert_eq!(answer(&files.0, &files.1), PASS, "{count}");
    }
    let (chart, rules) = example();
    let put = |file: &[u8], head: usize| {
        [&file[..head], &remark.repeat(10_000), &file[head..]].concat() //
    };
    let (many, ruled) = (put(&chart, CHART_HEAD), put(&rules, RULES_HEAD));
    assert_eq!(read_both(&many, &ruled), Ok(example_problem().rounded()));
    assert_eq!(answer(&many, &ruled), PASS);
    // A fault behind all of them.
    assert_eq!(answer(&many[..many.len() - 1], &ruled), (1, 1, many.len() - 11));
    assert_eq!(answer(&many, &ruled[..ruled.len() - 1]), (1, 2, ruled.len() - 9));
    // One remark too many.
    let (chart, rules) = heads();
    let full = [&chart[..], &remark.repeat(10_919)].concat();
    assert_eq!(answer(&[&full[..], &remark].concat(), &rules), (9, 1, 32_768));
    let full = [&rules[..], &remark.repeat(10_921)].concat();
    assert_eq!((full.len(), answer(&chart, &full)), (32_768, PASS));
    assert_eq!(answer(&chart, &[&full[..], &remark].concat()), (9, 2, 32_768));
}

#[test]
fn files_of_32768_bytes_are_read_to_their_end() {
    let (chart, rules) = example();
    let filled = |file: &[u8], end: &[u8]| {
        [file, &remark_from_to(file.len() + end.len(), 32_768), end].concat() //
    };
    // Once more the last step; another node than those that are there.
    let (step, node) = (&chart[chart.len() - 11..], &[0x12, 6, 0, 0, 0, 1, 0, 0, 0]);
    let ends: [(&[u8], u32, usize); 9] = [
        (&[], 0, 0),
        (&[0x80, 0, 0], 0, 0),
        (&[0xff, 1, 0, 0], 0, 0),
        (&[0x80], 1, 1),
        (&[0xff, 0xff], 1, 2),
        (&[0x80, 1, 0], 1, 3),
        (&[0x7f], 1, 1),
        (&[0x7f, 0, 0], 2, 3),
        (&[0x01, 0, 0, 0], 2, 4),
    ];
    for (end, number, left) in ends {
        let expected = |file| if number == 0 { PASS } else { (number, file, 32_768 - left) };
        assert_eq!(answer(&filled(&chart, end), &rules), expected(1), "{end:?}");
        assert_eq!(answer(&chart, &filled(&rules, end)), expected(2), "{end:?}");
        assert_eq!(answer(&[&filled(&chart, end)[..], &[0]].concat(), &rules), (9, 1, 32_768));
        assert_eq!(answer(&chart, &[&filled(&rules, end)[..], &[0]].concat()), (9, 2, 32_768));
    }
    // A step and a node as the last fields, good and bad.
    let (mut last, mut last_node) = (filled(&chart, step), filled(&rules, node));
    assert_eq!(answer(&last, &last_node), PASS);
    last[32_767] = 1;
    last_node[32_767] = 1;
    assert_eq!(answer(&last, &last_node), (11, 1, 32_757));
    assert_eq!(answer(&chart, &last_node), (6, 2, 32_759));
}

#[test]
fn the_charts_fault_comes_before_the_diagrams_9() {
    let (chart, rules) = example();
    let filled = |file: &[u8], length| [file, &remark_from_to(file.len(), length)].concat();
    let (long_chart, long_rules) = (filled(&chart, 32_769), filled(&rules, 32_769));
    assert_eq!(answer(&filled(&chart, 32_768), &filled(&rules, 32_768)), PASS);
    assert_eq!(answer(&long_chart, &rules), (9, 1, 32_768));
    assert_eq!(answer(&chart, &long_rules), (9, 2, 32_768));
    assert_eq!(answer(&filled(&chart, 32_768), &long_rules), (9, 2, 32_768));
    assert_eq!(answer(&long_chart, &long_rules), (9, 1, 32_768));
    let mut bad = filled(&chart, 32_768);
    bad.pop();
    assert_eq!(answer(&bad, &long_rules), (1, 1, chart.len()));
    bad[0] = 0x80;
    assert_eq!(answer(&bad, &long_rules), (2, 1, 0));
}
