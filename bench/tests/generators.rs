//! The generators: what should be valid is, and the broken files have every number.

use std::collections::{BTreeMap, BTreeSet, HashSet};

use planner_bench::cases::{example_problem, Case, Cases};
use planner_bench::compare::slices::are_exact;
use planner_bench::files::{
    read_both, read_chart, read_diagram, read_padded, write_chart, write_diagram, Problem,
};
use planner_bench::generate::broken::{at_limits, systematic};
use planner_bench::generate::charts::{long_steps, random_chart};
use planner_bench::generate::diagrams::{
    drawn, layers_among, layers_of_width, random_diagram, Padding,
};
use planner_bench::generate::load::{load, xorshift};
use planner_bench::generate::long::near_longest;
use planner_bench::generate::remarks::{count_before, with_remarks};
use planner_bench::generate::rules::{diagram_of, AtMost, ExactlyOne, Modulo, Needs, Rule};
use planner_bench::generate::Random;
use planner_bench::generate::{groups, long, nodes, padded, remarks, rows, steps};
use planner_bench::loads::{self, growth, standard};
use planner_bench::nodes::NodeAtFault;
use planner_bench::reference::rules::verdict;
use planner_bench::reference::{refused_field, Facts};
use planner_bench::steps::StepAtFault;

#[test]
fn written_files_are_read_back() {
    let mut random = Random::new(11);
    for turn in 0..3_000 {
        let (stages, steps, nodes) = if turn % 50 == 0 { (256, 1_024, 510) } else { (12, 30, 30) };
        let chart = random_chart(&mut random, stages, steps);
        let diagram = random_diagram(&mut random, &chart, nodes);
        let files = (write_chart(&chart), write_diagram(&diagram));
        assert_eq!(read_both(&files.0, &files.1), Ok(Problem { chart, diagram }.rounded()));
    }
}

#[test]
fn charts_with_long_steps_are_valid() {
    let chart = long_steps(&mut Random::new(12), 256, 1_024);
    assert_eq!(read_chart(&write_chart(&chart)), Ok(chart.rounded()));
}

#[test]
fn the_load_of_order_14() {
    assert_eq!(xorshift(1), 270_369);
    assert_eq!((load(0, 1), load(7, 1), load(7, 257)), (Err(18), Err(4), Err(4)));
    for stages in [2, 32, 256] {
        let chart = load(1, stages).expect("within the limits");
        assert_eq!(chart.steps[0].cost, 270_369 % 1_001);
        assert_eq!(write_chart(&chart).len(), 11_273);
        assert_eq!(chart.steps[1_023].from, (1_023 * (stages as usize - 1) / 1_024) as u16);
        assert_eq!(read_chart(&write_chart(&chart)), Ok(chart.rounded()));
    }
}

/// Whether the diagram of a rule says what the rule says of every set of up to eight steps.
fn means(rule: &dyn Rule, says: impl Fn(&[bool]) -> bool) {
    let sound = diagram_of(rule, Padding::Without).expect("few nodes");
    assert_eq!(read_diagram(&write_diagram(&sound), 8), Ok(sound.clone()));
    for diagram in [sound, diagram_of(rule, Padding::With).expect("few nodes")] {
        for set in 0..256_u32 {
            let present: Vec<bool> = (0..8).map(|step| set >> step & 1 == 1).collect();
            assert_eq!(verdict(&diagram, &present), says(&present), "{present:?}");
        }
    }
}

#[test]
fn rules_mean_what_they_say() {
    let count = |present: &[bool]| present.iter().filter(|p| **p).count();
    let needs = Needs(vec![(0, 5), (6, 2), (1, 5)]);
    means(&needs, |p| (!p[0] || p[5]) && (!p[6] || p[2]) && (!p[1] || p[5]));
    let all: Vec<u16> = (0..8).collect();
    means(&AtMost { most: 3, steps: all.clone() }, |p| count(p) <= 3);
    means(&ExactlyOne(vec![1, 4, 6]), |p| count(&[p[1], p[4], p[6]]) == 1);
    means(&Modulo { divisor: 2, rest: 1, steps: all.clone() }, |p| count(p) % 2 == 1);
    means(&Modulo { divisor: 3, rest: 2, steps: all }, |p| count(p) % 3 == 2);
}

#[test]
fn eight_needs_take_all_nodes() {
    let needs = Needs((0..8).map(|at| (at, at + 100)).collect());
    assert_eq!(diagram_of(&needs, Padding::Without).map(|diagram| diagram.nodes.len()), Some(510));
    let needs = Needs((0..9).map(|at| (at, at + 100)).collect());
    assert_eq!(diagram_of(&needs, Padding::Without), None);
}

#[test]
fn broken_files_have_every_number_in_every_file() {
    let mut files = systematic(&example_problem());
    files.extend(at_limits());
    files.extend(remarks::systematic(&example_problem()));
    files.extend(remarks::at_limits());
    files.extend(long::systematic(&example_problem()));
    files.extend(steps::systematic());
    files.extend(nodes::systematic());
    let found: BTreeSet<(u32, u32)> = files
        .iter()
        .filter_map(|(chart, rules)| read_both(chart, rules).err())
        .map(|fault| (fault.file, fault.number))
        .collect();
    let of_chart = [1, 2, 3, 4, 5, 9, 10, 11].map(|number| (1, number));
    let of_rules = [1, 2, 3, 6, 9, 13].map(|number| (2, number));
    assert_eq!(found, of_chart.into_iter().chain(of_rules).collect());
    assert!(files.iter().any(|(chart, rules)| read_both(chart, rules).is_ok()));
}

/// How often a step is refused for its values, by the set of their faults; and how often with such
/// faults for its length and for its cut body.
fn faults_of_steps(charts: impl Iterator<Item = Vec<u8>>) -> (BTreeMap<u8, usize>, [usize; 2]) {
    let (mut sets, mut of_field) = (BTreeMap::new(), [0, 0]);
    for chart in charts {
        let fault = read_chart(&chart).err();
        let Some(step) = fault.and_then(|fault| StepAtFault::of(&chart, &fault)) else { continue };
        match (step.number, step.faults.set()) {
            (1 | 3, 0) => {}
            (3, _) => of_field[0] += 1,
            (1, _) => of_field[1] += 1,
            (_, set) => *sets.entry(set).or_default() += 1,
        }
    }
    (sets, of_field)
}

#[test]
fn steps_have_every_set_of_faults() {
    let mut random = Random::new(16);
    let spoiled = (0..8_000).map(|_| {
        let mut chart = write_chart(&random_chart(&mut random, 12, 20));
        steps::spoil(&mut random, &mut chart, 30);
        chart
    });
    let systematic = steps::systematic().into_iter().map(|(chart, _)| chart);
    let of_groups = groups::systematic().into_iter().map(|(chart, _)| chart);
    // Four faults have 15 sets, and 31 with that of a group.
    for (past, least, (sets, of_field)) in [
        (32, 10, faults_of_steps(spoiled)),
        (16, 10, faults_of_steps(systematic)),
        (32, 2, faults_of_steps(of_groups)),
    ] {
        assert_eq!(sets.keys().copied().collect::<Vec<u8>>(), (1..past).collect::<Vec<u8>>());
        let mut counts = sets.values().chain(&of_field);
        assert!(counts.all(|count| *count >= least), "{sets:?} {of_field:?}");
    }
}

#[test]
fn layers_without_padding_are_as_wide_as_they_can_be() {
    let mut random = Random::new(18);
    for width in [1, 2, 3, 8, 16, 51, 102, 128] {
        let steps: Vec<u16> = (0..layers_among(510, width) as u16).collect();
        let diagram = layers_of_width(&mut random, &steps, width, Padding::Without);
        assert_eq!(read_diagram(&write_diagram(&diagram), 1_024), Ok(diagram.clone()));
        let of_step = |step: u16| diagram.nodes.iter().filter(|node| node.step == step).count();
        // The last layer has two nodes at the most, the one before it twelve.
        let full = steps.len().saturating_sub(2);
        assert!(steps[..full].iter().all(|step| of_step(*step) == width), "{width}");
        assert!(diagram.nodes.len() + width.max(12) >= 510, "{width}: {}", diagram.nodes.len());
    }
}

/// Whether a file is refused without padding, and whether with it.
fn passes(problem: &Problem) -> (bool, bool) {
    let files = (write_chart(&problem.chart), write_diagram(&problem.diagram));
    (read_both(&files.0, &files.1).is_ok(), read_padded(&files.0, &files.1).is_ok())
}

#[test]
fn padded_diagrams_are_refused_for_padding_alone() {
    let mut random = Random::new(19);
    let (mut padded, mut too_many) = (0, 0);
    for _ in 0..4_000 {
        let problem = padded::any(&mut random);
        // With one node more a diagram of 510 has too many.
        too_many += usize::from(problem.diagram.nodes.len() == 511);
        let (sound, taken) = passes(&problem);
        assert!(taken || problem.diagram.nodes.len() == 511, "{problem:?}");
        padded += usize::from(taken && !sound);
        let chart = random_chart(&mut random, 8, 14);
        let diagram = drawn(&mut random, &chart, 12, Padding::With);
        assert!(passes(&Problem { chart, diagram }).1);
    }
    assert!(padded > 2_500 && too_many < 40, "{padded} {too_many}");
    for problem in padded::systematic(&mut random) {
        assert!(passes(&problem).1, "{problem:?}");
    }
    assert_eq!(padded::named().len(), 5);
    for (name, problem) in padded::named() {
        assert_eq!(passes(&problem), (name == "8 needs, reduced already", true), "{name}");
    }
}

/// How often a node is refused with 13, and how often with another number though it is padding.
#[test]
fn nodes_have_padding_alone_and_with_every_other_fault() {
    let mut of_padding = [0; 2];
    let mut besides = BTreeMap::new();
    for (chart, rules) in nodes::systematic() {
        let groups = read_chart(&chart).expect("a sound chart").groups();
        let fault = read_both(&chart, &rules).err();
        let Some(node) = fault.and_then(|fault| NodeAtFault::of(&rules, groups, &fault)) else {
            continue;
        };
        match node.number {
            13 => of_padding[usize::from(node.faults.equal)] += 1,
            number if node.faults.is_padding() => {
                *besides.entry((number, node.faults.surplus)).or_insert(0) += 1;
            }
            _ => {}
        }
    }
    assert!(of_padding.iter().all(|count| *count > 200), "{of_padding:?}");
    let both: Vec<(u32, bool)> =
        [1, 3, 6].into_iter().flat_map(|number| [(number, false), (number, true)]).collect();
    assert_eq!(besides.keys().copied().collect::<Vec<_>>(), both);
    assert!(besides.values().all(|count| *count > 5), "{besides:?}");
}

/// By stage count and N: the pairs that some problem of rows reaches, as stage and node.
fn reached_in_rows() -> BTreeMap<(usize, usize), BTreeSet<(usize, usize)>> {
    let mut reached: BTreeMap<_, BTreeSet<_>> = BTreeMap::new();
    for problem in rows::systematic() {
        let facts = Facts::by_dynamic_programming(&problem);
        let width = facts.references();
        let size = (usize::from(problem.chart.stages), width);
        let pairs = (0..facts.least.len()).filter(|pair| facts.least[*pair].is_some());
        reached.entry(size).or_default().extend(pairs.map(|pair| (pair / width, pair % width)));
    }
    reached
}

#[test]
fn rows_are_reached_at_both_ends() {
    let reached = reached_in_rows();
    // One stage has no steps and so no nodes.
    assert_eq!(reached.len(), 1 + 5 * 6);
    for ((stages, width), pairs) in reached {
        let (middle, last) = ((stages / 2).min(stages - 1), stages - 1);
        assert!(pairs.contains(&(0, width - 1)), "{stages} {width}");
        let nodes = if width > 3 { vec![1, 2, 3, width - 2, width - 1] } else { vec![width - 1] };
        for node in nodes {
            let here = |stage| pairs.contains(&(stage, node));
            assert!(here(middle) && here(last), "{stages} {width} {node}");
        }
    }
}

#[test]
fn rows_are_sound_and_have_no_doubles() {
    for problem in rows::systematic() {
        let files = (write_chart(&problem.chart), write_diagram(&problem.diagram));
        let nodes = problem.diagram.nodes.clone();
        assert!(nodes.iter().all(|node| node.lo != node.hi));
        assert_eq!(nodes.iter().collect::<HashSet<_>>().len(), nodes.len());
        assert_eq!(read_both(&files.0, &files.1), Ok(problem.rounded()));
    }
}

#[test]
fn rows_are_lent_just_enough_and_more() {
    let cases = Cases::new(17);
    let all = (0..cases.corners()).map(|number| cases.case(number));
    let of_rows: Vec<Case> = all.filter(|case| case.kind == "rows").collect();
    assert_eq!(of_rows.len(), 2 * rows::systematic().len());
    for two in of_rows.chunks(2) {
        assert_eq!((&two[0].chart, &two[0].rules), (&two[1].chart, &two[1].rules));
        assert!(two.iter().all(Case::lends_enough));
        let exact = two.iter().map(|case| are_exact(&mut Random::new(case.dirt)));
        assert_eq!(exact.collect::<Vec<bool>>(), [true, false]);
    }
}

#[test]
fn remarks_leave_a_file_what_it_was() {
    let mut random = Random::new(14);
    let mut most = 0;
    for turn in 0..2_000 {
        let (stages, steps, nodes) = if turn % 50 == 0 { (256, 1_024, 510) } else { (12, 30, 30) };
        let chart = random_chart(&mut random, stages, steps);
        let diagram = random_diagram(&mut random, &chart, nodes);
        let files = (write_chart(&chart), write_diagram(&diagram));
        let remarked = (with_remarks(&mut random, &files.0), with_remarks(&mut random, &files.1));
        assert_eq!(read_both(&remarked.0, &remarked.1), Ok(Problem { chart, diagram }.rounded()));
        let counts = (count_before(&remarked.0, 32_768), count_before(&remarked.1, 32_768));
        assert!(counts.0 > 0 && counts.1 > 0);
        most = most.max(counts.0);
    }
    assert!(most > 100, "{most}");
}

#[test]
fn long_files_are_sound_too_long_and_at_fault() {
    let mut random = Random::new(15);
    let problem = example_problem();
    let (chart, rules) = (write_chart(&problem.chart), write_diagram(&problem.diagram));
    let (mut sound, mut too_long, mut at_fault) = (0, 0, 0);
    for _ in 0..400 {
        let long = near_longest(&mut random, &chart);
        assert!(long.len() >= 32_767, "{}", long.len());
        match read_both(&long, &rules) {
            Ok(read) => {
                assert_eq!(read, problem.rounded());
                sound += 1;
            }
            Err(fault) if fault.number == 9 => too_long += 1,
            Err(_) => at_fault += 1,
        }
    }
    assert!(sound > 80 && too_long > 150 && at_fault > 5, "{sound} {too_long} {at_fault}");
}

#[test]
fn a_case_is_fixed_by_seed_and_number() {
    let (a, b) = (Cases::new(13), Cases::new(13));
    for number in [0, 100, a.first_random(), a.first_random() + 77] {
        let (a, b) = (a.case(number), b.case(number));
        assert_eq!((a.chart, a.rules, a.dirt), (b.chart, b.rules, b.dirt));
    }
}

#[test]
fn loads_are_valid() {
    for load in standard().into_iter().chain(growth()).chain(loads::remarks()) {
        assert!(read_both(&load.chart, &load.rules).is_ok(), "{}", load.name);
    }
}

#[test]
fn the_refused_field_is_cut_at_the_files_end() {
    let chart = [0x01, 6, 0, 9, 9, 9, 9, 9, 9, 0x02, 2, 0, 7];
    let rules = [0x11, 0xff, 0xff, 5];
    assert_eq!(refused_field(&chart, &rules, 1, 0), &chart[..9]);
    assert_eq!(refused_field(&chart, &rules, 1, 9), &chart[9..]);
    assert_eq!(refused_field(&chart, &rules, 1, 11), &chart[11..]);
    assert_eq!(refused_field(&chart, &rules, 1, 1), &chart[1..]);
    assert_eq!(refused_field(&chart, &rules, 2, 0), &rules);
    for (mark, place) in [(1, 13), (2, 4), (2, usize::MAX), (0, 0), (3, 0), (258, 0)] {
        let part = refused_field(&chart, &rules, mark, place);
        assert!(part.is_empty());
        assert!(chart.as_ptr_range().contains(&part.as_ptr()));
    }
}
