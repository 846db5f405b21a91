//! A chart's file and two diagrams' files, for conjunctions: sound, padded, with remarks, long and broken.

use super::broken::{self, damaged, noise, Files};
use super::long::{self, near_longest};
use super::mutate::mutated;
use super::nodes;
use super::operands::{any, any_with_padding};
use super::remarks::{self, with_remarks};
use super::Random;
use crate::files::{write_chart, write_diagram, Diagram, Operands, Problem};

/// A chart file and two diagram files.
pub type ThreeFiles = (Vec<u8>, Vec<u8>, Vec<u8>);

pub fn written(Operands { chart, first, second }: &Operands) -> ThreeFiles {
    (write_chart(chart), write_diagram(first), write_diagram(second))
}

/// Any three files: sound, padded, with remarks, near the greatest length, damaged and of noise.
pub fn drawn(random: &mut Random) -> ThreeFiles {
    let padded = random.percent(15);
    let operands = if padded { any_with_padding(random) } else { any(random) };
    let (chart, rules, more) = written(&operands);
    match random.below(100) {
        0..=66 => (chart, rules, more),
        67..=69 => {
            let remarked = with_remarks(random, &more);
            (chart, rules, mutated(random, &remarked, &more))
        }
        70..=76 => {
            let remarked =
                [&chart, &rules, &more].map(|file| maybe(random, 60, file, with_remarks));
            into_three(remarked)
        }
        77..=78 => {
            let long = [&chart, &rules, &more].map(|file| maybe(random, 40, file, near_longest));
            into_three(long)
        }
        79..=81 => (chart, noise(random, 30), noise(random, 30)),
        _ => spoiled(random, (chart, rules, more)),
    }
}

fn into_three([chart, rules, more]: [Vec<u8>; 3]) -> ThreeFiles {
    (chart, rules, more)
}

/// A file changed in so many of a hundred cases.
fn maybe(
    random: &mut Random,
    percent: usize,
    file: &[u8],
    change: impl Fn(&mut Random, &[u8]) -> Vec<u8>,
) -> Vec<u8> {
    if random.percent(percent) {
        change(random, file)
    } else {
        file.to_vec()
    }
}

/// Faults anywhere, in one file, two or all three; mostly in the last.
pub fn spoiled(random: &mut Random, (chart, rules, more): ThreeFiles) -> ThreeFiles {
    let which = random.pick(&[1, 2, 2, 3, 4, 4, 4, 4, 4, 5, 6, 6, 7]);
    let spoil = |random: &mut Random, file: &[u8]| {
        if random.percent(50) {
            damaged(random, file)
        } else {
            mutated(random, file, &rules)
        }
    };
    let share = |bit: usize| if which & bit == 0 { 0 } else { 100 };
    into_three([(1, &chart), (2, &rules), (4, &more)].map(|(bit, file)| {
        maybe(random, share(bit), file, spoil) //
    }))
}

/// Every kind of fault in the second diagram, under a sound chart and a sound first diagram; the same
/// faults in the first, and in both at once; and faults of the chart before both.
pub fn broken(problem: &Problem) -> Vec<ThreeFiles> {
    let Problem { chart, diagram } = problem;
    let (chart, sound) = (write_chart(chart), write_diagram(diagram));
    let mut pairs = broken::systematic(problem);
    pairs.extend(remarks::systematic(problem));
    pairs.extend(long::systematic(problem));
    let is_sound = |file: &Files| file.0 == chart;
    let (diagrams, charts): (Vec<Files>, Vec<Files>) = pairs.into_iter().partition(is_sound);
    let diagrams: Vec<Vec<u8>> = diagrams.into_iter().map(|(_, rules)| rules).collect();
    let mut all: Vec<ThreeFiles> = at_limits();
    all.extend(with_nodes());
    for (at, spoiled) in diagrams.iter().enumerate() {
        all.push((chart.clone(), sound.clone(), spoiled.clone()));
        if at % 7 == 1 {
            all.push((chart.clone(), spoiled.clone(), sound.clone()));
        }
        if at % 5 == 2 {
            let other = &diagrams[(7 * at + 3) % diagrams.len()];
            all.push((chart.clone(), spoiled.clone(), other.clone()));
        }
    }
    for (at, (chart, rules)) in charts.into_iter().enumerate().step_by(11) {
        let other = &diagrams[(5 * at + 1) % diagrams.len()];
        all.push((chart, rules, other.clone()));
    }
    all
}

/// Nodes at fault and padding, as the first diagram, as the second and as both.
fn with_nodes() -> Vec<ThreeFiles> {
    let yes = write_diagram(&Diagram::YES);
    let all = nodes::systematic();
    let some = all.iter().enumerate().step_by(2);
    some.map(|(at, (chart, rules))| match at % 6 {
        0 => (chart.clone(), rules.clone(), all[(7 * at + 3) % all.len()].1.clone()),
        2 => (chart.clone(), rules.clone(), yes.clone()),
        _ => (chart.clone(), yes.clone(), rules.clone()),
    })
    .collect()
}

/// Files at and beyond the limits, the diagram as the first and as the second.
fn at_limits() -> Vec<ThreeFiles> {
    let yes = write_diagram(&Diagram::YES);
    let mut pairs = broken::at_limits();
    pairs.extend(remarks::at_limits());
    let pairs = pairs.into_iter().enumerate().step_by(3);
    pairs
        .map(|(at, (chart, rules))| match at % 2 {
            0 => (chart, rules, yes.clone()),
            _ => (chart, yes.clone(), rules),
        })
        .collect()
}
