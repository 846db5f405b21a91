//! Charts whose steps have groups, as drawn and in corners, and diagrams over groups, those without steps
//! too; groups at fault, and steps of the other kind.

use std::ops::Range;

use super::broken::{spoiled_fields, Fields, Files};
use super::charts::{parallel, random_chart_without_groups};
use super::costs::{of_some_ticks, DEAR};
use super::diagrams::{layers_of_width, random_diagram, scattered, Padding};
use super::load::load;
use super::operands::most_pairs;
use super::rules::{AllOf, AtMost, Both, ExactlyOne, Modulo, Needs};
use super::shapes::{all_of, even, none_of, odd, rule};
use super::steps::{step_places, with_root, without_last_byte};
use super::Random;
use crate::cases::example_problem;
use crate::files::{
    step_field, step_of, tagged, two_bytes, write_chart, write_diagram, Chart, Diagram, Node,
    Operands, Problem, Step, GROUPED_STEP, HEADER, MAX_COST, MAX_GROUP, MAX_NODES, MAX_STEPS, STEP,
    TICK,
};

/// So many of a hundred random charts have groups.
const SHARE: usize = 40;

/// Groups beyond the limit. Some would pass by a part of their bytes, or with a sign.
pub const HIGH: [u16; 8] =
    [MAX_GROUP + 1, MAX_GROUP + 2, 1_279, 2_047, 0x7fff, 0x8000, 0xfc00, u16::MAX];

/// Now and then a chart with groups; else as it is.
pub fn maybe(random: &mut Random, chart: Chart) -> Chart {
    if random.percent(SHARE) {
        grouped(random, &chart)
    } else {
        chart
    }
}

/// The same steps in groups: each alone, all in one, those of a stage, few or many, with and without gaps.
pub fn grouped(random: &mut Random, chart: &Chart) -> Chart {
    let count = chart.steps.len();
    let mut groups: Vec<u16> = match random.below(10) {
        0 => (0..count as u16).collect(),
        1 => vec![0; count],
        2 => chart.steps.iter().map(|step| step.from).collect(),
        3 => rising(random, count, 50, 1),
        4 | 5 => rising(random, count, 25, 1),
        6 => rising(random, count, 40, 3),
        7 => rising(random, count, 70, 2),
        8 => random.subset(usize::from(MAX_GROUP) + 1, count),
        _ => {
            let past = random.pick(&[2, 3, 5, 12, count + 3]).min(usize::from(MAX_GROUP) + 1);
            let mut any: Vec<u16> = (0..count).map(|_| random.below(past) as u16).collect();
            any.sort_unstable();
            any
        }
    };
    let highest = groups.last().copied().unwrap_or(0);
    match random.below(8) {
        // All of them higher, up to the highest that there may be.
        0 => {
            let most = MAX_GROUP - highest;
            let more = random.pick(&[1, 2, 200, most]).min(most);
            groups.iter_mut().for_each(|group| *group += more);
        }
        // The last ones far above the others.
        1 => {
            let last = random.between(1, 3);
            let high = random.pick(&[MAX_GROUP, MAX_GROUP, MAX_GROUP - 1, 256]).max(highest);
            groups.iter_mut().rev().take(last).for_each(|group| *group = high);
        }
        _ => {}
    }
    chart.with_groups(|at| Some(groups[at]))
}

/// Each group is that of the step before or, in so many of a hundred cases, one to `most` above it.
fn rising(random: &mut Random, count: usize, percent: usize, most: usize) -> Vec<u16> {
    let mut group = 0;
    let mut next = |at: usize| {
        if at > 0 && random.percent(percent) {
            group = MAX_GROUP.min(group + random.between(1, most) as u16);
        }
        group
    };
    (0..count).map(&mut next).collect()
}

/// Groups for a diagram to name, rising: those with steps, and some of the others. Without groups all
/// steps.
pub fn named(random: &mut Random, chart: &Chart) -> Vec<u16> {
    if !chart.is_grouped() {
        return (0..chart.steps.len() as u16).collect();
    }
    let with_steps: Vec<bool> = chart.group_costs().iter().map(Option::is_some).collect();
    let gaps: Vec<usize> = (0..with_steps.len()).filter(|group| !with_steps[*group]).collect();
    let most = (with_steps.len() - gaps.len()) / 3 + 2;
    let count = random.between(0, gaps.len().min(most));
    let chosen = random.subset(gaps.len(), count);
    let mut named = with_steps;
    chosen.iter().for_each(|at| named[gaps[usize::from(*at)]] = true);
    (0..named.len()).filter(|group| named[*group]).map(|group| group as u16).collect()
}

/// The same diagram over other numbers: rising ones, the first for 0.
pub fn renamed(diagram: &Diagram, names: &[u16]) -> Diagram {
    let node = |node: &Node| Node { step: names[usize::from(node.step)], ..*node };
    Diagram { nodes: diagram.nodes.iter().map(node).collect(), ..*diagram }
}

/// A chart without groups as one in which each step is a group alone: of its own number, or of a higher
/// one, and so is what the diagrams name. All answers are the same but for places.
pub fn alone<const DIAGRAMS: usize>(
    random: &mut Random,
    chart: &Chart,
    diagrams: [&Diagram; DIAGRAMS],
) -> (Chart, [Diagram; DIAGRAMS]) {
    let count = chart.steps.len();
    let names: Vec<u16> = match random.below(3) {
        0 => (0..count as u16).collect(),
        1 => (0..count as u16).map(|step| MAX_GROUP + 1 - count as u16 + step).collect(),
        _ => random.subset(MAX_STEPS, count),
    };
    let chart = chart.with_groups(|at| Some(names[at]));
    (chart, diagrams.map(|diagram| renamed(diagram, &names)))
}

/// A problem without groups in the same way, now and then.
pub fn maybe_alone(random: &mut Random, problem: Problem) -> Problem {
    if problem.chart.is_grouped() || !random.percent(SHARE) {
        return problem;
    }
    let (chart, [diagram]) = alone(random, &problem.chart, [&problem.diagram]);
    Problem { chart, diagram }
}

/// The same of two diagrams over a chart.
pub fn operands_alone(random: &mut Random, operands: &Operands) -> Operands {
    let Operands { chart, first, second } = operands;
    let (chart, [first, second]) = alone(random, chart, [first, second]);
    Operands { chart, first, second }
}

/// A group at fault behind a step of one: beyond the limit, or below that one.
pub fn bad(random: &mut Random, before: u16) -> u16 {
    match random.below(8) {
        0 | 1 if before > 0 => before - 1,
        2 if before > 0 => random.below(before.into()) as u16,
        // Right in its low byte alone.
        3 => before.wrapping_add(0x0400),
        4 | 5 => MAX_GROUP + 1,
        _ => random.pick(&HIGH),
    }
}

/// A whole step field as one of the other kind: with the length of its tag, mostly, or with its own.
pub fn other_kind(random: &mut Random, field: &[u8]) -> Vec<u8> {
    let step = step_of(&field[HEADER..]);
    let group = random.below(4) as u16;
    let mut other = step_field(Step { group: step.group.is_none().then_some(group), ..step });
    match random.below(5) {
        0 => other[1] = field[1],
        1 => other[1] = random.pick(&[0, 7, 9, 11, 255]),
        2 => other.truncate(random.between(1, other.len() - 1)),
        _ => {}
    }
    other
}

/// The step of which the systematic charts have so many, in a group or not.
const BEFORE: Step = Step::new(2, 3, 5);
const STAGES: u16 = 5;
/// Its group.
const GROUP: u16 = 3;

fn front(steps: Vec<Step>) -> Vec<u8> {
    write_chart(&Chart { stages: STAGES, start: 0, end: STAGES - 1, steps })
}

/// Charts with a last step of any group, alone and with every other fault, the 1,024th and the 1,025th too;
/// such steps with faults of their field and of what follows; steps of the other kind; and diagrams that
/// name the highest group, one above it and those between.
pub fn systematic() -> Vec<Files> {
    let mut charts = groups_at_fault();
    charts.extend(other_kinds());
    charts.extend(wrong_fields());
    let yes = with_root(1);
    let mut files: Vec<Files> = charts.into_iter().map(|chart| (chart, yes.clone())).collect();
    files.extend(named_groups());
    files
}

/// Every group near a limit, with sound values and with bad ones.
fn groups_at_fault() -> Vec<Vec<u8>> {
    let of_values = |groups: &[u16], costs: &[u32]| {
        let mut steps = Vec::new();
        for (from, to) in [(2, 3), (1, 3), (3, 3), (1, 1), (2, STAGES)] {
            for cost in costs {
                steps.extend(groups.iter().map(|at| Step::new(from, to, *cost).of_group(*at)));
            }
        }
        steps
    };
    let groups = [&[0, 1, 2, 3, 4, 255, 256, 259, 1_022, MAX_GROUP][..], &HIGH].concat();
    let all = of_values(&groups, &[5, MAX_COST, DEAR[0], u32::MAX]);
    let few = of_values(&[2, 3, MAX_GROUP, MAX_GROUP + 1, u16::MAX], &[5, DEAR[0]]);
    let mut charts = Vec::new();
    let mut behind = |count: usize, group: u16, steps: &[Step], made: fn(Vec<u8>) -> Fields| {
        let front = front(vec![BEFORE.of_group(group); count]);
        let ends = steps.iter().flat_map(|step| made(step_field(*step)));
        charts.extend(ends.map(|end| [&front[..], &end].concat()));
    };
    behind(0, 0, &all, |step| vec![step]);
    for group in [0, GROUP, 256, MAX_GROUP] {
        behind(1, group, &all, |step| vec![step]);
    }
    behind(3, GROUP, &few, spoiled);
    behind(2, GROUP, &few, followed);
    for count in [MAX_STEPS - 1, MAX_STEPS] {
        behind(count, GROUP, &few, |step| vec![step]);
        behind(count, GROUP, &few[..8], spoiled);
    }
    behind(MAX_STEPS - 1, GROUP, &few[..4], followed);
    charts
}

fn spoiled(step: Vec<u8>) -> Fields {
    spoiled_fields(&step, &[0x01, STEP.tag, 0x04, 0x13, 0x7f, 0x83], &[0, 8, 9, 11, 266, u16::MAX])
}

/// A step with one more field behind it, sound or at fault.
fn followed(step: Vec<u8>) -> Fields {
    let sound = BEFORE.of_group(MAX_GROUP);
    let fields = [
        step_field(sound),
        step_field(BEFORE.of_group(GROUP)),
        step_field(BEFORE.of_group(0)),
        step_field(BEFORE.of_group(MAX_GROUP + 1)),
        step_field(Step { to: STAGES, ..sound }),
        step_field(Step { cost: MAX_COST + 1, ..sound }),
        step_field(BEFORE),
        tagged(0x83, &step[HEADER..]),
        vec![GROUPED_STEP.tag, 9, 0],
        without_last_byte(step_field(sound)),
    ];
    fields.map(|field| [&step[..], &field].concat()).into()
}

/// A step of one kind behind steps of the other, right behind them, behind remarks and behind both kinds:
/// whole, with every other length, cut, and with values at fault.
fn other_kinds() -> Vec<Vec<u8>> {
    let of_kinds = [BEFORE, BEFORE.of_group(GROUP)];
    let mut charts = Vec::new();
    for (first, other) in [(0, 1), (1, 0)] {
        let other = of_kinds[other];
        let values = [
            other,
            Step { to: STAGES, ..other },
            Step { from: 0, to: 1, ..other },
            Step { cost: MAX_COST + 1, ..other },
            Step { group: other.group.map(|_| MAX_GROUP + 1), ..other },
            Step { group: other.group.map(|_| 0), ..other },
        ];
        let ends = values.map(step_field).into_iter().flat_map(|field| {
            let mut ends = spoiled_fields(&field, &[0x01, 0x7f], &[0, 7, 8, 9, 10, 11, u16::MAX]);
            ends.push([&field[..], &[0x7f, 0, 0]].concat());
            ends.push(field);
            ends
        });
        let ends: Vec<Vec<u8>> = ends.collect();
        for count in [1, 2, MAX_STEPS - 1, MAX_STEPS] {
            let front = front(vec![of_kinds[first]; count]);
            let some = if count < 3 { 1 } else { 7 };
            let ends = ends.iter().step_by(some);
            charts.extend(ends.map(|end| [&front[..], end].concat()));
        }
        let own = step_field(of_kinds[first]);
        let other = step_field(other);
        let remark = tagged(other[0] | 0x80, &other[HEADER..]);
        // Remarks fix nothing, whatever they look like.
        charts.push([&front(vec![])[..], &remark, &own].concat());
        charts.push([&front(vec![])[..], &remark, &own, &remark, &own].concat());
        charts.push([&front(vec![])[..], &remark, &own, &remark, &other].concat());
        charts.push([&front(vec![])[..], &own, &remark, &own, &other, &own].concat());
        charts.push([&front(vec![])[..], &remark, &other[..HEADER + 1]].concat());
    }
    charts
}

/// A first step whose length is that of the other kind, and every cut of one.
fn wrong_fields() -> Vec<Vec<u8>> {
    let mut charts = Vec::new();
    for step in [BEFORE, BEFORE.of_group(0), BEFORE.of_group(MAX_GROUP + 1)] {
        let field = step_field(step);
        let lengths = [0, 7, 8, 9, 10, 11, 256 + 8, 256 + 10, u16::MAX];
        let ends = spoiled_fields(&field, &[0x00, 0x02, 0x03, 0x04], &lengths);
        let longer = ends.iter().map(|end| [&end[..], &[0; 4]].concat());
        charts.extend(longer.chain(ends.clone()).map(|end| [&front(vec![])[..], &end].concat()));
    }
    charts
}

/// One node that names any group of charts with few steps, none, and 1,024.
fn named_groups() -> Vec<Files> {
    let of_groups = |groups: &[u16]| {
        let steps = groups.iter().map(|group| Step::new(0, 1, 7).of_group(*group));
        Chart { stages: 2, start: 0, end: 1, steps: steps.collect() }
    };
    let mut charts = vec![parallel(0), parallel(3)];
    let groups: [&[u16]; 10] = [
        &[0],
        &[1],
        &[0, 1, 2],
        &[2, 2, 2],
        &[0, 5],
        &[0, 0, 255],
        &[3, 256],
        &[1_022],
        &[0, MAX_GROUP],
        &[MAX_GROUP; 3],
    ];
    charts.extend(groups.map(of_groups));
    charts.push(of_groups(&[1; MAX_STEPS]));
    charts.push(of_groups(&(0..MAX_STEPS as u16).map(|at| at / 4).collect::<Vec<u16>>()));
    let mut files = Vec::new();
    for chart in charts {
        let highest = chart.groups() as u16;
        let near = [highest.wrapping_sub(2), highest.wrapping_sub(1), highest, highest + 1];
        for step in near.into_iter().chain([0, 1, 2, 4, 255, 256, 512, 1_023, 1_024, u16::MAX]) {
            for (lo, hi) in [(0, 1), (1, 0)] {
                let diagram = Diagram { root: 2, nodes: vec![Node { step, lo, hi }] };
                files.push((write_chart(&chart), write_diagram(&diagram)));
            }
        }
    }
    files
}

/// Problems in which groups decide, or gaps, or the cheapest step of a group, small ones and such with as
/// many steps and nodes as there may be; and charts with each step alone beside what they are the same as.
pub fn corners(random: &mut Random) -> Vec<Problem> {
    let mut all = one_group();
    all.extend(several_on_one_way());
    all.extend(gaps());
    all.extend(cheapest_of_a_group());
    all.extend(twins(random));
    all.extend(large(random));
    all
}

/// From, to, cost and group of each step; the start is the first stage and the end the last.
fn chart_of(stages: u16, steps: &[(u16, u16, u32, u16)]) -> Chart {
    let step = |step: &(u16, u16, u32, u16)| Step::new(step.0, step.1, step.2).of_group(step.3);
    Chart { stages, start: 0, end: stages - 1, steps: steps.iter().map(step).collect() }
}

/// Group, lo and hi of nodes from 2 on; the last is the root.
fn diagram_of(nodes: &[(u16, u16, u16)]) -> Diagram {
    let node = |node: &(u16, u16, u16)| Node { step: node.0, lo: node.1, hi: node.2 };
    Diagram { root: nodes.len() as u16 + 1, nodes: nodes.iter().map(node).collect() }
}

/// All steps in one group, under rules about it and about those below it.
fn one_group() -> Vec<Problem> {
    let mut all = Vec::new();
    for group in [0, 1, 6, MAX_GROUP] {
        let ends = [(0, 1, 90), (0, 2, 40), (1, 2, 20), (1, 3, 200), (2, 3, 110)];
        let steps = ends.map(|(from, to, cost)| (from, to, cost, group));
        let below = group.saturating_sub(1);
        let mut diagrams = vec![
            Diagram::NO,
            Diagram::YES,
            diagram_of(&[(group, 0, 1)]),
            diagram_of(&[(group, 1, 0)]),
        ];
        if group > 0 {
            diagrams.extend([
                diagram_of(&[(below, 1, 0)]),
                diagram_of(&[(below, 0, 1)]),
                diagram_of(&[(group, 0, 1), (below, 2, 1)]),
                diagram_of(&[(group, 0, 1), (below, 0, 2)]),
                diagram_of(&[(group, 0, 1), (group, 1, 0), (below, 3, 2)]),
            ]);
        }
        for diagram in diagrams {
            let chart = chart_of(4, &steps);
            all.push(Problem { chart: chart.clone(), diagram: diagram.clone() });
            // From a stage to itself no step is taken.
            all.push(Problem { chart: Chart { end: 0, ..chart }, diagram });
        }
    }
    all
}

/// Ways with two and more steps of a group, and nodes of later groups behind its hi.
fn several_on_one_way() -> Vec<Problem> {
    let mut all = Vec::new();
    for groups in
        [[4, 4, 4, 7], [4, 4, 7, 7], [4, 7, 7, 9], [0, 0, 0, 0], [0, 0, 1, 1], [3, 3, 4, 5]]
    {
        let mut steps = Vec::new();
        for (stage, group) in (0..).zip(groups) {
            steps.push((stage, stage + 1, 60, group));
            steps.push((stage, stage + 1, 30, group));
        }
        // A way past each stage.
        let mut with_skips = steps.clone();
        with_skips.extend((0..3).map(|stage| (stage, stage + 2, 190, groups[usize::from(stage)])));
        with_skips.sort_by_key(|step| (step.3, step.0));
        with_skips.sort_by_key(|step| step.0);
        let (first, last) = (groups[0], groups[3]);
        let mut diagrams = vec![diagram_of(&[(first, 0, 1)]), diagram_of(&[(first, 1, 0)])];
        if first < last {
            diagrams.extend([
                diagram_of(&[(last, 0, 1), (first, 0, 2)]),
                diagram_of(&[(last, 1, 0), (first, 0, 2)]),
                diagram_of(&[(last, 0, 1), (first, 2, 0)]),
                diagram_of(&[(last, 1, 0), (last, 0, 1), (first, 2, 3)]),
            ]);
        }
        if first + 1 < last {
            diagrams.extend([
                diagram_of(&[(last, 0, 1), (first + 1, 2, 0), (first, 0, 3)]),
                diagram_of(&[(last, 1, 0), (first + 1, 0, 2), (first, 1, 3)]),
            ]);
        }
        for diagram in diagrams {
            for steps in [&steps, &with_skips] {
                all.push(Problem { chart: chart_of(5, steps), diagram: diagram.clone() });
            }
        }
    }
    all
}

/// Groups without steps at any place of a diagram: where lo has an estimate, where it has none, where hi
/// has, and where both have.
fn gaps() -> Vec<Problem> {
    let mut all = Vec::new();
    for [low, gap, high] in [[0, 1, 2], [0, 7, 9], [2, 3, 300], [5, 1_000, MAX_GROUP]] {
        let chart = chart_of(
            4,
            &[
                (0, 1, 90, low),
                (0, 2, 300, low),
                (1, 2, 20, high),
                (1, 3, 240, high),
                (2, 3, 50, high),
            ],
        );
        let diagrams = [
            diagram_of(&[(gap, 0, 1)]),
            diagram_of(&[(gap, 1, 0)]),
            diagram_of(&[(high, 0, 1), (gap, 2, 1)]),
            diagram_of(&[(high, 0, 1), (gap, 1, 2)]),
            diagram_of(&[(high, 0, 1), (gap, 0, 2)]),
            diagram_of(&[(high, 0, 1), (gap, 2, 0)]),
            diagram_of(&[(gap, 0, 1), (low, 1, 2)]),
            diagram_of(&[(gap, 0, 1), (low, 2, 1)]),
            diagram_of(&[(gap, 1, 0), (low, 0, 2)]),
            diagram_of(&[(high, 0, 1), (gap, 0, 2), (low, 2, 3)]),
            diagram_of(&[(high, 0, 1), (gap, 2, 1), (low, 3, 1)]),
            diagram_of(&[(high, 0, 1), (high, 1, 0), (gap, 2, 3), (low, 4, 2)]),
        ];
        all.extend(diagrams.map(|diagram| Problem { chart: chart.clone(), diagram }));
    }
    all
}

/// Groups whose cheapest step comes first, amid the others and last, lies on no plan at all, is the cheapest
/// only as the file has it, or only when it is rounded.
fn cheapest_of_a_group() -> Vec<Problem> {
    let mut all = Vec::new();
    let costs = [
        [300, 100, 200],
        [100, 200, 300],
        [300, 200, 100],
        [101, 149, 150],
        [150, 101, 151],
        [99, 51, 100],
        [0, 1_000, 1],
        [MAX_COST, MAX_COST - 49, MAX_COST - 50],
    ];
    all.extend(
        [[900, 700, 400], [400, 700, 900], [700, 400, 900]].into_iter().flat_map(beside_a_group),
    );
    for [first, second, third] in costs {
        all.extend(beside_a_group([first, second, third]));
        // The three lead to three stages, and the group behind them is dear. What avoids the first group
        // costs about as much.
        let steps = [
            (0, 1, first, 1),
            (0, 2, second, 1),
            (0, 3, third, 1),
            (0, 4, 240, 3),
            (1, 4, 50, 4),
            (2, 4, 450, 4),
            (3, 4, 250, 4),
            (4, 5, 90, 6),
            (4, 5, 30, 6),
            (4, 5, 60, 7),
        ];
        let chart = chart_of(6, &steps);
        let wanted = [
            diagram_of(&[(1, 0, 1)]),
            diagram_of(&[(6, 0, 1), (1, 0, 2)]),
            diagram_of(&[(7, 0, 1), (6, 2, 1), (4, 0, 3)]),
            diagram_of(&[(7, 0, 1), (1, 1, 2)]),
            diagram_of(&[(6, 0, 1), (4, 2, 1), (3, 0, 2), (1, 4, 3)]),
            diagram_of(&[(6, 1, 0), (5, 2, 0), (4, 0, 3), (1, 2, 4)]),
        ];
        for diagram in wanted {
            all.push(Problem { chart: chart.clone(), diagram: diagram.clone() });
            // The first of the three leaves a stage before the start.
            all.push(Problem { chart: before_the_start(&chart), diagram });
        }
    }
    all
}

/// A first step leads to a node that wants the second group, another one, which costs as much as one of its
/// steps or a tick less or more, to "yes": whether the pair of that node is settled before the plan is found
/// depends on what the group costs.
fn beside_a_group(costs: [u32; 3]) -> Vec<Problem> {
    let [first, second, third] = costs;
    let about = |cost: u32| [cost.saturating_sub(TICK), cost, (cost + TICK).min(MAX_COST)];
    let of_cost = |other: u32| {
        let steps = [
            (0, 1, 50, 0),
            (0, 1, other, 1),
            (1, 2, first, 2),
            (1, 3, second, 2),
            (1, 4, third, 2),
            (1, 5, 50, 3),
            (2, 5, 500, 4),
            (3, 5, 500, 4),
            (4, 5, 500, 4),
        ];
        Problem { chart: chart_of(6, &steps), diagram: diagram_of(&[(2, 0, 1), (1, 2, 1)]) }
    };
    costs.into_iter().flat_map(about).map(of_cost).collect()
}

/// The same chart with a stage in front that only the first step leaves, and no way from the start takes.
fn before_the_start(chart: &Chart) -> Chart {
    let moved = |(at, step): (usize, &Step)| Step {
        from: step.from + u16::from(at > 0),
        to: step.to + 1,
        ..*step
    };
    let steps = chart.steps.iter().enumerate().map(moved).collect();
    Chart { stages: chart.stages + 1, start: 1, end: chart.end + 1, steps }
}

/// Charts without groups, and each with its steps as groups alone.
fn twins(random: &mut Random) -> Vec<Problem> {
    let mut all = vec![example_problem()];
    for _ in 0..12 {
        let chart = random_chart_without_groups(random, 8, 14);
        let diagram = random_diagram(random, &chart, 12);
        all.push(Problem { chart, diagram });
    }
    let twins = |problem: &Problem| {
        let Problem { chart, diagram } = problem;
        let own = chart.with_groups(|at| Some(at as u16));
        let (spread, [renamed]) = alone(random, chart, [diagram]);
        [
            problem.clone(),
            Problem { chart: own, diagram: diagram.clone() },
            Problem { chart: spread, diagram: renamed },
        ]
    };
    all.iter().flat_map(twins).collect()
}

/// 1,024 steps in groups of one, of few, of many, the last group far above the others; under rules of up to
/// 510 nodes.
fn large(random: &mut Random) -> Vec<Problem> {
    let steps = MAX_STEPS as u16;
    let highest = |group: fn(u16) -> u16| group(steps - 1);
    let groupings: [fn(u16) -> u16; 8] = [
        |at| at,
        |at| at / 2,
        |at| at / 4,
        |at| at / 16,
        |at| at / 200,
        |at| at / 4 * 4,
        |at| if at + 1 < MAX_STEPS as u16 { at / 4 } else { MAX_GROUP },
        |at| if at < 1_000 { 0 } else { at },
    ];
    let mut all = Vec::new();
    for (at, group) in groupings.into_iter().enumerate() {
        let stages = [256, 256, 33, 200][at % 4];
        let chart = load(at as u32 + 1, stages).expect("a word and stages in range");
        let chart = chart.with_groups(|at| Some(group(at as u16)));
        let count = usize::from(highest(group)) + 1;
        let some = |most: usize| count.min(most);
        let named: Vec<u16> = named(random, &chart);
        let diagrams = [
            none_of(0..some(MAX_NODES)),
            all_of((0..some(MAX_NODES)).map(|at| count - 1 - at).rev()),
            none_of(even(some(MAX_NODES * 2) / 2)),
            rule(&Modulo { divisor: 2, rest: 1, steps: named.iter().copied().take(255).collect() }),
            rule(&AtMost { most: 3, steps: named.iter().copied().rev().take(100).rev().collect() }),
            rule(&ExactlyOne(named.iter().copied().take(200).collect())),
            rule(&AllOf(vec![named[named.len() / 2]])),
            rule(&Needs(vec![(named[0], named[named.len() - 1])])),
            layers_of_width(random, &named[..named.len().min(100)], 5, Padding::Without),
            scattered(random, count, MAX_NODES, Padding::Without),
        ];
        all.extend(diagrams.map(|diagram| Problem { chart: chart.clone(), diagram }));
    }
    all
}

/// Two diagrams over groups with steps and without: single tests, and, where one step alone has the highest
/// group that there may be, results of 510 nodes and more over groups without steps.
pub fn operands(random: &mut Random) -> Vec<Operands> {
    let chart = chart_of(3, &[(0, 1, 90, 2), (0, 2, 40, 2), (1, 2, 60, 5)]);
    let tests = [0, 2, 3, 5].into_iter().flat_map(|group| [(group, 0, 1), (group, 1, 0)]);
    let mut diagrams: Vec<Diagram> = tests.map(|node| diagram_of(&[node])).collect();
    diagrams.extend([Diagram::NO, Diagram::YES]);
    let mut all = Vec::new();
    for first in &diagrams {
        let over = |second: &Diagram| (chart.clone(), first.clone(), second.clone());
        all.extend(diagrams.iter().map(over));
    }
    let high = chart_of(2, &[(0, 1, 7, MAX_GROUP)]);
    let Operands { first, second, .. } = most_pairs();
    let rows = [(all_of(even(MAX_NODES)), all_of(odd(MAX_NODES))), (first, second)];
    let last = |count: usize| MAX_STEPS - count..MAX_STEPS;
    let sizes = [(255, 254), (255, 255), (256, 255)];
    let chains = sizes.map(|(first, second)| (all_of(0..first), none_of(last(second))));
    all.extend(rows.into_iter().chain(chains).map(|(a, b)| (high.clone(), a, b)));
    for _ in 0..20 {
        let chart = grouped(random, &parallel(12));
        let first = random_diagram(random, &chart, 14);
        let second = random_diagram(random, &chart, 14);
        all.push((chart, first, second));
    }
    all.into_iter().map(|(chart, first, second)| Operands { chart, first, second }).collect()
}

/// Gives one step of a chart file another group, or makes it one of the other kind; says whether there is a
/// step with a group.
pub fn mutate(random: &mut Random, chart: &mut Vec<u8>) -> bool {
    let places = step_places(chart);
    let grouped = places.iter().filter(|place| chart[place.start] == GROUPED_STEP.tag);
    let grouped: Vec<&Range<usize>> = grouped.collect();
    if grouped.is_empty() {
        return false;
    }
    let at = random.pick(&grouped).clone();
    if random.percent(25) {
        let other = other_kind(random, &chart[at.clone()]);
        chart.splice(at, other);
        return true;
    }
    let known = two_bytes(chart, at.end - 2);
    let group = match random.below(4) {
        0 => known.wrapping_add(1),
        1 => known.wrapping_sub(1),
        2 => random.pick(&[0, 255, 256, MAX_GROUP, MAX_GROUP + 1]),
        _ => bad(random, known),
    };
    chart[at.end - 2..at.end].copy_from_slice(&group.to_le_bytes());
    true
}

/// A problem in which the diagram estimate often decides: from each stage dear steps in one group and cheap
/// ones in the next, and a rule that wants some of the dear groups.
pub fn any(random: &mut Random) -> Problem {
    let stages = random.between(3, 7);
    let costs: [fn(&mut Random) -> u32; 2] =
        [|random| random.between(100, 900) as u32, |random| of_some_ticks(random, 0, 4)];
    let mut steps = Vec::new();
    for from in 0..stages - 1 {
        for (which, cost) in costs.iter().enumerate() {
            for _ in 0..random.between(1, 3) {
                let to = if random.percent(85) { from + 1 } else { stages - 1 };
                let step = Step::new(from as u16, to as u16, cost(random));
                steps.push(step.of_group((2 * from + which) as u16));
            }
        }
    }
    let chart = Chart { stages: stages as u16, start: 0, end: stages as u16 - 1, steps };
    let dear: Vec<u16> = (0..stages as u16 - 1).map(|stage| 2 * stage).collect();
    let count = random.between(1, dear.len());
    let mut some = |count: usize| -> Vec<u16> {
        random.subset(dear.len(), count).iter().map(|at| dear[usize::from(*at)]).collect()
    };
    let (wanted, other) = (some(count), some(1)[0]);
    let diagram = match random.below(5) {
        0 | 1 => rule(&AllOf(wanted)),
        2 => rule(&ExactlyOne(wanted)),
        3 => rule(&Both(Box::new(AllOf(vec![other])), Box::new(AtMost { most: 2, steps: wanted }))),
        _ => random_diagram(random, &chart, 12),
    };
    let highest = chart.groups();
    let names = random.pick(&[highest, highest + 2, 2 * highest, MAX_STEPS]);
    let names = random.subset(names, highest);
    let group = |at: usize| chart.steps[at].group.map(|group| names[usize::from(group)]);
    Problem {
        chart: chart.with_groups(group),
        diagram: with_test_above(random, &renamed(&diagram, &names)),
    }
}

/// As often as not a diagram with a test of a lower group above its root, where there is one: it leads to the
/// old root by lo or by hi, and else to a constant. The group may have no steps.
fn with_test_above(random: &mut Random, diagram: &Diagram) -> Diagram {
    let mut all = diagram.clone();
    let Some(root) = diagram.inner(diagram.root).filter(|root| root.step > 0) else { return all };
    if random.percent(50) {
        return all;
    }
    let step = random.below(root.step.into()) as u16;
    let constant = random.below(2) as u16;
    let (lo, hi) = random.pick(&[(diagram.root, constant), (constant, diagram.root)]);
    all.root = diagram.references() as u16;
    all.nodes.push(Node { step, lo, hi });
    all
}

/// A chart with one group at fault, one step of the other kind, or a diagram with a node that names a group
/// near the highest.
pub fn broken(random: &mut Random) -> Files {
    let (stages, steps) = random.pick(&[(6, 6), (12, 20), (40, 120)]);
    let chart = loop {
        let chart = random_chart_without_groups(random, stages, steps);
        if !chart.steps.is_empty() {
            break grouped(random, &chart);
        }
    };
    let mut diagram = random_diagram(random, &chart, 12);
    let (highest, own) = (chart.groups() as u16, diagram.references() as u16);
    let bytes = write_chart(&chart);
    let places = step_places(&bytes);
    let place = random.below(places.len());
    let at = places[place].clone();
    let spoiled = |end: &[u8]| [&bytes[..at.start], end, &bytes[at.end..]].concat();
    let bytes = match random.below(10) {
        0..=4 => {
            let before = place.checked_sub(1).map_or(0, |before| chart.group(before as u16));
            let step = chart.steps[place].of_group(bad(random, before));
            spoiled(&step_field(step))
        }
        5 | 6 => spoiled(&other_kind(random, &bytes[at.clone()])),
        7 => {
            let without = write_chart(&chart.with_groups(|_| None));
            let at = step_places(&without)[place].clone();
            let other = other_kind(random, &without[at.clone()]);
            [&without[..at.start], &other, &without[at.end..]].concat()
        }
        _ => {
            let above = random.pick(&[0, 0, 0, 1, 2, 256]);
            let step = highest.saturating_sub(random.below(2) as u16) + above;
            diagram.nodes.push(Node { step, lo: own % 2, hi: 1 - own % 2 });
            bytes
        }
    };
    (bytes, write_diagram(&diagram))
}
