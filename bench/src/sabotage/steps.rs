//! Wrong readings of a step: other numbers, another order of the tests, other limits. Those of the
//! limits and of the field change the chart before a sound planner has it.

use super::{new, Sabotage, Spoil, Test};
use crate::files::{
    read_both, read_chart, step_field, step_of, two_bytes, Refusal, Step, DIAGRAM_FILE,
    FIRST_REMARK, HEADER, MAX_COST, MAX_STEPS,
};
use crate::generate::steps::step_places;
use crate::planner::Answer;
use crate::steps::{StepAtFault, StepFaults};

pub(super) const SURPLUS: Test = |faults| faults.surplus;
pub(super) const ENDS: Test = StepFaults::ends;
const CROSSED: Test = |faults| faults.crossed;
const OUTSIDE: Test = |faults| faults.outside;
pub(super) const FALLS: Test = |faults| faults.falls;
pub(super) const DEAR: Test = |faults| faults.dear;
const BOTH: Test = |faults| faults.surplus && faults.dear;
const ANY: Test = |faults| faults.set() != 0;

/// The values of a step are tested in this order.
pub(super) const fn judged(name: &'static str, tests: &'static [(Test, u32)]) -> Sabotage {
    new(name, Spoil::Step(tests))
}

pub(super) static STEPS: [Sabotage; 49] = [
    judged("10-after-falling-from", &[(SURPLUS, 5), (FALLS, 5), (ENDS, 10), (DEAR, 11)]),
    judged("10-last", &[(SURPLUS, 5), (FALLS, 5), (DEAR, 11), (ENDS, 10)]),
    judged(
        "to-outside-last",
        &[(SURPLUS, 5), (CROSSED, 10), (FALLS, 5), (DEAR, 11), (OUTSIDE, 10)],
    ),
    judged("11-before-10", &[(SURPLUS, 5), (DEAR, 11), (ENDS, 10), (FALLS, 5)]),
    judged("11-before-falling-from", &[(SURPLUS, 5), (ENDS, 10), (DEAR, 11), (FALLS, 5)]),
    judged("1025th-after-10", &[(ENDS, 10), (SURPLUS, 5), (FALLS, 5), (DEAR, 11)]),
    judged("1025th-after-11", &[(BOTH, 11), (SURPLUS, 5), (ENDS, 10), (FALLS, 5), (DEAR, 11)]),
    judged("1025th-last", &[(ENDS, 10), (FALLS, 5), (DEAR, 11), (SURPLUS, 5)]),
    judged("10-and-11-exchanged", &[(SURPLUS, 5), (ENDS, 11), (FALLS, 5), (DEAR, 10)]),
    judged("5-for-10", &[(SURPLUS, 5), (ENDS, 5), (FALLS, 5), (DEAR, 11)]),
    judged(
        "5-for-to-outside",
        &[(SURPLUS, 5), (CROSSED, 10), (OUTSIDE, 5), (FALLS, 5), (DEAR, 11)],
    ),
    judged(
        "5-for-to-crossed",
        &[(SURPLUS, 5), (OUTSIDE, 10), (CROSSED, 5), (FALLS, 5), (DEAR, 11)],
    ),
    judged("5-for-cost", &[(SURPLUS, 5), (ENDS, 10), (FALLS, 5), (DEAR, 5)]),
    judged("10-for-cost", &[(SURPLUS, 5), (ENDS, 10), (FALLS, 5), (DEAR, 10)]),
    judged("10-for-falling-from", &[(SURPLUS, 5), (ENDS, 10), (FALLS, 10), (DEAR, 11)]),
    judged("11-for-falling-from", &[(SURPLUS, 5), (ENDS, 10), (FALLS, 11), (DEAR, 11)]),
    judged("10-for-1025th", &[(SURPLUS, 10), (ENDS, 10), (FALLS, 5), (DEAR, 11)]),
    judged("11-for-1025th", &[(SURPLUS, 11), (ENDS, 10), (FALLS, 5), (DEAR, 11)]),
    judged("5-for-any-step", &[(ANY, 5)]),
    new("11-after-all-steps", Spoil::Chart(judge_costs_last)),
    new("11-after-diagram", Spoil::Files(|chart, rules| judge_costs_after_rules(chart, rules))),
    new("step-after-all-fields", Spoil::Chart(judge_values_last)),
    new("step-before-length", Spoil::Chart(|chart| make_whole(chart, 3, ANY))),
    new("step-before-cut-body", Spoil::Chart(|chart| make_whole(chart, 1, ANY))),
    new("1025th-before-length", Spoil::Chart(|chart| make_whole(chart, 3, SURPLUS))),
    new("1025th-before-cut-body", Spoil::Chart(|chart| make_whole(chart, 1, SURPLUS))),
    new("1025th-passed-over", Spoil::Chart(|chart| pass_over_surplus(chart))),
    new("cost-1000001-passes", Spoil::Chart(|chart| change_cost(chart, MAX_COST + 1, MAX_COST))),
    new("cost-1000000-is-11", Spoil::Chart(|chart| change_cost(chart, MAX_COST, MAX_COST + 1))),
    new("cost-of-two-bytes", Spoil::Chart(|chart| change(chart, |s, _| s.cost &= 0xffff))),
    new("cost-of-three-bytes", Spoil::Chart(|chart| change(chart, |s, _| s.cost &= 0xff_ffff))),
    new("cost-with-sign", Spoil::Chart(|chart| change(chart, |s, _| s.cost = unless_negative(s)))),
    new("from-of-a-byte", Spoil::Chart(|chart| change(chart, |s, _| s.from &= 0xff))),
    new("to-of-a-byte", Spoil::Chart(|chart| change(chart, |s, _| s.to &= 0xff))),
    new("to-at-stage-count-passes", Spoil::Chart(|chart| change(chart, lower_to))),
    new("to-equal-to-from-passes", Spoil::Chart(|chart| change(chart, raise_to))),
    new("falling-from-passes", Spoil::Chart(|chart| change(chart, raise_from))),
    new("equal-from-falls", Spoil::Chart(|chart| change(chart, lower_from))),
    new("10-at-place-0", Spoil::Answer(|a| a.place *= usize::from(a.number != 10))),
    new("10-at-its-from", Spoil::Answer(|a| a.place += HEADER * usize::from(a.number == 10))),
    new("11-at-its-cost", Spoil::Answer(|a| a.place += 7 * usize::from(a.number == 11))),
    new("11-without-file", Spoil::Answer(|a| a.file *= u32::from(a.number != 11))),
    new("10-with-count", Spoil::Answer(|a| a.count += u32::from(a.number == 10))),
    new("11-with-cost", Spoil::Answer(|a| a.cost += u32::from(a.number == 11))),
    new("10-touches-cost", Spoil::Sweep(|a, s| touch(a, 10, &mut s.cost))),
    new("11-touches-log", Spoil::Guided(|a, s| touch(a, 11, &mut s.log))),
    new("11-touches-plan", Spoil::Guided(|a, s| touch(a, 11, &mut s.plan))),
    new("10-with-space", Spoil::Space(|s| s.work += usize::from(s.number == 10))),
    new("11-with-space", Spoil::Space(|s| s.plan += usize::from(s.number == 11))),
];

/// What is known where a step is read.
#[derive(Clone, Copy)]
pub(super) struct Around {
    stages: u16,
    /// The from of the step before, 0 without one.
    before: u16,
    /// The number of the step, and the groups of the first one and of the one before, in a chart with
    /// groups.
    pub number: u16,
    pub first_group: Option<u16>,
    pub group_before: Option<u16>,
}

/// Changes the values of every step.
pub(super) fn change(chart: &mut [u8], change: impl Fn(&mut Step, Around)) {
    let places = step_places(chart);
    let first_group =
        places.first().and_then(|place| step_of(&chart[place.clone()][HEADER..]).group);
    let (mut before, mut group_before) = (0, None);
    for (number, place) in (0..).zip(places) {
        let stages = two_bytes(chart, HEADER);
        let body = &mut chart[place][HEADER..];
        let mut step = step_of(body);
        let (from, group) = (step.from, step.group);
        change(&mut step, Around { stages, before, number, first_group, group_before });
        body.copy_from_slice(&step_field(step)[HEADER..]);
        (before, group_before) = (from, group);
    }
}

fn change_cost(chart: &mut [u8], cost: u32, other: u32) {
    change(chart, |step, _| {
        if step.cost == cost {
            step.cost = other;
        }
    });
}

fn unless_negative(step: &Step) -> u32 {
    if (step.cost as i32) < 0 {
        0
    } else {
        step.cost
    }
}

fn lower_to(step: &mut Step, around: Around) {
    if step.to == around.stages && step.from + 1 < step.to {
        step.to -= 1;
    }
}

fn raise_to(step: &mut Step, around: Around) {
    if step.to == step.from && step.to + 1 < around.stages {
        step.to += 1;
    }
}

fn raise_from(step: &mut Step, around: Around) {
    if around.before < step.to {
        step.from = step.from.max(around.before);
    }
}

fn lower_from(step: &mut Step, around: Around) {
    if step.from == around.before {
        step.from = step.from.saturating_sub(1);
    }
}

/// A chart without costs beyond their limit.
fn with_low_costs(chart: &[u8]) -> Vec<u8> {
    let mut changed = chart.to_vec();
    change(&mut changed, |step, _| step.cost = step.cost.min(MAX_COST));
    changed
}

/// A cost counts only where the chart has no other fault.
fn judge_costs_last(chart: &mut Vec<u8>) {
    let changed = with_low_costs(chart);
    if read_chart(&changed).is_err() {
        *chart = changed;
    }
}

/// A cost counts only where neither file has another fault.
fn judge_costs_after_rules(chart: &mut Vec<u8>, rules: &[u8]) {
    let changed = with_low_costs(chart);
    if read_both(&changed, rules).is_err_and(|fault| fault.file == DIAGRAM_FILE) {
        *chart = changed;
    }
}

/// The values of steps count only where every field is whole, with the right tag and length.
fn judge_values_last(chart: &mut Vec<u8>) {
    let mut changed = chart.clone();
    change(&mut changed, |step, _| {
        *step = Step { group: step.group.map(|_| 0), ..Step::new(0, 1, 0) };
    });
    if read_chart(&changed).is_err_and(|fault| fault.number < 4) {
        *chart = changed;
    }
}

/// Mends the length or the cut end of a step that is refused for it, where its values have such a
/// fault.
pub(super) fn make_whole(chart: &mut Vec<u8>, number: u32, such: Test) {
    let Err(fault) = read_chart(chart) else { return };
    let Refusal { number: found, place, .. } = fault;
    let step = StepAtFault::of(chart, &fault).filter(|step| found == number && such(&step.faults));
    if let Some(step) = step {
        let length = step.step.layout().length;
        chart.resize(chart.len().max(place + HEADER + length), 0);
        chart[place + 1..place + HEADER].copy_from_slice(&(length as u16).to_le_bytes());
    }
}

/// Steps behind the 1,024th become remarks.
fn pass_over_surplus(chart: &mut [u8]) {
    for place in step_places(chart).into_iter().skip(MAX_STEPS) {
        chart[place.start] |= FIRST_REMARK;
    }
}

/// Changes the first entry of a slice under a number.
pub(super) fn touch<T: Copy + std::ops::Not<Output = T>>(
    answer: &Answer,
    number: u32,
    slice: &mut [T],
) {
    let entry = slice.first_mut().filter(|_| answer.number == number);
    entry.into_iter().for_each(|entry| *entry = !*entry);
}

#[cfg(test)]
mod tests {
    use super::super::shown;
    use super::*;
    use crate::cases::Case;
    use crate::generate::steps::systematic;

    static NO_SABOTAGE: [Sabotage; 1] =
        [judged("none", &[(SURPLUS, 5), (ENDS, 10), (FALLS, 5), (DEAR, 11)])];

    #[test]
    fn the_right_order_of_the_tests_spoils_nothing() {
        let files = systematic().into_iter();
        let cases = files.map(|files| Case::new("test", files, 1));
        shown::none(&cases.collect::<Vec<_>>(), &NO_SABOTAGE);
    }
}
