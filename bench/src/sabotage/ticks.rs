//! Wrong costs: roundings other than the right one, or in a part of the results alone, and limits that
//! judge something else than the file's cost. Where files and slices pass, plain searches stand in for
//! the planner; they are sound but for what they take as the cost of a step.

use super::rows::{accepted, SOUND as PLAIN};
use super::steps::change;
use super::{new, Sabotage, Spoil};
use crate::files::{step_field, step_of, Problem, HEADER, MAX_COST, STEP_KINDS, TICK};
use crate::generate::steps::file_costs;
use crate::planner::{Answer, GuidedSlices, SweepSlices};
use crate::reference::ways::cost_of;
use crate::reference::{cost_slice, Facts};

/// A step of a file: its cost there, its number, and how many there are.
#[derive(Clone, Copy)]
pub(super) struct InFile {
    cost: u32,
    number: usize,
    steps: usize,
}

/// What a step is taken to cost.
type OfStep = fn(InFile) -> u32;

/// What sums are made of, and what they become at the end.
#[derive(Clone, Copy)]
struct Costs {
    of_step: OfStep,
    of_sum: fn(u32) -> u32,
}

/// Sums of what each step is taken to cost.
const fn each(of_step: OfStep) -> Costs {
    Costs { of_step, of_sum: |sum| sum }
}

/// Sums as the file has them, rounded as a whole.
const SUMS_UP: Costs = Costs { of_step: AS_IN_FILE, of_sum: up };

impl Costs {
    /// The problem of a chart file with its steps at these costs.
    fn problem(self, problem: &Problem, chart: &[u8]) -> Problem {
        let costs = file_costs(chart);
        let steps = costs.len();
        let cost = |number: usize| (self.of_step)(InFile { cost: costs[number], number, steps });
        let chart = problem.chart.with_costs(|number, _| cost(number));
        Problem { chart, diagram: problem.diagram.clone() }
    }

    fn facts(self, problem: &Problem, chart: &[u8]) -> Facts {
        let mut facts = Facts::by_dynamic_programming(&self.problem(problem, chart));
        let Facts { least, chart_estimate, diagram_estimate, .. } = &mut facts;
        let sums = least.iter_mut().chain(chart_estimate).chain(diagram_estimate);
        sums.flatten().for_each(|sum| *sum = (self.of_sum)(*sum));
        facts
    }

    fn of_plan(self, problem: &Problem, chart: &[u8], plan: &[u16]) -> u32 {
        (self.of_sum)(cost_of(&self.problem(problem, chart).chart, plan))
    }
}

/// The costs in each part of a search.
#[derive(Clone, Copy)]
pub(super) struct Ticks {
    /// By which the plan is found, and pairs are settled.
    search: Costs,
    /// Of the plan in the answer.
    answer: Costs,
    /// In the sweep's cost slice.
    slice: Costs,
    /// In the chart estimate.
    by_stage: Costs,
    /// In the diagram estimate.
    by_node: Costs,
}

const fn all(costs: Costs) -> Ticks {
    Ticks { search: costs, answer: costs, slice: costs, by_stage: costs, by_node: costs }
}

const SOUND: Ticks = all(each(UP));

const fn answered(answer: Costs) -> Ticks {
    Ticks { answer, ..SOUND }
}

const fn in_slice(slice: Costs) -> Ticks {
    Ticks { slice, ..SOUND }
}

const fn by_stage(by_stage: Costs) -> Ticks {
    Ticks { by_stage, ..SOUND }
}

const fn by_node(by_node: Costs) -> Ticks {
    Ticks { by_node, ..SOUND }
}

const fn by_both(costs: Costs) -> Ticks {
    Ticks { by_node: costs, ..by_stage(costs) }
}

impl Ticks {
    /// None where the files or the slices are refused.
    pub(super) fn sweep(
        &self,
        chart: &[u8],
        rules: &[u8],
        lent: &mut SweepSlices,
    ) -> Option<Answer> {
        let problem = accepted(chart, rules, &lent.work_lengths(), lent.plan.len())?;
        let searched = self.search.problem(&problem, chart);
        let answer = PLAIN.sweep_over(&searched, &mut lent.cost, &mut lent.plan);
        let costs = cost_slice(&self.slice.facts(&problem, chart));
        lent.cost[..costs.len()].copy_from_slice(&costs);
        Some(self.answered(&problem, chart, answer, &lent.plan))
    }

    /// None where the files or the slices are refused.
    pub(super) fn guided(
        &self,
        chart: &[u8],
        rules: &[u8],
        lent: &mut GuidedSlices,
    ) -> Option<Answer> {
        let problem = accepted(chart, rules, &lent.work_lengths(), lent.plan.len())?;
        let searched = self.search.problem(&problem, chart);
        let diagram_estimate = self.by_node.facts(&problem, chart).diagram_estimate;
        let estimates = Facts { diagram_estimate, ..self.by_stage.facts(&problem, chart) };
        let answer = PLAIN.guided_over(&searched, estimates, &mut lent.log, &mut lent.plan);
        Some(self.answered(&problem, chart, answer, &lent.plan))
    }

    fn answered(&self, problem: &Problem, chart: &[u8], answer: Answer, plan: &[u16]) -> Answer {
        let plan = &plan[..answer.length as usize];
        Answer { cost: self.answer.of_plan(problem, chart, plan), ..answer }
    }
}

/// A number rounded up to a multiple of another.
fn up_to(cost: u32, unit: u32) -> u32 {
    cost.div_ceil(unit) * unit
}

fn up(cost: u32) -> u32 {
    up_to(cost, TICK)
}

fn down(cost: u32) -> u32 {
    cost / TICK * TICK
}

/// Rounded up where it is so, else as it is.
fn up_if(is_so: bool, cost: u32) -> u32 {
    if is_so {
        up(cost)
    } else {
        cost
    }
}

const UP: OfStep = |step| up(step.cost);
const AS_IN_FILE: OfStep = |step| step.cost;
const DOWN: OfStep = |step| down(step.cost);
const NEAREST: OfStep = |step| down(step.cost + TICK / 2);
const ONE_TICK_MORE: OfStep = |step| down(step.cost) + TICK;
const ONE_TICK_LESS: OfStep = |step| up(step.cost).saturating_sub(TICK);
const IN_TICKS: OfStep = |step| up(step.cost) / TICK;
const TO_10: OfStep = |step| up_to(step.cost, 10);
const TO_25: OfStep = |step| up_to(step.cost, 25);
const TO_49: OfStep = |step| up_to(step.cost, 49);
const TO_51: OfStep = |step| up_to(step.cost, 51);
const TO_64: OfStep = |step| up_to(step.cost, 64);
const TO_100: OfStep = |step| up_to(step.cost, 100);
const ZERO_TO_A_TICK: OfStep = |step| up(step.cost.max(1));
const PLUS_48: OfStep = |step| down(step.cost + TICK - 2);
const BUT_1_ABOVE: OfStep = |step| up_if(step.cost % TICK != 1, step.cost);
const BUT_1_BELOW: OfStep = |step| up_if(step.cost % TICK != TICK - 1, step.cost);
const FIRST_STEP: OfStep = |step| up_if(step.number == 0, step.cost);
const BUT_FIRST_STEP: OfStep = |step| up_if(step.number > 0, step.cost);
const BUT_LAST_STEP: OfStep = |step| up_if(step.number + 1 < step.steps, step.cost);
const BELOW_1000: OfStep = |step| up_if(step.cost < 1_000, step.cost);
const FROM_1000: OfStep = |step| up_if(step.cost >= 1_000, step.cost);
const BUT_999951: OfStep = |step| up_if(step.cost != MAX_COST - TICK + 1, step.cost);
const BUT_TO_LIMIT: OfStep = |step| up_if(up(step.cost) < MAX_COST, step.cost);
const BY_RECIPROCAL: OfStep = |step| (((step.cost + TICK - 1) * 1_311) >> 16) * TICK;
const TICKS_OF_A_BYTE: OfStep = |step| up(step.cost) / TICK % 256 * TICK;
const LOW_BITS: OfStep = |step| (step.cost & !0xffff) + up(step.cost & 0xffff);
/// The plan is the cheapest as the file has it; what it costs is right.
const FOUND_AS_IN_FILE: Ticks = Ticks { search: each(AS_IN_FILE), ..SOUND };

const fn in_sweep(name: &'static str, ticks: Ticks) -> Sabotage {
    new(name, Spoil::SweepTicks(ticks))
}

const fn in_guided(name: &'static str, ticks: Ticks) -> Sabotage {
    new(name, Spoil::GuidedTicks(ticks))
}

pub(super) static TICKS: [Sabotage; 77] = [
    in_sweep("sweep-not-rounded", all(each(AS_IN_FILE))),
    in_guided("guided-not-rounded", all(each(AS_IN_FILE))),
    in_sweep("sweep-rounded-down", all(each(DOWN))),
    in_guided("guided-rounded-down", all(each(DOWN))),
    in_sweep("sweep-rounded-to-nearest", all(each(NEAREST))),
    in_guided("guided-rounded-to-nearest", all(each(NEAREST))),
    in_sweep("sweep-a-tick-more-for-whole-ticks", all(each(ONE_TICK_MORE))),
    in_guided("guided-a-tick-more-for-whole-ticks", all(each(ONE_TICK_MORE))),
    in_sweep("sweep-a-tick-less", all(each(ONE_TICK_LESS))),
    in_guided("guided-a-tick-less", all(each(ONE_TICK_LESS))),
    in_sweep("sweep-in-ticks", all(each(IN_TICKS))),
    in_guided("guided-in-ticks", all(each(IN_TICKS))),
    in_sweep("sweep-rounded-to-10", all(each(TO_10))),
    in_guided("guided-rounded-to-10", all(each(TO_10))),
    in_sweep("sweep-rounded-to-25", all(each(TO_25))),
    in_guided("guided-rounded-to-25", all(each(TO_25))),
    in_sweep("sweep-rounded-to-49", all(each(TO_49))),
    in_guided("guided-rounded-to-49", all(each(TO_49))),
    in_sweep("sweep-rounded-to-51", all(each(TO_51))),
    in_guided("guided-rounded-to-51", all(each(TO_51))),
    in_sweep("sweep-rounded-to-64", all(each(TO_64))),
    in_guided("guided-rounded-to-64", all(each(TO_64))),
    in_sweep("sweep-rounded-to-100", all(each(TO_100))),
    in_guided("guided-rounded-to-100", all(each(TO_100))),
    in_sweep("sweep-zero-costs-a-tick", all(each(ZERO_TO_A_TICK))),
    in_guided("guided-zero-costs-a-tick", all(each(ZERO_TO_A_TICK))),
    in_sweep("sweep-48-added", all(each(PLUS_48))),
    in_guided("guided-48-added", all(each(PLUS_48))),
    in_sweep("sweep-1-above-ticks-not-rounded", all(each(BUT_1_ABOVE))),
    in_guided("guided-1-above-ticks-not-rounded", all(each(BUT_1_ABOVE))),
    in_sweep("sweep-1-below-ticks-not-rounded", all(each(BUT_1_BELOW))),
    in_guided("guided-1-below-ticks-not-rounded", all(each(BUT_1_BELOW))),
    in_sweep("sweep-only-first-step-rounded", all(each(FIRST_STEP))),
    in_guided("guided-only-first-step-rounded", all(each(FIRST_STEP))),
    in_sweep("sweep-first-step-not-rounded", all(each(BUT_FIRST_STEP))),
    in_guided("guided-first-step-not-rounded", all(each(BUT_FIRST_STEP))),
    in_sweep("sweep-last-step-not-rounded", all(each(BUT_LAST_STEP))),
    in_guided("guided-last-step-not-rounded", all(each(BUT_LAST_STEP))),
    in_sweep("sweep-rounded-below-1000", all(each(BELOW_1000))),
    in_guided("guided-rounded-below-1000", all(each(BELOW_1000))),
    in_sweep("sweep-rounded-from-1000", all(each(FROM_1000))),
    in_guided("guided-rounded-from-1000", all(each(FROM_1000))),
    in_sweep("sweep-999951-not-rounded", all(each(BUT_999951))),
    in_guided("guided-999951-not-rounded", all(each(BUT_999951))),
    in_sweep("sweep-not-rounded-to-the-limit", all(each(BUT_TO_LIMIT))),
    in_guided("guided-not-rounded-to-the-limit", all(each(BUT_TO_LIMIT))),
    in_sweep("sweep-rounded-by-reciprocal", all(each(BY_RECIPROCAL))),
    in_guided("guided-rounded-by-reciprocal", all(each(BY_RECIPROCAL))),
    in_sweep("sweep-ticks-of-a-byte", all(each(TICKS_OF_A_BYTE))),
    in_guided("guided-ticks-of-a-byte", all(each(TICKS_OF_A_BYTE))),
    in_sweep("sweep-low-bits-rounded", all(each(LOW_BITS))),
    in_guided("guided-low-bits-rounded", all(each(LOW_BITS))),
    in_sweep("sweep-sums-rounded", all(SUMS_UP)),
    in_guided("guided-sums-rounded", all(SUMS_UP)),
    in_sweep("sweep-plan-found-as-in-file", FOUND_AS_IN_FILE),
    in_guided("guided-plan-found-as-in-file", FOUND_AS_IN_FILE),
    in_sweep("sweep-answer-not-rounded", answered(each(AS_IN_FILE))),
    in_guided("guided-answer-not-rounded", answered(each(AS_IN_FILE))),
    in_sweep("sweep-answer-rounded-at-the-end", answered(SUMS_UP)),
    in_guided("guided-answer-rounded-at-the-end", answered(SUMS_UP)),
    in_sweep("sweep-slice-not-rounded", in_slice(each(AS_IN_FILE))),
    in_sweep("sweep-slice-rounded-down", in_slice(each(DOWN))),
    in_sweep("sweep-slice-rounded-at-the-end", in_slice(SUMS_UP)),
    in_guided("chart-estimate-not-rounded", by_stage(each(AS_IN_FILE))),
    in_guided("chart-estimate-rounded-down", by_stage(each(DOWN))),
    in_guided("chart-estimate-rounded-to-nearest", by_stage(each(NEAREST))),
    in_guided("chart-estimate-rounded-at-the-end", by_stage(SUMS_UP)),
    in_guided("chart-estimate-a-tick-more", by_stage(each(ONE_TICK_MORE))),
    in_guided("diagram-estimate-not-rounded", by_node(each(AS_IN_FILE))),
    in_guided("diagram-estimate-rounded-down", by_node(each(DOWN))),
    in_guided("diagram-estimate-rounded-to-nearest", by_node(each(NEAREST))),
    in_guided("diagram-estimate-rounded-at-the-end", by_node(SUMS_UP)),
    in_guided("diagram-estimate-a-tick-more", by_node(each(ONE_TICK_MORE))),
    in_guided("estimates-not-rounded", by_both(each(AS_IN_FILE))),
    in_guided("estimates-rounded-down", by_both(each(DOWN))),
    in_guided("estimates-rounded-at-the-end", by_both(SUMS_UP)),
    in_guided("estimates-999951-not-rounded", by_both(each(BUT_999951))),
];

/// The limit judges something else; what passes by that costs what the limit allows.
fn judge(chart: &mut [u8], passes: fn(u32) -> bool) {
    change(chart, |step, _| {
        step.cost = match (passes(step.cost), step.cost <= MAX_COST) {
            (true, false) => MAX_COST,
            (false, true) => MAX_COST + 1,
            _ => step.cost,
        };
    });
}

/// Whether a number in ticks is within the limit.
fn few_ticks(ticks: u32) -> bool {
    ticks <= MAX_COST / TICK
}

pub(super) static LIMITS: [Sabotage; 8] = [
    new("limit-of-cost-rounded-down", Spoil::Chart(|c| judge(c, |cost| few_ticks(cost / TICK)))),
    new(
        "limit-of-cost-rounded-to-nearest",
        Spoil::Chart(|c| judge(c, |cost| few_ticks(cost.saturating_add(TICK / 2) / TICK))),
    ),
    new(
        "limit-of-cost-rounded-in-32-bits",
        Spoil::Chart(|c| judge(c, |cost| few_ticks(cost.wrapping_add(TICK - 1) / TICK))),
    ),
    new(
        "limit-of-ticks-of-16-bits",
        Spoil::Chart(|c| judge(c, |cost| few_ticks(cost.div_ceil(TICK) & 0xffff))),
    ),
    new("limit-a-tick-above", Spoil::Chart(|c| judge(c, |cost| cost <= MAX_COST + TICK))),
    new("limit-of-cost-with-49-added", Spoil::Chart(|c| judge(c, |cost| cost <= MAX_COST - 49))),
    new(
        "rounded-to-the-limit-is-11",
        Spoil::Chart(|c| judge(c, |cost| cost == MAX_COST || cost.div_ceil(TICK) < 20_000)),
    ),
    new("field-shows-rounded-cost", Spoil::Shown(round_shown)),
];

/// A whole step field at the front with its cost rounded.
fn round_shown(field: &mut [u8]) {
    let kind = STEP_KINDS.into_iter().find(|kind| field.first() == Some(&kind.tag));
    let whole = kind.and_then(|kind| field.get_mut(..HEADER + kind.length));
    let Some(whole) = whole else { return };
    let mut step = step_of(&whole[HEADER..]);
    step.cost = step.cost.checked_next_multiple_of(TICK).unwrap_or(0);
    whole[HEADER..].copy_from_slice(&step_field(step)[HEADER..]);
}

#[cfg(test)]
mod tests {
    use super::super::shown;
    use super::*;
    use crate::cases::{Case, Cases};

    static NO_SABOTAGE: [Sabotage; 2] = [in_sweep("none", SOUND), in_guided("none", SOUND)];

    fn cases() -> Vec<Case> {
        let cases = Cases::new(32);
        (cases.first_of_ticks()..cases.corners()).map(|number| cases.case(number)).collect()
    }

    #[test]
    fn the_right_costs_spoil_nothing() {
        shown::none(&cases(), &NO_SABOTAGE);
    }

    #[test]
    fn the_cases_of_ticks_alone_show_every_wrong_cost() {
        shown::all(&cases(), &TICKS);
    }
}
