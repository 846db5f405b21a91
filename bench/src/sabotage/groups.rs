//! Groups taken wrongly: in the walk through the diagram, in the diagram estimate, in plans, in what is read of
//! a step and of a node, in lists, conjunctions and reductions.

use std::collections::HashSet;

use super::conjunctions::{by as conjoined, Conjoiner, Three, SOUND as CONJOINER};
use super::lists::reading as listed;
use super::padding::{file, File};
use super::reductions::{by as reduced, operands, taken, SOUND as REDUCER};
use super::rows::{accepted, advancing, finishing, in_guided, in_sweep, Rows, SOUND as PLAIN};
use super::steps::{change, judged, make_whole, touch, Around, DEAR, ENDS, FALLS, SURPLUS};
use super::{new, Sabotage, Spoil, Test};
use crate::figures::groups::costs_by;
use crate::files::{
    is_padding, read_both, read_chart, read_diagram_by, read_three, step_field, step_of, Chart,
    Diagram, Node, Operands, Problem, Refusal, Step, CHART_FILE, DIAGRAM_FILE, FIRST_REMARK,
    GROUPED_STEP, HEADER, MAX_GROUP, STEP, STEP_KINDS,
};
use crate::generate::groups::renamed;
use crate::generate::mutate::fields;
use crate::generate::steps::{file_steps, step_places};
use crate::planner::{Answer, GuidedSlices};
use crate::reference::rules::advance;
use crate::reference::Facts;

/// A guided search by other diagram estimates; none where the files or the slices are refused.
pub(super) fn guided_by(
    estimates: fn(&Facts, &[Step]) -> Vec<Option<u32>>,
    chart: &[u8],
    rules: &[u8],
    lent: &mut GuidedSlices,
) -> Option<Answer> {
    let problem = accepted(chart, rules, &lent.work_lengths(), lent.plan.len())?;
    let facts = Facts::by_dynamic_programming(&problem);
    let diagram_estimate = estimates(&facts, &file_steps(chart));
    let estimates = Facts { diagram_estimate, ..facts };
    Some(PLAIN.guided_over(&problem, estimates, &mut lent.log, &mut lent.plan))
}

/// Estimates by other costs of groups.
fn by_costs(facts: &Facts, costs: &[Option<u32>]) -> Vec<Option<u32>> {
    facts.with_group_costs(costs).diagram_estimate
}

/// By another choice between the costs of a group's steps.
fn by_choice(facts: &Facts, choice: fn(u32, u32) -> u32) -> Vec<Option<u32>> {
    by_costs(facts, &costs_by(&facts.problem.chart, choice))
}

/// By the costs that are, with others for groups without steps.
fn by_gaps(facts: &Facts, gap: impl Fn(usize, &[Option<u32>]) -> Option<u32>) -> Vec<Option<u32>> {
    let costs = facts.problem.chart.group_costs();
    let of = |group: usize| costs[group].or_else(|| gap(group, &costs));
    by_costs(facts, &(0..costs.len()).map(of).collect::<Vec<_>>())
}

/// By what a node's estimate is made of: the cost of its group, if that has steps, and the estimates at lo
/// and hi.
fn by_node(
    facts: &Facts,
    of: fn(Option<u32>, Option<u32>, Option<u32>) -> Option<u32>,
) -> Vec<Option<u32>> {
    let costs = facts.problem.chart.group_costs();
    let mut estimates = vec![None, Some(0)];
    for node in &facts.problem.diagram.nodes {
        let (lo, hi) = (estimates[usize::from(node.lo)], estimates[usize::from(node.hi)]);
        estimates.push(of(costs[usize::from(node.step)], lo, hi));
    }
    estimates
}

/// The right estimate of a node.
fn smaller(cost: Option<u32>, lo: Option<u32>, hi: Option<u32>) -> Option<u32> {
    let taken = cost.zip(hi).map(|(cost, rest)| cost + rest);
    [lo, taken].into_iter().flatten().min()
}

/// The least cost among some of a group's steps, by their places in it.
fn by_some(facts: &Facts, such: impl Fn(usize) -> bool) -> Vec<Option<u32>> {
    let chart = &facts.problem.chart;
    let mut costs: Vec<Option<u32>> = vec![None; chart.groups()];
    let mut counts = vec![0; chart.groups()];
    for (step, number) in chart.steps.iter().zip(0..) {
        let group = usize::from(chart.group(number));
        if such(counts[group]) {
            costs[group] = Some(costs[group].map_or(step.cost, |known| known.min(step.cost)));
        }
        counts[group] += 1;
    }
    by_costs(facts, &costs)
}

/// The least cost among the steps that leave a reached stage.
fn by_reached(facts: &Facts) -> Vec<Option<u32>> {
    let chart = &facts.problem.chart;
    let is_reached = |stage: u16| {
        let row = usize::from(stage) * facts.references();
        facts.least[row..row + facts.references()].iter().any(Option::is_some)
    };
    let mut costs: Vec<Option<u32>> = vec![None; chart.groups()];
    for (step, number) in chart.steps.iter().zip(0..).filter(|(step, _)| is_reached(step.from)) {
        let least = &mut costs[usize::from(chart.group(number))];
        *least = Some(least.map_or(step.cost, |known| known.min(step.cost)));
    }
    by_costs(facts, &costs)
}

/// The costs of steps by their own numbers.
fn by_numbers(facts: &Facts) -> Vec<Option<u32>> {
    let steps = &facts.problem.chart.steps;
    by_costs(facts, &steps.iter().map(|step| Some(step.cost)).collect::<Vec<_>>())
}

/// The least cost in the file.
fn by_file(facts: &Facts, steps: &[Step]) -> Vec<Option<u32>> {
    let chart = facts.problem.chart.with_costs(|number, _| steps[number].cost);
    by_costs(facts, &chart.group_costs())
}

const fn estimated(name: &'static str, by: fn(&Facts, &[Step]) -> Vec<Option<u32>>) -> Sabotage {
    new(name, Spoil::Estimates(by))
}

/// As it should be, by another group than the step's.
fn by_group(problem: &Problem, node: u16, group: u16) -> u16 {
    advance(&problem.diagram, node, group)
}

fn is_first_of_group(chart: &Chart, step: u16) -> bool {
    step == 0 || chart.group(step - 1) != chart.group(step)
}

fn is_last_of_group(chart: &Chart, step: u16) -> bool {
    usize::from(step) + 1 == chart.steps.len() || is_first_of_group(chart, step + 1)
}

/// By steps' numbers, as if they were groups.
const BY_STEPS: Rows = advancing(by_group);
/// A step that is not the first of its group goes on from where one before it led.
const AGAIN: Rows = advancing(|problem, node, step| {
    let at = by_group(problem, node, problem.chart.group(step));
    match problem.diagram.inner(node) {
        Some(inner) if at == node && !is_first_of_group(&problem.chart, step) => inner.hi,
        _ => at,
    }
});
const ONLY_FIRST: Rows = advancing(|problem, node, step| {
    if is_first_of_group(&problem.chart, step) {
        by_group(problem, node, problem.chart.group(step))
    } else {
        node
    }
});
const ONLY_LAST: Rows = advancing(|problem, node, step| {
    if is_last_of_group(&problem.chart, step) {
        by_group(problem, node, problem.chart.group(step))
    } else {
        node
    }
});
const OF_A_BYTE: Rows =
    advancing(|problem, node, step| by_group(problem, node, problem.chart.group(step) & 0xff));
const ONE_HIGHER: Rows =
    advancing(|problem, node, step| by_group(problem, node, problem.chart.group(step) + 1));
/// Groups numbered as they come, without those that have no steps.
const WITHOUT_GAPS: Rows = advancing(|problem, node, step| {
    let groups: HashSet<u16> = (0..=step).map(|step| problem.chart.group(step)).collect();
    by_group(problem, node, groups.len() as u16 - 1)
});
/// A group without steps is there.
const GAPS_PRESENT: Rows = advancing(|problem, node, step| {
    let mut at = node;
    let group = problem.chart.group(step);
    while let Some(inner) = problem.diagram.inner(at).filter(|inner| inner.step < group) {
        at = if has_steps(&problem.chart, inner.step) { inner.lo } else { inner.hi };
    }
    by_group(problem, at, group)
});
/// The walk along lo ends at a group without steps.
const GAPS_STOP: Rows = advancing(|problem, node, step| {
    let mut at = node;
    let group = problem.chart.group(step);
    while let Some(inner) = problem.diagram.inner(at).filter(|inner| inner.step < group) {
        if !has_steps(&problem.chart, inner.step) {
            return at;
        }
        at = inner.lo;
    }
    by_group(problem, at, group)
});
/// Nodes before the group keep their place.
const NOT_PASSED: Rows = advancing(|problem, node, step| {
    let group = problem.chart.group(step);
    match problem.diagram.inner(node) {
        Some(inner) if inner.step < group && !is_first_of_group(&problem.chart, step) => node,
        _ => by_group(problem, node, group),
    }
});
/// A later group is taken for the one that comes.
const NEXT_GROUP: Rows = advancing(|problem, node, step| {
    let group = problem.chart.group(step);
    let mut later = problem.chart.steps[usize::from(step)..].iter().filter_map(|step| step.group);
    by_group(problem, node, later.find(|other| *other > group).unwrap_or(group))
});
/// Finishing, a group without steps is there.
const GAPS_AT_END: Rows = finishing(|problem, node| {
    let mut at = node;
    while let Some(inner) = problem.diagram.inner(at) {
        at = if has_steps(&problem.chart, inner.step) { inner.lo } else { inner.hi };
    }
    at == 1
});

fn has_steps(chart: &Chart, group: u16) -> bool {
    (0..chart.steps.len() as u16).any(|step| chart.group(step) == group)
}

const fn in_sweeps_plan(name: &'static str, spoil: super::SpoilPlan) -> Sabotage {
    new(name, Spoil::SweptPlan(spoil))
}

const fn in_guided_plan(name: &'static str, spoil: super::SpoilPlan) -> Sabotage {
    new(name, Spoil::GuidedPlan(spoil))
}

fn groups_for_steps(chart: &Chart, plan: &mut [u16]) {
    plan.iter_mut().for_each(|step| *step = chart.group(*step));
}

fn first_of_groups(chart: &Chart, plan: &mut [u16]) {
    for step in plan {
        let group = chart.group(*step);
        *step = (0..*step).find(|other| chart.group(*other) == group).unwrap_or(*step);
    }
}

/// The number of different groups in a plan.
fn different(chart: &Chart, plan: &[u16]) -> u32 {
    chart.groups_of(plan).into_iter().collect::<HashSet<u16>>().len() as u32
}

/// What steps cost beyond the first one of their group in a plan.
fn cost_of_more(chart: &Chart, plan: &[u16]) -> u32 {
    let mut known = HashSet::new();
    let more = plan.iter().filter(|step| !known.insert(chart.group(**step)));
    more.map(|step| chart.steps[usize::from(*step)].cost).sum()
}

pub(super) static GROUPS: [Sabotage; 44] = [
    estimated("estimate-largest-of-group", |f, _| by_choice(f, u32::max)),
    estimated("estimate-first-of-group", |f, _| by_choice(f, |known, _| known)),
    estimated("estimate-last-of-group", |f, _| by_choice(f, |_, cost| cost)),
    estimated("estimate-sum-of-group", |f, _| by_choice(f, |known, cost| known + cost)),
    estimated("estimate-of-group-not-rounded", by_file),
    estimated("estimate-of-group-by-step-number", |f, _| by_numbers(f)),
    estimated("estimate-of-first-two-of-group", |f, _| by_some(f, |at| at < 2)),
    estimated("estimate-without-first-of-group", |f, _| by_some(f, |at| at > 0)),
    estimated("estimate-of-reached-steps-of-group", |f, _| by_reached(f)),
    estimated("estimate-gap-free", |f, _| by_gaps(f, |_, _| Some(0))),
    estimated("estimate-gap-of-group-before", |f, _| {
        by_gaps(f, |gap, costs| costs[..gap].iter().rev().flatten().next().copied())
    }),
    estimated("estimate-gap-of-step-number", |f, _| {
        by_gaps(f, |gap, _| f.problem.chart.steps.get(gap).map(|step| step.cost))
    }),
    estimated("estimate-gap-none-is-0", |f, _| {
        by_node(f, |cost, lo, hi| match cost {
            None => lo.or(Some(0)),
            _ => smaller(cost, lo, hi),
        })
    }),
    estimated("estimate-gap-without-lo-is-hi", |f, _| {
        by_node(f, |cost, lo, hi| match cost {
            None => lo.or(hi),
            _ => smaller(cost, lo, hi),
        })
    }),
    estimated("estimate-gap-is-hi", |f, _| {
        by_node(f, |cost, lo, hi| match cost {
            None => hi,
            _ => smaller(cost, lo, hi),
        })
    }),
    estimated("estimate-gap-is-none", |f, _| {
        by_node(f, |cost, lo, hi| smaller(cost, lo, hi).filter(|_| cost.is_some()))
    }),
    estimated("estimate-gap-is-0", |f, _| {
        by_node(f, |cost, lo, hi| match cost {
            None => Some(0),
            _ => smaller(cost, lo, hi),
        })
    }),
    estimated("estimate-none-at-lo-is-none", |f, _| {
        by_node(f, |cost, lo, hi| lo.and(smaller(cost, lo, hi)))
    }),
    in_sweep("sweep-by-step-numbers", BY_STEPS),
    in_guided("guided-by-step-numbers", BY_STEPS),
    in_sweep("sweep-group-advances-again", AGAIN),
    in_guided("guided-group-advances-again", AGAIN),
    in_sweep("sweep-first-of-group-alone", ONLY_FIRST),
    in_guided("guided-first-of-group-alone", ONLY_FIRST),
    in_sweep("sweep-last-of-group-alone", ONLY_LAST),
    in_guided("guided-last-of-group-alone", ONLY_LAST),
    in_sweep("sweep-group-of-a-byte", OF_A_BYTE),
    in_guided("guided-group-of-a-byte", OF_A_BYTE),
    in_sweep("sweep-group-one-higher", ONE_HIGHER),
    in_guided("guided-group-one-higher", ONE_HIGHER),
    in_sweep("sweep-groups-without-gaps", WITHOUT_GAPS),
    in_guided("guided-groups-without-gaps", WITHOUT_GAPS),
    in_sweep("sweep-gaps-present", GAPS_PRESENT),
    in_guided("guided-gaps-present", GAPS_PRESENT),
    in_sweep("sweep-gaps-stop-the-walk", GAPS_STOP),
    in_guided("guided-next-group", NEXT_GROUP),
    in_sweep("sweep-not-passed-again", NOT_PASSED),
    in_sweep("sweep-gaps-present-at-the-end", GAPS_AT_END),
    in_guided("guided-gaps-present-at-the-end", GAPS_AT_END),
    in_sweeps_plan("sweep-plan-of-groups", |chart, _, plan| groups_for_steps(chart, plan)),
    in_guided_plan("guided-plan-of-groups", |chart, _, plan| groups_for_steps(chart, plan)),
    in_guided_plan("guided-plan-of-first-of-groups", |chart, _, plan| first_of_groups(chart, plan)),
    in_sweeps_plan("sweep-length-in-groups", |chart, a, plan| a.length = different(chart, plan)),
    in_guided_plan("guided-group-costs-once", |chart, a, plan| a.cost -= cost_of_more(chart, plan)),
];

const GROUP: Test = |faults| faults.group();
const HIGH: Test = |faults| faults.high_group;
const LOW: Test = |faults| faults.low_group;

/// A group that is 14 wherever it stands.
const BEYOND: u16 = MAX_GROUP + 1;

/// Changes the group of every step that has one.
fn regroup(chart: &mut [u8], group: impl Fn(u16, Around, &Step) -> u16) {
    change(chart, |step, around| {
        step.group = step.group.map(|known| group(known, around, step));
    });
}

fn unless_falling(group: u16, around: Around) -> u16 {
    group.max(around.group_before.filter(|before| *before <= MAX_GROUP).unwrap_or(0))
}

/// The field of the other kind that a chart is refused for.
fn other_kind(chart: &[u8]) -> Option<std::ops::Range<usize>> {
    let Err(Refusal { number: 2, place, .. }) = read_chart(chart) else { return None };
    let is_step = STEP_KINDS.iter().any(|kind| chart.get(place) == Some(&kind.tag));
    let before = read_chart(&chart[..place]).ok().filter(|before| !before.steps.is_empty());
    let field = fields(chart).into_iter().find(|(from, _)| *from == place)?;
    (is_step && before.is_some()).then_some(field.0..field.1)
}

/// Every whole step becomes one of the first step's kind, where such a step or any may.
fn take_others(chart: &mut Vec<u8>, such: fn(bool) -> bool) {
    let Some(other) = other_kind(chart) else { return };
    if !such(chart[other.start] == GROUPED_STEP.tag) {
        return;
    }
    let places = step_places(chart);
    let Some(first) = places.first().map(|place| chart[place.start]) else { return };
    let mut group = 0;
    let mut bytes = chart[..places[0].start].to_vec();
    let mut done = places[0].start;
    for place in places {
        bytes.extend(&chart[done..place.start]);
        let step = step_of(&chart[place.clone()][HEADER..]);
        group = step.group.unwrap_or(group);
        let is_grouped = first == GROUPED_STEP.tag;
        bytes.extend(step_field(Step { group: is_grouped.then_some(group), ..step }));
        done = place.end;
    }
    bytes.extend(&chart[done..]);
    if read_chart(&bytes).is_ok() {
        *chart = bytes;
    }
}

/// A field of the other kind gets the tag of the right one, where that has such a length.
fn retag_other(chart: &mut [u8], such: fn(usize, usize) -> bool) {
    let Some(other) = other_kind(chart).filter(|other| other.len() >= HEADER) else { return };
    let at = usize::from(chart[other.start] == GROUPED_STEP.tag);
    let claimed = usize::from(u16::from_le_bytes([chart[other.start + 1], chart[other.start + 2]]));
    if such(claimed, STEP_KINDS[at].length) && claimed != STEP_KINDS[1 - at].length {
        chart[other.start] = STEP_KINDS[1 - at].tag;
    }
}

/// A field of the other kind that is cut is refused for that.
fn cut_other(chart: &mut Vec<u8>) {
    let Some(other) = other_kind(chart).filter(|other| other.end == chart.len()) else { return };
    let at = usize::from(chart[other.start] == GROUPED_STEP.tag);
    if (HEADER..HEADER + STEP_KINDS[at].length).contains(&other.len()) {
        let header = [STEP_KINDS[1 - at].tag, STEP_KINDS[1 - at].length as u8, 0];
        chart[other.start..other.start + HEADER].copy_from_slice(&header);
        chart.truncate(other.start + HEADER);
    }
}

/// A first step of another kind than the second is taken as one of that.
fn take_first_as_second(chart: &mut Vec<u8>) {
    let places = step_places(chart);
    let [first, second, ..] = &places[..] else { return };
    if other_kind(chart).is_some_and(|other| other.start == second.start) {
        let step = step_of(&chart[first.clone()][HEADER..]);
        let group = step.group.is_none().then_some(0);
        let changed = step_field(Step { group, ..step });
        chart.splice(first.clone(), changed);
    }
}

/// A remark that has a step's tag but for its first bit fixes the kind: the first step has no right tag.
fn fix_by_remark(chart: &mut [u8]) {
    let places = fields(chart);
    let tags = STEP_KINDS.map(|kind| kind.tag);
    let first =
        places.iter().skip(1).find(|place| tags.contains(&(chart[place.0] & !FIRST_REMARK)));
    let step = places.iter().skip(1).find(|place| tags.contains(&chart[place.0]));
    if let (Some(first), Some(step)) = (first, step) {
        if chart[first.0] & !FIRST_REMARK != chart[step.0] {
            chart[step.0] = 0x7f;
        }
    }
}

/// The first field of a kind, where it is the first step, is refused.
fn refuse_first(chart: &mut [u8], tag: u8) {
    let places = fields(chart);
    let mut behind = places.iter().skip(1).filter(|place| chart[place.0] < FIRST_REMARK);
    if let Some((from, _)) = behind.next().copied().filter(|place| chart[place.0] == tag) {
        chart[from] = 0x7f;
    }
}

/// A first step with the length of the other kind passes.
fn take_length(chart: &mut Vec<u8>, tag: u8) {
    let Err(Refusal { number: 3, place, .. }) = read_chart(chart) else { return };
    let at = usize::from(tag == GROUPED_STEP.tag);
    let (own, other) = (STEP_KINDS[at], STEP_KINDS[1 - at]);
    let Some((from, to)) = fields(chart).into_iter().find(|(from, _)| *from == place) else {
        return;
    };
    if chart[place] != tag || to - from != HEADER + other.length {
        return;
    }
    let mut body = chart[from + HEADER..to].to_vec();
    body.resize(own.length, 0);
    let field = [&[own.tag, own.length as u8, 0][..], &body].concat();
    chart.splice(from..to, field);
}

/// A chart without groups beyond their limits.
fn with_right_groups(chart: &[u8]) -> Vec<u8> {
    let mut changed = chart.to_vec();
    let mut least = 0;
    for place in
        step_places(chart).into_iter().filter(|place| chart[place.start] == GROUPED_STEP.tag)
    {
        let known = u16::from_le_bytes([chart[place.end - 2], chart[place.end - 1]]);
        let group = if known > MAX_GROUP || known < least { least } else { known };
        changed[place.end - 2..place.end].copy_from_slice(&group.to_le_bytes());
        least = group;
    }
    changed
}

/// A group counts only where the chart has no other fault.
fn judge_groups_last(chart: &mut Vec<u8>) {
    let changed = with_right_groups(chart);
    if read_chart(&changed).is_err() {
        *chart = changed;
    }
}

/// A group counts only where neither file has another fault.
fn judge_groups_after_rules(chart: &mut Vec<u8>, rules: &[u8]) {
    let changed = with_right_groups(chart);
    if read_both(&changed, rules).is_err_and(|fault| fault.file == DIAGRAM_FILE) {
        *chart = changed;
    }
}

/// Nodes name groups below another number.
fn below(file: File, groups: impl Fn(&Chart) -> usize) -> Result<Diagram, Refusal> {
    read_diagram_by(file.bytes, file.mark, groups(file.chart), is_padding)
}

/// Nodes name groups of steps alone.
fn with_steps(file: File) -> Result<Diagram, Refusal> {
    let read = file.sound()?;
    let is_gap = |node: &Node| !has_steps(file.chart, node.step);
    match read.nodes.iter().position(is_gap) {
        None => Ok(read),
        Some(at) => {
            // The place of the node among fields that are no remarks.
            let nodes = fields(file.bytes).into_iter().skip(1);
            let nodes = nodes.filter(|(from, _)| file.bytes[*from] < FIRST_REMARK);
            let place = nodes.map(|(from, _)| from).nth(at).unwrap_or(0);
            Err(Refusal { number: 6, file: file.mark, place })
        }
    }
}

fn of_groups_with_steps(chart: &Chart) -> usize {
    chart.group_costs().iter().flatten().count()
}

pub(super) static READINGS: [Sabotage; 66] = [
    judged("14-before-11", &[(SURPLUS, 5), (ENDS, 10), (FALLS, 5), (GROUP, 14), (DEAR, 11)]),
    judged("14-before-10", &[(SURPLUS, 5), (GROUP, 14), (ENDS, 10), (FALLS, 5), (DEAR, 11)]),
    judged(
        "14-before-falling-from",
        &[(SURPLUS, 5), (ENDS, 10), (GROUP, 14), (FALLS, 5), (DEAR, 11)],
    ),
    judged("14-before-1025th", &[(GROUP, 14), (SURPLUS, 5), (ENDS, 10), (FALLS, 5), (DEAR, 11)]),
    judged(
        "14-high-before-11",
        &[(SURPLUS, 5), (ENDS, 10), (FALLS, 5), (HIGH, 14), (DEAR, 11), (LOW, 14)],
    ),
    judged(
        "14-low-before-11",
        &[(SURPLUS, 5), (ENDS, 10), (FALLS, 5), (LOW, 14), (DEAR, 11), (HIGH, 14)],
    ),
    judged("5-for-14", &[(SURPLUS, 5), (ENDS, 10), (FALLS, 5), (DEAR, 11), (GROUP, 5)]),
    judged(
        "5-for-falling-group",
        &[(SURPLUS, 5), (ENDS, 10), (FALLS, 5), (DEAR, 11), (LOW, 5), (HIGH, 14)],
    ),
    judged(
        "6-for-high-group",
        &[(SURPLUS, 5), (ENDS, 10), (FALLS, 5), (DEAR, 11), (HIGH, 6), (LOW, 14)],
    ),
    judged("11-for-14", &[(SURPLUS, 5), (ENDS, 10), (FALLS, 5), (DEAR, 11), (GROUP, 11)]),
    judged("14-and-11-exchanged", &[(SURPLUS, 5), (ENDS, 10), (FALLS, 5), (DEAR, 14), (GROUP, 11)]),
    judged(
        "14-for-1025th-with-group",
        &[(|f| f.surplus && f.group(), 14), (SURPLUS, 5), (ENDS, 10), (FALLS, 5), (DEAR, 11)],
    ),
    new("14-after-all-steps", Spoil::Chart(judge_groups_last)),
    new("14-after-diagram", Spoil::Files(|chart, rules| judge_groups_after_rules(chart, rules))),
    new("14-before-length", Spoil::Chart(|chart| make_whole(chart, 3, GROUP))),
    new("14-never", Spoil::Chart(|chart| *chart = with_right_groups(chart))),
    new("14-at-place-0", Spoil::Answer(|a| a.place *= usize::from(a.number != 14))),
    new("14-at-its-group", Spoil::Answer(|a| a.place += 11 * usize::from(a.number == 14))),
    new(
        "14-at-step-before",
        Spoil::Answer(|a| a.place -= 13 * usize::from(a.number == 14 && a.place > 9)),
    ),
    new("14-without-file", Spoil::Answer(|a| a.file *= u32::from(a.number != 14))),
    new("14-with-count", Spoil::Answer(|a| a.count += u32::from(a.number == 14))),
    new("14-touches-cost", Spoil::Sweep(|a, s| touch(a, 14, &mut s.cost))),
    new("14-touches-log", Spoil::Guided(|a, s| touch(a, 14, &mut s.log))),
    new("14-touches-plan", Spoil::Guided(|a, s| touch(a, 14, &mut s.plan))),
    new("14-with-space", Spoil::Space(|s| s.work += usize::from(s.number == 14))),
    new(
        "group-1023-is-14",
        Spoil::Chart(|c| regroup(c, |g, _, _| if g == MAX_GROUP { BEYOND } else { g })),
    ),
    new(
        "group-1024-passes",
        Spoil::Chart(|c| regroup(c, |g, _, _| if g == BEYOND { MAX_GROUP } else { g })),
    ),
    new(
        "group-65535-passes",
        Spoil::Chart(|c| regroup(c, |g, _, _| if g == u16::MAX { MAX_GROUP } else { g })),
    ),
    new("group-of-a-byte", Spoil::Chart(|c| regroup(c, |g, _, _| g & 0xff))),
    new("group-of-ten-bits", Spoil::Chart(|c| regroup(c, |g, _, _| g & MAX_GROUP))),
    new("group-of-its-high-byte", Spoil::Chart(|c| regroup(c, |g, _, _| g >> 8))),
    new("group-high-byte-first", Spoil::Chart(|c| regroup(c, |g, _, _| g.swap_bytes()))),
    new(
        "group-with-sign",
        Spoil::Chart(|c| {
            regroup(c, |g, around, _| if g >= 0x8000 { unless_falling(0, around) } else { g })
        }),
    ),
    new(
        "group-in-high-bytes-of-cost",
        Spoil::Chart(|c| regroup(c, |_, _, step| (step.cost >> 16) as u16)),
    ),
    new("group-in-place-of-to", Spoil::Chart(|c| regroup(c, |_, _, step| step.to))),
    new(
        "falling-group-passes",
        Spoil::Chart(|c| regroup(c, |g, around, _| unless_falling(g, around))),
    ),
    new(
        "group-above-first-passes",
        Spoil::Chart(|c| {
            regroup(
                c,
                |g, around, _| {
                    if Some(g) >= around.first_group {
                        unless_falling(g, around)
                    } else {
                        g
                    }
                },
            );
        }),
    ),
    new(
        "equal-group-is-14",
        Spoil::Chart(|c| {
            regroup(c, |g, around, _| if Some(g) == around.group_before { BEYOND } else { g })
        }),
    ),
    new(
        "group-a-step-higher-is-14",
        Spoil::Chart(|c| {
            regroup(c, |g, around, _| {
                if around.group_before.is_some_and(|before| g > before.saturating_add(1)) {
                    BEYOND
                } else {
                    g
                }
            });
        }),
    ),
    new(
        "first-group-not-0-is-14",
        Spoil::Chart(|c| {
            regroup(c, |g, around, _| if around.number == 0 && g > 0 { BEYOND } else { g })
        }),
    ),
    new(
        "group-above-number-is-14",
        Spoil::Chart(|c| regroup(c, |g, around, _| if g > around.number { BEYOND } else { g })),
    ),
    new("other-kind-passes", Spoil::Chart(|chart| take_others(chart, |_| true))),
    new(
        "group-behind-others-passes",
        Spoil::Chart(|chart| take_others(chart, |is_grouped| is_grouped)),
    ),
    new(
        "step-behind-groups-passes",
        Spoil::Chart(|chart| take_others(chart, |is_grouped| !is_grouped)),
    ),
    new(
        "other-kind-passed-over",
        Spoil::Chart(|chart| {
            while let Some(other) = other_kind(chart) {
                chart[other.start] |= FIRST_REMARK;
            }
        }),
    ),
    new(
        "other-kind-of-wrong-length-is-3",
        Spoil::Chart(|chart| retag_other(chart, |claimed, own| claimed != own)),
    ),
    new("other-kind-cut-is-1", Spoil::Chart(cut_other)),
    new("other-kind-is-3", Spoil::Chart(|chart| retag_other(chart, |_, _| true))),
    new(
        "other-kind-is-14",
        Spoil::Answer(|a| {
            // The tag alone does not tell; each foreign tag is taken so.
            a.number =
                if a.number == 2 && a.file == CHART_FILE && a.place > 9 { 14 } else { a.number };
        }),
    ),
    new("kind-by-second-step", Spoil::Chart(take_first_as_second)),
    new("kind-by-remark", Spoil::Chart(|chart| fix_by_remark(chart))),
    new("groups-unknown", Spoil::Chart(|chart| refuse_first(chart, GROUPED_STEP.tag))),
    new("groups-alone", Spoil::Chart(|chart| refuse_first(chart, STEP.tag))),
    new("group-of-length-8-passes", Spoil::Chart(|chart| take_length(chart, GROUPED_STEP.tag))),
    new("step-of-length-10-passes", Spoil::Chart(|chart| take_length(chart, STEP.tag))),
    new(
        "field-of-11-bytes",
        Spoil::Field(|length, place| {
            *length -= if *length == 13 && place < 1 << 20 { 2 } else { 0 };
        }),
    ),
    new(
        "field-without-group",
        Spoil::Shown(|field| {
            if let [3, 10, 0, .., low, high] = field {
                (*low, *high) = (0, 0);
            }
        }),
    ),
    file("highest-group-is-6", |f| {
        below(f, |chart| if chart.is_grouped() { chart.groups() - 1 } else { chart.groups() })
    }),
    file("group-above-highest-passes", |f| {
        below(f, |chart| chart.groups() + usize::from(chart.is_grouped()))
    }),
    file("groups-up-to-step-count", |f| below(f, |chart| chart.steps.len())),
    file("groups-up-to-1023", |f| {
        below(f, |chart| if chart.is_grouped() { 1_024 } else { chart.groups() })
    }),
    file("groups-up-to-their-count", |f| below(f, of_groups_with_steps)),
    file("groups-up-to-first", |f| {
        below(f, |chart| {
            chart.steps.first().map_or(0, |step| {
                usize::from(step.group.map_or(chart.steps.len() as u16, |g| g + 1))
            })
        })
    }),
    file("groups-up-to-step-count-at-least", |f| {
        below(f, |chart| chart.groups().max(chart.steps.len()))
    }),
    file("gap-is-6", with_steps),
    file("group-0-without-steps-passes", |f| below(f, |chart| chart.groups().max(1))),
];

/// With each step a group alone.
fn without_groups(chart: &[u8], rules: &[u8]) -> Result<Problem, Refusal> {
    let Problem { chart, diagram } = read_both(chart, rules)?;
    Ok(Problem { chart: chart.with_groups(|_| None), diagram })
}

/// Only charts without groups are taken.
fn refused(chart: &[u8]) -> Option<Refusal> {
    let read = read_chart(chart).ok().filter(Chart::is_grouped);
    let place = fields(chart).into_iter().skip(1).find(|(from, _)| chart[*from] < FIRST_REMARK)?;
    read.map(|_| Refusal { number: 2, file: CHART_FILE, place: place.0 })
}

/// With groups numbered anew, without gaps; nodes that name a gap never take their hi.
fn dense(Problem { chart, diagram }: Problem) -> Problem {
    let costs = chart.group_costs();
    let number = |group: u16| costs[..usize::from(group)].iter().flatten().count() as u16;
    let names: Vec<u16> = (0..costs.len() as u16).map(number).collect();
    let diagram = renamed(&diagram, &names);
    Problem { chart: chart.with_groups(|at| Some(number(chart.group(at as u16)))), diagram }
}

/// Nodes may name steps' numbers alone.
fn below_steps(
    chart: &[u8],
    rules: &[u8],
    is_13: fn(&[Node], Node) -> bool,
) -> Result<Problem, Refusal> {
    let chart = read_chart(chart)?;
    let diagram = read_diagram_by(rules, DIAGRAM_FILE, chart.steps.len(), is_13)?;
    Ok(Problem { chart, diagram })
}

pub(super) static LISTS: [Sabotage; 5] = [
    listed("cycles-without-groups", without_groups),
    listed("cycles-groups-unknown", |chart, rules| {
        refused(chart).map_or_else(|| read_both(chart, rules), Err)
    }),
    listed("cycles-14-passes", |chart, rules| read_both(&with_right_groups(chart), rules)),
    listed("cycles-groups-without-gaps", |chart, rules| read_both(chart, rules).map(dense)),
    listed("cycles-groups-up-to-step-count", |chart, rules| below_steps(chart, rules, is_padding)),
];

/// Nodes of groups without steps lead to lo alone, or to hi alone.
fn without_gaps(chart: &Chart, diagram: &mut Diagram, child: fn(&Node) -> u16) {
    let costs = chart.group_costs();
    for node in diagram.nodes.iter_mut().filter(|node| costs[usize::from(node.step)].is_none()) {
        (node.lo, node.hi) = (child(node), child(node));
    }
}

fn all_without_gaps(
    operands: Result<Operands, Refusal>,
    child: fn(&Node) -> u16,
) -> Result<Operands, Refusal> {
    let Operands { chart, mut first, mut second } = operands?;
    without_gaps(&chart, &mut first, child);
    without_gaps(&chart, &mut second, child);
    Ok(Operands { chart, first, second })
}

fn three([chart, rules, more]: Three) -> Result<Operands, Refusal> {
    read_three(chart, rules, more)
}

/// The first step of each group stands for it.
fn steps_for_groups(operands: &Operands, mut made: Diagram) -> Diagram {
    let chart = &operands.chart;
    for node in &mut made.nodes {
        let first = (0..chart.steps.len() as u16).find(|step| chart.group(*step) == node.step);
        node.step = first.unwrap_or(node.step);
    }
    made
}

/// Groups numbered without gaps.
fn dense_groups(operands: &Operands, mut made: Diagram) -> Diagram {
    let costs = operands.chart.group_costs();
    for node in &mut made.nodes {
        node.step = costs[..usize::from(node.step)].iter().flatten().count() as u16;
    }
    made
}

fn unknown(
    files: Three,
    read: fn(Three) -> Result<Operands, Refusal>,
) -> Result<Operands, Refusal> {
    refused(files[0]).map_or_else(|| read(files), Err)
}

fn three_of_right_groups([chart, rules, more]: Three) -> Result<Operands, Refusal> {
    read_three(&with_right_groups(chart), rules, more)
}

pub(super) static CONJUNCTIONS: [Sabotage; 6] = [
    conjoined(
        "conjoin-gaps-dropped",
        Conjoiner { read: |files| all_without_gaps(three(files), |node| node.lo), ..CONJOINER },
    ),
    conjoined(
        "conjoin-gaps-present",
        Conjoiner { read: |files| all_without_gaps(three(files), |node| node.hi), ..CONJOINER },
    ),
    conjoined(
        "conjoin-writes-steps-for-groups",
        Conjoiner { changed: steps_for_groups, ..CONJOINER },
    ),
    conjoined("conjoin-groups-without-gaps", Conjoiner { changed: dense_groups, ..CONJOINER }),
    conjoined(
        "conjoin-groups-unknown",
        Conjoiner { read: |files| unknown(files, three), ..CONJOINER },
    ),
    conjoined("conjoin-14-passes", Conjoiner { read: three_of_right_groups, ..CONJOINER }),
];

pub(super) static REDUCTIONS: [Sabotage; 7] = [
    reduced(
        "reduce-gaps-dropped",
        Conjoiner { read: |files| all_without_gaps(taken(files), |node| node.lo), ..REDUCER },
    ),
    reduced(
        "reduce-gaps-present",
        Conjoiner { read: |files| all_without_gaps(taken(files), |node| node.hi), ..REDUCER },
    ),
    reduced("reduce-writes-steps-for-groups", Conjoiner { changed: steps_for_groups, ..REDUCER }),
    reduced("reduce-groups-without-gaps", Conjoiner { changed: dense_groups, ..REDUCER }),
    reduced("reduce-groups-unknown", Conjoiner { read: |files| unknown(files, taken), ..REDUCER }),
    reduced(
        "reduce-groups-up-to-step-count",
        Conjoiner {
            read: |[chart, rules, _]| below_steps(chart, rules, |_, _| false).map(operands),
            ..REDUCER
        },
    ),
    reduced(
        "reduce-14-passes",
        Conjoiner {
            read: |[chart, rules, more]| taken([&with_right_groups(chart), rules, more]),
            ..REDUCER
        },
    ),
];

#[cfg(test)]
mod tests {
    use super::super::shown;
    use super::*;
    use crate::cases::{Case, Cases};
    use crate::generate::groups::systematic;

    static RIGHT_ESTIMATES: [Sabotage; 3] = [
        estimated("none", |f, _| by_choice(f, u32::min)),
        estimated("none", |f, _| by_node(f, smaller)),
        estimated("none", |f, _| by_some(f, |_| true)),
    ];
    static RIGHT_ORDER: [Sabotage; 2] = [
        judged("none", &[(SURPLUS, 5), (ENDS, 10), (FALLS, 5), (DEAR, 11), (GROUP, 14)]),
        new("none", Spoil::Chart(|c| regroup(c, |g, _, _| g))),
    ];

    fn cases() -> Vec<Case> {
        let cases = Cases::new(33);
        (cases.first_of_groups()..cases.corners()).map(|number| cases.case(number)).collect()
    }

    #[test]
    fn the_right_estimates_spoil_nothing() {
        shown::none(&cases(), &RIGHT_ESTIMATES);
    }

    #[test]
    fn the_right_order_of_the_tests_spoils_nothing() {
        let files = systematic().into_iter().step_by(3);
        let cases = files.map(|files| Case::new("test", files, 1));
        shown::none(&cases.collect::<Vec<_>>(), &RIGHT_ORDER);
    }

    #[test]
    fn the_cases_of_groups_alone_show_every_wrong_group() {
        shown::all(&cases(), &GROUPS);
    }
}
