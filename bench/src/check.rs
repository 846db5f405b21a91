//! Holds what a call returned and wrote against every rule of docs/REFERENCE.md that speaks of it.
//! An error text names the section and the rule that fails.

pub mod conjunction;
pub mod cycles;
pub(crate) mod log;

use std::fmt::Display;

use crate::planner::{Answer, GuidedSlices, Space, SweepSlices};
use crate::reference::rules::verdict;
use crate::reference::ways::{cost_of, is_plan, set_of};
use crate::reference::{self, Expected, Facts, Judged};

pub type Checked = Result<(), String>;

const AT: &str =
    "3.1: the file of the field at fault and where the field begins, 0 and 0 without one";
const LEFT: &str = "3.3: after every refusal but 8 every slice stays";
const PLAN_LEFT: &str = "3.3: after refusal 8 the plan slice stays";
const STAY: &str = "7.1, 8.1: what lies behind the used part of a slice stays";
const PLAN_HELD: &str = "7.1: the plan slice begins with the steps of a legal plan, the rest stays";
const COST_SLICE: &str = "7.1: cost has each reached pair's least cost, 4,294,967,295 elsewhere";

/// Fails with the rule and what was found instead, where `holds` is false.
fn demand(holds: bool, rule: &str, found: impl FnOnce() -> String) -> Checked {
    if holds {
        return Ok(());
    }
    Err(format!("\"{rule}\": {}", found()))
}

/// The first entry at which two lists differ, in words; those before `from` are not looked at.
fn first_difference<T: PartialEq + Display>(
    name: &str,
    from: usize,
    want: &[T],
    found: &[T],
) -> String {
    let mut entries = want.iter().zip(found).enumerate().skip(from);
    match entries.find(|(_, (want, found))| want != found) {
        Some((at, (want, found))) => format!("{name}[{at}] is {found} and not {want}"),
        None => format!("{name} has {} entries and not {}", found.len(), want.len()),
    }
}

/// Demands that two lists are equal.
fn same<T: PartialEq + Display>(rule: &str, name: &str, want: &[T], found: &[T]) -> Checked {
    same_from(0, rule, name, want, found)
}

/// Demands that two lists are equal from an entry on.
fn same_from<T: PartialEq + Display>(
    from: usize,
    rule: &str,
    name: &str,
    want: &[T],
    found: &[T],
) -> Checked {
    let equal = want[from..] == found[from..];
    demand(equal, rule, || first_difference(name, from, want, found))
}

/// Checks a sweep.
pub fn sweep(
    judged: &Judged,
    before: &SweepSlices,
    after: &SweepSlices,
    answer: Answer,
) -> Checked {
    let work = before.work_lengths();
    let expected = reference::sweep_answer(judged, &work, before.plan.len());
    check_answer(&expected, answer, "7.2: the sweep counts the reached pairs")?;
    let facts = match judged {
        Ok(facts) if matches!(expected.number, 0 | 8) => facts,
        _ => return sweep_untouched(before, after),
    };
    let pairs = facts.problem.pairs();
    same(COST_SLICE, "cost", &reference::cost_slice(facts), &after.cost[..pairs])?;
    same_from(pairs, STAY, "cost", &before.cost, &after.cost)?;
    check_free(&before.free(), &after.free(), pairs)?;
    check_plan(facts, &before.plan, &after.plan, answer)
}

/// Checks a guided search.
pub fn guided(
    judged: &Judged,
    before: &GuidedSlices,
    after: &GuidedSlices,
    answer: Answer,
) -> Checked {
    let work = before.work_lengths();
    let expected = reference::guided_answer(judged, &work, before.plan.len());
    check_answer(&expected, answer, "8.3: the guided search counts the settled pairs")?;
    let facts = match judged {
        Ok(facts) if matches!(expected.number, 0 | 8) => facts,
        _ => return guided_untouched(before, after),
    };
    check_free(&before.free(), &after.free(), facts.problem.pairs())?;
    log::check(facts, &before.log, &after.log, answer)?;
    check_plan(facts, &before.plan, &after.plan, answer)
}

/// Checks the space that two files are said to need.
pub fn space(judged: &Judged, found: Space) -> Checked {
    let want = reference::space_needed(judged);
    let rule = if want.number == 0 { number_rule(7) } else { number_rule(want.number) };
    demand(found == want, rule, || format!("{found:?} and not {want:?}"))
}

/// A refused-field call: where the field is, and what is lent.
#[derive(Clone, Copy, Debug)]
pub struct FieldCall<'a> {
    pub chart: &'a [u8],
    pub rules: &'a [u8],
    pub mark: u32,
    pub place: usize,
}

/// Checks the length that a refused-field call gave and the lent slice: the field's bytes as far as
/// they fit, and the rest as it was.
pub fn refused_field(call: FieldCall, before: &[u8], after: &[u8], length: usize) -> Checked {
    let FieldCall { chart, rules, mark, place } = call;
    let rule = match mark {
        1 | 2 => "12: header and body, as far as the file has them",
        _ => "12: nothing for a mark that is neither 1 nor 2",
    };
    let want = reference::refused_field(chart, rules, mark, place);
    let name = format!("field at mark {mark} place {place}");
    demand(length == want.len(), rule, || {
        format!("{name} has length {length} and not {}", want.len())
    })?;
    let fits = length.min(before.len());
    same(rule, &name, &want[..fits], &after[..fits])?;
    same_from(fits, STAY, &name, before, after)
}

fn check_answer(expected: &Expected, answer: Answer, count_rule: &str) -> Checked {
    let at = (expected.number, expected.file, expected.place);
    demand(answer.number == expected.number, number_rule(expected.number), || {
        format!("number is {} and not {}, file and place {:?}", answer.number, at.0, (at.1, at.2))
    })?;
    demand((answer.file, answer.place) == (expected.file, expected.place), AT, || {
        format!("found {answer:?} and not {expected:?}")
    })?;
    let refusal = "3.3: a refusal's cost and length are 0, its count too but for 8";
    let accepted = expected.number == 0;
    demand(
        answer.cost == expected.cost,
        if accepted { "10.1: the plan may be any one of the cheapest cost" } else { refusal },
        || format!("cost is {} and not {}", answer.cost, expected.cost),
    )?;
    demand(
        within(answer.length, expected.length),
        if accepted { "3.3: the length is the plan's number of steps" } else { refusal },
        || format!("length is {} and not within {:?}", answer.length, expected.length),
    )?;
    demand(
        within(answer.count, expected.count),
        if matches!(expected.number, 0 | 8) { count_rule } else { refusal },
        || format!("count is {} and not within {:?}", answer.count, expected.count),
    )
}

fn within(value: u32, bounds: (u32, u32)) -> bool {
    (bounds.0..=bounds.1).contains(&value)
}

/// The rule that gives a number.
fn number_rule(number: u32) -> &'static str {
    match number {
        0 => "3.3: number, file and place of an accepted answer are 0",
        1 => "3.1, 1: the file ends before the field does",
        2 => "3.1, 2: an empty file, a foreign tag, no head in front, or a second head",
        3 => "3.1, 3: the length does not fit the tag",
        4 => "3.1, 4: the chart's head breaks a limit",
        5 => "3.1, 5: the 1,025th step, or one whose from is below that of the step before",
        6 => "3.1, 6: an inner node or the root breaks a limit",
        7 => "3.1, 7: a lent slice is too short",
        8 => "3.1, 8: no plan is legal",
        9 => "3.1, 9: the file is longer than 32,768 bytes",
        10 => "3.1, 10: a step's from is not below its to, or its to not below the stage count",
        11 => "3.1, 11: a step's cost in the file is above 1,000,000",
        12 => "3.1, 12: the reduced diagram has more than 510 inner nodes",
        13 => "3.1, 13: a node has lo equal to hi, or is alike to an earlier one",
        14 => "3.1, 14: a step's group is above 1,023 or below that of the step before",
        _ => "3.1: no such number",
    }
}

fn sweep_untouched(before: &SweepSlices, after: &SweepSlices) -> Checked {
    same(LEFT, "cost", &before.cost, &after.cost)?;
    free_untouched(&before.free(), &after.free())?;
    same(LEFT, "plan", &before.plan, &after.plan)
}

fn guided_untouched(before: &GuidedSlices, after: &GuidedSlices) -> Checked {
    same(LEFT, "log", &before.log, &after.log)?;
    free_untouched(&before.free(), &after.free())?;
    same(LEFT, "plan", &before.plan, &after.plan)
}

fn free_untouched(before: &[(&'static str, &[u32])], after: &[(&'static str, &[u32])]) -> Checked {
    let mut slices = before.iter().zip(after);
    slices.try_for_each(|((name, old), (_, new))| same(LEFT, name, old, new))
}

/// The slices that are left free up to stage count × N.
fn check_free(
    before: &[(&'static str, &[u32])],
    after: &[(&'static str, &[u32])],
    pairs: usize,
) -> Checked {
    for ((name, old), (_, new)) in before.iter().zip(after) {
        same_from(pairs, STAY, name, old, new)?;
    }
    Ok(())
}

/// The plan slice: a cheapest legal plan and nothing else, or under 8 as it was.
fn check_plan(facts: &Facts, before: &[u16], after: &[u16], answer: Answer) -> Checked {
    if answer.number == 8 {
        return same(PLAN_LEFT, "plan", before, after);
    }
    let chart = &facts.problem.chart;
    let length = answer.length as usize;
    let plan = &after[..length];
    demand(is_plan(chart, plan), "A plan is a way from start to end.", || format!("{plan:?}"))?;
    demand(
        verdict(&facts.problem.diagram, &set_of(chart, plan)),
        "4.3: a plan is legal if the diagram says yes to the set of its steps' groups",
        || format!("{plan:?} is not legal"),
    )?;
    let cost = cost_of(chart, plan);
    demand(cost == answer.cost, PLAN_HELD, || {
        format!("{plan:?} costs {cost} and the answer says {}", answer.cost)
    })?;
    same_from(length, PLAN_HELD, "plan", before, after)
}
