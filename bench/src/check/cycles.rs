//! The answer of a call on a list, its records and its work slices.

use super::{check_free, demand, free_untouched, number_rule, within, Checked, AT};
use crate::planner::{Answer, Cycle, CycleSlices};
use crate::reference::cycles::{list_answer, Wanted};
use crate::reference::Judged;

const ANSWER: &str = "18: an accepted call answers all 0; a refusal's cost, length and count are 0";
const LEFT: &str = "18: after a refusal every record stays";
const ENDS: &str = "18: start and end of a record stay";
const NUMBER: &str =
    "18: a record has the number of the guided search from its start to its end, 4 \
                      where one of them is no stage of the chart";
const COST: &str = "18: a record has the cost of that guided search, 0 under 4 and 8";
const COUNT: &str = "18: a record has the count of that guided search, 0 under 4";

/// Checks a list; `wanted` are its records over files that are accepted.
pub fn cycles(
    judged: &Judged,
    wanted: &[Wanted],
    before: &CycleSlices,
    after: &CycleSlices,
    answer: Answer,
) -> Checked {
    let want = list_answer(judged, &before.work_lengths());
    let found = || format!("{answer:?} and not {want:?}");
    demand(answer.number == want.number, number_rule(want.number), found)?;
    demand((answer.file, answer.place) == (want.file, want.place), AT, found)?;
    demand(answer == want, ANSWER, found)?;
    let facts = match judged {
        Ok(facts) if want.number == 0 => facts,
        _ => return untouched(before, after),
    };
    check_free(&before.free(), &after.free(), facts.problem.pairs())?;
    records(wanted, &before.list, &after.list)
}

fn untouched(before: &CycleSlices, after: &CycleSlices) -> Checked {
    free_untouched(&before.free(), &after.free())?;
    let mut records = before.list.iter().zip(after.list.iter()).enumerate();
    match records.find(|(_, (old, new))| old != new) {
        None => Ok(()),
        Some((at, (old, new))) => {
            demand(false, LEFT, || format!("list[{at}] is {new:?} and not {old:?}"))
        }
    }
}

fn records(wanted: &[Wanted], before: &[Cycle], after: &[Cycle]) -> Checked {
    for (at, (want, (old, new))) in wanted.iter().zip(before.iter().zip(after)).enumerate() {
        let found = || format!("list[{at}] was {old:?} and is {new:?}, wanted {want:?}");
        demand(new.ends() == old.ends(), ENDS, found)?;
        demand(new.number == want.number, NUMBER, found)?;
        demand(new.cost == want.cost, COST, found)?;
        let count = u32::try_from(new.count);
        demand(count.is_ok_and(|count| within(count, want.count)), COUNT, found)?;
    }
    Ok(())
}

/// Checks a record against the guided search on the chart's file with its start and end in the head.
pub fn as_searched(record: &Cycle, searched: Answer) -> Checked {
    demand((record.number, record.cost) == (searched.number, searched.cost), NUMBER, || {
        format!("{record:?}, and the guided search on that chart answers {searched:?}")
    })
}
