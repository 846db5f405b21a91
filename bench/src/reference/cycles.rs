//! A list of starts and ends: for each record the guided search on the chart's file with that start and
//! end in its head.

use std::collections::HashMap;

use super::{guided_answer, judge, Expected, Judged};
use crate::files::{two_bytes, CHART_HEAD, HEADER};
use crate::planner::{Answer, Cycle};

/// The chart's file with another start and end in its head; none where that is not whole.
pub fn with_ends(chart: &[u8], (start, end): (u16, u16)) -> Option<Vec<u8>> {
    let mut bytes = chart.to_vec();
    let ends = bytes.get_mut(HEADER + 2..HEADER + CHART_HEAD.length)?;
    ends.copy_from_slice(&[start.to_le_bytes(), end.to_le_bytes()].concat());
    Some(bytes)
}

/// The stage count that a chart's file claims, whether it is sound or not.
pub fn claimed_stages(chart: &[u8]) -> Option<u16> {
    chart.get(..HEADER + 2).map(|head| two_bytes(head, HEADER))
}

/// The answer of a call that is lent work slices of these lengths. The head's own start and end are
/// checked like the rest of the files, and no record can refuse the call.
pub fn list_answer(judged: &Judged, work: &[usize]) -> Answer {
    match judged {
        Err(fault) => Answer::refused(fault.number, fault.file, fault.place),
        Ok(facts) if work.iter().any(|length| *length < facts.problem.pairs()) => {
            Answer::refused(7, 0, 0)
        }
        Ok(_) => Answer::default(),
    }
}

/// What a record must hold: number, cost and count of the guided search, the count between two bounds.
#[derive(Clone, Copy, Debug, PartialEq, Eq)]
pub struct Wanted {
    pub number: u32,
    pub cost: u32,
    pub count: (u32, u32),
}

/// What a start and an end must be answered over sound files, and what was judged for it.
pub fn wanted(chart: &[u8], rules: &[u8], ends: (u16, u16)) -> (Wanted, Judged) {
    let chart = with_ends(chart, ends).expect("the head of a sound chart");
    let judged = judge(&chart, rules);
    let Expected { number, cost, count, .. } = guided_answer(&judged, &[], usize::MAX);
    (Wanted { number, cost, count }, judged)
}

/// What every record of a list must hold over sound files; those with the same ends are judged once.
pub fn wanted_of_all(chart: &[u8], rules: &[u8], list: &[Cycle]) -> Vec<Wanted> {
    let mut known = HashMap::new();
    let mut of_record = |record: &Cycle| {
        *known.entry(record.ends()).or_insert_with(|| wanted(chart, rules, record.ends()).0)
    };
    list.iter().map(&mut of_record).collect()
}
