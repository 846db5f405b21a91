//! How far the lists of a case go.

use crate::cases::Case;
use crate::compare::Listed;
use crate::files::{Chart, Refusal, CHART_FILE, DIAGRAM_FILE, MAX_STAGES};
use crate::planner::Cycle;
use crate::reference::cycles::{claimed_stages, Wanted};
use crate::reference::Judged;

/// What the lists of a case have and are answered: counts of calls and of records, and largest figures.
#[derive(Clone, Copy, Debug, Default, PartialEq, Eq)]
pub struct Listing {
    /// Accepted calls, and those with work slices of just the length needed.
    pub accepted: usize,
    pub exact: usize,
    /// Accepted lists by their length.
    pub empty: usize,
    pub of_one: usize,
    pub of_two: usize,
    pub of_40: usize,
    pub above_40: usize,
    pub above_255: usize,
    /// Over a chart with as many stages as there may be.
    pub full: usize,
    /// Accepted lists whose records all have the same number.
    pub all_outside: usize,
    pub all_without_plan: usize,
    /// Records of 4, and of 8, among records with a plan.
    pub outside: Places,
    pub without_plan: Places,
    pub records: Records,
    /// Calls refused with 7 for one slice alone, by slice, and those of them for one entry.
    pub short: [usize; 6],
    pub one_entry: usize,
    /// For all slices.
    pub all_short: usize,
    /// Records of calls that a short slice refuses, and an own fault of the chart or of the diagram.
    pub short_records: usize,
    pub chart_records: usize,
    pub rules_records: usize,
    /// Lists whose records all lie inside the chart, refused for its head's start or end.
    pub head: usize,
    /// Lists refused with 13 and with 9.
    pub padded: usize,
    pub too_long: usize,
}

/// How many records of a number are the first of their list, stand between two, and are the last; others have a
/// plan.
#[derive(Clone, Copy, Debug, Default, PartialEq, Eq)]
pub struct Places {
    pub first: usize,
    pub amid: usize,
    pub last: usize,
}

impl Places {
    /// Counts the records with a number.
    fn add(&mut self, wanted: &[Wanted], number: u32) {
        let has_plan = |record: &Wanted| record.number == 0;
        for (at, _) in wanted.iter().enumerate().filter(|(_, record)| record.number == number) {
            let before = wanted[..at].iter().any(has_plan);
            let behind = wanted[at + 1..].iter().any(has_plan);
            self.first += usize::from(at == 0 && behind);
            self.amid += usize::from(before && behind);
            self.last += usize::from(at + 1 == wanted.len() && before);
        }
    }
}

/// Records of accepted calls.
#[derive(Clone, Copy, Debug, Default, PartialEq, Eq)]
pub struct Records {
    pub with_plan: usize,
    pub without_plan: usize,
    pub outside: usize,
    /// From a stage to itself, with and without a plan.
    pub to_itself: usize,
    pub not_to_itself: usize,
    pub start_above_end: usize,
    /// As in the head.
    pub own: usize,
    /// With a plan, and a record with the same start and end stands before them; other ones between.
    pub repeated: usize,
    pub repeated_behind_others: usize,
    /// With a plan, behind one to a lower end, or to a higher one.
    pub behind_lower_end: usize,
    pub behind_higher_end: usize,
    /// Start, or end, at the stage count, at 65,535, and above 255 with a low byte that is a stage.
    pub start_at_count: usize,
    pub end_at_count: usize,
    pub start_largest: usize,
    pub end_largest: usize,
    pub start_by_low_byte: usize,
    pub end_by_low_byte: usize,
    /// Equal sums leave the count open.
    pub ties: usize,
    /// No plan, and settled pairs.
    pub settled_without_plan: usize,
    /// The largest cost and the most settled pairs.
    pub cost: usize,
    pub settled: usize,
}

impl Listing {
    pub fn of(case: &Case, judged: &Judged, lists: &[Listed]) -> Listing {
        let mut found = Listing::default();
        for listed in lists {
            let facts = match judged {
                Err(fault) => {
                    found.add_refusal(case, fault, &listed.list);
                    continue;
                }
                Ok(facts) => facts,
            };
            let pairs = facts.problem.pairs();
            match listed.work.iter().any(|length| *length < pairs) {
                true => found.add_short(&listed.work, pairs, &listed.list),
                false => found.add_accepted(listed, pairs, &facts.problem.chart),
            }
        }
        found
    }

    fn add_refusal(&mut self, case: &Case, fault: &Refusal, list: &[Cycle]) {
        let stages = claimed_stages(&case.chart).unwrap_or(0);
        let is_inside = |record: &Cycle| record.start.max(record.end) < stages;
        let of_file = |file: u32| if fault.file == file { list.len() } else { 0 };
        self.chart_records += of_file(CHART_FILE);
        self.rules_records += of_file(DIAGRAM_FILE);
        let is_head = fault.number == 4 && (1..=MAX_STAGES).contains(&stages);
        self.head += usize::from(is_head && !list.is_empty() && list.iter().all(is_inside));
        self.padded += usize::from(fault.number == 13);
        self.too_long += usize::from(fault.number == 9);
    }

    fn add_short(&mut self, work: &[usize; 6], pairs: usize, list: &[Cycle]) {
        let short = work.iter().filter(|length| **length < pairs).count();
        for (count, length) in self.short.iter_mut().zip(work) {
            *count += usize::from(short == 1 && *length < pairs);
        }
        self.one_entry += usize::from(short == 1 && work.contains(&(pairs - 1)));
        self.all_short += usize::from(short == work.len());
        self.short_records += list.len();
    }

    fn add_accepted(&mut self, listed: &Listed, pairs: usize, chart: &Chart) {
        let Listed { list, work, wanted } = listed;
        let is = |holds: bool| usize::from(holds);
        let all = |number: u32| is(list.len() > 1 && wanted.iter().all(|w| w.number == number));
        self.accepted += 1;
        self.exact += is(work.iter().all(|length| *length == pairs));
        self.empty += is(list.is_empty());
        self.of_one += is(list.len() == 1);
        self.of_two += is(list.len() == 2);
        self.of_40 += is(list.len() == 40);
        self.above_40 += is(list.len() > 40);
        self.above_255 += is(list.len() > 255);
        self.full += is(chart.stages == MAX_STAGES && !list.is_empty());
        self.all_outside += all(4);
        self.all_without_plan += all(8);
        self.outside.add(wanted, 4);
        self.without_plan.add(wanted, 8);
        self.records.add_list(list, wanted, chart);
    }
}

impl Records {
    fn add_list(&mut self, list: &[Cycle], wanted: &[Wanted], chart: &Chart) {
        let mut end_before = None;
        for (at, (record, want)) in list.iter().zip(wanted).enumerate() {
            self.add(record, want, chart);
            if want.number == 0 {
                let same = |other: &Cycle| other.ends() == record.ends();
                let before = list[..at].iter().rposition(same);
                self.repeated += usize::from(before.is_some());
                self.repeated_behind_others += usize::from(before.is_some_and(|b| b + 1 < at));
                self.behind_lower_end += usize::from(end_before.is_some_and(|e| e < record.end));
                self.behind_higher_end += usize::from(end_before.is_some_and(|e| e > record.end));
            }
            if want.number != 4 {
                end_before = Some(record.end);
            }
        }
    }

    fn add(&mut self, record: &Cycle, want: &Wanted, chart: &Chart) {
        let is = |holds: bool| usize::from(holds);
        let (start, end) = record.ends();
        let has_plan = want.number == 0;
        let by_low_byte = |stage: u16| is(stage > 255 && stage & 0xff < chart.stages);
        self.with_plan += is(has_plan);
        self.without_plan += is(want.number == 8);
        self.outside += is(want.number == 4);
        self.to_itself += is(start == end && has_plan);
        self.not_to_itself += is(start == end && want.number == 8);
        self.start_above_end += is(start > end && want.number == 8);
        self.own += is((start, end) == (chart.start, chart.end));
        self.start_at_count += is(start == chart.stages && end < chart.stages);
        self.end_at_count += is(end == chart.stages && start < chart.stages);
        self.start_largest += is(start == u16::MAX && end < chart.stages);
        self.end_largest += is(end == u16::MAX && start < chart.stages);
        self.start_by_low_byte += by_low_byte(start);
        self.end_by_low_byte += by_low_byte(end);
        self.ties += is(want.count.0 < want.count.1);
        self.settled_without_plan += is(want.number == 8 && want.count.0 > 0);
        self.cost = self.cost.max(want.cost as usize);
        self.settled = self.settled.max(want.count.0 as usize);
    }
}
