//! Lists that are answered wrongly in one way: by other searches, or in what is answered and touched.

use std::collections::BTreeSet;

use super::{new, read, write, Sabotage, Spoil};
use crate::check::log::open_followers;
use crate::files::{
    read_both, read_padded, Chart, Problem, Refusal, CHART_FILE, DIAGRAM_FILE, MAX_STAGES,
};
use crate::generate::steps::file_costs;
use crate::planner::{Answer, Cycle, CycleSlices};
use crate::reference::cycles::with_ends;
use crate::reference::Facts;

/// A way of answering lists with one choice that may be wrong.
pub(super) struct Lister {
    read: fn(&[u8], &[u8]) -> Result<Problem, Refusal>,
    /// Whether what is lent is too short.
    is_short: fn(&Problem, &CycleSlices) -> bool,
    /// Whether a start and an end lie outside the chart.
    are_outside: fn(&Chart, (u16, u16)) -> bool,
    /// The start and the end that are searched for.
    ends: fn(&Chart, (u16, u16)) -> (u16, u16),
    keeps: Keeps,
}

/// What a search keeps of those before it.
#[derive(Clone, Copy, PartialEq, Eq)]
enum Keeps {
    Nothing,
    /// The chart estimates of the record before, of the first one, of the head.
    LastEstimates,
    FirstEstimates,
    HeadEstimates,
    /// Those of stages that have none now.
    OldEstimates,
    Settled,
    Costs,
}

const SOUND: Lister = Lister {
    read: read_both,
    is_short: |problem, lent| lent.work_lengths().iter().any(|length| *length < problem.pairs()),
    are_outside: |chart, (start, end)| start.max(end) >= chart.stages,
    ends: |_, ends| ends,
    keeps: Keeps::Nothing,
};

const fn by(name: &'static str, lister: Lister) -> Sabotage {
    new(name, Spoil::Lister(lister))
}

/// Sound but for what it reads.
pub(super) const fn reading(
    name: &'static str,
    read: fn(&[u8], &[u8]) -> Result<Problem, Refusal>,
) -> Sabotage {
    by(name, Lister { read, ..SOUND })
}

/// What is spoiled after a sound call.
pub(super) type SpoilListed = fn(&Call, &mut Answer, &mut CycleSlices);

/// A call that was made.
pub(super) struct Call<'a> {
    pub chart: &'a [u8],
    /// Both files; none where one is refused.
    pub problem: Option<Problem>,
    /// The slices as they were.
    pub before: CycleSlices,
}

const fn after(name: &'static str, spoil: SpoilListed) -> Sabotage {
    new(name, Spoil::Listed(spoil))
}

pub(super) static LISTS: [Sabotage; 71] = [
    by("cycles-heads-start", Lister { ends: |chart, (_, end)| (chart.start, end), ..SOUND }),
    by("cycles-heads-end", Lister { ends: |chart, (start, _)| (start, chart.end), ..SOUND }),
    by("cycles-start-and-end-exchanged", Lister { ends: |_, (start, end)| (end, start), ..SOUND }),
    by("cycles-end-for-start", Lister { ends: |_, (_, end)| (end, end), ..SOUND }),
    by(
        "cycles-start-of-a-byte",
        Lister {
            are_outside: |chart, (start, end)| (start & 0xff).max(end) >= chart.stages,
            ends: |_, (start, end)| (start & 0xff, end),
            ..SOUND
        },
    ),
    by(
        "cycles-end-of-a-byte",
        Lister {
            are_outside: |chart, (start, end)| start.max(end & 0xff) >= chart.stages,
            ends: |_, (start, end)| (start, end & 0xff),
            ..SOUND
        },
    ),
    by(
        "cycles-start-at-stage-count-inside",
        Lister {
            are_outside: |chart, (start, end)| start > chart.stages || end >= chart.stages,
            ..SOUND
        },
    ),
    by(
        "cycles-end-at-stage-count-inside",
        Lister {
            are_outside: |chart, (start, end)| start >= chart.stages || end > chart.stages,
            ..SOUND
        },
    ),
    by(
        "cycles-start-not-looked-at",
        Lister { are_outside: |chart, (_, end)| end >= chart.stages, ..SOUND },
    ),
    by(
        "cycles-end-not-looked-at",
        Lister { are_outside: |chart, (start, _)| start >= chart.stages, ..SOUND },
    ),
    by(
        "cycles-last-stage-outside",
        Lister { are_outside: |chart, (start, end)| start.max(end) + 1 >= chart.stages, ..SOUND },
    ),
    by(
        "cycles-start-above-end-outside",
        Lister { are_outside: |chart, (start, end)| start > end || end >= chart.stages, ..SOUND },
    ),
    by("cycles-estimates-of-record-before", Lister { keeps: Keeps::LastEstimates, ..SOUND }),
    by("cycles-estimates-of-first-record", Lister { keeps: Keeps::FirstEstimates, ..SOUND }),
    by("cycles-estimates-of-head", Lister { keeps: Keeps::HeadEstimates, ..SOUND }),
    by("cycles-estimates-not-cleared", Lister { keeps: Keeps::OldEstimates, ..SOUND }),
    by("cycles-settled-pairs-kept", Lister { keeps: Keeps::Settled, ..SOUND }),
    by("cycles-least-costs-kept", Lister { keeps: Keeps::Costs, ..SOUND }),
    by("cycles-padding-taken", Lister { read: read_padded, ..SOUND }),
    by("cycles-costs-not-rounded", Lister { read: unrounded, ..SOUND }),
    by("cycles-head-not-checked", Lister { read: without_ends, ..SOUND }),
    by("cycles-plan-slice-wanted", Lister { is_short: |p, _| p.longest_plan() > 0, ..SOUND }),
    by(
        "cycles-as-many-records-as-steps-of-a-plan",
        Lister {
            is_short: |p, lent| (SOUND.is_short)(p, lent) || lent.list.len() < p.longest_plan(),
            ..SOUND
        },
    ),
    by("cycles-keys-not-measured", Lister { is_short: |p, lent| short_but(p, lent, 0), ..SOUND }),
    by("cycles-via-not-measured", Lister { is_short: |p, lent| short_but(p, lent, 1), ..SOUND }),
    by("cycles-heap-not-measured", Lister { is_short: |p, lent| short_but(p, lent, 2), ..SOUND }),
    by("cycles-pos-not-measured", Lister { is_short: |p, lent| short_but(p, lent, 3), ..SOUND }),
    by("cycles-stack-not-measured", Lister { is_short: |p, lent| short_but(p, lent, 4), ..SOUND }),
    by("cycles-log-not-measured", Lister { is_short: |p, lent| short_but(p, lent, 5), ..SOUND }),
    by(
        "cycles-entry-more-wanted",
        Lister {
            is_short: |p, lent| lent.work_lengths().iter().any(|length| *length <= p.pairs()),
            ..SOUND
        },
    ),
    after("cycles-4-ends-list", |call, _, lent| stopped_behind(call, lent, 4)),
    after("cycles-8-ends-list", |call, _, lent| stopped_behind(call, lent, 8)),
    after("cycles-counts-add-up", |call, a, lent| {
        let mut sum = 0;
        each_answered(call, a, lent, |record| {
            sum += record.count;
            record.count = sum;
        });
    }),
    after("cycles-first-left-out", |call, _, lent| left_out(call, lent, 0..1)),
    after("cycles-last-left-out", |call, _, lent| {
        let end = lent.list.len();
        left_out(call, lent, end.saturating_sub(1)..end);
    }),
    after("cycles-cut-at-32", |call, _, lent| left_out(call, lent, 32..usize::MAX)),
    after("cycles-cut-at-40", |call, _, lent| left_out(call, lent, 40..usize::MAX)),
    after("cycles-cut-at-255", |call, _, lent| left_out(call, lent, 255..usize::MAX)),
    after("cycles-7-touches-records", |_, a, lent| numbered(a.number == 7, a, lent)),
    after("cycles-7-touches-last-record", |_, a, lent| {
        let last = lent.list.last_mut().filter(|_| a.number == 7);
        last.into_iter().for_each(|record| record.count = 0);
    }),
    after("cycles-chart-touches-records", |_, a, lent| numbered(a.file == CHART_FILE, a, lent)),
    after("cycles-rules-touch-records", |_, a, lent| numbered(a.file == DIAGRAM_FILE, a, lent)),
    after("cycles-7-touches-log", |_, a, lent| {
        let entry = lent.log.first_mut().filter(|_| a.number == 7);
        entry.into_iter().for_each(|entry| *entry ^= 1);
    }),
    after("cycles-4-before-7", |call, a, lent| {
        let stages = call.problem.as_ref().map_or(u16::MAX, |problem| problem.chart.stages);
        let outside = |record: &&mut Cycle| record.start.max(record.end) >= stages;
        for record in lent.list.iter_mut().filter(outside).filter(|_| a.number == 7) {
            *record = record.answered(Answer::refused(4, 0, 0));
        }
    }),
    after("cycles-4-leaves-cost", |call, _, lent| {
        each_of(call, lent, 4, |record, before| record.cost = before.cost);
    }),
    after("cycles-4-leaves-count", |call, _, lent| {
        each_of(call, lent, 4, |record, before| record.count = before.count);
    }),
    after("cycles-8-leaves-cost", |call, _, lent| {
        each_of(call, lent, 8, |record, before| record.cost = before.cost);
    }),
    after("cycles-8-without-count", |call, _, lent| {
        each_of(call, lent, 8, |record, _| record.count = 0);
    }),
    after("cycles-8-for-4", |call, _, lent| {
        each_of(call, lent, 4, |record, _| record.number = 8);
    }),
    after("cycles-8-with-cost-before", |call, a, lent| {
        let mut cost = 0;
        each_answered(call, a, lent, |record| match record.number {
            8 => record.cost = cost,
            _ => cost = record.cost,
        });
    }),
    after("cycles-4-answered", |_, a, lent| {
        if a.number == 0 && lent.list.iter().any(|record| record.number == 4) {
            *a = Answer::refused(4, 0, 0);
        }
    }),
    after("cycles-4-in-file-1", |_, a, lent| {
        a.file |= u32::from(a.number == 0 && lent.list.iter().any(|record| record.number == 4));
    }),
    after("cycles-8-answered", |_, a, lent| {
        let is_8 = !lent.list.is_empty() && lent.list.iter().all(|record| record.number == 8);
        a.number = if a.number == 0 && is_8 { 8 } else { a.number };
    }),
    after("cycles-last-number-answered", |_, a, lent| {
        let last = lent.list.last().filter(|_| a.number == 0);
        a.number = last.map_or(a.number, |record| record.number);
    }),
    after("cycles-cost-answered", |_, a, lent| {
        let last = lent.list.last().filter(|_| a.number == 0);
        a.cost = last.map_or(0, |record| record.cost);
    }),
    after("cycles-records-answered", |_, a, lent| {
        a.count += if a.number == 0 { lent.list.len() as u32 } else { 0 };
    }),
    after("cycles-empty-list-refused", |_, a, lent| {
        if a.number == 0 && lent.list.is_empty() {
            *a = Answer::refused(7, 0, 0);
        }
    }),
    after("cycles-empty-list-not-checked", |_, a, lent| {
        if lent.list.is_empty() {
            *a = Answer::default();
        }
    }),
    after("cycles-start-overwritten", |call, a, lent| {
        each_answered(call, a, lent, |record| record.start = 0);
    }),
    after("cycles-end-overwritten", |call, a, lent| {
        each_answered(call, a, lent, |record| record.end = record.start);
    }),
    after("cycles-there-again-without-count", |_, a, lent| {
        for at in 1..if a.number == 0 { lent.list.len() } else { 0 } {
            let (before, [record, ..]) = lent.list.split_at_mut(at) else { continue };
            if before.iter().any(|other| other.ends() == record.ends()) {
                record.count = 0;
            }
        }
    }),
    after("cycles-answers-exchanged", |_, a, lent| {
        if let ([first, second, ..], 0) = (&mut lent.list[..], a.number) {
            std::mem::swap(first, second);
            (first.start, second.start) = (second.start, first.start);
            (first.end, second.end) = (second.end, first.end);
        }
    }),
    after("cycles-reached-counted", |call, a, lent| {
        let Some(problem) = &call.problem else { return };
        each_answered(call, a, lent, |record| {
            if record.number != 4 {
                let (start, end) = record.ends();
                record.count = facts_of(problem, (start, end)).reached() as usize;
            }
        });
    }),
    after("cycles-0-not-written", |call, a, lent| {
        let mut before = call.before.list.iter();
        each_answered(call, a, lent, |record| {
            let old = before.next().map_or(0, |old| old.number);
            record.number = if record.number == 0 { old } else { record.number };
        });
    }),
    after("cycles-cost-above-70000000", |call, a, lent| {
        each_answered(call, a, lent, |record| record.cost += u32::from(record.cost > 70_000_000));
    }),
    after("cycles-count-above-8000", |call, a, lent| {
        each_answered(call, a, lent, |record| record.count -= usize::from(record.count > 8_000));
    }),
    after("cycles-256-stages-refused", |call, a, lent| {
        if call.problem.as_ref().is_some_and(|problem| problem.chart.stages == MAX_STAGES) {
            *lent = call.before.clone();
            *a = Answer::refused(7, 0, 0);
        }
    }),
    after("cycles-log-past-pairs", |call, a, lent| past_pairs(call, a, &mut lent.log)),
    after("cycles-keys-past-pairs", |call, a, lent| past_pairs(call, a, &mut lent.keys)),
    after("cycles-reads-past-chart", |call, _, _| {
        read(call.chart.as_ptr_range().end, call.chart.len());
    }),
    after("cycles-writes-past-list", |_, _, lent| {
        write(lent.list.as_mut_ptr_range().end, lent.list.len());
    }),
];

/// A head whose start or end is at fault alone is taken.
fn without_ends(chart: &[u8], rules: &[u8]) -> Result<Problem, Refusal> {
    match read_both(chart, rules) {
        Err(Refusal { number: 4, .. }) => {
            read_both(&with_ends(chart, (0, 0)).unwrap_or_default(), rules)
        }
        read => read,
    }
}

/// With the costs that the file has.
fn unrounded(chart: &[u8], rules: &[u8]) -> Result<Problem, Refusal> {
    let Problem { chart: rounded, diagram } = read_both(chart, rules)?;
    let costs = file_costs(chart);
    Ok(Problem { chart: rounded.with_costs(|number, _| costs[number]), diagram })
}

/// Whether a slice but one is too short.
fn short_but(problem: &Problem, lent: &CycleSlices, which: usize) -> bool {
    let lengths = lent.work_lengths();
    let mut others = lengths.iter().enumerate().filter(|(at, _)| *at != which);
    others.any(|(_, length)| *length < problem.pairs())
}

/// Records that stay as they were.
fn left_out(call: &Call, lent: &mut CycleSlices, which: std::ops::Range<usize>) {
    let records = lent.list.iter_mut().zip(call.before.list.iter());
    let which = records.skip(which.start).take(which.end - which.start);
    which.for_each(|(record, before)| *record = *before);
}

/// All records behind the first one with a number stay as they were.
fn stopped_behind(call: &Call, lent: &mut CycleSlices, number: u32) {
    if let Some(at) = lent.list.iter().position(|record| record.number == number) {
        left_out(call, lent, at + 1..usize::MAX);
    }
}

/// Changes every record of an accepted call.
fn each_answered(
    call: &Call,
    answer: &Answer,
    lent: &mut CycleSlices,
    change: impl FnMut(&mut Cycle),
) {
    if call.problem.is_some() && answer.number == 0 {
        lent.list.iter_mut().for_each(change);
    }
}

/// Changes every record with a number, which is beside what it was.
fn each_of(call: &Call, lent: &mut CycleSlices, number: u32, change: fn(&mut Cycle, &Cycle)) {
    for (record, before) in lent.list.iter_mut().zip(call.before.list.iter()) {
        if record.number == number && record != before {
            change(record, before);
        }
    }
}

/// Writes the call's number to its records.
fn numbered(is_such: bool, answer: &Answer, lent: &mut CycleSlices) {
    for record in lent.list.iter_mut().filter(|_| is_such) {
        record.number = answer.number;
    }
}

/// Changes the first entry that is not needed.
fn past_pairs(call: &Call, answer: &Answer, slice: &mut [u32]) {
    let pairs = call.problem.as_ref().map_or(usize::MAX, Problem::pairs);
    let entry = slice.get_mut(pairs).filter(|_| answer.number == 0);
    entry.into_iter().for_each(|entry| *entry ^= 1);
}

fn facts_of(problem: &Problem, (start, end): (u16, u16)) -> Facts {
    let Problem { chart, diagram } = problem.clone();
    Facts::by_dynamic_programming(&Problem { chart: Chart { start, end, ..chart }, diagram })
}

impl Lister {
    pub fn cycles(&self, chart: &[u8], rules: &[u8], lent: &mut CycleSlices) -> Answer {
        let problem = match (self.read)(chart, rules) {
            Err(fault) => return Answer::refused(fault.number, fault.file, fault.place),
            Ok(problem) if (self.is_short)(&problem, lent) => return Answer::refused(7, 0, 0),
            Ok(problem) => problem,
        };
        let mut searches = Searches::new(&problem, self.keeps);
        for record in lent.list.iter_mut() {
            let ends = record.ends();
            *record = record.answered(if (self.are_outside)(&problem.chart, ends) {
                Answer::refused(4, 0, 0)
            } else {
                searches.next((self.ends)(&problem.chart, ends))
            });
        }
        Answer::default()
    }
}

/// Plain guided searches one after the other.
struct Searches<'a> {
    problem: &'a Problem,
    keeps: Keeps,
    estimates: Option<Vec<Option<u32>>>,
    so_far: Vec<Option<u32>>,
    settled: Vec<bool>,
}

impl Searches<'_> {
    fn new(problem: &Problem, keeps: Keeps) -> Searches<'_> {
        let head = || facts_of(problem, (problem.chart.start, problem.chart.end)).chart_estimate;
        Searches {
            problem,
            keeps,
            estimates: (keeps == Keeps::HeadEstimates).then(head),
            so_far: vec![None; problem.pairs()],
            settled: vec![false; problem.pairs()],
        }
    }

    /// From a start to an end; a number that is no stage leads nowhere.
    fn next(&mut self, (start, end): (u16, u16)) -> Answer {
        if start.max(end) >= self.problem.chart.stages {
            return Answer::no_plan(0);
        }
        let mut facts = facts_of(self.problem, (start, end));
        let own = facts.chart_estimate.clone();
        let old = self.estimates.take();
        facts.chart_estimate = match (self.keeps, &old) {
            (Keeps::LastEstimates | Keeps::FirstEstimates | Keeps::HeadEstimates, Some(old)) => {
                old.clone()
            }
            (Keeps::OldEstimates, Some(old)) => {
                own.iter().zip(old).map(|(own, old)| own.or(*old)).collect()
            }
            _ => own.clone(),
        };
        self.estimates = match self.keeps {
            Keeps::LastEstimates => Some(own),
            Keeps::FirstEstimates => old.or(Some(own)),
            Keeps::HeadEstimates => old,
            _ => Some(facts.chart_estimate.clone()),
        };
        if self.keeps != Keeps::Costs {
            self.so_far.fill(None);
        }
        if self.keeps != Keeps::Settled {
            self.settled.fill(false);
        }
        self.search(&facts)
    }

    fn search(&mut self, facts: &Facts) -> Answer {
        let start = facts.start_pair();
        let mut open = BTreeSet::new();
        if let Some(estimate) = facts.estimate(start) {
            self.so_far[start] = Some(0);
            open.insert((estimate, start));
        }
        let mut count = 0;
        while let Some((_, pair)) = open.pop_first() {
            count += 1;
            self.settled[pair] = true;
            if facts.is_goal(pair) {
                return Answer::accepted(self.so_far[pair].unwrap_or(0), 0, count);
            }
            open_followers(facts, pair, &mut self.so_far, &self.settled, &mut open);
        }
        Answer::no_plan(count)
    }
}

#[cfg(test)]
mod tests {
    use super::super::shown;
    use super::*;
    use crate::cases::{Case, Cases};

    static NO_SABOTAGE: [Sabotage; 1] = [by("none", SOUND)];

    #[test]
    fn the_sound_choices_spoil_nothing() {
        let cases = Cases::new(83);
        let random = cases.first_random()..cases.first_random() + 400;
        let all: Vec<Case> = random.map(|at| cases.case(at)).collect();
        shown::none(&all, &NO_SABOTAGE);
    }
}
