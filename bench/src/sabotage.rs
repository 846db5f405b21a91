//! Planners that are spoiled in one corner: the differential test must find each of them.

mod conjunctions;
mod groups;
mod lists;
mod padding;
mod readings;
mod reductions;
mod rows;
mod steps;
mod ticks;

use std::borrow::Cow;

use crate::files::{read_both, read_chart, Chart, Diagram, Step, LONGEST_FILE};
use crate::planner::{
    self, Answer, ConjoinSlices, CycleSlices, GuidedSlices, Planner, Space, SweepSlices,
};
use crate::reference::Facts;
use crate::steps::{StepAtFault, StepFaults};
use conjunctions::{Call, Conjoiner, SpoilConjoined};
use lists::{Lister, SpoilListed};
use padding::Misreading;
use reductions::SpoilReduced;
use rows::Rows;
use ticks::Ticks;

/// One way to spoil a planner.
pub struct Sabotage {
    pub name: &'static str,
    spoil: Spoil,
}

/// What is spoiled, after the call where there is one.
enum Spoil {
    /// Every answer of a search.
    Answer(fn(&mut Answer)),
    Sweep(fn(&mut Answer, &mut SweepSlices)),
    Guided(fn(&mut Answer, &mut GuidedSlices)),
    Space(fn(&mut Space)),
    /// The length of a refused field at a place.
    Field(fn(&mut usize, usize)),
    /// The bytes shown of it, as far as they are lent.
    Shown(fn(&mut [u8])),
    /// A touch of both files, before each search.
    Touch(fn(&[u8], &[u8])),
    /// What every call reads as the chart, unless that is too long.
    Chart(fn(&mut Vec<u8>)),
    /// The same of the diagram.
    Rules(fn(&mut Vec<u8>)),
    /// What every call reads as the chart and the diagram.
    Files(fn(&mut Vec<u8>, &mut Vec<u8>)),
    /// How the values of a step at fault are judged: the tests in their order, with their numbers.
    Step(&'static [(Test, u32)]),
    /// Where a sweep by itself looks for pairs.
    SweepRows(Rows),
    /// Where a guided search does.
    GuidedRows(Rows),
    /// What a sweep by itself takes as the costs of steps.
    SweepTicks(Ticks),
    /// What a guided search does.
    GuidedTicks(Ticks),
    /// The diagram estimates of a guided search, by the facts and the steps as the file has them.
    Estimates(fn(&Facts, &[Step]) -> Vec<Option<u32>>),
    /// The answer and the plan of a sweep over a chart, and of a guided search.
    SweptPlan(SpoilPlan),
    GuidedPlan(SpoilPlan),
    /// How diagrams are conjoined.
    Conjoiner(Conjoiner),
    /// The answer and the slices of a conjunction.
    Conjoined(SpoilConjoined),
    /// How diagrams are read for padding.
    Padding(Misreading),
    /// What a sweep counts besides the reached pairs.
    Counted(fn(&Diagram) -> usize),
    /// How a diagram is reduced.
    Reducer(Conjoiner),
    /// The answer and the buffer of a reduction.
    Reduced(SpoilReduced),
    /// How a list is answered.
    Lister(Lister),
    /// The answer, the records and the slices of a call on a list.
    Listed(SpoilListed),
}

/// What is spoiled of an accepted answer and its plan.
type SpoilPlan = fn(&Chart, &mut Answer, &mut [u16]);

/// Whether a step's values have some fault.
type Test = fn(&StepFaults) -> bool;

/// A planner that is sound but for one sabotage.
pub struct Spoiled {
    pub planner: Box<dyn Planner>,
    pub sabotage: &'static Sabotage,
}

/// The first implementation of this build, spoiled where a sabotage is named.
pub fn first_planner(name: Option<&str>) -> Result<Box<dyn Planner>, String> {
    let planner = planner::all().remove(0);
    let Some(name) = name else { return Ok(planner) };
    let sabotage = all().find(|sabotage| sabotage.name == name).ok_or_else(|| {
        let names: Vec<&str> = all().map(|sabotage| sabotage.name).collect();
        format!("no sabotage {name}; there are {}", names.join(", "))
    })?;
    Ok(Box::new(Spoiled { planner, sabotage }))
}

const fn new(name: &'static str, spoil: Spoil) -> Sabotage {
    Sabotage { name, spoil }
}

/// Every sabotage.
pub fn all() -> impl Iterator<Item = &'static Sabotage> {
    let of_files = searches().chain(ticks()).chain(groups()).chain(readings());
    of_files.chain(conjunctions()).chain(padding()).chain(lists())
}

/// Wrong answers to lists.
pub fn lists() -> impl Iterator<Item = &'static Sabotage> {
    lists::LISTS.iter().chain(&groups::LISTS)
}

/// Groups taken wrongly in sound files.
pub fn groups() -> impl Iterator<Item = &'static Sabotage> {
    groups::GROUPS.iter()
}

/// Wrong readings of padding in one diagram, and wrong reductions.
pub fn padding() -> impl Iterator<Item = &'static Sabotage> {
    padding::PADDING.iter().chain(&reductions::REDUCTIONS).chain(&groups::REDUCTIONS)
}

/// Wrong conjunctions, and wrong readings of padding in them.
pub fn conjunctions() -> impl Iterator<Item = &'static Sabotage> {
    let all = conjunctions::CONJUNCTIONS.iter().chain(&padding::OF_CONJUNCTIONS);
    all.chain(&groups::CONJUNCTIONS)
}

/// Results spoiled in one corner, and pairs in wrong places.
pub fn searches() -> impl Iterator<Item = &'static Sabotage> {
    CORNERS.iter().chain(&rows::ROWS)
}

/// Wrong costs of steps in sound files.
pub fn ticks() -> impl Iterator<Item = &'static Sabotage> {
    ticks::TICKS.iter()
}

/// The wrong readings of remarks, of files that are too long, of a step's values and kind, and of what
/// groups there are.
pub fn readings() -> impl Iterator<Item = &'static Sabotage> {
    let all = readings::READINGS.iter().chain(&steps::STEPS).chain(&ticks::LIMITS);
    all.chain(&groups::READINGS)
}

static CORNERS: [Sabotage; 24] = [
    new("cost-above-70000000", Spoil::Answer(|a| a.cost += u32::from(a.cost > 70_000_000))),
    new("cost-at-255000000", Spoil::Answer(|a| a.cost -= u32::from(a.cost == 255_000_000))),
    new("reached-above-8000", Spoil::Sweep(|a, _| a.count += u32::from(a.count > 8_000))),
    new("reached-above-65000", Spoil::Sweep(|a, _| a.count -= u32::from(a.count > 65_000))),
    new("settled-above-60000", Spoil::Guided(|a, _| a.count -= u32::from(a.count > 60_000))),
    new(
        "settled-under-8",
        Spoil::Guided(|a, _| {
            a.count -= u32::from(a.number == 8 && a.count > 4_000);
        }),
    ),
    new(
        "log-above-4000",
        Spoil::Guided(|a, s| {
            if a.count > 4_000 {
                s.log.swap(2_000, 2_001);
            }
        }),
    ),
    new("log-past-count", Spoil::Guided(|a, s| change_at(&mut s.log, a.count as usize, 4_000))),
    new(
        "cost-slice-above-200000000",
        Spoil::Sweep(|_, s| {
            let large = s.cost.iter_mut().find(|cost| (200_000_000..1 << 30).contains(*cost));
            large.into_iter().for_each(|cost| *cost += 1);
        }),
    ),
    new("cost-slice-last-entry", Spoil::Sweep(|_, s| change_last(&mut s.cost))),
    new("keys-last-entry", Spoil::Guided(|_, s| change_last(&mut s.keys))),
    new(
        "plan-past-length",
        Spoil::Guided(|a, s| {
            let spare = s.plan.get_mut(a.length as usize).filter(|_| a.length > 200);
            spare.into_iter().for_each(|step| *step ^= 1);
        }),
    ),
    new(
        "plan-of-255-steps",
        Spoil::Sweep(|a, s| {
            if a.length == 255 {
                s.plan[254] ^= 1;
            }
        }),
    ),
    new("place-above-4000", Spoil::Answer(|a| a.place += usize::from(a.place > 4_000))),
    new("number-above-4000", Spoil::Answer(|a| a.number -= u32::from(a.place > 4_000))),
    new("space-above-100000", Spoil::Space(|s| s.work -= usize::from(s.work > 100_000))),
    new(
        "field-above-4000",
        Spoil::Field(|length, place| {
            *length += usize::from((4_001..1 << 20).contains(&place));
        }),
    ),
    new(
        "lengths-taken-as-equal",
        Spoil::Guided(|a, s| {
            if s.keys.len() > s.via.len() && a.number != 7 {
                s.keys.last_mut().into_iter().for_each(|entry| *entry ^= 1);
            }
        }),
    ),
    new("read-past-chart", Spoil::Touch(|chart, _| read(chart.as_ptr_range().end, chart.len()))),
    new("read-past-rules", Spoil::Touch(|_, rules| read(rules.as_ptr_range().end, rules.len()))),
    new(
        "read-before-keys",
        Spoil::Guided(|_, s| {
            read(s.keys.as_ptr().wrapping_sub(1), s.keys.len());
        }),
    ),
    new("read-past-log", Spoil::Guided(|_, s| read(s.log.as_ptr_range().end, s.log.len()))),
    new(
        "write-before-heap",
        Spoil::Guided(|_, s| {
            write(s.heap.as_mut_ptr().wrapping_sub(1), s.heap.len());
        }),
    ),
    new("write-past-plan", Spoil::Sweep(|_, s| write(s.plan.as_mut_ptr_range().end, s.plan.len()))),
];

/// Changes an entry that should stay, where it is there and lies above a bound.
fn change_at(slice: &mut [u32], at: usize, bound: usize) {
    let entry = slice.get_mut(at).filter(|_| at > bound);
    entry.into_iter().for_each(|entry| *entry ^= 1);
}

/// Changes the last entry of a large slice, which is past what is needed where it is lent more.
fn change_last(slice: &mut [u32]) {
    change_at(slice, slice.len().wrapping_sub(1), 10_000);
}

/// Only one in so many lengths is touched outside.
const SELDOM: usize = 7;

/// Reads an entry beside a slice of a length.
fn read<T: Copy>(entry: *const T, length: usize) {
    if length % SELDOM == 1 {
        // SAFETY: none; the entry lies outside. It is in a page beside that of the slice, which the
        // test has taken for itself, or the program ends, which is what is wanted.
        std::hint::black_box(unsafe { entry.read_volatile() });
    }
}

/// Changes an entry beside a slice of a length.
fn write<T: Copy>(entry: *mut T, length: usize) {
    if length % SELDOM == 1 {
        // SAFETY: as for `read`.
        unsafe { entry.cast::<u8>().write_volatile(0) };
    }
}

/// The chart and the diagram as they are read.
type Read<'a> = (Cow<'a, [u8]>, Cow<'a, [u8]>);

impl Spoiled {
    fn touch(&self, chart: &[u8], rules: &[u8]) {
        if let Spoil::Touch(spoil) = self.sabotage.spoil {
            spoil(chart, rules);
        }
    }

    fn read<'a>(&self, chart: &'a [u8], rules: &'a [u8]) -> Read<'a> {
        let (mut chart, mut rules): Read = (chart.into(), rules.into());
        match self.sabotage.spoil {
            Spoil::Chart(spoil) if chart.len() <= LONGEST_FILE => spoil(chart.to_mut()),
            Spoil::Rules(spoil) if rules.len() <= LONGEST_FILE => spoil(rules.to_mut()),
            Spoil::Files(spoil) => spoil(chart.to_mut(), rules.to_mut()),
            _ => {}
        }
        (chart, rules)
    }

    /// The number where a step is refused for its values; else the one that is there.
    fn number(&self, chart: &[u8], number: u32) -> u32 {
        let Spoil::Step(tests) = self.sabotage.spoil else { return number };
        let fault = read_chart(chart).err();
        let step = fault.and_then(|fault| StepAtFault::of(chart, &fault));
        let Some(step) = step.filter(StepAtFault::for_values) else { return number };
        tests.iter().find(|(test, _)| test(&step.faults)).map_or(number, |(_, number)| *number)
    }

    /// A sweep that stands in for the planner's; none where this is no such sabotage.
    fn other_sweep(&self, chart: &[u8], rules: &[u8], lent: &mut SweepSlices) -> Option<Answer> {
        match &self.sabotage.spoil {
            Spoil::SweepRows(rows) => rows.sweep(chart, rules, lent),
            Spoil::SweepTicks(ticks) => ticks.sweep(chart, rules, lent),
            Spoil::Padding(padding) => padding.sweep(chart, rules, lent),
            _ => None,
        }
    }

    /// The same of a guided search.
    fn other_guided(&self, chart: &[u8], rules: &[u8], lent: &mut GuidedSlices) -> Option<Answer> {
        match &self.sabotage.spoil {
            Spoil::GuidedRows(rows) => rows.guided(chart, rules, lent),
            Spoil::GuidedTicks(ticks) => ticks.guided(chart, rules, lent),
            Spoil::Estimates(estimates) => groups::guided_by(*estimates, chart, rules, lent),
            Spoil::Padding(padding) => padding.guided(chart, rules, lent),
            _ => None,
        }
    }

    fn spoil_sweep(
        &self,
        (chart, rules): (&[u8], &[u8]),
        mut answer: Answer,
        lent: &mut SweepSlices,
    ) -> Answer {
        answer.number = self.number(chart, answer.number);
        match self.sabotage.spoil {
            Spoil::Answer(spoil) => spoil(&mut answer),
            Spoil::Sweep(spoil) => spoil(&mut answer, lent),
            Spoil::Counted(more) if matches!(answer.number, 0 | 8) => {
                let more = read_both(chart, rules).map_or(0, |problem| more(&problem.diagram));
                answer.count += more as u32;
            }
            Spoil::SweptPlan(spoil) => self.spoil_plan(spoil, chart, &mut answer, &mut lent.plan),
            _ => {}
        }
        answer
    }

    /// Changes the plan of an accepted answer.
    fn spoil_plan(&self, spoil: SpoilPlan, chart: &[u8], answer: &mut Answer, plan: &mut [u16]) {
        if let (0, Ok(chart)) = (answer.number, read_chart(chart)) {
            let length = answer.length as usize;
            spoil(&chart, answer, &mut plan[..length]);
        }
    }

    fn spoil_guided(&self, chart: &[u8], mut answer: Answer, lent: &mut GuidedSlices) -> Answer {
        answer.number = self.number(chart, answer.number);
        match self.sabotage.spoil {
            Spoil::Answer(spoil) => spoil(&mut answer),
            Spoil::Guided(spoil) => spoil(&mut answer, lent),
            Spoil::GuidedPlan(spoil) => self.spoil_plan(spoil, chart, &mut answer, &mut lent.plan),
            _ => {}
        }
        answer
    }
}

impl Planner for Spoiled {
    fn name(&self) -> &'static str {
        "spoiled"
    }

    fn sweep(&self, chart: &[u8], rules: &[u8], lent: &mut SweepSlices) -> Answer {
        self.touch(chart, rules);
        let (chart, rules) = self.read(chart, rules);
        if let Some(answer) = self.other_sweep(&chart, &rules, lent) {
            return answer;
        }
        let answer = self.planner.sweep(&chart, &rules, lent);
        self.spoil_sweep((&chart, &rules), answer, lent)
    }

    fn guided(&self, chart: &[u8], rules: &[u8], lent: &mut GuidedSlices) -> Answer {
        self.touch(chart, rules);
        let (chart, rules) = self.read(chart, rules);
        if let Some(answer) = self.other_guided(&chart, &rules, lent) {
            return answer;
        }
        let answer = self.planner.guided(&chart, &rules, lent);
        self.spoil_guided(&chart, answer, lent)
    }

    fn both(
        &self,
        chart: &[u8],
        rules: &[u8],
        sweep: &mut SweepSlices,
        guided: &mut GuidedSlices,
    ) -> Option<(Answer, Answer)> {
        let (chart, rules) = self.read(chart, rules);
        if let Spoil::Padding(padding) = &self.sabotage.spoil {
            if let Some(answers) = padding.both(&chart, &rules, sweep, guided) {
                return Some(answers);
            }
        }
        let (swept, found) = self.planner.both(&chart, &rules, sweep, guided)?;
        let swept = self.spoil_sweep((&chart, &rules), swept, sweep);
        Some((swept, self.spoil_guided(&chart, found, guided)))
    }

    fn cycles(&self, chart: &[u8], rules: &[u8], lent: &mut CycleSlices) -> Option<Answer> {
        let (chart, rules) = self.read(chart, rules);
        if let Spoil::Lister(lister) = &self.sabotage.spoil {
            return Some(lister.cycles(&chart, &rules, lent));
        }
        let Spoil::Listed(spoil) = self.sabotage.spoil else {
            let mut answer = self.planner.cycles(&chart, &rules, lent)?;
            answer.number = self.number(&chart, answer.number);
            return Some(answer);
        };
        let problem = read_both(&chart, &rules).ok();
        let call = lists::Call { chart: &chart, problem, before: lent.clone() };
        let mut answer = self.planner.cycles(&chart, &rules, lent)?;
        spoil(&call, &mut answer, lent);
        Some(answer)
    }

    fn space_needed(&self, chart: &[u8], rules: &[u8]) -> Option<Space> {
        let (chart, rules) = self.read(chart, rules);
        if let Spoil::Padding(padding) = &self.sabotage.spoil {
            if let Some(space) = padding.space_needed(&chart, &rules) {
                return Some(space);
            }
        }
        let mut space = self.planner.space_needed(&chart, &rules)?;
        space.number = self.number(&chart, space.number);
        if let Spoil::Space(spoil) = self.sabotage.spoil {
            spoil(&mut space);
        }
        Some(space)
    }

    fn refused_field(
        &self,
        chart: &[u8],
        rules: &[u8],
        file: u32,
        place: usize,
        field: &mut [u8],
    ) -> Option<usize> {
        let mut length = self.planner.refused_field(chart, rules, file, place, field)?;
        match self.sabotage.spoil {
            Spoil::Field(spoil) => spoil(&mut length, place),
            Spoil::Shown(spoil) => {
                let shown = length.min(field.len());
                spoil(&mut field[..shown]);
            }
            _ => {}
        }
        Some(length)
    }

    fn conjoin(
        &self,
        chart: &[u8],
        rules: &[u8],
        more: &[u8],
        lent: &mut ConjoinSlices,
    ) -> Option<Answer> {
        let (chart, rules) = self.read(chart, rules);
        let other = match &self.sabotage.spoil {
            Spoil::Conjoiner(conjoiner) => {
                let ConjoinSlices { work, file } = &mut *lent;
                Some(conjoiner.conjoin([&chart, &rules, more], work.len(), file))
            }
            Spoil::Padding(padding) => padding.conjoin([&chart, &rules, more], lent),
            _ => None,
        };
        if other.is_some() {
            return other;
        }
        let mut answer = self.planner.conjoin(&chart, &rules, more, lent)?;
        answer.number = self.number(&chart, answer.number);
        if let Spoil::Conjoined(spoil) = self.sabotage.spoil {
            spoil(&Call::new([&chart, &rules, more]), &mut answer, lent);
        }
        Some(answer)
    }

    fn reduce(&self, chart: &[u8], rules: &[u8], file: &mut [u8]) -> Option<Answer> {
        let (chart, rules) = self.read(chart, rules);
        if let Spoil::Reducer(reducer) = &self.sabotage.spoil {
            return Some(reducer.conjoin([&chart, &rules, &[]], file.len(), file));
        }
        let mut answer = self.planner.reduce(&chart, &rules, file)?;
        answer.number = self.number(&chart, answer.number);
        if let Spoil::Reduced(spoil) = self.sabotage.spoil {
            spoil(&rules, &mut answer, file);
        }
        Some(answer)
    }
}

/// Which of some sabotages cases show.
#[cfg(test)]
mod shown {
    use super::{Planner, Sabotage, Spoiled};
    use crate::cases::Case;

    fn shows(case: &Case, sabotage: &'static Sabotage) -> bool {
        let planner = Spoiled { planner: Box::new(crate::same::Same), sabotage };
        let planners: [Box<dyn Planner>; 1] = [Box::new(planner)];
        crate::compare::run(case, &planners).is_err()
    }

    /// No case shows one of these, which spoil nothing.
    pub fn none(cases: &[Case], sound: &'static [Sabotage]) {
        for case in cases {
            assert!(!sound.iter().any(|sabotage| shows(case, sabotage)), "{case:?}");
        }
    }

    /// Some case shows each.
    pub fn all(cases: &[Case], sabotages: &'static [Sabotage]) {
        let missed = sabotages.iter().filter(|it| !cases.iter().any(|case| shows(case, it)));
        let missed: Vec<&str> = missed.map(|sabotage| sabotage.name).collect();
        assert!(missed.is_empty(), "{missed:?}");
    }
}
