//! Times of lists, in this process: 40 starts and ends in one call, and one by one in 40 guided searches on charts
//! that have them in their heads.

use std::hint::black_box;

use super::{processor_ns, repeats_of, takes_part};
use crate::check;
use crate::compare::slices::{dirty, dirty_plan};
use crate::files::{read_both, Problem};
use crate::generate::Random;
use crate::loads::{standard, Load};
use crate::planner::{Cycle, CycleSlices, GuidedSlices, Planner};
use crate::reference::cycles::{wanted_of_all, with_ends};
use crate::reference::judge;

/// Starts and ends of a list.
pub const RECORDS: usize = 40;

/// How far the cycles of a list go.
#[derive(Clone, Copy)]
enum Reach {
    /// At most four stages.
    Short,
    /// From the first half of the chart to its second.
    Long,
}

/// The loads whose files are taken.
const LOADS: [(&str, &[Reach]); 9] = [
    ("example", &[Reach::Long]),
    ("small 12, 3 needs", &[Reach::Short, Reach::Long]),
    ("small 40, at most 2 of 8", &[Reach::Short, Reach::Long]),
    ("load 32, 7 needs", &[Reach::Long]),
    ("load 256, no rule", &[Reach::Short, Reach::Long]),
    ("load 256, 7 needs", &[Reach::Short, Reach::Long]),
    ("dag 256, 7 needs", &[Reach::Long]),
    ("dag 256, at most 4 of 100", &[Reach::Long]),
    ("far 256, random 16 wide", &[Reach::Long]),
];

/// A list over the files of a load.
pub struct List {
    pub name: String,
    chart: Vec<u8>,
    rules: Vec<u8>,
    problem: Problem,
    records: Vec<Cycle>,
    /// The chart with the start and the end of each record in its head.
    charts: Vec<Vec<u8>>,
}

impl List {
    /// All that are timed.
    pub fn all() -> Vec<List> {
        let loads = standard();
        let found = LOADS.iter().filter_map(|(name, reaches)| {
            Some((loads.iter().find(|load| load.name == *name)?, *reaches))
        });
        let lists = found.flat_map(|(load, reaches)| reaches.iter().map(move |to| (load, *to)));
        lists.filter_map(|(load, reach)| List::new(load, reach)).collect()
    }

    fn new(load: &Load, reach: Reach) -> Option<List> {
        let problem = read_both(&load.chart, &load.rules).ok()?;
        let random = &mut Random::new(7);
        let stages = usize::from(problem.chart.stages);
        let records: Vec<Cycle> = (0..RECORDS).map(|_| reach.record(random, stages)).collect();
        let charts = records.iter().map(|record| with_ends(&load.chart, record.ends()));
        Some(List {
            name: format!("{}, {}", load.name, reach.name()),
            chart: load.chart.clone(),
            rules: load.rules.clone(),
            charts: charts.collect::<Option<_>>()?,
            problem,
            records,
        })
    }

    /// Whether the list is asked for: by a text in its name, or by its call.
    pub fn is_chosen(&self, only: &str) -> bool {
        format!("cycles: {}", self.name).contains(only)
    }

    fn slices(&self) -> Slices {
        let random = &mut Random::new(1);
        let (pairs, plan) = (self.problem.pairs(), self.problem.longest_plan());
        let plan = dirty_plan(random, plan);
        let mut work = || dirty(random, pairs);
        let list = CycleSlices::with(&mut work, self.records.clone().into());
        Slices { list, calls: GuidedSlices::with(work, plan) }
    }

    /// Makes the one call or the many; says whether an implementation has it.
    fn run(&self, planner: &dyn Planner, how: How, lent: &mut Slices) -> bool {
        let rules = black_box(&self.rules[..]);
        match how {
            How::List => {
                let chart = black_box(&self.chart[..]);
                black_box(planner.cycles(chart, rules, &mut lent.list)).is_some()
            }
            How::Calls => {
                for chart in &self.charts {
                    black_box(planner.guided(black_box(chart), rules, &mut lent.calls));
                }
                true
            }
        }
    }

    /// Nanoseconds of so many runs.
    fn sample(&self, planner: &dyn Planner, how: How, lent: &mut Slices, repeats: u32) -> f64 {
        let begun = processor_ns();
        for _ in 0..repeats {
            self.run(planner, how, lent);
        }
        processor_ns() - begun
    }

    /// Checks a list that was filled, and its records against the searches one by one.
    fn check(&self, planner: &dyn Planner, before: &Slices) -> Result<Option<usize>, String> {
        let Slices { mut list, mut calls } = before.clone();
        let Some(answer) = planner.cycles(&self.chart, &self.rules, &mut list) else {
            return Ok(None);
        };
        let judged = judge(&self.chart, &self.rules);
        let wanted = wanted_of_all(&self.chart, &self.rules, &self.records);
        check::cycles::cycles(&judged, &wanted, &before.list, &list, answer)?;
        for (chart, record) in self.charts.iter().zip(list.list.iter()) {
            let answer = planner.guided(chart, &self.rules, &mut calls);
            check::cycles::as_searched(record, answer)?;
        }
        Ok(Some(list.list.iter().map(|record| record.count).sum()))
    }
}

impl Reach {
    fn name(self) -> &'static str {
        match self {
            Reach::Short => "short",
            Reach::Long => "long",
        }
    }

    fn record(self, random: &mut Random, stages: usize) -> Cycle {
        let middle = stages / 2;
        let (start, end) = match self {
            Reach::Short => {
                let start = random.below(stages - 1);
                (start, (start + random.between(1, 4)).min(stages - 1))
            }
            Reach::Long => (random.below(middle), random.between(middle, stages - 1)),
        };
        Cycle::new(start as u16, end as u16)
    }
}

/// What is timed.
#[derive(Clone, Copy)]
enum How {
    List,
    Calls,
}

/// The slices of a list, and of a guided search.
#[derive(Clone)]
struct Slices {
    list: CycleSlices,
    calls: GuidedSlices,
}

/// One list timed.
#[derive(Clone, Debug)]
pub struct TimedList {
    pub name: String,
    pub stages: usize,
    pub steps: usize,
    pub nodes: usize,
    pub pairs: usize,
    pub times: Vec<ListTime>,
}

/// The least times of one implementation in nanoseconds.
#[derive(Clone, Debug)]
pub struct ListTime {
    pub planner: &'static str,
    /// Settled pairs of all records.
    pub settled: usize,
    pub list: f64,
    /// Of the searches one by one.
    pub calls: f64,
}

impl TimedList {
    pub fn time(&self, planner: &str) -> Option<&ListTime> {
        self.times.iter().find(|time| time.planner == planner)
    }

    /// The list's time in that of its searches one by one.
    pub fn share(&self, planner: &str) -> Option<f64> {
        self.time(planner).map(|time| time.list / time.calls)
    }

    /// How many times as long as another implementation one takes for the list.
    pub fn ratio(&self, of: &str, to: &str) -> Option<f64> {
        Some(self.time(of)?.list / self.time(to)?.list)
    }
}

/// Checks and times all implementations that take lists, on those that are asked for.
pub fn measure(
    planners: &[Box<dyn Planner>],
    rounds: usize,
    only: &str,
) -> Result<Vec<TimedList>, String> {
    let chosen = List::all().into_iter().filter(|list| list.is_chosen(only));
    chosen.map(|list| timed(&list, planners, rounds)).collect()
}

/// An implementation at one list.
struct Contender<'a> {
    planner: &'a dyn Planner,
    settled: usize,
    lent: Slices,
    repeats: [u32; 2],
    least: [f64; 2],
}

fn timed(list: &List, planners: &[Box<dyn Planner>], rounds: usize) -> Result<TimedList, String> {
    let before = list.slices();
    let mut contenders = Vec::new();
    for planner in planners {
        let wrong = |text| format!("{}: {}: {text}", list.name, planner.name());
        let Some(settled) = list.check(&**planner, &before).map_err(wrong)? else { continue };
        let mut lent = before.clone();
        let mut repeats = |how| repeats_of(|n| list.sample(&**planner, how, &mut lent, n));
        let repeats = [repeats(How::List), repeats(How::Calls)];
        let least = [f64::INFINITY; 2];
        contenders.push(Contender { planner: &**planner, settled, lent, repeats, least });
    }
    for round in 0..rounds {
        contenders
            .iter_mut()
            .filter(|contender| takes_part(contender.planner.name(), round))
            .for_each(|contender| contender.sample(list));
    }
    let Problem { chart, diagram } = &list.problem;
    Ok(TimedList {
        name: list.name.clone(),
        stages: usize::from(chart.stages),
        steps: chart.steps.len(),
        nodes: diagram.nodes.len(),
        pairs: list.problem.pairs(),
        times: contenders.iter().map(Contender::time).collect(),
    })
}

impl Contender<'_> {
    fn sample(&mut self, list: &List) {
        let how = [How::List, How::Calls].into_iter();
        for ((how, repeats), least) in how.zip(self.repeats).zip(&mut self.least) {
            let took = list.sample(self.planner, how, &mut self.lent, repeats);
            *least = least.min(took / f64::from(repeats));
        }
    }

    fn time(&self) -> ListTime {
        let [list, calls] = self.least;
        ListTime { planner: self.planner.name(), settled: self.settled, list, calls }
    }
}

#[cfg(test)]
mod tests {
    use super::{measure, List, LOADS, RECORDS};
    use crate::planner;

    #[test]
    fn every_load_is_there() {
        let all = List::all();
        assert_eq!(all.len(), LOADS.iter().map(|(_, reaches)| reaches.len()).sum());
        assert!(all.iter().all(|list| list.records.len() == RECORDS));
        let plans = |list: &List| list.records.iter().all(|record| record.start <= record.end);
        assert!(all.iter().all(plans));
    }

    #[test]
    fn small_lists_are_sound_and_timed() {
        let all = measure(&planner::timed(), 1, "cycles: small").expect("right results");
        assert_eq!(all.len(), 4);
        for one in &all {
            assert!(one.ratio("textbook", "same").is_some_and(|ratio| ratio > 0.0), "{}", one.name);
            assert!(one.share("same").is_some_and(|share| share > 0.0), "{}", one.name);
        }
    }

    #[test]
    fn lists_are_chosen_by_name_and_by_call() {
        let chosen = |only: &str| List::all().iter().filter(|list| list.is_chosen(only)).count();
        assert_eq!((chosen(""), chosen("cycles"), chosen("conjoin")), (13, 13, 0));
        assert_eq!((chosen("dag 256, 7 needs"), chosen("reduce:")), (1, 0));
    }
}
