//! Times of every implementation on one load, in this process: the least over interleaved rounds,
//! slices dirty. Times are processor time of the thread, so that other work on the machine counts
//! little.

pub mod listing;
pub mod making;

use std::ffi::{c_int, c_long};
use std::hint::black_box;

use crate::check;
use crate::compare::slices::{dirty, dirty_plan};
use crate::files::read_both;
use crate::generate::Random;
use crate::loads::{Group, Load};
use crate::planner::{GuidedSlices, Planner, SweepSlices};
use crate::reference::judge;

/// Calls are repeated within a sample until they take about this long.
const SAMPLE_NS: f64 = 400_000.0;
/// The baseline, ten times as slow, is timed in one of so many rounds.
const BASELINE: &str = "textbook";
const BASELINE_EVERY: usize = 4;

/// Linux's number of the clock that counts the processor time of the calling thread.
const CLOCK_THREAD_CPUTIME_ID: c_int = 3;

#[repr(C)]
struct Timespec {
    seconds: i64,
    nanoseconds: c_long,
}

extern "C" {
    fn clock_gettime(clock: c_int, time: *mut Timespec) -> c_int;
}

/// Processor time of this thread so far.
fn processor_ns() -> f64 {
    let mut time = Timespec { seconds: 0, nanoseconds: 0 };
    // SAFETY: writes the time into the struct, which has the layout of 64-bit Linux.
    let failed = unsafe { clock_gettime(CLOCK_THREAD_CPUTIME_ID, &mut time) };
    assert_eq!(failed, 0, "the clock of the thread's processor time");
    time.seconds as f64 * 1e9 + time.nanoseconds as f64
}

/// What is timed: both searches, and reading both files alone (the space needed).
#[derive(Clone, Copy, Debug, PartialEq, Eq)]
pub enum Call {
    Sweep,
    Guided,
    Reading,
}

impl Call {
    pub const ALL: [Call; 3] = [Call::Sweep, Call::Guided, Call::Reading];
    pub const SEARCHES: [Call; 2] = [Call::Sweep, Call::Guided];

    pub fn name(self) -> &'static str {
        match self {
            Call::Sweep => "sweep",
            Call::Guided => "guided",
            Call::Reading => "reading",
        }
    }

    pub fn named(name: &str) -> Option<Call> {
        Call::ALL.into_iter().find(|call| call.name() == name)
    }
}

/// The least time of one call of one implementation.
#[derive(Clone, Debug)]
pub struct Timing {
    pub planner: &'static str,
    pub call: Call,
    /// Over all placements.
    pub nanoseconds: f64,
    /// In each placement.
    pub placed: Vec<f64>,
    /// Reached pairs of a sweep, settled ones of a guided search, 0 of reading.
    pub count: u32,
}

/// The slices of both searches, lent to every implementation in turn.
#[derive(Clone)]
struct Buffers {
    sweep: SweepSlices,
    guided: GuidedSlices,
}

impl Buffers {
    fn of(load: &Load) -> Result<Buffers, String> {
        let problem = read_both(&load.chart, &load.rules)
            .map_err(|fault| format!("{}: {fault:?}", load.name))?;
        let random = &mut Random::new(1);
        let (pairs, plan) = (problem.pairs(), problem.longest_plan());
        let [for_sweep, for_guided] = [(); 2].map(|()| dirty_plan(random, plan));
        let mut work = || dirty(random, pairs);
        let sweep = SweepSlices::with(&mut work, for_sweep);
        Ok(Buffers { sweep, guided: GuidedSlices::with(work, for_guided) })
    }

    /// The count; none where an implementation has no such call.
    fn call(&mut self, planner: &dyn Planner, call: Call, files: Files) -> Option<u32> {
        let (chart, rules) = (black_box(files.0), black_box(files.1));
        match call {
            Call::Sweep => Some(black_box(planner.sweep(chart, rules, &mut self.sweep)).count),
            Call::Guided => Some(black_box(planner.guided(chart, rules, &mut self.guided)).count),
            Call::Reading => black_box(planner.space_needed(chart, rules)).map(|_| 0),
        }
    }

    /// Nanoseconds of so many calls.
    fn timed(&mut self, planner: &dyn Planner, call: Call, files: Files, repeats: u32) -> f64 {
        let begun = processor_ns();
        for _ in 0..repeats {
            self.call(planner, call, files);
        }
        processor_ns() - begun
    }
}

/// One call of one implementation on one load.
struct Contender {
    /// Its place among the implementations.
    planner: usize,
    name: &'static str,
    call: Call,
    count: u32,
    repeats: u32,
    least: f64,
}

impl Contender {
    fn new(
        (at, planner): (usize, &dyn Planner),
        call: Call,
        load: &Load,
        buffers: &mut Buffers,
    ) -> Option<Contender> {
        let files = files_for(planner, load);
        let count = buffers.call(planner, call, files)?;
        let repeats = repeats_of(|repeats| buffers.timed(planner, call, files, repeats));
        let (name, least) = (planner.name(), f64::INFINITY);
        Some(Contender { planner: at, name, call, count, repeats, least })
    }

    fn sample(&mut self, planner: &dyn Planner, load: &Load, buffers: &mut Buffers) {
        let files = files_for(planner, load);
        buffers.call(planner, self.call, files);
        let took = buffers.timed(planner, self.call, files, self.repeats);
        self.least = self.least.min(took / f64::from(self.repeats));
    }

    fn timing(&self) -> Timing {
        Timing {
            planner: self.name,
            call: self.call,
            nanoseconds: self.least,
            placed: vec![self.least],
            count: self.count,
        }
    }
}

/// How often a call is made in a sample: doubled until that can be timed, then scaled.
fn repeats_of(mut timed: impl FnMut(u32) -> f64) -> u32 {
    let mut repeats = 1;
    loop {
        let took = timed(repeats);
        if took >= SAMPLE_NS / 10.0 {
            return ((f64::from(repeats) * SAMPLE_NS / took) as u32).max(1);
        }
        repeats *= 2;
    }
}

/// Whether an implementation is timed in a round.
fn takes_part(name: &str, round: usize) -> bool {
    name != BASELINE || round % BASELINE_EVERY == 0
}

/// Copies of an earlier library.
const EARLIER: [&str; 2] = ["before", "control"];

/// A chart file and a diagram file.
type Files<'a> = (&'a [u8], &'a [u8]);

/// What an implementation is given of a load. An earlier library may not round costs: it has a chart
/// with rounded ones, so that it does the same work.
fn files_for<'a>(planner: &dyn Planner, load: &'a Load) -> Files<'a> {
    let is_earlier = EARLIER.contains(&planner.name());
    (if is_earlier { &load.rounded } else { &load.chart }, &load.rules)
}

/// Whether an implementation is checked and timed on a load: all are, but for an earlier library
/// that refuses files with remarks, and none of these is asked for charts with groups.
fn takes_load(planner: &dyn Planner, load: &Load) -> bool {
    match load.group {
        _ if !EARLIER.contains(&planner.name()) => true,
        Group::Remarks => {
            planner.space_needed(&load.chart, &load.rules).is_some_and(|space| space.number == 0)
        }
        group => group != Group::Groups,
    }
}

/// Times all implementations in turn, round after round; another one begins each round. Their
/// results are not looked at: `check` does that.
pub fn measure(
    load: &Load,
    planners: &[Box<dyn Planner>],
    rounds: usize,
) -> Result<Vec<Timing>, String> {
    let mut buffers = Buffers::of(load)?;
    let mut contenders = Vec::new();
    let taking = planners.iter().enumerate().filter(|(_, planner)| takes_load(&***planner, load));
    for (at, planner) in taking {
        for call in Call::ALL {
            contenders.extend(Contender::new((at, &**planner), call, load, &mut buffers));
        }
    }
    for round in 0..rounds {
        let begin = round % contenders.len();
        let (last, first) = contenders.split_at_mut(begin);
        for contender in first.iter_mut().chain(last).filter(|c| takes_part(c.name, round)) {
            contender.sample(&*planners[contender.planner], load, &mut buffers);
        }
    }
    Ok(contenders.iter().map(Contender::timing).collect())
}

/// Checks every implementation's results on a load.
pub fn check(load: &Load, planners: &[Box<dyn Planner>]) -> Result<(), String> {
    let judged = judge(&load.chart, &load.rules);
    let buffers = Buffers::of(load)?;
    for planner in planners.iter().filter(|planner| takes_load(&***planner, load)) {
        let wrong = |text| format!("{}: {}: {text}", load.name, planner.name());
        let (chart, rules) = files_for(&**planner, load);
        let Buffers { mut sweep, mut guided } = buffers.clone();
        let answer = planner.sweep(chart, rules, &mut sweep);
        check::sweep(&judged, &buffers.sweep, &sweep, answer).map_err(wrong)?;
        let answer = planner.guided(chart, rules, &mut guided);
        check::guided(&judged, &buffers.guided, &guided, answer).map_err(wrong)?;
        if let Some(space) = planner.space_needed(chart, rules) {
            check::space(&judged, space).map_err(wrong)?;
        }
    }
    Ok(())
}

#[cfg(test)]
mod tests {
    use super::{check, measure};
    use crate::files::{MAX_COST, TICK};
    use crate::generate::steps::file_costs;
    use crate::loads::{groups, remarks, standard, Load};
    use crate::planner::{Answer, GuidedSlices, Planner, Space, SweepSlices};
    use crate::same::Same;

    /// A library of the time before remarks.
    struct Earlier(&'static str);

    const NO_SUCH_TAG: Answer =
        Answer { number: 2, file: 1, place: 9, cost: 0, length: 0, count: 0 };

    impl Planner for Earlier {
        fn name(&self) -> &'static str {
            self.0
        }

        fn sweep(&self, _: &[u8], _: &[u8], _: &mut SweepSlices) -> Answer {
            NO_SUCH_TAG
        }

        fn guided(&self, _: &[u8], _: &[u8], _: &mut GuidedSlices) -> Answer {
            NO_SUCH_TAG
        }

        fn space_needed(&self, _: &[u8], _: &[u8]) -> Option<Space> {
            let Answer { number, file, place, .. } = NO_SUCH_TAG;
            Some(Space { number, file, place, ..Space::default() })
        }
    }

    /// The implementations that are timed on a load, in all calls.
    fn timed(load: &Load, name: &'static str) -> Vec<&'static str> {
        let planners: [Box<dyn Planner>; 2] = [Box::new(Earlier(name)), Box::new(Same)];
        let timings = measure(load, &planners, 1).expect("sound files");
        let mut names: Vec<_> = timings.iter().map(|timing| timing.planner).collect();
        names.dedup();
        names
    }

    #[test]
    fn an_earlier_library_is_not_asked_for_groups() {
        for load in groups() {
            let checked = |name| check(&load, &[Box::new(Earlier(name)) as Box<dyn Planner>]);
            assert_eq!((checked("before"), checked("control")), (Ok(()), Ok(())));
            assert!(checked("library").is_err());
            assert_eq!(timed(&load, "before"), ["same"]);
        }
    }

    #[test]
    fn an_earlier_library_may_refuse_remarks_and_nothing_else() {
        let (load, plain) = (&remarks()[0], &standard()[0]);
        let checked = |load, name| check(load, &[Box::new(Earlier(name)) as Box<dyn Planner>]);
        for name in ["before", "control"] {
            assert_eq!(checked(load, name), Ok(()));
            assert_eq!(timed(load, name), ["same"]);
            assert!(checked(plain, name).is_err());
        }
        assert!(checked(load, "library").is_err());
        assert_eq!(timed(plain, "before"), ["before", "same"]);
    }
    /// A library of the time before ticks; it is wrong where a cost is to be rounded.
    struct Unrounded(&'static str);

    impl Planner for Unrounded {
        fn name(&self) -> &'static str {
            self.0
        }

        fn sweep(&self, chart: &[u8], rules: &[u8], lent: &mut SweepSlices) -> Answer {
            let answer = Same.sweep(chart, rules, lent);
            let is_whole = file_costs(chart).iter().all(|cost| cost % TICK == 0);
            Answer { cost: if is_whole { answer.cost } else { MAX_COST + 1 }, ..answer }
        }

        fn guided(&self, chart: &[u8], rules: &[u8], lent: &mut GuidedSlices) -> Answer {
            Same.guided(chart, rules, lent)
        }
    }

    #[test]
    fn an_earlier_library_is_given_rounded_costs() {
        for load in standard().iter().step_by(9).chain(&remarks()) {
            let checked = |name| check(load, &[Box::new(Unrounded(name)) as Box<dyn Planner>]);
            assert_eq!((checked("before"), checked("control")), (Ok(()), Ok(())));
            assert!(checked("library").is_err(), "{}", load.name);
        }
    }
}
