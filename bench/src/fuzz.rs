//! Fuzzing of file bytes: sound files are spoiled and each answer is held against the reference, on
//! all cores for a given time. A case is fixed by the seed and its number.

mod corpus;

use std::process::exit;
use std::sync::atomic::{AtomicBool, AtomicU64, Ordering::Relaxed};
use std::sync::Mutex;
use std::thread;
use std::time::{Duration, Instant};

pub use corpus::Corpus;

use crate::compare::{hold, Difference, Judgement};
use crate::crash;
use crate::figures::remarks_passed;
use crate::planner::Planner;

/// Cases that a thread takes at once.
const BATCH: u64 = 64;
/// More than the numbers that a call may answer.
const NUMBERS: usize = 32;
/// A case that takes longer never ends.
const PATIENCE: Duration = Duration::from_secs(60);

/// How much is run.
#[derive(Clone, Copy, Debug)]
pub struct Bounds {
    pub first: u64,
    pub cases: u64,
    pub time: Duration,
    pub threads: usize,
}

/// What was found wrong, and with which case.
#[derive(Debug)]
pub struct Found {
    pub number: u64,
    pub difference: Difference,
}

/// A run under way.
pub struct Fuzz<'a> {
    corpus: &'a Corpus,
    planner: &'a [Box<dyn Planner>],
    bounds: Bounds,
    begun: Instant,
    next: AtomicU64,
    done: AtomicU64,
    by_number: [AtomicU64; NUMBERS],
    with_remarks: AtomicU64,
    stop: AtomicBool,
    found: Mutex<Option<Found>>,
}

impl<'a> Fuzz<'a> {
    pub fn new(corpus: &'a Corpus, planner: &'a [Box<dyn Planner>], bounds: Bounds) -> Fuzz<'a> {
        Fuzz {
            corpus,
            planner,
            bounds,
            begun: Instant::now(),
            next: AtomicU64::new(bounds.first),
            done: AtomicU64::new(0),
            by_number: [const { AtomicU64::new(0) }; NUMBERS],
            with_remarks: AtomicU64::new(0),
            stop: AtomicBool::new(false),
            found: Mutex::new(None),
        }
    }

    /// Runs to the end of the bounds or to the first difference, which it tells, and says whether
    /// there was none; `progress` is called all the while. Ends the program where a call doesn't end.
    pub fn run(&self, mut progress: impl FnMut(&Fuzz), tell: impl Fn(&Found)) -> bool {
        let workers: Vec<Worker> = (0..self.bounds.threads).map(|_| Worker::new()).collect();
        thread::scope(|scope| {
            let running: Vec<_> =
                workers.iter().map(|worker| scope.spawn(|| self.work(worker))).collect();
            let mut watchdog = Watchdog::new(&workers);
            while running.iter().any(|thread| !thread.is_finished()) {
                thread::sleep(Duration::from_millis(20));
                if self.begun.elapsed() >= self.bounds.time {
                    self.stop.store(true, Relaxed);
                }
                if let Some(number) = watchdog.stuck() {
                    tell(&self.endless(number));
                    exit(1);
                }
                progress(self);
            }
        });
        let found = self.found.lock().ok().and_then(|mut found| found.take());
        found.iter().for_each(tell);
        found.is_none()
    }

    /// Pairs of files so far.
    pub fn done(&self) -> u64 {
        self.done.load(Relaxed)
    }

    pub fn elapsed(&self) -> f64 {
        self.begun.elapsed().as_secs_f64()
    }

    /// How often each number was the sweep's, those that came.
    pub fn by_number(&self) -> Vec<(usize, u64)> {
        let all = self.by_number.iter().map(|count| count.load(Relaxed)).enumerate();
        all.filter(|(_, count)| *count > 0).collect()
    }

    /// Pairs of files in which remarks were passed over.
    pub fn with_remarks(&self) -> u64 {
        self.with_remarks.load(Relaxed)
    }

    fn work(&self, worker: &Worker) {
        let past = self.bounds.first.saturating_add(self.bounds.cases);
        while !self.stop.load(Relaxed) {
            let first = self.next.fetch_add(BATCH, Relaxed);
            if first >= past {
                break;
            }
            for number in first..past.min(first + BATCH) {
                worker.at.store(number, Relaxed);
                if let Err(difference) = self.run_case(number) {
                    self.stop.store(true, Relaxed);
                    self.keep(Found { number, difference });
                    break;
                }
            }
        }
        worker.at.store(Worker::RESTS, Relaxed);
    }

    fn run_case(&self, number: u64) -> Result<(), Difference> {
        let case = self.corpus.case(number);
        crash::begin(&case, Some((self.corpus.seed, number)));
        let outcome = hold(&case, Judgement::of(&case), self.planner);
        crash::end();
        let outcome = outcome?;
        self.by_number[outcome.number as usize].fetch_add(1, Relaxed);
        let has_remarks = remarks_passed(&case, outcome.judgement.fault()) > 0;
        self.with_remarks.fetch_add(has_remarks.into(), Relaxed);
        self.done.fetch_add(1, Relaxed);
        Ok(())
    }

    /// Keeps the difference with the smallest number.
    fn keep(&self, found: Found) {
        if let Ok(mut kept) = self.found.lock() {
            if kept.as_ref().is_none_or(|kept| found.number < kept.number) {
                *kept = Some(found);
            }
        }
    }

    fn endless(&self, number: u64) -> Found {
        let planner = self.planner.first().map_or("no implementation", |planner| planner.name());
        let text = format!("not done after {} s", PATIENCE.as_secs());
        Found { number, difference: Difference { planner, call: "a call", text } }
    }
}

/// What a thread is at.
struct Worker {
    at: AtomicU64,
}

impl Worker {
    const RESTS: u64 = u64::MAX;

    fn new() -> Worker {
        Worker { at: AtomicU64::new(Worker::RESTS) }
    }
}

/// Sees that no case goes on for ever.
struct Watchdog<'a> {
    workers: &'a [Worker],
    seen: Vec<(u64, Instant)>,
}

impl Watchdog<'_> {
    fn new(workers: &[Worker]) -> Watchdog<'_> {
        Watchdog { workers, seen: vec![(Worker::RESTS, Instant::now()); workers.len()] }
    }

    /// The number of a case that has been run for too long.
    fn stuck(&mut self) -> Option<u64> {
        for (worker, seen) in self.workers.iter().zip(&mut self.seen) {
            let at = worker.at.load(Relaxed);
            if at != seen.0 {
                *seen = (at, Instant::now());
            } else if at != Worker::RESTS && seen.1.elapsed() > PATIENCE {
                return Some(at);
            }
        }
        None
    }
}
