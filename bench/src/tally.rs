//! What the cases of a run were.

use std::collections::BTreeMap;
use std::time::Instant;

use crate::cases::Case;
use crate::compare::Outcome;
use crate::figures::{Corner, CORNERS};

const PROGRESS_EVERY: usize = 20_000;

pub struct Tally {
    pub begun: Instant,
    pub cases: usize,
    enumerated: usize,
    by_kind: BTreeMap<&'static str, usize>,
    by_number: BTreeMap<u32, usize>,
    corners: [usize; CORNERS.len()],
}

impl Tally {
    pub fn new() -> Tally {
        Tally {
            begun: Instant::now(),
            cases: 0,
            enumerated: 0,
            by_kind: BTreeMap::new(),
            by_number: BTreeMap::new(),
            corners: [0; CORNERS.len()],
        }
    }

    pub fn add(&mut self, case: &Case, outcome: &Outcome) {
        let figures = outcome.figures(case);
        self.cases += 1;
        self.enumerated += usize::from(outcome.enumerated);
        *self.by_kind.entry(case.kind).or_default() += 1;
        *self.by_number.entry(outcome.number).or_default() += 1;
        for (corner, kept) in CORNERS.iter().zip(&mut self.corners) {
            *kept = corner.with(*kept, &figures);
        }
        if self.cases % PROGRESS_EVERY == 0 {
            println!("{} cases, {:.1} s", self.cases, self.begun.elapsed().as_secs_f64());
        }
    }

    /// The corners that the run has not reached, with what it has.
    pub fn missed(&self) -> Vec<(&'static Corner, usize)> {
        let all = CORNERS.iter().zip(self.corners);
        all.filter(|(corner, reached)| *reached < corner.wanted).collect()
    }

    pub fn print(&self) {
        println!("by kind: {:?}", self.by_kind);
        println!("by the sweep's number: {:?}", self.by_number);
        println!("judged by enumeration as well: {}", self.enumerated);
        for (corner, reached) in CORNERS.iter().zip(self.corners) {
            println!("{}: {reached} (at least {})", corner.name, corner.wanted);
        }
    }
}

impl Default for Tally {
    fn default() -> Tally {
        Tally::new()
    }
}
