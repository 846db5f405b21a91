//! The slow and plain reference: what docs/REFERENCE.md says, for any two files.

pub mod conjunction;
mod counts;
pub mod cycles;
mod facts;
pub mod reduction;
pub mod rules;
pub mod ways;

pub use facts::{Cheapest, Facts};

use crate::files::{read_both, two_bytes, Problem, Refusal, HEADER};
use crate::planner::Space;

/// The cost slice's mark for a pair that isn't reached.
pub const UNREACHED: u32 = 4_294_967_295;

/// Both files judged: all facts about them, or the first fault.
pub type Judged = Result<Facts, Refusal>;

/// Reads both files and works out the facts by dynamic programming.
pub fn judge(chart: &[u8], rules: &[u8]) -> Judged {
    read_both(chart, rules).map(|problem| Facts::by_dynamic_programming(&problem))
}

/// An answer as far as REFERENCE fixes it: length and count lie between two bounds.
#[derive(Clone, Copy, Debug, PartialEq, Eq)]
pub struct Expected {
    pub number: u32,
    pub file: u32,
    pub place: usize,
    pub cost: u32,
    pub length: (u32, u32),
    pub count: (u32, u32),
}

impl Expected {
    fn refused(number: u32, file: u32, place: usize) -> Expected {
        Expected { number, file, place, cost: 0, length: (0, 0), count: (0, 0) }
    }
}

/// The answer of a sweep that is lent work slices and a plan slice of these lengths.
pub fn sweep_answer(judged: &Judged, work: &[usize], plan: usize) -> Expected {
    answer(judged, work, plan, |facts| (facts.reached(), facts.reached()))
}

/// The answer of a guided search that is lent work slices and a plan slice of these lengths.
pub fn guided_answer(judged: &Judged, work: &[usize], plan: usize) -> Expected {
    answer(judged, work, plan, Facts::settled_range)
}

fn answer(
    judged: &Judged,
    work: &[usize],
    plan: usize,
    count: impl Fn(&Facts) -> (u32, u32),
) -> Expected {
    let facts = match judged {
        Err(fault) => return Expected::refused(fault.number, fault.file, fault.place),
        Ok(facts) if too_short(&facts.problem, work, plan) => return Expected::refused(7, 0, 0),
        Ok(facts) => facts,
    };
    let count = count(facts);
    match facts.cheapest {
        None => Expected { count, ..Expected::refused(8, 0, 0) },
        Some(Cheapest { cost, lengths }) => {
            Expected { number: 0, file: 0, place: 0, cost, length: lengths, count }
        }
    }
}

/// The space that two files need, or their fault: REFERENCE 3.1, refusal 7.
pub fn space_needed(judged: &Judged) -> Space {
    match judged {
        Err(fault) => {
            Space { number: fault.number, file: fault.file, place: fault.place, ..Space::default() }
        }
        Ok(facts) => Space {
            work: facts.problem.pairs(),
            plan: facts.problem.longest_plan(),
            ..Space::default()
        },
    }
}

/// Whether a work slice or the plan slice holds less than is needed.
pub fn too_short(problem: &Problem, work: &[usize], plan: usize) -> bool {
    work.iter().any(|length| *length < problem.pairs()) || plan < problem.longest_plan()
}

/// What the sweep's cost slice holds at each pair.
pub fn cost_slice(facts: &Facts) -> Vec<u32> {
    facts.least.iter().map(|cost| cost.unwrap_or(UNREACHED)).collect()
}

/// The bytes of the field at a place of the marked file, cut at the file's end; else an empty part
/// of the chart.
pub fn refused_field<'a>(chart: &'a [u8], rules: &'a [u8], mark: u32, place: usize) -> &'a [u8] {
    let file = match mark {
        1 => chart,
        2 => rules,
        _ => return &chart[..0],
    };
    if place >= file.len() {
        return &chart[..0];
    }
    let rest = &file[place..];
    if rest.len() < HEADER {
        return rest;
    }
    let whole = HEADER + usize::from(two_bytes(rest, 1));
    &rest[..whole.min(rest.len())]
}
