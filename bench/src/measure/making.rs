//! Times of the calls that write a diagram, conjunctions and reductions, in this process; held to a target of
//! their own.

use std::hint::black_box;

use super::{processor_ns, repeats_of, takes_part};
use crate::check::conjunction::{conjunction, reduction};
use crate::check::Checked;
use crate::compare::slices::{dirty, dirty_bytes};
use crate::files::{write_chart, write_diagram, MAX_NODES};
use crate::generate::broken::Files;
use crate::generate::three_files::{written, ThreeFiles};
use crate::generate::{operands, padded, Random};
use crate::planner::{Answer, ConjoinSlices, Planner};
use crate::reference::conjunction::{conjoin, Conjoined};
use crate::reference::reduction::reduce;

/// The most microseconds that the library may take.
pub const MOST_US: f64 = 10_000.0;

/// A call on its files.
pub enum Job {
    Conjoin(ThreeFiles),
    Reduce(Files),
}

impl Job {
    /// All that are timed, by their names.
    pub fn all() -> Vec<(&'static str, Job)> {
        let conjunctions = operands::named().into_iter();
        let conjunctions = conjunctions.map(|(name, both)| (name, Job::Conjoin(written(&both))));
        let reductions = padded::named().into_iter().map(|(name, problem)| {
            let files = (write_chart(&problem.chart), write_diagram(&problem.diagram));
            (name, Job::Reduce(files))
        });
        conjunctions.chain(reductions).collect()
    }

    pub fn call(&self) -> &'static str {
        match self {
            Job::Conjoin(_) => "conjoin",
            Job::Reduce(_) => "reduce",
        }
    }

    pub fn judged(&self) -> Conjoined {
        match self {
            Job::Conjoin((chart, rules, more)) => conjoin(chart, rules, more),
            Job::Reduce((chart, rules)) => reduce(chart, rules),
        }
    }

    /// Makes the call; none where an implementation has none.
    pub fn run(&self, planner: &dyn Planner, lent: &mut ConjoinSlices) -> Option<Answer> {
        match self {
            Job::Conjoin((chart, rules, more)) => planner.conjoin(chart, rules, more, lent),
            Job::Reduce((chart, rules)) => planner.reduce(chart, rules, &mut lent.file),
        }
    }

    fn check(
        &self,
        judged: &Conjoined,
        before: &ConjoinSlices,
        after: &ConjoinSlices,
        answer: Answer,
    ) -> Checked {
        match self {
            Job::Conjoin(_) => conjunction(judged, before, after, answer),
            Job::Reduce(_) => reduction(judged, &before.file, &after.file, answer),
        }
    }

    /// Nanoseconds of so many calls.
    fn sample(&self, planner: &dyn Planner, lent: &mut ConjoinSlices, repeats: u32) -> f64 {
        let begun = processor_ns();
        for _ in 0..repeats {
            black_box(black_box(self).run(planner, lent));
        }
        processor_ns() - begun
    }
}

/// One call timed.
#[derive(Clone, Debug)]
pub struct Made {
    pub call: &'static str,
    pub name: &'static str,
    pub steps: usize,
    /// Inner nodes of the first diagram.
    pub before: usize,
    /// Entries of a conjunction's work slice, and the pairs that are come to.
    pub pairs: usize,
    pub visited: usize,
    /// Inner nodes of the reduced diagram; above 510 the answer is 12.
    pub nodes: usize,
    /// The least time of each implementation.
    pub times: Vec<(&'static str, f64)>,
}

impl Made {
    pub fn microseconds(&self, planner: &str) -> Option<f64> {
        let time = self.times.iter().find(|(name, _)| *name == planner);
        time.map(|(_, nanoseconds)| nanoseconds / 1_000.0)
    }

    /// How many times as long as another implementation one takes.
    pub fn ratio(&self, of: &str, to: &str) -> Option<f64> {
        Some(self.microseconds(of)? / self.microseconds(to)?)
    }

    pub fn result(&self) -> String {
        match self.nodes {
            0..=MAX_NODES => self.nodes.to_string(),
            _ => "12".into(),
        }
    }
}

/// The longest time of an implementation, in microseconds, and on which load.
pub fn longest(all: &[Made], planner: &str) -> Option<(f64, &'static str)> {
    let times = all.iter().filter_map(|one| Some((one.microseconds(planner)?, one.name)));
    times.max_by(|a, b| a.0.total_cmp(&b.0))
}

/// Checks and times all implementations that have the call, on the loads that are asked for.
pub fn measure(
    planners: &[Box<dyn Planner>],
    rounds: usize,
    only: &str,
) -> Result<Vec<Made>, String> {
    let chosen = Job::all().into_iter().filter(|(name, job)| is_chosen(name, job, only));
    chosen.map(|(name, job)| timed(name, &job, planners, rounds)).collect()
}

/// Whether a load is asked for: by a text in its name, or by its call.
pub fn is_chosen(name: &str, job: &Job, only: &str) -> bool {
    format!("{}: {name}", job.call()).contains(only)
}

fn timed(
    name: &'static str,
    job: &Job,
    planners: &[Box<dyn Planner>],
    rounds: usize,
) -> Result<Made, String> {
    let judged = job.judged();
    let found = judged.as_ref().map_err(|fault| format!("{name}: {fault:?}"))?;
    let random = &mut Random::new(1);
    let (work, file) = (dirty(random, found.operands.pairs()), dirty_bytes(random, found.length()));
    let before = ConjoinSlices { work, file };
    let mut contenders = Vec::new();
    for planner in planners {
        let mut lent = before.clone();
        let Some(answer) = job.run(&**planner, &mut lent) else { continue };
        job.check(&judged, &before, &lent, answer)
            .map_err(|text| format!("{name}: {}: {text}", planner.name()))?;
        let repeats = repeats_of(|repeats| job.sample(&**planner, &mut lent, repeats));
        contenders.push((planner, lent, repeats, f64::INFINITY));
    }
    for round in 0..rounds {
        for (planner, lent, repeats, least) in &mut contenders {
            if takes_part(planner.name(), round) {
                let took = job.sample(&***planner, lent, *repeats);
                *least = least.min(took / f64::from(*repeats));
            }
        }
    }
    Ok(Made {
        call: job.call(),
        name,
        steps: found.operands.chart.steps.len(),
        before: found.operands.first.nodes.len(),
        pairs: found.operands.pairs(),
        visited: found.product.pairs,
        nodes: found.reduced.nodes.len(),
        times: contenders.iter().map(|(by, _, _, least)| (by.name(), *least)).collect(),
    })
}

#[cfg(test)]
mod tests {
    use super::{is_chosen, measure, Job};
    use crate::planner;

    #[test]
    fn every_load_is_sound_and_timed() {
        let all = measure(&planner::timed(), 1, "").expect("sound files, right results");
        assert_eq!(all.len(), Job::all().len());
        for one in &all {
            assert!(one.ratio("textbook", "same").is_some_and(|ratio| ratio > 0.0), "{}", one.name);
        }
        let counts =
            ["conjoin", "reduce"].map(|call| all.iter().filter(|one| one.call == call).count());
        assert_eq!(counts, [9, 5]);
    }

    #[test]
    fn loads_are_chosen_by_name_and_by_call() {
        let chosen = |only: &str| {
            let all = Job::all();
            all.iter().filter(|(name, job)| is_chosen(name, job, only)).count()
        };
        assert_eq!((chosen(""), chosen("conjoin"), chosen("reduce:")), (14, 9, 5));
        assert_eq!((chosen("most pairs"), chosen("dag 256")), (1, 0));
    }
}
