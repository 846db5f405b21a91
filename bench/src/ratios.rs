//! One load's times over all placements, and ratios of times over many loads.

use crate::files::read_both;
use crate::loads::{Group, Load};
use crate::measure::{Call, Timing};

/// The ratios that are told: of which times, to which.
pub const RATIOS: [(&str, &str); 5] = [
    ("library", "before"),
    ("control", "before"),
    ("library", "same"),
    ("before", "same"),
    ("textbook", "library"),
];

/// One load measured.
#[derive(Clone, Debug)]
pub struct Measured {
    pub name: String,
    pub group: Group,
    pub stages: usize,
    pub steps: usize,
    pub nodes: usize,
    pub pairs: usize,
    pub timings: Vec<Timing>,
}

impl Measured {
    /// Before any time.
    pub fn new(load: &Load) -> Result<Measured, String> {
        let problem = read_both(&load.chart, &load.rules)
            .map_err(|fault| format!("{}: {fault:?}", load.name))?;
        Ok(Measured {
            name: load.name.clone(),
            group: load.group,
            stages: usize::from(problem.chart.stages),
            steps: problem.chart.steps.len(),
            nodes: problem.diagram.nodes.len(),
            pairs: problem.pairs(),
            timings: Vec::new(),
        })
    }

    /// Takes in the times of one placement of so many: the least counts.
    pub fn add(&mut self, placement: usize, placements: usize, timings: Vec<Timing>) {
        for new in timings {
            let same = |old: &&mut Timing| old.planner == new.planner && old.call == new.call;
            let Some(old) = self.timings.iter_mut().find(same) else {
                let mut placed = vec![f64::INFINITY; placements];
                placed[placement] = new.nanoseconds;
                self.timings.push(Timing { placed, ..new });
                continue;
            };
            old.placed[placement] = old.placed[placement].min(new.nanoseconds);
            old.nanoseconds = old.nanoseconds.min(new.nanoseconds);
        }
    }

    /// What is lent to both searches: nine work slices of 32 bits, two plan slices of 16.
    pub fn lent_bytes(&self) -> usize {
        9 * 4 * self.pairs + 2 * 2 * (self.stages - 1)
    }

    pub fn timing(&self, planner: &str, call: Call) -> Option<&Timing> {
        self.timings.iter().find(|timing| timing.planner == planner && timing.call == call)
    }

    /// How many times as long as another implementation one takes.
    pub fn ratio(&self, of: &str, to: &str, call: Call) -> Option<f64> {
        Some(self.timing(of, call)?.nanoseconds / self.timing(to, call)?.nanoseconds)
    }
}

/// Ratios over many loads.
#[derive(Clone, Debug, Default)]
pub struct Spread {
    /// The geometric mean.
    pub mean: f64,
    pub least: f64,
    pub most: f64,
    /// The load with the largest.
    pub most_on: String,
    pub loads: usize,
}

impl Spread {
    /// None where there is no ratio.
    pub fn over(ratios: impl IntoIterator<Item = (f64, String)>) -> Option<Spread> {
        let start = Spread { least: f64::INFINITY, ..Spread::default() };
        let mut spread = ratios.into_iter().fold(start, |mut spread, (ratio, name)| {
            spread.mean += ratio.ln();
            spread.least = spread.least.min(ratio);
            spread.loads += 1;
            if ratio > spread.most {
                (spread.most, spread.most_on) = (ratio, name);
            }
            spread
        });
        spread.mean = (spread.mean / spread.loads as f64).exp();
        (spread.loads > 0).then_some(spread)
    }
}

/// One implementation to another in one call.
pub fn spread(all: &[Measured], of: &str, to: &str, call: Call) -> Option<Spread> {
    Spread::over(all.iter().filter_map(|m| Some((m.ratio(of, to, call)?, m.name.clone()))))
}

/// How far an implementation's least times in single placements are above the least of all.
pub fn placement_spread(all: &[Measured], planner: &str, call: Call) -> Option<Spread> {
    let of_load = |m: &Measured| {
        let timing = m.timing(planner, call)?;
        let most = timing.placed.iter().copied().fold(0.0, f64::max);
        Some((most / timing.nanoseconds, m.name.clone()))
    };
    Spread::over(all.iter().filter_map(of_load))
}

#[cfg(test)]
mod tests {
    use super::{spread, Measured, Spread};
    use crate::loads::standard;
    use crate::measure::{Call, Timing};

    fn timing(planner: &'static str, nanoseconds: f64) -> Timing {
        Timing { planner, call: Call::Sweep, nanoseconds, placed: vec![nanoseconds], count: 1 }
    }

    #[test]
    fn the_least_over_placements_counts() {
        let mut measured = Measured::new(&standard()[0]).expect("the example's files");
        measured.add(0, 2, vec![timing("library", 8.0), timing("same", 5.0)]);
        measured.add(1, 2, vec![timing("library", 6.0), timing("same", 10.0)]);
        measured.add(0, 2, vec![timing("library", 7.0), timing("same", 4.0)]);
        let library = measured.timing("library", Call::Sweep).expect("its time");
        assert_eq!((library.nanoseconds, &library.placed[..]), (6.0, &[7.0, 6.0][..]));
        assert_eq!(measured.ratio("library", "same", Call::Sweep), Some(1.5));
        assert_eq!(measured.ratio("library", "same", Call::Guided), None);
        assert_eq!(measured.ratio("library", "before", Call::Sweep), None);
        assert!(spread(&[measured], "library", "before", Call::Sweep).is_none());
    }

    #[test]
    fn geometric_mean_and_ends() {
        let ratios = [(0.5, "a".to_string()), (2.0, "b".into()), (1.0, "c".into())];
        let Spread { mean, least, most, most_on, loads } = Spread::over(ratios).expect("three");
        assert!((mean - 1.0).abs() < 1e-12);
        assert_eq!((least, most, &most_on[..], loads), (0.5, 2.0, "b", 3));
    }
}
