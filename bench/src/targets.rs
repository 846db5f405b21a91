//! What the library's times are held to.

use crate::loads::Group;
use crate::measure::Call;
use crate::ratios::{Measured, Spread};

/// The loads of a target.
#[derive(Clone, Copy, Debug)]
enum On {
    Every,
    Group(Group),
    Steps(usize),
}

impl On {
    fn has(self, measured: &Measured) -> bool {
        match self {
            On::Every => true,
            On::Group(group) => measured.group == group,
            On::Steps(steps) => measured.steps == steps,
        }
    }

    fn name(self) -> String {
        match self {
            On::Every => "every load".into(),
            On::Group(Group::Small) => "the example's chart and small charts".into(),
            On::Group(Group::LongSteps) => "long steps, few settled".into(),
            On::Group(Group::Remarks) => "files with remarks".into(),
            On::Group(Group::Groups) => "charts with groups".into(),
            On::Group(Group::Other) => "the other loads".into(),
            On::Steps(steps) => format!("{steps} steps"),
        }
    }
}

/// How many times as long the library may take.
#[derive(Clone, Copy, Debug)]
enum Limit {
    Times(f64),
    /// As much as two copies of the earlier library differ on some load of the same run.
    Noise,
}

/// The library takes at most so many times as long as another implementation, on each of some loads.
#[derive(Clone, Copy, Debug)]
pub struct Target {
    to: &'static str,
    calls: &'static [Call],
    on: On,
    most: Limit,
}

pub const TARGETS: [Target; 5] = [
    Target { to: "same", calls: &Call::ALL, on: On::Every, most: Limit::Times(1.15) },
    Target {
        to: "before",
        calls: &[Call::Guided],
        on: On::Group(Group::Small),
        most: Limit::Times(0.75),
    },
    Target {
        to: "before",
        calls: &[Call::Guided],
        on: On::Group(Group::LongSteps),
        most: Limit::Times(0.60),
    },
    Target {
        to: "before",
        calls: &[Call::Reading],
        on: On::Steps(1_024),
        most: Limit::Times(0.80),
    },
    Target { to: "before", calls: &Call::ALL, on: On::Every, most: Limit::Noise },
];

/// A target and what was measured.
pub struct Verdict {
    target: Target,
    pub limit: Option<f64>,
    /// None where one of the two was not timed.
    pub found: Option<Spread>,
}

impl Verdict {
    pub fn word(&self) -> &'static str {
        match (&self.found, self.limit) {
            (Some(found), Some(limit)) if found.most <= limit => "met",
            (Some(_), Some(_)) => "NOT MET",
            _ => "not measured",
        }
    }

    /// What is aimed at.
    pub fn aim(&self) -> String {
        let Target { to, calls, on, .. } = self.target;
        let calls: Vec<&str> = calls.iter().map(|call| call.name()).collect();
        let noise = match self.target.most {
            Limit::Times(_) => "",
            Limit::Noise => " (noise of this run)",
        };
        format!("library / {to}, {}, {}{noise}", calls.join(" and "), on.name())
    }
}

/// Every target, with the ratios of all its loads and calls.
pub fn verdicts(all: &[Measured]) -> Vec<Verdict> {
    let verdict = |target: Target| {
        let limit = match target.most {
            Limit::Times(most) => Some(most),
            Limit::Noise => noise(all),
        };
        Verdict { target, limit, found: found(all, target) }
    };
    TARGETS.map(verdict).into()
}

fn found(all: &[Measured], target: Target) -> Option<Spread> {
    let loads: Vec<Measured> = all.iter().filter(|m| target.on.has(m)).cloned().collect();
    over_calls(&loads, "library", target.to, target.calls)
}

/// How far apart two copies of the earlier library are at most, either way.
fn noise(all: &[Measured]) -> Option<f64> {
    let Spread { least, most, .. } = over_calls(all, "control", "before", &Call::ALL)?;
    Some(most.max(1.0 / least))
}

/// One implementation to another in some calls.
fn over_calls(all: &[Measured], of: &str, to: &str, calls: &[Call]) -> Option<Spread> {
    let cells = all.iter().flat_map(|load| calls.iter().map(move |call| (load, *call)));
    Spread::over(cells.filter_map(|(load, call)| {
        Some((load.ratio(of, to, call)?, format!("{}, {}", load.name, call.name())))
    }))
}

#[cfg(test)]
mod tests {
    use super::verdicts;
    use crate::loads::standard;
    use crate::measure::{Call, Timing};
    use crate::ratios::Measured;

    /// Times of the library that are so many times those of the others, on every load.
    fn all(factor: f64) -> Vec<Measured> {
        let timing = |planner, call, nanoseconds| {
            let placed = vec![nanoseconds];
            Timing { planner, call, nanoseconds, placed, count: 1 }
        };
        let measured = |load| {
            let mut measured = Measured::new(load).expect("sound files");
            for call in Call::ALL {
                let times = [("library", factor), ("before", 1.0), ("control", 1.0), ("same", 1.0)];
                let times = times.map(|(planner, time)| timing(planner, call, time));
                measured.add(0, 1, times.into());
            }
            measured
        };
        standard().iter().map(measured).collect()
    }

    fn words(all: &[Measured]) -> Vec<&'static str> {
        verdicts(all).iter().map(|verdict| verdict.word()).collect()
    }

    #[test]
    fn each_target_can_be_met_and_missed() {
        assert_eq!(words(&all(0.6)), ["met"; 5]);
        assert_eq!(words(&all(0.61)), ["met", "met", "NOT MET", "met", "met"]);
        assert_eq!(words(&all(0.76)), ["met", "NOT MET", "NOT MET", "met", "met"]);
        assert_eq!(words(&all(0.81)), ["met", "NOT MET", "NOT MET", "NOT MET", "met"]);
        assert_eq!(words(&all(1.16)), ["NOT MET"; 5]);
        assert_eq!(words(&[]), ["not measured"; 5]);
    }

    #[test]
    fn noise_is_that_of_the_run() {
        for time in [1.25, 0.8] {
            let mut all = all(1.2);
            let control = all[5].timings.iter_mut().find(|t| t.planner == "control");
            control.expect("its time").nanoseconds = time;
            assert_eq!(words(&all)[4], "met", "{time}");
        }
    }

    #[test]
    fn one_load_misses_a_target() {
        let mut all = all(0.5);
        all[0].timings.iter_mut().find(|t| t.planner == "same").expect("its time").nanoseconds =
            0.1;
        assert_eq!(words(&all), ["NOT MET", "met", "met", "met", "met"]);
    }
}
