//! The peak stack of every call over all loads.

use crate::loads::Load;
use crate::measure::making::Job;
use crate::planner::{ConjoinSlices, Cycle, CycleSlices, GuidedSlices, Planner, SweepSlices};
use crate::reference::judge;
use crate::stack::peak;

/// The most stack that a call of an implementation used, in bytes.
#[derive(Clone, Debug, PartialEq, Eq)]
pub struct Peak {
    pub planner: &'static str,
    pub call: &'static str,
    pub bytes: usize,
}

const CALLS: [&str; 6] = ["sweep", "guided", "cycles", "both", "space needed", "refused field"];
/// The calls that write a diagram.
const MAKING: [&str; 2] = ["conjoin", "reduce"];

/// Of some implementations that have all calls, over the loads; of conjunctions and reductions over those
/// that are timed.
pub fn peaks(planners: &[Box<dyn Planner>], loads: &[Load]) -> Vec<Peak> {
    let mut all = Vec::new();
    for planner in planners {
        for call in CALLS {
            let used = loads.iter().map(|load| used(planner.as_ref(), call, load));
            let bytes = used.max().unwrap_or(0);
            all.push(Peak { planner: planner.name(), call, bytes });
        }
        for call in MAKING {
            let jobs = Job::all().into_iter().filter(|(_, job)| job.call() == call);
            let used = jobs.map(|(_, job)| used_by(planner.as_ref(), &job));
            let bytes = used.max().unwrap_or(0);
            all.push(Peak { planner: planner.name(), call, bytes });
        }
    }
    all
}

fn used_by(planner: &dyn Planner, job: &Job) -> usize {
    let Ok(found) = job.judged() else { return 0 };
    let mut lent = ConjoinSlices::of(found.operands.pairs(), found.length());
    peak(move || {
        let _ = job.run(planner, &mut lent);
    })
}

/// One call on one load.
fn used(planner: &dyn Planner, call: &str, load: &Load) -> usize {
    let Load { chart, rules, .. } = load;
    let Ok(facts) = judge(chart, rules) else { return 0 };
    let (work, plan) = (facts.problem.pairs(), facts.problem.longest_plan());
    let mut sweep = SweepSlices::of(work, plan);
    let mut guided = GuidedSlices::of(work, plan);
    let (start, end) = (facts.problem.chart.start, facts.problem.chart.end);
    let list = vec![Cycle::new(start, end), Cycle::new(u16::MAX, 0), Cycle::new(end, start)];
    let mut cycles = CycleSlices::of(work, list);
    let mut field = vec![0; chart.len()];
    peak(move || match call {
        "sweep" => drop(planner.sweep(chart, rules, &mut sweep)),
        "guided" => drop(planner.guided(chart, rules, &mut guided)),
        "cycles" => drop(planner.cycles(chart, rules, &mut cycles)),
        "both" => drop(planner.both(chart, rules, &mut sweep, &mut guided)),
        "space needed" => drop(planner.space_needed(chart, rules)),
        _ => drop(planner.refused_field(chart, rules, 1, 9, &mut field)),
    })
}
