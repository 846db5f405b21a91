//! Random charts within the limits.

use super::costs::{near_ticks, of_some_ticks, of_ticks, MOST_TICKS, SOUND};
use super::{groups, Random};
use crate::files::{Chart, Step, MAX_COST};

/// Which costs the steps have.
#[derive(Clone, Copy, Debug, PartialEq, Eq)]
pub enum Costs {
    Zero,
    Equal,
    /// 0 to 3 ticks: many ties.
    Few,
    MostlyZero,
    /// Anything up to the limit.
    Wide,
    /// The smallest and the largest ones, and those beside them.
    Limits,
    /// Rounded, the largest one everywhere.
    Largest,
    /// Different ones, rounded all the same.
    Alike,
    /// Few ticks, a nanosecond more and less.
    NearTicks,
}

/// How far the steps go.
#[derive(Clone, Copy, Debug, PartialEq, Eq)]
pub enum Spans {
    /// To the stage after, many in parallel.
    Next,
    Short,
    Any,
    /// Most of them leave few stages and lead to few.
    Hubs,
}

/// Where start and end lie.
#[derive(Clone, Copy, Debug, PartialEq, Eq)]
pub enum Ends {
    Outermost,
    Same,
    Backwards,
    Any,
}

/// All choices of a random chart.
#[derive(Clone, Copy, Debug)]
pub struct Shape {
    pub stages: usize,
    pub steps: usize,
    pub costs: Costs,
    pub spans: Spans,
    pub ends: Ends,
}

impl Shape {
    /// Up to that many stages and steps, the other choices drawn: mostly with a way to the end.
    pub fn random(random: &mut Random, stages: usize, steps: usize) -> Shape {
        use Costs::*;
        Shape {
            stages: random.between(1, stages),
            steps: random.between(0, steps),
            costs: random.pick(&[
                Zero, Equal, Few, Few, Few, MostlyZero, MostlyZero, Wide, Wide, Wide, Limits,
                Largest, Alike, NearTicks, NearTicks,
            ]),
            spans: random.pick(&[Spans::Next, Spans::Next, Spans::Short, Spans::Any, Spans::Hubs]),
            ends: match random.below(20) {
                0 => Ends::Same,
                1 => Ends::Backwards,
                2..=5 => Ends::Any,
                _ => Ends::Outermost,
            },
        }
    }

    /// A chart of this shape. One stage has no steps.
    pub fn chart(&self, random: &mut Random) -> Chart {
        let (start, end) = self.start_and_end(random);
        let count = if self.stages == 1 { 0 } else { self.steps };
        let equal = random.between(0, 1_000) as u32;
        let mut froms: Vec<usize> = (0..count).map(|_| self.from(random)).collect();
        froms.sort_unstable();
        let steps = froms
            .into_iter()
            .map(|from| {
                Step::new(from as u16, self.to(random, from) as u16, self.cost(random, equal))
            })
            .collect();
        Chart { stages: self.stages as u16, start, end, steps }
    }

    fn start_and_end(&self, random: &mut Random) -> (u16, u16) {
        let any = |random: &mut Random| random.below(self.stages);
        let (start, end) = match self.ends {
            Ends::Outermost => (0, self.stages - 1),
            Ends::Same => {
                let stage = any(random);
                (stage, stage)
            }
            Ends::Backwards => {
                let (a, b) = (any(random), any(random));
                (a.max(b), a.min(b))
            }
            Ends::Any => (any(random), any(random)),
        };
        (start as u16, end as u16)
    }

    fn from(&self, random: &mut Random) -> usize {
        let last = self.stages - 1;
        match self.spans {
            Spans::Hubs if random.percent(70) => random.below(last.div_ceil(4)),
            _ => random.below(last),
        }
    }

    fn to(&self, random: &mut Random, from: usize) -> usize {
        let last = self.stages - 1;
        match self.spans {
            Spans::Next => from + 1,
            Spans::Short => last.min(from + random.between(1, 3)),
            Spans::Any => random.between(from + 1, last),
            Spans::Hubs => last.max(from + 1) - random.below((last - from).div_ceil(4)),
        }
    }

    fn cost(&self, random: &mut Random, equal: u32) -> u32 {
        match self.costs {
            Costs::Zero => 0,
            Costs::Equal => equal,
            Costs::Few => of_some_ticks(random, 0, 3),
            Costs::MostlyZero if random.percent(70) => 0,
            Costs::MostlyZero => of_some_ticks(random, 1, 20),
            Costs::Wide => random.between(0, MAX_COST as usize) as u32,
            Costs::Limits => random.pick(&SOUND),
            Costs::Largest => of_ticks(random, MOST_TICKS),
            Costs::Alike => of_ticks(random, equal as usize),
            Costs::NearTicks => {
                let ticks = random.between(0, 6);
                near_ticks(random, ticks)
            }
        }
    }
}

/// So many steps from one stage to another; without steps there is one stage.
pub fn parallel(steps: usize) -> Chart {
    let stages = if steps == 0 { 1 } else { 2 };
    let step = Step::new(0, 1, 7);
    Chart { stages, start: 0, end: stages - 1, steps: vec![step; steps] }
}

/// A random chart of up to that many stages and steps, now and then with groups.
pub fn random_chart(random: &mut Random, stages: usize, steps: usize) -> Chart {
    let chart = random_chart_without_groups(random, stages, steps);
    groups::maybe(random, chart)
}

/// The same without groups.
pub fn random_chart_without_groups(random: &mut Random, stages: usize, steps: usize) -> Chart {
    Shape::random(random, stages, steps).chart(random)
}

/// A chart with a step from each stage to the next and long steps over them. `steps` is at least
/// the number of stages less one.
pub fn long_steps(random: &mut Random, stages: usize, steps: usize) -> Chart {
    let last = stages - 1;
    let mut all: Vec<Step> = (0..last)
        .map(|from| {
            let cost = random.between(100, 1_000) as u32;
            Step::new(from as u16, from as u16 + 1, cost)
        })
        .collect();
    while all.len() < steps {
        let from = random.below(last);
        let to = random.between(from + 1, last.min(from + 40));
        let cost = random.between(0, 400 * (to - from)) as u32;
        all.push(Step::new(from as u16, to as u16, cost));
    }
    all.sort_by_key(|step| step.from);
    Chart { stages: stages as u16, start: 0, end: last as u16, steps: all }
}
