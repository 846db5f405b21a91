//! The step at fault of a refused chart: its values, and each of their faults by itself, whether it
//! is the one that is told or not.

use crate::files::{
    read_chart, step_of, two_bytes, Chart, Refusal, Step, CHART_FILE, GROUPED_STEP, HEADER,
    MAX_COST, MAX_GROUP, MAX_STEPS, STEP_KINDS,
};

/// The members of `StepFaults::set`.
pub const SURPLUS: u8 = 1;
pub const ENDS: u8 = 2;
pub const FALLS: u8 = 4;
pub const DEAR: u8 = 8;
pub const GROUP: u8 = 16;

/// The faults of a step's values.
#[derive(Clone, Copy, Debug, Default, PartialEq, Eq)]
pub struct StepFaults {
    /// 1,024 steps stand before it.
    pub surplus: bool,
    /// From is not below to.
    pub crossed: bool,
    /// To is not below the stage count.
    pub outside: bool,
    /// From is below that of the step before.
    pub falls: bool,
    /// The cost is beyond its limit.
    pub dear: bool,
    /// The group is beyond its limit.
    pub high_group: bool,
    /// The group is below that of the step before.
    pub low_group: bool,
}

impl StepFaults {
    /// Those of a step behind the steps of a chart.
    pub fn of(chart: &Chart, step: Step) -> StepFaults {
        StepFaults {
            surplus: chart.steps.len() == MAX_STEPS,
            crossed: step.to <= step.from,
            outside: step.to >= chart.stages,
            falls: chart.steps.iter().any(|before| before.from > step.from),
            dear: step.cost > MAX_COST,
            high_group: step.group.is_some_and(|group| group > MAX_GROUP),
            low_group: chart.steps.iter().any(|before| before.group > step.group),
        }
    }

    /// What is 10.
    pub fn ends(&self) -> bool {
        self.crossed || self.outside
    }

    /// What is 14.
    pub fn group(&self) -> bool {
        self.high_group || self.low_group
    }

    /// All of them in one number; 0 where the values are sound.
    pub fn set(&self) -> u8 {
        let member = |is_fault: bool, fault: u8| if is_fault { fault } else { 0 };
        member(self.surplus, SURPLUS)
            | member(self.ends(), ENDS)
            | member(self.falls, FALLS)
            | member(self.dear, DEAR)
            | member(self.group(), GROUP)
    }
}

/// A step field at fault, in its values or before they are looked at.
#[derive(Clone, Copy, Debug, PartialEq, Eq)]
pub struct StepAtFault {
    /// The number that is told.
    pub number: u32,
    /// The stage count of its chart.
    pub stages: u16,
    pub step: Step,
    /// The length that its field claims.
    pub claimed: usize,
    /// The group of the step before, where there is one.
    pub group_before: Option<u16>,
    pub faults: StepFaults,
}

impl StepAtFault {
    /// The step field of a refusal; none where it is another field, or ends before its cost. Of a cut
    /// cost the missing bytes are taken as 0, and a cut group as that of the step before.
    pub fn of(chart: &[u8], fault: &Refusal) -> Option<StepAtFault> {
        let Refusal { number, file, place } = *fault;
        if file != CHART_FILE || !matches!(number, 1 | 3 | 5 | 10 | 11 | 14) {
            return None;
        }
        let layout = STEP_KINDS.into_iter().find(|kind| chart.get(place) == Some(&kind.tag))?;
        if place == 0 {
            return None;
        }
        let values = chart.get(place + HEADER..).filter(|values| values.len() >= 4)?;
        let mut body = vec![0; layout.length];
        body.iter_mut().zip(values).for_each(|(byte, value)| *byte = *value);
        let before = read_chart(&chart[..place]).ok()?;
        let mut step = step_of(&body);
        if layout == GROUPED_STEP && values.len() < layout.length {
            step.group = before.steps.last().map_or(Some(0), |before| before.group);
        }
        let faults = StepFaults::of(&before, step);
        Some(StepAtFault {
            number,
            stages: before.stages,
            step,
            claimed: two_bytes(chart, place + 1).into(),
            group_before: before.steps.last().and_then(|before| before.group),
            faults,
        })
    }

    /// Whether it is refused for its values.
    pub fn for_values(&self) -> bool {
        matches!(self.number, 5 | 10 | 11 | 14)
    }
}
