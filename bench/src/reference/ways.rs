//! Ways through a chart, one after the other.

use crate::files::Chart;

/// A way and the stage it leads to.
pub struct Way<'a> {
    pub steps: &'a [u16],
    pub leads_to: u16,
}

/// Shows every way that begins at a stage, the empty one included. Gives up and says false where
/// there are more than `limit`.
pub fn each_way(chart: &Chart, from: u16, limit: usize, visit: &mut dyn FnMut(Way)) -> bool {
    let mut walk = Walk { chart, left: limit, steps: Vec::new(), visit };
    walk.extend(from)
}

struct Walk<'a> {
    chart: &'a Chart,
    left: usize,
    steps: Vec<u16>,
    visit: &'a mut dyn FnMut(Way),
}

impl Walk<'_> {
    fn extend(&mut self, stage: u16) -> bool {
        if self.left == 0 {
            return false;
        }
        self.left -= 1;
        (self.visit)(Way { steps: &self.steps, leads_to: stage });
        for (number, step) in self.chart.steps.iter().enumerate() {
            if step.from != stage {
                continue;
            }
            self.steps.push(number as u16);
            let whole = self.extend(step.to);
            self.steps.pop();
            if !whole {
                return false;
            }
        }
        true
    }
}

/// The cost of a way.
pub fn cost_of(chart: &Chart, steps: &[u16]) -> u32 {
    steps.iter().map(|step| chart.steps[usize::from(*step)].cost).sum()
}

/// One flag for each group of the chart: whether a step of it is in the list.
pub fn set_of(chart: &Chart, steps: &[u16]) -> Vec<bool> {
    let mut present = vec![false; chart.groups()];
    for step in steps {
        present[usize::from(chart.group(*step))] = true;
    }
    present
}

/// Whether the steps exist, each starts where the one before ended, and they lead from start to end.
pub fn is_plan(chart: &Chart, steps: &[u16]) -> bool {
    let mut at = chart.start;
    for number in steps {
        match chart.steps.get(usize::from(*number)) {
            Some(step) if step.from == at => at = step.to,
            _ => return false,
        }
    }
    at == chart.end
}
