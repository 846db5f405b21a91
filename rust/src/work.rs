//! Work space that is kept from call to call, and plans.

use crate::lent::{self, Answer, Cycle, CycleSlices, GuidedSlices, Space, SweepSlices};
use crate::refusal::Refusal;

/// A cheapest legal plan.
#[derive(Clone, Debug, PartialEq, Eq)]
pub struct Plan {
    /// In ns: the costs of its steps, each rounded up to a multiple of [`TICK`](crate::TICK).
    pub cost: u32,
    /// The numbers of its steps, in order.
    pub steps: Vec<u16>,
    /// How many pairs the guided search settled.
    pub settled: usize,
    /// How many pairs the sweep reached.
    pub reached: usize,
}

/// A cheapest legal plan for a chart file and a diagram file, by both searches. To plan often, keep
/// a [`Work`] and call [`Work::plan`]; to leave out the sweep, call [`Work::guided`].
pub fn plan(chart: &[u8], rules: &[u8]) -> Result<Plan, Refusal> {
    Work::for_files(chart, rules)?.plan(chart, rules)
}

/// Fills a list of starts and ends on one chart: number, cost and settled pairs of each entry, as a
/// guided search from that start to that end gives them. To fill lists often, keep a [`Work`] and call
/// [`Work::cycles`].
pub fn cycles(chart: &[u8], rules: &[u8], list: &mut [Cycle]) -> Result<(), Refusal> {
    Work::for_files(chart, rules)?.cycles(chart, rules, list)
}

/// The entries that the slices of a search need: those of each work slice, those of a plan slice.
pub fn space_needed(chart: &[u8], rules: &[u8]) -> Result<Space, Refusal> {
    let mut space = Space::default();
    lent::space_needed(chart, rules, &mut space);
    match Refusal::of_space(&space) {
        None => Ok(space),
        Some(refusal) => Err(refusal),
    }
}

/// Every slice of both searches. It serves all files that need no more space; for others the
/// searches answer 7.
#[derive(Clone, Debug, Default)]
pub struct Work {
    sweep: [Vec<u32>; 3],
    sweep_plan: Vec<u16>,
    guided: [Vec<u32>; 6],
    guided_plan: Vec<u16>,
}

impl Work {
    /// As much as two files need.
    pub fn for_files(chart: &[u8], rules: &[u8]) -> Result<Work, Refusal> {
        let space = space_needed(chart, rules)?;
        Ok(Work::with_entries(space.work, space.plan))
    }

    /// So many entries in each work slice and in both plan slices. 131,072 and 255 are enough for
    /// every chart and diagram.
    ///
    /// # Panics
    ///
    /// Where a slice would have more than `isize::MAX` bytes; where there is no memory for it, the
    /// program ends, as with any [`Vec`].
    pub fn with_entries(work: usize, plan: usize) -> Work {
        Work {
            sweep: [(); 3].map(|()| vec![0; work]),
            sweep_plan: vec![0; plan],
            guided: [(); 6].map(|()| vec![0; work]),
            guided_plan: vec![0; plan],
        }
    }

    /// Grows to what two files need; never shrinks.
    pub fn grow_for(&mut self, chart: &[u8], rules: &[u8]) -> Result<(), Refusal> {
        let space = space_needed(chart, rules)?;
        for slice in self.sweep.iter_mut().chain(&mut self.guided) {
            slice.resize(slice.len().max(space.work), 0);
        }
        for plan in [&mut self.sweep_plan, &mut self.guided_plan] {
            plan.resize(plan.len().max(space.plan), 0);
        }
        Ok(())
    }

    /// Both searches: the guided search's plan and both counts.
    pub fn plan(&mut self, chart: &[u8], rules: &[u8]) -> Result<Plan, Refusal> {
        let (sweep, guided) = self.both(chart, rules);
        let mut plan = self.plan_of(&guided)?;
        plan.reached = sweep.count;
        Ok(plan)
    }

    /// The plan of an accepted answer of the guided search; `reached` is 0 in it.
    fn plan_of(&self, guided: &Answer) -> Result<Plan, Refusal> {
        if let Some(refusal) = Refusal::of(guided) {
            return Err(refusal);
        }
        Ok(Plan {
            cost: guided.cost as u32,
            steps: self.guided_steps(guided).to_vec(),
            settled: guided.count,
            reached: 0,
        })
    }

    /// The sweep alone.
    pub fn sweep(&mut self, chart: &[u8], rules: &[u8]) -> Answer {
        let mut answer = Answer::default();
        lent::sweep(chart, rules, self.slices().0, &mut answer);
        answer
    }

    /// The guided search alone.
    pub fn guided(&mut self, chart: &[u8], rules: &[u8]) -> Answer {
        let mut answer = Answer::default();
        lent::guided(chart, rules, self.slices().1, &mut answer);
        answer
    }

    /// A list of starts and ends on one chart. A refusal leaves the whole list as it was. A start or an
    /// end that is no stage, and that there is no legal plan, is told by its entry alone: that is `Ok`.
    pub fn cycles(
        &mut self,
        chart: &[u8],
        rules: &[u8],
        list: &mut [Cycle],
    ) -> Result<(), Refusal> {
        let mut answer = Answer::default();
        let GuidedSlices { keys, via, heap, pos, stack, log, .. } = self.slices().1;
        let lent = CycleSlices { keys, via, heap, pos, stack, log };
        lent::cycles(chart, rules, lent, list, &mut answer);
        match Refusal::of(&answer) {
            None => Ok(()),
            Some(refusal) => Err(refusal),
        }
    }

    /// Both searches: the sweep's answer, then the guided search's.
    pub fn both(&mut self, chart: &[u8], rules: &[u8]) -> (Answer, Answer) {
        let (mut swept, mut found) = (Answer::default(), Answer::default());
        let (sweep, guided) = self.slices();
        lent::both(chart, rules, sweep, guided, (&mut swept, &mut found));
        (swept, found)
    }

    /// The sweep's least costs by pair, and what stood behind them.
    pub fn costs(&self) -> &[u32] {
        &self.sweep[0]
    }

    /// The plan of an answer that this work's last sweep gave.
    pub fn sweep_steps(&self, answer: &Answer) -> &[u16] {
        front(&self.sweep_plan, answer.length)
    }

    /// The plan of an answer that this work's last guided search gave.
    pub fn guided_steps(&self, answer: &Answer) -> &[u16] {
        front(&self.guided_plan, answer.length)
    }

    /// The settled pairs of an answer that this work's last guided search gave. A list writes over them.
    pub fn settled(&self, answer: &Answer) -> &[u32] {
        front(&self.guided[5], answer.count)
    }

    /// All slices, to be lent.
    fn slices(&mut self) -> (SweepSlices<'_>, GuidedSlices<'_>) {
        let [cost, cost_via, nodes] = &mut self.sweep;
        let [keys, via, heap, pos, stack, log] = &mut self.guided;
        let sweep = SweepSlices { cost, via: cost_via, nodes, plan: &mut self.sweep_plan };
        let guided = GuidedSlices { keys, via, heap, pos, stack, log, plan: &mut self.guided_plan };
        (sweep, guided)
    }
}

/// The first entries of a slice, as many as there are.
pub(crate) fn front<T>(slice: &[T], length: usize) -> &[T] {
    &slice[..length.min(slice.len())]
}
