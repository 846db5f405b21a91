//! Wrong tables of row starts and wrong numbers of pairs. Where files and slices pass, plain searches
//! stand in for the planner; they are sound but for where they look for a pair.

use std::collections::BTreeSet;
use std::ops::Range;

use super::{new, Sabotage, Spoil};
use crate::files::{read_both, Problem, Step};
use crate::planner::{Answer, GuidedSlices, SweepSlices};
use crate::reference::rules::{advance, finish};
use crate::reference::{too_short, Facts, UNREACHED};

/// What the place of a pair depends on besides its stage and its node.
#[derive(Clone, Copy)]
pub(super) struct Size {
    stages: usize,
    /// N.
    width: usize,
    start: usize,
}

impl Size {
    fn of(Problem { chart, diagram }: &Problem) -> Size {
        let (stages, start) = (chart.stages.into(), chart.start.into());
        Size { stages, width: diagram.references(), start }
    }

    fn pairs(self) -> usize {
        self.stages * self.width
    }

    /// The right number of a pair.
    fn pair(self, stage: usize, node: usize) -> usize {
        stage * self.width + node
    }

    fn is_last(self, stage: usize) -> bool {
        stage + 1 == self.stages
    }
}

/// Where a stage and a node stand.
type Place = fn(Size, usize, usize) -> usize;

/// How a search goes about the rows.
#[derive(Clone, Copy)]
pub(super) struct Rows {
    place: Place,
    /// Where the trace-back looks for the stage that a step leaves, at a node; else as the search.
    back: Option<fn(Size, &Step, usize) -> usize>,
    /// What stands in the log for a pair; else its place.
    logged: Option<Place>,
    /// The stage of a settled pair, told by its right number. Nothing follows where it is wrong.
    told: fn(Size, usize) -> usize,
    /// How many nodes of a stage's row the sweep walks.
    walked: fn(Size, usize) -> usize,
    /// How many entries of the cost slice the sweep clears.
    cleared: fn(Size) -> usize,
    /// The node got by advancing one by the step with a number.
    advance: fn(&Problem, u16, u16) -> u16,
    /// Whether a node finishes at 1.
    finishes: fn(&Problem, u16) -> bool,
}

pub(super) const SOUND: Rows = Rows {
    place: Size::pair,
    back: None,
    logged: None,
    told: |size, pair| pair / size.width,
    walked: |size, _| size.width,
    cleared: Size::pairs,
    advance: |problem, node, step| advance(&problem.diagram, node, problem.chart.group(step)),
    finishes: |problem, node| finish(&problem.diagram, node) == 1,
};

const fn placed(place: Place) -> Rows {
    Rows { place, ..SOUND }
}

const fn traced(back: fn(Size, &Step, usize) -> usize) -> Rows {
    Rows { back: Some(back), ..SOUND }
}

const fn logged(logged: Place) -> Rows {
    Rows { logged: Some(logged), ..SOUND }
}

const fn told(told: fn(Size, usize) -> usize) -> Rows {
    Rows { told, ..SOUND }
}

const fn walked(walked: fn(Size, usize) -> usize) -> Rows {
    Rows { walked, ..SOUND }
}

const fn cleared(cleared: fn(Size) -> usize) -> Rows {
    Rows { cleared, ..SOUND }
}

pub(super) const fn advancing(advance: fn(&Problem, u16, u16) -> u16) -> Rows {
    Rows { advance, ..SOUND }
}

pub(super) const fn finishing(finishes: fn(&Problem, u16) -> bool) -> Rows {
    Rows { finishes, ..SOUND }
}

pub(super) const fn in_sweep(name: &'static str, rows: Rows) -> Sabotage {
    new(name, Spoil::SweepRows(rows))
}

pub(super) const fn in_guided(name: &'static str, rows: Rows) -> Sabotage {
    new(name, Spoil::GuidedRows(rows))
}

const ONE_EARLY: Rows = placed(|size, stage, node| size.pair(stage.saturating_sub(1), node));
const ONE_LATE: Rows = placed(|size, stage, node| size.pair(stage + 1, node));
const ONE_STAGE_SHORT: Rows = placed(|size, stage, node| match size.is_last(stage) {
    true => node,
    false => size.pair(stage, node),
});
const OF_255_STAGES: Rows = placed(|size, stage, node| match stage {
    255 => node,
    _ => size.pair(stage, node),
});
const FROM_START: Rows =
    placed(|size, stage, node| size.pair(stage + size.stages - size.start, node));
const OF_INNER_NODES: Rows = placed(|size, stage, node| stage * (size.width - 2) + node);
const ONE_LESS: Rows = placed(|size, stage, node| stage * (size.width - 1) + node);
const ONE_MORE: Rows = placed(|size, stage, node| stage * (size.width + 1) + node);
const OF_512: Rows = placed(|_, stage, node| stage * 512 + node);
const OF_STAGES: Rows = placed(|size, stage, node| stage * size.stages + node);
const BY_NODE: Rows = placed(|size, stage, node| node * size.stages + stage);
const START_OF_16_BITS: Rows = placed(|size, stage, node| (size.pair(stage, 0) & 0xffff) + node);
const PAIR_OF_16_BITS: Rows = placed(|size, stage, node| size.pair(stage, node) & 0xffff);
const LAST_OF_ALL: Rows = placed(|size, stage, node| size.pair(stage, node).min(131_070));

const BACK_ONE_EARLY: Rows =
    traced(|size, step, node| size.pair(usize::from(step.from).saturating_sub(1), node));
const BACK_ONE_LATE: Rows = traced(|size, step, node| size.pair(usize::from(step.from) + 1, node));
const BACK_AT_TO: Rows = traced(|size, step, node| size.pair(step.to.into(), node));
const BACK_ONE_LESS: Rows =
    traced(|size, step, node| usize::from(step.from) * (size.width - 1) + node);
const BACK_OF_512: Rows = traced(|_, step, node| usize::from(step.from) * 512 + node);
const BACK_OF_16_BITS: Rows = traced(|size, step, node| size.pair(step.from.into(), node) & 0xffff);

pub(super) static ROWS: [Sabotage; 54] = [
    in_sweep("sweep-row-one-early", ONE_EARLY),
    in_guided("guided-row-one-early", ONE_EARLY),
    in_sweep("sweep-row-one-late", ONE_LATE),
    in_guided("guided-row-one-late", ONE_LATE),
    in_sweep("sweep-last-row-not-filled", ONE_STAGE_SHORT),
    in_guided("guided-last-row-not-filled", ONE_STAGE_SHORT),
    in_sweep("sweep-rows-of-255-stages", OF_255_STAGES),
    in_guided("guided-rows-of-255-stages", OF_255_STAGES),
    in_sweep("sweep-rows-from-start", FROM_START),
    in_guided("guided-rows-from-start", FROM_START),
    in_sweep("sweep-width-of-inner-nodes", OF_INNER_NODES),
    in_guided("guided-width-of-inner-nodes", OF_INNER_NODES),
    in_sweep("sweep-width-one-less", ONE_LESS),
    in_guided("guided-width-one-less", ONE_LESS),
    in_sweep("sweep-width-one-more", ONE_MORE),
    in_guided("guided-width-one-more", ONE_MORE),
    in_sweep("sweep-width-512", OF_512),
    in_guided("guided-width-512", OF_512),
    in_sweep("sweep-width-of-stages", OF_STAGES),
    in_guided("guided-width-of-stages", OF_STAGES),
    in_sweep("sweep-rows-by-node", BY_NODE),
    in_guided("guided-rows-by-node", BY_NODE),
    in_sweep("sweep-row-start-of-16-bits", START_OF_16_BITS),
    in_guided("guided-row-start-of-16-bits", START_OF_16_BITS),
    in_sweep("sweep-pair-of-16-bits", PAIR_OF_16_BITS),
    in_guided("guided-pair-of-16-bits", PAIR_OF_16_BITS),
    in_sweep("sweep-pair-131071", LAST_OF_ALL),
    in_guided("guided-pair-131071", LAST_OF_ALL),
    in_sweep("sweep-trace-one-row-early", BACK_ONE_EARLY),
    in_guided("guided-trace-one-row-early", BACK_ONE_EARLY),
    in_sweep("sweep-trace-one-row-late", BACK_ONE_LATE),
    in_guided("guided-trace-one-row-late", BACK_ONE_LATE),
    in_sweep("sweep-trace-in-row-of-to", BACK_AT_TO),
    in_guided("guided-trace-in-row-of-to", BACK_AT_TO),
    in_sweep("sweep-trace-width-one-less", BACK_ONE_LESS),
    in_guided("guided-trace-width-one-less", BACK_ONE_LESS),
    in_sweep("sweep-trace-width-512", BACK_OF_512),
    in_guided("guided-trace-width-512", BACK_OF_512),
    in_sweep("sweep-trace-of-16-bits", BACK_OF_16_BITS),
    in_guided("guided-trace-of-16-bits", BACK_OF_16_BITS),
    in_sweep("sweep-row-up-to-entry-past-stages", walked(up_to_next_row)),
    in_sweep("sweep-highest-node-left-out", walked(|size, _| size.width - 1)),
    in_sweep("sweep-cleared-up-to-entry-past-stages", cleared(up_to_entry_past)),
    in_sweep("sweep-last-row-not-cleared", cleared(|size| size.pairs() - size.width)),
    in_sweep("sweep-last-entry-not-cleared", cleared(|size| size.pairs() - 1)),
    in_guided("guided-highest-node-told-as-next-row", told(|size, pair| (pair + 1) / size.width)),
    in_guided(
        "guided-node-1-told-as-row-before",
        told(|size, pair| (pair.max(2) - 2) / size.width),
    ),
    in_guided(
        "guided-stage-by-reciprocal",
        told(|size, pair| pair * (65_536 / size.width) / 65_536),
    ),
    in_guided("guided-stage-of-16-bits", told(|size, pair| (pair & 0xffff) / size.width)),
    in_guided("guided-log-of-16-bits", logged(PAIR_OF_16_BITS.place)),
    in_guided("guided-log-by-node", logged(BY_NODE.place)),
    in_guided("guided-log-width-512", logged(OF_512.place)),
    in_guided("guided-log-one-row-late", logged(ONE_LATE.place)),
    in_guided("guided-log-of-stages", logged(|_, stage, _| stage)),
];

/// A row that ends where the next one starts: past the stages that is 0.
fn up_to_next_row(size: Size, stage: usize) -> usize {
    if size.is_last(stage) {
        0
    } else {
        size.width
    }
}

/// As many entries as the table says at the stage count; for 256 stages it says nothing.
fn up_to_entry_past(size: Size) -> usize {
    if size.stages < 256 {
        0
    } else {
        size.pairs()
    }
}

impl Rows {
    /// None where the files or the slices are refused.
    pub(super) fn sweep(
        &self,
        chart: &[u8],
        rules: &[u8],
        lent: &mut SweepSlices,
    ) -> Option<Answer> {
        let problem = accepted(chart, rules, &lent.work_lengths(), lent.plan.len())?;
        Some(self.sweep_over(&problem, &mut lent.cost, &mut lent.plan))
    }

    /// A sweep over a problem, in slices that are enough.
    pub(super) fn sweep_over(
        &self,
        problem: &Problem,
        cost: &mut [u32],
        plan: &mut [u16],
    ) -> Answer {
        Search::new(self, problem).sweep(cost, plan)
    }

    /// None where the files or the slices are refused.
    pub(super) fn guided(
        &self,
        chart: &[u8],
        rules: &[u8],
        lent: &mut GuidedSlices,
    ) -> Option<Answer> {
        let problem = accepted(chart, rules, &lent.work_lengths(), lent.plan.len())?;
        let estimates = Facts::by_dynamic_programming(&problem);
        Some(self.guided_over(&problem, estimates, &mut lent.log, &mut lent.plan))
    }

    /// A guided search over a problem, in slices that are enough, by the estimates among some facts.
    pub(super) fn guided_over(
        &self,
        problem: &Problem,
        estimates: Facts,
        log: &mut [u32],
        plan: &mut [u16],
    ) -> Answer {
        Guided::new(Search::new(self, problem), estimates).run(log, plan)
    }
}

/// The problem of files and slices that pass.
pub(super) fn accepted(chart: &[u8], rules: &[u8], work: &[usize], plan: usize) -> Option<Problem> {
    read_both(chart, rules).ok().filter(|problem| !too_short(problem, work, plan))
}

struct Search<'a> {
    rows: &'a Rows,
    problem: &'a Problem,
    size: Size,
    /// By place: the step that led there, and the node from which.
    via: Vec<Option<(usize, usize)>>,
}

impl<'a> Search<'a> {
    fn new(rows: &'a Rows, problem: &'a Problem) -> Search<'a> {
        let size = Size::of(problem);
        Search { rows, problem, size, via: vec![None; size.pairs()] }
    }

    /// Places are kept below the number of pairs, so that no crash gives them away.
    fn at(&self, stage: u16, node: usize) -> usize {
        (self.rows.place)(self.size, stage.into(), node) % self.size.pairs()
    }

    fn sweep(mut self, cost: &mut [u32], plan: &mut [u16]) -> Answer {
        let Problem { chart, diagram } = self.problem;
        cost[..(self.rows.cleared)(self.size)].fill(UNREACHED);
        if diagram.root != 0 {
            cost[self.at(chart.start, diagram.root.into())] = 0;
        }
        for number in 0..chart.steps.len() {
            self.relax(number, cost);
        }
        let reached = |pair: &usize| cost[*pair] != UNREACHED;
        let count = (0..self.size.pairs()).filter(reached).count();
        let finishes = |node: &usize| (self.rows.finishes)(self.problem, *node as u16);
        let goals = self.walked(chart.end).filter(finishes);
        let goals = goals.map(|node| self.at(chart.end, node)).filter(reached);
        match goals.min_by_key(|pair| cost[*pair]) {
            None => Answer::no_plan(count),
            Some(goal) => Answer::accepted(cost[goal], self.trace_back(goal, plan), count),
        }
    }

    fn walked(&self, stage: u16) -> Range<usize> {
        1..(self.rows.walked)(self.size, stage.into())
    }

    /// Takes a step from every reached node of the stage that it leaves.
    fn relax(&mut self, number: usize, cost: &mut [u32]) {
        let step = self.problem.chart.steps[number];
        for node in self.walked(step.from) {
            let before = cost[self.at(step.from, node)];
            let next = (self.rows.advance)(self.problem, node as u16, number as u16);
            if before == UNREACHED || next == 0 {
                continue;
            }
            let to = self.at(step.to, next.into());
            // What was not cleared may be any number.
            let found = before.saturating_add(step.cost);
            if found < cost[to] {
                cost[to] = found;
                self.via[to] = Some((number, node));
            }
        }
    }

    /// Where rows overlap a way may go round in a circle; the plan slice ends it.
    fn trace_back(&self, goal: usize, plan: &mut [u16]) -> usize {
        let (mut length, mut pair) = (0, goal);
        while let Some((number, node)) = self.via[pair].filter(|_| length < plan.len()) {
            plan[length] = number as u16;
            length += 1;
            pair = self.before(&self.problem.chart.steps[number], node);
        }
        plan[..length].reverse();
        length
    }

    fn before(&self, step: &Step, node: usize) -> usize {
        match self.rows.back {
            None => self.at(step.from, node),
            Some(back) => back(self.size, step, node) % self.size.pairs(),
        }
    }

    fn logged(&self, stage: u16, node: u16) -> usize {
        match self.rows.logged {
            None => self.at(stage, node.into()),
            Some(logged) => logged(self.size, stage.into(), node.into()),
        }
    }

    fn is_told(&self, stage: u16, node: u16) -> bool {
        let pair = self.size.pair(stage.into(), node.into());
        (self.rows.told)(self.size, pair) == usize::from(stage)
    }
}

struct Guided<'a> {
    search: Search<'a>,
    estimates: Facts,
    /// By place: the least cost so far.
    cost: Vec<u32>,
    settled: Vec<bool>,
    /// Key, place, stage and node of each open pair.
    open: BTreeSet<(u32, usize, u16, u16)>,
}

impl<'a> Guided<'a> {
    fn new(search: Search<'a>, estimates: Facts) -> Guided<'a> {
        let pairs = search.size.pairs();
        Guided {
            search,
            estimates,
            cost: vec![UNREACHED; pairs],
            settled: vec![false; pairs],
            open: BTreeSet::new(),
        }
    }

    fn run(mut self, log: &mut [u32], plan: &mut [u16]) -> Answer {
        let Problem { chart, diagram } = self.search.problem;
        self.open(chart.start, diagram.root, 0, None);
        let mut count = 0;
        while let Some((_, pair, stage, node)) = self.open.pop_first() {
            // It is there again where it was opened again at less cost.
            if std::mem::replace(&mut self.settled[pair], true) {
                continue;
            }
            log[count] = self.search.logged(stage, node) as u32;
            count += 1;
            if !self.search.is_told(stage, node) {
                continue;
            }
            if stage == chart.end && (self.search.rows.finishes)(self.search.problem, node) {
                let length = self.search.trace_back(pair, plan);
                return Answer::accepted(self.cost[pair], length, count);
            }
            self.open_followers(stage, node, self.cost[pair]);
        }
        Answer::no_plan(count)
    }

    fn open_followers(&mut self, stage: u16, node: u16, cost: u32) {
        let Search { rows, problem, .. } = self.search;
        let leaving = problem.chart.steps.iter().enumerate().filter(|(_, step)| step.from == stage);
        for (number, step) in leaving {
            let next = (rows.advance)(problem, node, number as u16);
            self.open(step.to, next, cost + step.cost, Some((number, node.into())));
        }
    }

    fn open(&mut self, stage: u16, node: u16, cost: u32, via: Option<(usize, usize)>) {
        let right = self.search.size.pair(stage.into(), node.into());
        let Some(rest) = self.estimates.estimate(right) else { return };
        let pair = self.search.at(stage, node.into());
        if !self.settled[pair] && cost < self.cost[pair] {
            self.cost[pair] = cost;
            self.search.via[pair] = via;
            self.open.insert((cost + rest, pair, stage, node));
        }
    }
}

#[cfg(test)]
mod tests {
    use super::super::shown;
    use super::*;
    use crate::cases::{Case, Cases};

    static NO_SABOTAGE: [Sabotage; 2] = [in_sweep("none", SOUND), in_guided("none", SOUND)];

    /// The cases of rows, the largest first; the other corners left out.
    fn cases() -> Vec<Case> {
        let cases = Cases::new(31);
        let corners = (0..cases.corners()).rev().map(|number| cases.case(number));
        corners.filter(|case| case.kind == "rows").collect()
    }

    #[test]
    fn the_right_places_spoil_nothing() {
        shown::none(&cases(), &NO_SABOTAGE);
    }

    #[test]
    fn the_cases_of_rows_alone_show_every_wrong_place() {
        shown::all(&cases(), &ROWS);
    }
}
