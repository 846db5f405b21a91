//! Reached pairs, least costs, estimates, sums and the cheapest plan of one problem, found in two
//! ways that know nothing of each other: from all ways one by one, and by dynamic programming.

use super::rules::{advance, finish, stands_at, verdict};
use super::ways::{cost_of, each_way, set_of};
use crate::files::{Node, Problem, MAX_STAGES};

/// What the cheapest legal plans have in common.
#[derive(Clone, Copy, Debug, PartialEq, Eq)]
pub struct Cheapest {
    pub cost: u32,
    /// Fewest and most steps of such a plan.
    pub lengths: (u32, u32),
}

impl Cheapest {
    /// The cheaper of two, their lengths taken together where they cost the same.
    fn or(self, other: Cheapest) -> Cheapest {
        match self.cost.cmp(&other.cost) {
            std::cmp::Ordering::Less => self,
            std::cmp::Ordering::Greater => other,
            std::cmp::Ordering::Equal => {
                let lengths =
                    (self.lengths.0.min(other.lengths.0), self.lengths.1.max(other.lengths.1));
                Cheapest { cost: self.cost, lengths }
            }
        }
    }
}

fn cheaper(known: Option<Cheapest>, found: Cheapest) -> Option<Cheapest> {
    Some(known.map_or(found, |before| before.or(found)))
}

/// All that REFERENCE defines about an accepted chart and diagram.
#[derive(Clone, Debug, PartialEq, Eq)]
pub struct Facts {
    pub problem: Problem,
    /// By pair: the least cost of a reached one.
    pub least: Vec<Option<u32>>,
    /// By stage, 256 of them.
    pub chart_estimate: Vec<Option<u32>>,
    /// By node reference.
    pub diagram_estimate: Vec<Option<u32>>,
    /// By node reference: whether it finishes at 1.
    pub finishes: Vec<bool>,
    /// None where there is no legal plan.
    pub cheapest: Option<Cheapest>,
}

impl Facts {
    /// From every single way; none where there are more than `limit` of them from some stage.
    pub fn by_enumeration(problem: &Problem, limit: usize) -> Option<Facts> {
        let mut facts = Facts::blank(problem);
        facts.enumerate_from_start(limit)?;
        facts.enumerate_to_end(limit)?;
        facts.diagram_estimate = (0..problem.diagram.references())
            .map(|reference| cheapest_yes(problem, reference as u16))
            .collect();
        Some(facts)
    }

    /// By dynamic programming over pairs, stages and nodes.
    pub fn by_dynamic_programming(problem: &Problem) -> Facts {
        let mut facts = Facts::blank(problem);
        facts.relax_steps();
        facts.relax_estimates();
        facts.diagram_estimate = node_estimates(problem, &problem.chart.group_costs());
        facts
    }

    /// The same with diagram estimates by other costs of groups.
    pub fn with_group_costs(&self, costs: &[Option<u32>]) -> Facts {
        Facts { diagram_estimate: node_estimates(&self.problem, costs), ..self.clone() }
    }

    fn blank(problem: &Problem) -> Facts {
        let references = problem.diagram.references();
        let finishes =
            (0..references).map(|node| finish(&problem.diagram, node as u16) == 1).collect();
        Facts {
            problem: problem.clone(),
            least: vec![None; problem.pairs()],
            chart_estimate: vec![None; usize::from(MAX_STAGES)],
            diagram_estimate: Vec::new(),
            finishes,
            cheapest: None,
        }
    }

    /// Least costs from all ways from the start; the cheapest plan by the verdict on its set of groups.
    fn enumerate_from_start(&mut self, limit: usize) -> Option<()> {
        let Problem { chart, diagram } = &self.problem;
        let references = diagram.references();
        let (least, cheapest) = (&mut self.least, &mut self.cheapest);
        let whole = each_way(chart, chart.start, limit, &mut |way| {
            let cost = cost_of(chart, way.steps);
            let node = usize::from(stands_at(diagram, &chart.groups_of(way.steps)));
            if node != 0 {
                let known = &mut least[usize::from(way.leads_to) * references + node];
                *known = Some(known.map_or(cost, |before| before.min(cost)));
            }
            if way.leads_to == chart.end && verdict(diagram, &set_of(chart, way.steps)) {
                let length = way.steps.len() as u32;
                *cheapest = cheaper(*cheapest, Cheapest { cost, lengths: (length, length) });
            }
        });
        whole.then_some(())
    }

    /// Chart estimates from all ways from each stage.
    fn enumerate_to_end(&mut self, limit: usize) -> Option<()> {
        let chart = &self.problem.chart;
        for stage in 0..chart.stages {
            let estimate = &mut self.chart_estimate[usize::from(stage)];
            let whole = each_way(chart, stage, limit, &mut |way| {
                if way.leads_to == chart.end {
                    let cost = cost_of(chart, way.steps);
                    *estimate = Some(estimate.map_or(cost, |before| before.min(cost)));
                }
            });
            whole.then_some(())?;
        }
        Some(())
    }

    /// Least costs, and lengths along least ways, step by step in file order: every step into a
    /// stage stands before every step out of it.
    fn relax_steps(&mut self) {
        let Problem { chart, diagram } = &self.problem;
        let references = diagram.references();
        let mut best: Vec<Option<Cheapest>> = vec![None; self.least.len()];
        if diagram.root != 0 {
            let start = usize::from(chart.start) * references + usize::from(diagram.root);
            best[start] = Some(Cheapest { cost: 0, lengths: (0, 0) });
        }
        for (number, step) in chart.steps.iter().enumerate() {
            let group = chart.group(number as u16);
            for node in 1..references {
                let Some(from) = best[usize::from(step.from) * references + node] else { continue };
                let next = usize::from(advance(diagram, node as u16, group));
                if next == 0 {
                    continue;
                }
                let lengths = (from.lengths.0 + 1, from.lengths.1 + 1);
                let found = Cheapest { cost: from.cost + step.cost, lengths };
                let to = &mut best[usize::from(step.to) * references + next];
                *to = cheaper(*to, found);
            }
        }
        let end_row = usize::from(chart.end) * references;
        for node in (0..references).filter(|node| self.finishes[*node]) {
            if let Some(found) = best[end_row + node] {
                self.cheapest = cheaper(self.cheapest, found);
            }
        }
        self.least = best.iter().map(|found| found.map(|f| f.cost)).collect();
    }

    /// Chart estimates, from the last step backwards.
    fn relax_estimates(&mut self) {
        let chart = &self.problem.chart;
        self.chart_estimate[usize::from(chart.end)] = Some(0);
        for step in chart.steps.iter().rev() {
            let Some(rest) = self.chart_estimate[usize::from(step.to)] else { continue };
            let estimate = &mut self.chart_estimate[usize::from(step.from)];
            let found = step.cost + rest;
            *estimate = Some(estimate.map_or(found, |before| before.min(found)));
        }
    }

    /// N.
    pub fn references(&self) -> usize {
        self.problem.diagram.references()
    }

    /// The pair of start and root.
    pub fn start_pair(&self) -> usize {
        let Problem { chart, diagram } = &self.problem;
        usize::from(chart.start) * self.references() + usize::from(diagram.root)
    }

    /// The larger of both estimates, none if either is none.
    pub fn estimate(&self, pair: usize) -> Option<u32> {
        let stage = self.chart_estimate[pair / self.references()]?;
        let node = self.diagram_estimate[pair % self.references()]?;
        Some(stage.max(node))
    }

    /// Least cost plus estimate of a reached pair that has one.
    pub fn sum(&self, pair: usize) -> Option<u32> {
        Some(self.least[pair]? + self.estimate(pair)?)
    }

    /// Whether a pair is reached, of the end stage, and its node finishes at 1.
    pub fn is_goal(&self, pair: usize) -> bool {
        self.least[pair].is_some()
            && pair / self.references() == usize::from(self.problem.chart.end)
            && self.finishes[pair % self.references()]
    }

    /// The pairs that follow from a pair by one step, each with that step's cost.
    pub fn followers(&self, pair: usize) -> Vec<(usize, u32)> {
        let Problem { chart, diagram } = &self.problem;
        let references = self.references();
        let (stage, node) = (pair / references, (pair % references) as u16);
        let first = chart.steps.partition_point(|step| usize::from(step.from) < stage);
        let leaving =
            chart.steps[first..].iter().take_while(|step| usize::from(step.from) == stage);
        leaving
            .enumerate()
            .map(|(at, step)| (step, chart.group((first + at) as u16)))
            .map(|(step, group)| (step, usize::from(advance(diagram, node, group))))
            .filter(|(_, next)| *next != 0)
            .map(|(step, next)| (usize::from(step.to) * references + next, step.cost))
            .collect()
    }

    /// The pairs that follow from a reached pair on a way of least cost to them.
    pub fn least_followers(&self, pair: usize) -> Vec<usize> {
        let Some(cost) = self.least[pair] else { return Vec::new() };
        let on_least = |next: &(usize, u32)| self.least[next.0] == Some(cost + next.1);
        self.followers(pair).into_iter().filter(on_least).map(|next| next.0).collect()
    }
}

/// The diagram estimate, by walking every path below the node, with each step of its group where it is
/// taken.
fn cheapest_yes(problem: &Problem, reference: u16) -> Option<u32> {
    match problem.diagram.inner(reference) {
        None => (reference == 1).then_some(0),
        Some(Node { step: group, lo, hi }) => {
            let steps = (0..).zip(&problem.chart.steps);
            let of_group = steps.filter(|(number, _)| problem.chart.group(*number) == group);
            let costs = of_group.map(|(_, step)| step.cost);
            let taken = costs.filter_map(|cost| Some(cheapest_yes(problem, hi)? + cost));
            smaller(cheapest_yes(problem, lo), taken.min())
        }
    }
}

/// The diagram estimates by the cost of each group, in the order of the references: children come before
/// their node.
fn node_estimates(problem: &Problem, costs: &[Option<u32>]) -> Vec<Option<u32>> {
    let mut estimates = vec![None, Some(0)];
    for node in &problem.diagram.nodes {
        // A group without steps is never taken.
        let cost = costs.get(usize::from(node.step)).copied().flatten();
        let taken = estimates[usize::from(node.hi)].zip(cost).map(|(rest, cost)| rest + cost);
        let found = smaller(estimates[usize::from(node.lo)], taken);
        estimates.push(found);
    }
    estimates
}

/// The smaller of two numbers that may be none.
fn smaller(a: Option<u32>, b: Option<u32>) -> Option<u32> {
    match (a, b) {
        (Some(a), Some(b)) => Some(a.min(b)),
        (a, b) => a.or(b),
    }
}
