//! The sweep: dynamic programming row by row, each row with a list of its reached nodes.

use super::{pack_via, prepare, trace_back, Tables, BY_NODE, BY_STAGE, NONE, NO_VIA};
use crate::planner::Answer;

/// Finds the least cost of every pair and a cheapest legal plan.
pub fn sweep(
    chart: &[u8],
    rules: &[u8],
    cost: &mut [u32],
    via: &mut [u32],
    nodes: &mut [u32],
    plan: &mut [u16],
) -> Answer {
    let mut tables = Tables::new();
    let shortest = cost.len().min(via.len()).min(nodes.len());
    if let Err(refusal) = prepare(&mut tables, chart, rules, shortest, plan.len()) {
        return refusal;
    }
    let pairs = tables.stages * tables.references;
    let mut rows = Rows {
        cost: &mut cost[..pairs],
        via: &mut via[..pairs],
        nodes: &mut nodes[..pairs],
        filled: [0; BY_STAGE],
    };
    rows.fill(&tables);
    let count = rows.filled.iter().sum();
    match rows.cheapest_goal(&tables) {
        None => Answer::no_plan(count),
        Some(goal) => {
            let length = trace_back(&tables, rows.via, goal, plan);
            Answer::accepted(rows.cost[goal], length, count)
        }
    }
}

/// The pairs, row by row.
struct Rows<'a> {
    cost: &'a mut [u32],
    via: &'a mut [u32],
    nodes: &'a mut [u32],
    /// By stage: how many of its nodes are reached.
    filled: [usize; BY_STAGE],
}

impl Rows<'_> {
    fn fill(&mut self, tables: &Tables) {
        self.cost.fill(NONE);
        if tables.root == 0 {
            return;
        }
        let row = tables.row(tables.start);
        self.cost[row + tables.root] = 0;
        self.via[row + tables.root] = NO_VIA;
        self.nodes[row] = tables.root as u32;
        self.filled[tables.start] = 1;
        for stage in tables.start..tables.stages {
            let row = tables.row(stage);
            for at in row..row + self.filled[stage] {
                let node = self.nodes[at] as usize;
                self.relax(tables, stage, node, self.cost[row + node]);
            }
        }
    }

    /// Follows every step out of one pair. Groups never fall, so the walk along lo is carried
    /// on.
    fn relax(&mut self, tables: &Tables, stage: usize, node: usize, cost: u32) {
        let mut at = node;
        for step in tables.leaving(stage) {
            let group = tables.group(step);
            while tables.nodes[at].step() < group {
                at = tables.nodes[at].lo();
            }
            if at == 0 {
                break;
            }
            let inner = tables.nodes[at];
            let next = if inner.step() == group { inner.hi() } else { at };
            if next == 0 {
                continue;
            }
            let to = tables.to(step);
            let row = tables.row(to);
            let known = self.cost[row + next];
            let found = cost + tables.cost[step];
            if found < known {
                if known == NONE {
                    self.nodes[row + self.filled[to]] = next as u32;
                    self.filled[to] += 1;
                }
                self.cost[row + next] = found;
                self.via[row + next] = pack_via(to, step, node);
            }
        }
    }

    /// The goal pair of least cost.
    fn cheapest_goal(&self, tables: &Tables) -> Option<usize> {
        let mut finishes = [false; BY_NODE];
        tables.mark_finishing(&mut finishes);
        let row = tables.row(tables.end);
        self.nodes[row..row + self.filled[tables.end]]
            .iter()
            .map(|node| *node as usize)
            .filter(|node| finishes[*node])
            .map(|node| row + node)
            .min_by_key(|pair| self.cost[*pair])
    }
}
