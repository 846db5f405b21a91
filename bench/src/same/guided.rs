//! The guided search: A* over pairs with the larger of two consistent estimates.

use super::queue::Queue;
use super::{pack_via, prepare, trace_back, via_stage, Tables, BY_NODE, BY_STAGE, NONE, NO_VIA};
use crate::planner::Answer;

/// Keys are cleared in blocks of so many.
const BLOCK: usize = 128;
/// As many blocks as there can be.
const BLOCKS: usize = BY_STAGE * BY_NODE / BLOCK;

/// Settles pairs in the order of their sums until the first goal pair.
#[allow(clippy::too_many_arguments)]
pub fn guided(
    chart: &[u8],
    rules: &[u8],
    keys: &mut [u32],
    via: &mut [u32],
    heap: &mut [u32],
    pos: &mut [u32],
    stack: &mut [u32],
    log: &mut [u32],
    plan: &mut [u16],
) -> Answer {
    let mut tables = Tables::new();
    let lengths = [keys.len(), via.len(), heap.len(), pos.len(), stack.len(), log.len()];
    let shortest = lengths.into_iter().min().unwrap_or(0);
    if let Err(refusal) = prepare(&mut tables, chart, rules, shortest, plan.len()) {
        return refusal;
    }
    let mut estimates = Estimates::none();
    tables.estimate_stages(&mut estimates.by_stage);
    tables.estimate_nodes(&mut estimates.by_node);
    let Some(first_key) = estimates.of(tables.start, tables.root) else {
        return Answer::no_plan(0);
    };
    let mut search = Search::new(&tables, &estimates, keys, via, [heap, pos, stack]);
    let (goal, count) = search.run(first_key, log);
    match goal {
        None => Answer::no_plan(count),
        Some(goal) => {
            let length = trace_back(&tables, search.via, goal, plan);
            Answer::accepted(search.keys[goal], length, count)
        }
    }
}

/// Both estimates.
pub(super) struct Estimates {
    pub by_stage: [u32; BY_STAGE],
    pub by_node: [u32; BY_NODE],
}

impl Estimates {
    pub fn none() -> Estimates {
        Estimates { by_stage: [NONE; BY_STAGE], by_node: [NONE; BY_NODE] }
    }

    /// The larger of the two, none if either is none.
    pub fn of(&self, stage: usize, node: usize) -> Option<u32> {
        let estimate = self.by_stage[stage].max(self.by_node[node]);
        (estimate != NONE).then_some(estimate)
    }
}

pub(super) struct Search<'a> {
    tables: &'a Tables,
    estimates: &'a Estimates,
    /// By pair of a cleared block: least cost so far plus estimate, or never opened.
    pub keys: &'a mut [u32],
    via: &'a mut [u32],
    queue: Queue<'a>,
    /// Whether each block of keys is cleared. It is when its first pair is opened.
    cleared: [bool; BLOCKS],
}

impl<'a> Search<'a> {
    /// On the front of the slices, which may hold anything.
    pub fn new(
        tables: &'a Tables,
        estimates: &'a Estimates,
        keys: &'a mut [u32],
        via: &'a mut [u32],
        [heap, pos, stack]: [&'a mut [u32]; 3],
    ) -> Search<'a> {
        let pairs = tables.stages * tables.references;
        Search {
            tables,
            estimates,
            keys: &mut keys[..pairs],
            via: &mut via[..pairs],
            queue: Queue::new(&mut heap[..pairs], &mut pos[..pairs], &mut stack[..pairs]),
            cleared: [false; BLOCKS],
        }
    }

    /// The first goal pair settled, and how many pairs were.
    pub fn run(&mut self, first_key: u32, log: &mut [u32]) -> (Option<usize>, usize) {
        let tables = self.tables;
        let start = tables.row(tables.start) + tables.root;
        self.clear(start);
        self.keys[start] = first_key;
        self.via[start] = NO_VIA;
        self.queue.push(self.keys, first_key, start);
        let mut count = 0;
        while let Some(pair) = self.queue.pop(self.keys) {
            log[count] = pair as u32;
            count += 1;
            let stage = self.stage_of(pair);
            let node = pair - tables.row(stage);
            if stage == tables.end && tables.finishes(node) {
                return (Some(pair), count);
            }
            self.open_followers(pair, stage, node);
        }
        (None, count)
    }

    /// Clears the block of keys that a pair's key stands in, if it isn't.
    fn clear(&mut self, pair: usize) {
        let block = pair / BLOCK;
        if !self.cleared[block] {
            self.cleared[block] = true;
            let first = block * BLOCK;
            let until = (first + BLOCK).min(self.keys.len());
            self.keys[first..until].fill(NONE);
        }
    }

    /// The stage of an opened pair, by what opened it.
    fn stage_of(&self, pair: usize) -> usize {
        match self.via[pair] {
            NO_VIA => self.tables.start,
            via => via_stage(via),
        }
    }

    /// Opens what follows from a settled pair, or moves it up. A settled pair is never beaten,
    /// since the estimates are consistent.
    fn open_followers(&mut self, pair: usize, stage: usize, node: usize) {
        let tables = self.tables;
        let Some(estimate) = self.estimates.of(stage, node) else { return };
        // No open pair has a smaller key.
        let floor = self.keys[pair];
        let cost = floor - estimate;
        let mut at = node;
        for step in tables.leaving(stage) {
            let group = tables.group(step);
            while tables.nodes[at].step() < group {
                at = tables.nodes[at].lo();
            }
            if at == 0 {
                break;
            }
            let inner = tables.nodes[at];
            let next = if inner.step() == group { inner.hi() } else { at };
            let to = tables.to(step);
            let Some(rest) = self.estimates.of(to, next) else { continue };
            let follower = tables.row(to) + next;
            self.clear(follower);
            let key = cost + tables.cost[step] + rest;
            let known = self.keys[follower];
            if key < known {
                self.keys[follower] = key;
                self.via[follower] = pack_via(to, step, node);
                if known == NONE {
                    self.queue.push(self.keys, floor, follower);
                } else {
                    self.queue.lower(self.keys, follower);
                }
            }
        }
    }
}
