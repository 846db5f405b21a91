//! A list of starts and ends: both files are read once, then one guided search for each record.

use super::guided::{Estimates, Search};
use super::{prepare_work, Tables, BY_STAGE, NONE};
use crate::planner::{Answer, Cycle};

/// Fills the list. What a record needs besides the tables is its chart estimates and a search.
#[allow(clippy::too_many_arguments)]
pub fn cycles(
    chart: &[u8],
    rules: &[u8],
    keys: &mut [u32],
    via: &mut [u32],
    heap: &mut [u32],
    pos: &mut [u32],
    stack: &mut [u32],
    log: &mut [u32],
    list: &mut [Cycle],
) -> Answer {
    let mut tables = Tables::new();
    let lengths = [keys.len(), via.len(), heap.len(), pos.len(), stack.len(), log.len()];
    let shortest = lengths.into_iter().min().unwrap_or(0);
    if let Err(refusal) = prepare_work(&mut tables, chart, rules, shortest) {
        return refusal;
    }
    let mut estimates = Estimates::none();
    tables.estimate_nodes(&mut estimates.by_node);
    for record in list {
        let (start, end) = (usize::from(record.start), usize::from(record.end));
        let answer = if start < tables.stages && end < tables.stages {
            (tables.start, tables.end) = (start, end);
            estimates.by_stage = [NONE; BY_STAGE];
            tables.estimate_stages(&mut estimates.by_stage);
            search(&tables, &estimates, keys, via, [heap, pos, stack], log)
        } else {
            Answer::refused(4, 0, 0)
        };
        *record = record.answered(answer);
    }
    Answer::default()
}

/// The search of one record; its plan is not asked for.
fn search(
    tables: &Tables,
    estimates: &Estimates,
    keys: &mut [u32],
    via: &mut [u32],
    queue: [&mut [u32]; 3],
    log: &mut [u32],
) -> Answer {
    let Some(first_key) = estimates.of(tables.start, tables.root) else {
        return Answer::no_plan(0);
    };
    let mut search = Search::new(tables, estimates, keys, via, queue);
    match search.run(first_key, log) {
        (None, count) => Answer::no_plan(count),
        (Some(goal), count) => Answer::accepted(search.keys[goal], 0, count),
    }
}
