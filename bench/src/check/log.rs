//! The log of a guided search, entry by entry.

use std::collections::BTreeSet;

use super::{demand, same_from, Checked, STAY};
use crate::planner::Answer;
use crate::reference::Facts;

/// Problems of up to this many pairs have their log replayed as well.
const REPLAYED_PAIRS: usize = 4_096;

const FIRST: &str = "8.2: the log begins with the pair of start stage and root";
const NEVER_OPENED: &str = "8.2: each entry is a reached pair that has an estimate";
const SETTLED: &str = "8.2: each entry is a pair, and none is in the log twice";
const NEVER_FALLS: &str = "8.2: sums do not fall along the log";
const FOLLOWS: &str = "8.2: each later entry is one step behind an earlier one, at least cost";
const LAST: &str = "8.2: an accepted search's last entry is a goal pair, and no other one is";
const ALL: &str = "8.2: after refusal 8 the log has all reached pairs that have an estimate";
const SMALLEST: &str = "8.2: the open pair settled next is one of least cost so far plus estimate";
const ENDS: &str = "8.2: the first goal pair that is settled ends the search";

/// Checks the log slice of an accepted answer or of an 8.
pub fn check(facts: &Facts, before: &[u32], after: &[u32], answer: Answer) -> Checked {
    let count = answer.count as usize;
    same_from(count, STAY, "log", before, after)?;
    let log: Vec<usize> = after[..count].iter().map(|pair| *pair as usize).collect();
    check_entries(facts, &log)?;
    check_followers(facts, &log)?;
    check_goal(facts, &log)?;
    check_complete(facts, &log)?;
    if facts.problem.pairs() <= REPLAYED_PAIRS {
        replay(facts, &log)?;
    }
    Ok(())
}

/// Every entry reached, with an estimate, there once, sums never falling.
fn check_entries(facts: &Facts, log: &[usize]) -> Checked {
    let mut seen = vec![false; facts.least.len()];
    let mut last_sum = 0;
    for (at, pair) in log.iter().enumerate() {
        demand(*pair < seen.len(), SETTLED, || format!("log[{at}] is {pair}, no pair"))?;
        demand(!seen[*pair], SETTLED, || format!("log[{at}] has pair {pair} again"))?;
        seen[*pair] = true;
        let sum = facts.sum(*pair);
        demand(sum.is_some(), NEVER_OPENED, || format!("log[{at}] is {pair}, without a sum"))?;
        let sum = sum.unwrap_or(0);
        demand(sum >= last_sum, NEVER_FALLS, || {
            format!("log[{at}] is {pair} with sum {sum} after {last_sum}")
        })?;
        last_sum = sum;
    }
    Ok(())
}

fn check_followers(facts: &Facts, log: &[usize]) -> Checked {
    let mut opened = vec![false; facts.least.len()];
    for (at, pair) in log.iter().enumerate() {
        if at == 0 {
            demand(*pair == facts.start_pair(), FIRST, || format!("log[0] is {pair}"))?;
        } else {
            demand(opened[*pair], FOLLOWS, || format!("log[{at}] is {pair}"))?;
        }
        for next in facts.least_followers(*pair) {
            opened[next] = true;
        }
    }
    Ok(())
}

/// Accepted: one goal pair, at the end. Refused: none, since none is reached.
fn check_goal(facts: &Facts, log: &[usize]) -> Checked {
    let first_goal = log.iter().position(|pair| facts.is_goal(*pair));
    let expected = facts.cheapest.map(|_| log.len().wrapping_sub(1));
    demand(first_goal == expected, LAST, || {
        format!("first goal pair at {first_goal:?} of {} entries", log.len())
    })
}

/// Every pair that cannot be missing is there, and none that cannot be there.
fn check_complete(facts: &Facts, log: &[usize]) -> Checked {
    let mut logged = vec![false; facts.least.len()];
    log.iter().for_each(|pair| logged[*pair] = true);
    for (pair, is_logged) in logged.iter().enumerate() {
        let Some(sum) = facts.sum(pair) else { continue };
        let Some(cheapest) = facts.cheapest else {
            demand(*is_logged, ALL, || format!("pair {pair} is missing"))?;
            continue;
        };
        let rule = if sum < cheapest.cost { SMALLEST } else { ENDS };
        let fits = if *is_logged { sum <= cheapest.cost } else { sum >= cheapest.cost };
        demand(fits, rule, || {
            format!("pair {pair} of sum {sum}, plan's cost {}, logged: {is_logged}", cheapest.cost)
        })?;
    }
    Ok(())
}

/// Repeats the search with the log's choices: each entry must be open, with the smallest key.
fn replay(facts: &Facts, log: &[usize]) -> Checked {
    let mut so_far: Vec<Option<u32>> = vec![None; facts.least.len()];
    let mut settled = vec![false; facts.least.len()];
    let mut open = BTreeSet::new();
    if let Some(estimate) = facts.estimate(facts.start_pair()) {
        so_far[facts.start_pair()] = Some(0);
        open.insert((estimate, facts.start_pair()));
    }
    for (at, pair) in log.iter().enumerate() {
        let key = so_far[*pair].zip(facts.estimate(*pair)).map(|(cost, rest)| cost + rest);
        let smallest = open.first().map(|entry| entry.0);
        let chosen = key.is_some_and(|key| open.remove(&(key, *pair)));
        demand(chosen && key == smallest, SMALLEST, || {
            format!("log[{at}] is {pair} with key {key:?}, smallest open key {smallest:?}")
        })?;
        settled[*pair] = true;
        open_followers(facts, *pair, &mut so_far, &settled, &mut open);
    }
    demand(facts.cheapest.is_some() || open.is_empty(), ALL, || format!("left open: {open:?}"))
}

/// Opens what follows from a pair and isn't settled, or moves it up.
pub(crate) fn open_followers(
    facts: &Facts,
    pair: usize,
    so_far: &mut [Option<u32>],
    settled: &[bool],
    open: &mut BTreeSet<(u32, usize)>,
) {
    let Some(cost) = so_far[pair] else { return };
    for (next, step_cost) in facts.followers(pair) {
        let Some(estimate) = facts.estimate(next) else { continue };
        let found = cost + step_cost;
        if settled[next] || so_far[next].is_some_and(|known| known <= found) {
            continue;
        }
        if let Some(known) = so_far[next] {
            open.remove(&(known + estimate, next));
        }
        so_far[next] = Some(found);
        open.insert((found + estimate, next));
    }
}
