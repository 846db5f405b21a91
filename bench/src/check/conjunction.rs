//! A conjunction's answer, buffer and work slice, and a reduction's answer and buffer.

use std::collections::HashSet;

use super::{demand, number_rule, same, same_from, Checked, AT};
use crate::files::{read_diagram, Diagram, Node};
use crate::generate::Random;
use crate::planner::{Answer, ConjoinSlices};
use crate::reference::conjunction::{both_say_yes, conjunction_answer, Conjoined, Conjunction};
use crate::reference::reduction::reduction_answer;
use crate::reference::rules::verdict;

const ANSWER: &str = "16.3, 17: the length is the file's bytes, cost and count are 0";
const FILE: &str = "16.3, 17: the buffer begins with the reduced diagram's file";
const FILE_STAYS: &str = "16.3, 17: the buffer stays behind the file, and whole under a refusal";
const WORK_STAYS: &str = "16.3: the work slice stays behind its pairs of references, and whole \
                          under every refusal but 12 and the buffer's 7";
const YES: &str = "16.1, 17: the result says yes exactly where both diagrams do, or the one";
const NO_DOUBLES: &str = "16.1, 17: no two nodes are alike";
const NO_EQUAL: &str = "16.1, 17: no node has lo equal to hi";
const ARRIVED: &str = "16.1, 17: each node is arrived at from the root";
const WALK: &str = "16.1, 17: nodes stand as a walk, lo before hi and each once, leaves them";

/// Sets of groups on which both verdicts are compared.
const SETS: usize = 24;

/// Checks a conjunction.
pub fn conjunction(
    conjoined: &Conjoined,
    before: &ConjoinSlices,
    after: &ConjoinSlices,
    answer: Answer,
) -> Checked {
    let want = conjunction_answer(conjoined, before.work.len(), before.file.len());
    call(conjoined, want, answer, &before.file, &after.file)?;
    let free = match conjoined {
        Ok(found) if before.work.len() >= found.operands.pairs() => found.operands.pairs(),
        _ => 0,
    };
    same_from(free, WORK_STAYS, "work", &before.work, &after.work)
}

/// Checks a reduction.
pub fn reduction(reduced: &Conjoined, before: &[u8], after: &[u8], answer: Answer) -> Checked {
    call(reduced, reduction_answer(reduced, before.len()), answer, before, after)
}

/// The answer of a call that is to answer `want`, and its buffer.
fn call(made: &Conjoined, want: Answer, answer: Answer, before: &[u8], after: &[u8]) -> Checked {
    let found = || format!("{answer:?} and not {want:?}");
    demand(answer.number == want.number, number_rule(want.number), found)?;
    demand((answer.file, answer.place) == (want.file, want.place), AT, found)?;
    demand(answer == want, ANSWER, found)?;
    let length = answer.length as usize;
    if let (Ok(found), 0) = (made, answer.number) {
        written(found, &after[..length])?;
    }
    same_from(length, FILE_STAYS, "file", before, after)
}

/// The file by its properties, and then byte by byte.
fn written(found: &Conjunction, file: &[u8]) -> Checked {
    let groups = found.operands.chart.groups();
    let diagram =
        read_diagram(file, groups).map_err(|fault| format!("\"{FILE}\": it has {fault:?}"))?;
    is_reduced(&diagram)?;
    for set in sets(groups, file.len()) {
        let says_yes = verdict(&diagram, &set);
        demand(says_yes == both_say_yes(&found.operands, &set), YES, || {
            let present: Vec<usize> = (0..groups).filter(|group| set[*group]).collect();
            format!("it says {says_yes} to {present:?}")
        })?;
    }
    let want = found.file().unwrap_or_default();
    demand(want.len() == file.len(), FILE, || {
        format!("it has {} bytes and not {}", file.len(), want.len())
    })?;
    same(FILE, "file", &want, file)
}

/// No two nodes alike, none with equal children, each arrived at, in walk order.
pub fn is_reduced(diagram: &Diagram) -> Checked {
    let mut different: HashSet<Node> = HashSet::new();
    for node in &diagram.nodes {
        demand(node.lo != node.hi, NO_EQUAL, || format!("{node:?}"))?;
        demand(different.insert(*node), NO_DOUBLES, || format!("{node:?}"))?;
    }
    let left = walked(diagram);
    demand(left.len() == diagram.nodes.len(), ARRIVED, || {
        format!("{diagram:?}, only at {left:?}")
    })?;
    let in_order = left.iter().zip(2..).all(|(reference, want)| *reference == want);
    demand(in_order, WALK, || format!("a walk leaves {left:?}"))
}

/// The inner nodes in the order in which a walk from the root leaves them.
pub fn walked(diagram: &Diagram) -> Vec<u16> {
    let mut seen = vec![false; diagram.references()];
    let mut left = Vec::new();
    walk(diagram, diagram.root, &mut seen, &mut left);
    left
}

/// Goes on from a node, unless the walk was there, and notes its inner nodes as it leaves them.
fn walk(diagram: &Diagram, reference: u16, seen: &mut [bool], left: &mut Vec<u16>) {
    let Some(node) = diagram.inner(reference) else { return };
    if std::mem::replace(&mut seen[usize::from(reference)], true) {
        return;
    }
    walk(diagram, node.lo, seen, left);
    walk(diagram, node.hi, seen, left);
    left.push(reference);
}

/// No group, all groups, and sets of any share of them.
fn sets(groups: usize, seed: usize) -> impl Iterator<Item = Vec<bool>> {
    let mut random = Random::new(seed as u64);
    (0..SETS).map(move |at| {
        let percent = match at {
            0 => 0,
            1 => 100,
            _ => random.between(1, 99),
        };
        (0..groups).map(|_| random.percent(percent)).collect()
    })
}
