//! Reductions that are wrong in one way: by another algorithm, a conjunction with a diagram that says yes, or in
//! what they answer and touch.

use super::conjunctions::{
    by_levels, change, children_exchanged, constant_with_node, steps_of_a_byte, with_stray,
    Conjoiner, Three, SOUND as CONJOINER,
};
use super::{new, read, write, Sabotage, Spoil};
use crate::files::{
    is_padding, read_both_by, read_chart, read_padded, tagged, two_bytes, Chart, Diagram, Node,
    Operands, Problem, Refusal, DIAGRAM_FILE, LONGEST_FILE, MAX_NODES, MORE_FILE,
};
use crate::generate::nodes::WHOLE;
use crate::generate::remarks::count_before;
use crate::nodes::NodeAtFault;
use crate::planner::Answer;

/// A reduction with one choice that may be wrong. What counts as its work slice is the buffer.
pub(super) const SOUND: Conjoiner = Conjoiner { read: taken, need: |_| 0, ..CONJOINER };

pub(super) const fn by(name: &'static str, reducer: Conjoiner) -> Sabotage {
    new(name, Spoil::Reducer(reducer))
}

/// What is spoiled after a sound call on a diagram's file.
pub(super) type SpoilReduced = fn(&[u8], &mut Answer, &mut [u8]);

const fn after(name: &'static str, spoil: SpoilReduced) -> Sabotage {
    new(name, Spoil::Reduced(spoil))
}

pub(super) static REDUCTIONS: [Sabotage; 52] = [
    by("reduce-13", Conjoiner { read: |files| only(files, is_padding), ..SOUND }),
    by(
        "reduce-13-for-equal-children",
        Conjoiner { read: |files| only(files, |_, node| node.lo == node.hi), ..SOUND },
    ),
    by(
        "reduce-13-for-alike",
        Conjoiner { read: |files| only(files, |before, node| before.contains(&node)), ..SOUND },
    ),
    by("reduce-511th-alike-passes", Conjoiner { read: without_surplus, ..SOUND }),
    by("reduce-6-of-a-padded-node-passes", Conjoiner { read: without_padded_faults, ..SOUND }),
    by("reduce-mark-3", Conjoiner { read: as_file_3, ..SOUND }),
    by("reduce-root-free", Conjoiner { read: any_root, ..SOUND }),
    by("reduce-root-before-nodes", Conjoiner { read: root_first, ..SOUND }),
    by("reduce-remark-refused", Conjoiner { read: without_remarks, ..SOUND }),
    by("reduce-long-file", Conjoiner { read: cut, ..SOUND }),
    by("reduce-chart-not-read", Conjoiner { read: over_any_chart, ..SOUND }),
    by("reduce-start-above-end-refused", Conjoiner { read: |f| ends(f, |s, e| s <= e), ..SOUND }),
    by("reduce-start-at-end-refused", Conjoiner { read: |f| ends(f, |s, e| s != e), ..SOUND }),
    by("reduce-over-plans-alone", Conjoiner { read: over_plans, ..SOUND }),
    by("reduce-12-for-510-nodes", Conjoiner { read: full_refused, ..SOUND }),
    by("reduce-12-for-510-reduced", Conjoiner { most: MAX_NODES - 1, ..SOUND }),
    by(
        "reduce-needs-room-for-its-file",
        Conjoiner { need: |o| 5 + WHOLE * o.first.nodes.len(), ..SOUND },
    ),
    by("reduce-needs-4595-bytes", Conjoiner { need: |_| 5 + WHOLE * MAX_NODES, ..SOUND }),
    by("reduce-needs-a-byte-more", Conjoiner { need: |_| 6, ..SOUND }),
    by("reduce-hi-before-lo", Conjoiner { hi_first: true, ..SOUND }),
    by("reduce-equal-children-kept", Conjoiner { keeps_equal: true, ..SOUND }),
    by("reduce-doubles-kept", Conjoiner { are_alike: |_, _| false, ..SOUND }),
    by("reduce-doubles-among-many", Conjoiner { are_alike: |a, b| a == b && a.lo < 256, ..SOUND }),
    by(
        "reduce-alike-whatever-step",
        Conjoiner { are_alike: |a, b| (a.lo, a.hi) == (b.lo, b.hi), ..SOUND },
    ),
    by(
        "reduce-alike-whatever-hi",
        Conjoiner { are_alike: |a, b| (a.step, a.lo) == (b.step, b.lo), ..SOUND },
    ),
    by(
        "reduce-alike-whatever-lo",
        Conjoiner { are_alike: |a, b| (a.step, a.hi) == (b.step, b.hi), ..SOUND },
    ),
    by(
        "reduce-alike-by-low-byte-of-lo",
        Conjoiner {
            are_alike: |a, b| (a.step, a.lo as u8, a.hi) == (b.step, b.lo as u8, b.hi),
            ..SOUND
        },
    ),
    by("reduce-509-deep", Conjoiner { deepest: MAX_NODES - 1, ..SOUND }),
    by("reduce-copies-file", Conjoiner { changed: |o, _| o.first.clone(), ..SOUND }),
    by("reduce-copies-file-without-padding", Conjoiner { changed: copy_sound, ..SOUND }),
    by("reduce-stray-kept", Conjoiner { changed: with_stray, ..SOUND }),
    by("reduce-by-levels", Conjoiner { changed: by_levels, ..SOUND }),
    by("reduce-children-exchanged", Conjoiner { changed: children_exchanged, ..SOUND }),
    by("reduce-step-of-a-byte", Conjoiner { changed: steps_of_a_byte, ..SOUND }),
    by("reduce-inner-root-0", Conjoiner { changed: |_, d| Diagram { root: 0, ..d }, ..SOUND }),
    by("reduce-constant-with-node", Conjoiner { changed: constant_with_node, ..SOUND }),
    by("reduce-empty-set-judged-wrongly", Conjoiner { changed: empty_set_wrong, ..SOUND }),
    by("reduce-full-set-judged-wrongly", Conjoiner { changed: full_set_wrong, ..SOUND }),
    after("reduce-cost", |_, a, _| a.cost += u32::from(a.length > 4_000)),
    after("reduce-count-of-nodes", |_, a, _| a.count += a.length / 9),
    after("reduce-length-in-nodes", |_, a, _| a.length /= 9),
    after("reduce-8-for-no", |_, a, file| {
        if file.get(..5) == Some(&[0x11, 2, 0, 0, 0]) && a.number == 0 {
            *a = Answer::no_plan(0);
        }
    }),
    after("reduce-7-in-file-2", |_, a, _| a.file += if a.number == 7 { 2 } else { 0 }),
    after("reduce-7-before-diagram", |_, a, file| {
        if file.len() < 5 && a.file == DIAGRAM_FILE {
            *a = Answer::refused(7, 0, 0);
        }
    }),
    after("reduce-byte-past-file", |_, a, file| change(file, a.length as usize, a.number == 0)),
    after("reduce-last-byte-of-buffer", |_, a, file| {
        let last = file.len().wrapping_sub(1);
        change(file, last, a.number == 0 && last > a.length as usize + 30);
    }),
    after("reduce-file-as-far-as-it-goes", |_, a, file| {
        let head = [0x11, 2, 0].into_iter().filter(|_| a.number == 7);
        file.iter_mut().zip(head).for_each(|(to, byte)| *to = byte);
    }),
    after("reduce-6-touches-buffer", |_, a, file| change(file, 0, a.number == 6)),
    after("reduce-9-touches-buffer", |_, a, file| change(file, 0, a.number == 9)),
    after("reduce-copies-remarks", |rules, a, file| {
        let end = a.length as usize;
        let remark = tagged(0x80, &[]).repeat(count_before(rules, usize::MAX));
        if let Some(room) = file.get_mut(end..end + remark.len()).filter(|_| a.number == 0) {
            room.copy_from_slice(&remark);
            a.length += remark.len() as u32;
        }
    }),
    after("reduce-reads-past-file-2", |rules, _, _| read(rules.as_ptr_range().end, rules.len())),
    after("reduce-writes-past-buffer", |_, _, file| {
        write(file.as_mut_ptr_range().end, file.len());
    }),
];

pub(super) fn operands(Problem { chart, diagram: first }: Problem) -> Operands {
    Operands { chart, first, second: Diagram::YES }
}

pub(super) fn taken([chart, rules, _]: Three) -> Result<Operands, Refusal> {
    read_padded(chart, rules).map(operands)
}

/// Padding is refused, or some of it.
fn only([chart, rules, _]: Three, is_13: fn(&[Node], Node) -> bool) -> Result<Operands, Refusal> {
    read_both_by(chart, rules, is_13).map(operands)
}

/// The node that is refused, in a chart that passes.
fn node_at_fault([chart, rules, _]: Three, fault: &Refusal) -> Option<NodeAtFault> {
    NodeAtFault::of(rules, read_chart(chart).ok()?.groups(), fault)
}

/// What is read where a node field at fault is left out, if it is such a one.
fn left_out(files: Three, such: fn(&NodeAtFault) -> bool) -> Result<Operands, Refusal> {
    let read = taken(files);
    let Err(fault) = &read else { return read };
    match node_at_fault(files, fault).filter(such) {
        Some(_) => {
            let [chart, rules, more] = files;
            let (before, behind) = (&rules[..fault.place], &rules[fault.place + WHOLE..]);
            taken([chart, &[before, behind].concat(), more])
        }
        None => read,
    }
}

fn without_surplus(files: Three) -> Result<Operands, Refusal> {
    left_out(files, |node| node.number == 6 && node.faults.surplus && node.faults.is_padding())
}

fn without_padded_faults(files: Three) -> Result<Operands, Refusal> {
    left_out(files, |node| node.number == 6 && !node.faults.surplus && node.faults.equal)
}

fn as_file_3(files: Three) -> Result<Operands, Refusal> {
    taken(files).map_err(|fault| Refusal {
        file: if fault.file == DIAGRAM_FILE { MORE_FILE } else { fault.file },
        ..fault
    })
}

/// The same with root 0.
fn rootless(rules: &[u8]) -> Vec<u8> {
    let mut rules = rules.to_vec();
    rules.iter_mut().skip(3).take(2).for_each(|byte| *byte = 0);
    rules
}

/// A root that is none is taken for "no".
fn any_root(files: Three) -> Result<Operands, Refusal> {
    let [chart, rules, more] = files;
    match taken(files) {
        Err(Refusal { number: 6, place: 0, .. }) => taken([chart, &rootless(rules), more]),
        read => read,
    }
}

/// A root above all numbers is told before any node.
fn root_first(files: Three) -> Result<Operands, Refusal> {
    let [_, rules, _] = files;
    match taken(files) {
        Err(fault) if fault.file == DIAGRAM_FILE && !matches!(fault.place, 0 | LONGEST_FILE) => {
            let is_beyond = usize::from(two_bytes(rules, 3)) > MAX_NODES + 1;
            Err(if is_beyond { Refusal { number: 6, place: 0, ..fault } } else { fault })
        }
        read => read,
    }
}

fn without_remarks(files: Three) -> Result<Operands, Refusal> {
    let read = taken(files)?;
    match count_before(files[1], usize::MAX) {
        0 => Ok(read),
        _ => Err(Refusal { number: 2, file: DIAGRAM_FILE, place: 5 }),
    }
}

fn cut([chart, rules, more]: Three) -> Result<Operands, Refusal> {
    taken([chart, &rules[..rules.len().min(LONGEST_FILE)], more])
}

/// A chart whose head is at fault is taken as one without steps.
fn over_any_chart([chart, rules, more]: Three) -> Result<Operands, Refusal> {
    match taken([chart, rules, more]) {
        Err(Refusal { number: 4, .. }) => taken([&[0x01, 6, 0, 1, 0, 0, 0, 0, 0], rules, more]),
        read => read,
    }
}

/// A chart is refused for its start and end.
fn ends(files: Three, are_right: fn(u16, u16) -> bool) -> Result<Operands, Refusal> {
    let read = taken(files)?;
    match are_right(read.chart.start, read.chart.end) {
        true => Ok(read),
        false => Err(Refusal { number: 4, file: 1, place: 0 }),
    }
}

/// Groups of which no way from the start takes a step are never present.
fn over_plans(files: Three) -> Result<Operands, Refusal> {
    let Operands { chart, mut first, second } = taken(files)?;
    let reached = reached_stages(&chart);
    let mut taken = vec![false; chart.groups()];
    for (number, step) in chart.steps.iter().enumerate() {
        taken[usize::from(chart.group(number as u16))] |= reached[usize::from(step.from)];
    }
    for node in first.nodes.iter_mut().filter(|node| !taken[usize::from(node.step)]) {
        node.hi = node.lo;
    }
    Ok(Operands { chart, first, second })
}

fn reached_stages(chart: &Chart) -> Vec<bool> {
    let mut reached = vec![false; usize::from(chart.stages)];
    reached[usize::from(chart.start)] = true;
    for step in &chart.steps {
        reached[usize::from(step.to)] |= reached[usize::from(step.from)];
    }
    reached
}

fn full_refused(files: Three) -> Result<Operands, Refusal> {
    let read = taken(files)?;
    match read.first.nodes.len() {
        MAX_NODES => Err(Refusal { number: 12, file: 0, place: 0 }),
        _ => Ok(read),
    }
}

/// A file without padding as it is, with all its nodes in their order.
fn copy_sound(operands: &Operands, made: Diagram) -> Diagram {
    let nodes = &operands.first.nodes;
    let is_padded = (0..nodes.len()).any(|at| is_padding(&nodes[..at], nodes[at]));
    if is_padded {
        made
    } else {
        operands.first.clone()
    }
}

/// The last node to which one child after the other leads has the other constant there.
fn last_changed(mut made: Diagram, child: fn(&mut Node) -> &mut u16) -> Diagram {
    let mut at = made.root;
    while let Some(own) = usize::from(at).checked_sub(2) {
        let next = child(&mut made.nodes[own]);
        if *next < 2 {
            *next = 1 - *next;
            break;
        }
        at = *next;
    }
    made
}

fn empty_set_wrong(_: &Operands, made: Diagram) -> Diagram {
    last_changed(made, |node| &mut node.lo)
}

fn full_set_wrong(_: &Operands, made: Diagram) -> Diagram {
    last_changed(made, |node| &mut node.hi)
}

#[cfg(test)]
mod tests {
    use super::super::shown;
    use super::*;
    use crate::cases::{Case, Cases};

    static NO_SABOTAGE: [Sabotage; 1] = [by("none", SOUND)];

    #[test]
    fn the_sound_choices_spoil_nothing() {
        let cases = Cases::new(82);
        let all: Vec<Case> = cases.padding().step_by(7).map(|at| cases.case(at)).collect();
        shown::none(&all, &NO_SABOTAGE);
        assert!(all.len() > 500, "{}", all.len());
    }
}
