//! Conjunctions that are wrong in one way: by another algorithm, or in what they answer and touch.

use std::collections::HashMap;

use super::{new, read, write, Sabotage, Spoil};
use crate::files::{
    read_chart, read_diagram, read_three, write_diagram, Diagram, Node, Operands, Refusal,
    LONGEST_FILE, MAX_NODES, MORE_FILE,
};
use crate::generate::remarks::count_before;
use crate::planner::{Answer, ConjoinSlices};

/// A conjunction with one choice that may be wrong.
pub(super) struct Conjoiner {
    pub read: fn(Three) -> Result<Operands, Refusal>,
    /// Entries that the work slice needs.
    pub need: fn(&Operands) -> usize,
    /// The refusals of the result, in their order.
    pub checks: [Check; 3],
    /// What two references are without a look at their nodes.
    pub decided: fn(u16, u16) -> Option<u16>,
    pub hi_first: bool,
    /// The deepest pair that is looked at; those below it are "no".
    pub deepest: usize,
    /// Where a pair is kept.
    pub place: fn(&Operands, u16, u16) -> usize,
    pub keeps_equal: bool,
    pub are_alike: fn(&Node, &Node) -> bool,
    pub most: usize,
    /// Both diagrams, and what was made of them.
    pub changed: fn(&Operands, Diagram) -> Diagram,
}

/// The chart and both diagrams.
pub(super) type Three<'a> = [&'a [u8]; 3];

#[derive(Clone, Copy)]
pub(super) enum Check {
    Work,
    Size,
    File,
}

pub(super) const SOUND: Conjoiner = Conjoiner {
    read: |[chart, rules, more]| read_three(chart, rules, more),
    need: Operands::pairs,
    checks: [Check::Work, Check::Size, Check::File],
    decided: |a, b| match (a, b) {
        (0, _) | (_, 0) => Some(0),
        (1, 1) => Some(1),
        _ => None,
    },
    hi_first: false,
    deepest: usize::MAX,
    place: |operands, a, b| usize::from(a) * operands.second.references() + usize::from(b),
    keeps_equal: false,
    are_alike: |a, b| a == b,
    most: MAX_NODES,
    changed: |_, made| made,
};

pub(super) const fn by(name: &'static str, conjoiner: Conjoiner) -> Sabotage {
    new(name, Spoil::Conjoiner(conjoiner))
}

/// What is spoiled after a sound call.
pub(super) type SpoilConjoined = fn(&Call, &mut Answer, &mut ConjoinSlices);

/// A call that was made.
pub(super) struct Call<'a> {
    pub more: &'a [u8],
    /// Both diagrams; none where a file is refused.
    pub operands: Option<Operands>,
}

impl<'a> Call<'a> {
    pub fn new([chart, rules, more]: Three<'a>) -> Call<'a> {
        Call { more, operands: read_three(chart, rules, more).ok() }
    }

    fn pairs(&self) -> usize {
        self.operands.as_ref().map_or(0, Operands::pairs)
    }
}

pub(super) const fn after(name: &'static str, spoil: SpoilConjoined) -> Sabotage {
    new(name, Spoil::Conjoined(spoil))
}

pub(super) static CONJUNCTIONS: [Sabotage; 55] = [
    by(
        "conjoin-or",
        Conjoiner {
            decided: |a, b| match (a, b) {
                (1, _) | (_, 1) => Some(1),
                (0, 0) => Some(0),
                _ => None,
            },
            ..SOUND
        },
    ),
    by(
        "conjoin-equal-references-decided",
        Conjoiner {
            decided: |a, b| (SOUND.decided)(a, b).or((a > 400 && a == b).then_some(1)),
            ..SOUND
        },
    ),
    by("conjoin-hi-before-lo", Conjoiner { hi_first: true, ..SOUND }),
    by("conjoin-equal-children-kept", Conjoiner { keeps_equal: true, ..SOUND }),
    by("conjoin-doubles-kept", Conjoiner { are_alike: |_, _| false, ..SOUND }),
    by(
        "conjoin-alike-whatever-step",
        Conjoiner { are_alike: |a, b| (a.lo, a.hi) == (b.lo, b.hi), ..SOUND },
    ),
    by(
        "conjoin-alike-whatever-hi",
        Conjoiner { are_alike: |a, b| (a.step, a.lo) == (b.step, b.lo), ..SOUND },
    ),
    by(
        "conjoin-alike-by-low-byte-of-lo",
        Conjoiner {
            are_alike: |a, b| (a.step, a.lo as u8, a.hi) == (b.step, b.lo as u8, b.hi),
            ..SOUND
        },
    ),
    by("conjoin-doubles-among-many", Conjoiner { are_alike: |a, b| a == b && a.lo < 256, ..SOUND }),
    by("conjoin-12-at-510", Conjoiner { most: MAX_NODES - 1, ..SOUND }),
    by("conjoin-12-not-at-511", Conjoiner { most: MAX_NODES + 1, ..SOUND }),
    by(
        "conjoin-file-7-before-12",
        Conjoiner { checks: [Check::Work, Check::File, Check::Size], ..SOUND },
    ),
    by(
        "conjoin-12-before-work-7",
        Conjoiner { checks: [Check::Size, Check::Work, Check::File], ..SOUND },
    ),
    by("conjoin-needs-one-entry-less", Conjoiner { need: |o| o.pairs() - 1, ..SOUND }),
    by("conjoin-needs-one-entry-more", Conjoiner { need: |o| o.pairs() + 1, ..SOUND }),
    by(
        "conjoin-needs-inner-pairs",
        Conjoiner { need: |o| o.first.nodes.len() * o.second.nodes.len(), ..SOUND },
    ),
    by("conjoin-needs-square", Conjoiner { need: |o| o.first.references().pow(2), ..SOUND }),
    by("conjoin-1019-deep", Conjoiner { deepest: 1_019, ..SOUND }),
    by(
        "conjoin-places-of-16-bits",
        Conjoiner { place: |o, a, b| (SOUND.place)(o, a, b) & 0xffff, ..SOUND },
    ),
    by(
        "conjoin-places-of-wrong-width",
        Conjoiner {
            place: |o, a, b| usize::from(a) * o.first.references() + usize::from(b),
            ..SOUND
        },
    ),
    by("conjoin-mark-2-for-file-3", Conjoiner { read: as_file_2, ..SOUND }),
    by("conjoin-file-3-before-2", Conjoiner { read: more_first, ..SOUND }),
    by("conjoin-roots-last", Conjoiner { read: roots_last, ..SOUND }),
    by("conjoin-root-of-file-3-free", Conjoiner { read: any_root, ..SOUND }),
    by("conjoin-remark-in-file-3", Conjoiner { read: without_remarks, ..SOUND }),
    by("conjoin-long-file-3", Conjoiner { read: cut_more, ..SOUND }),
    by("conjoin-file-3-over-one-step-more", Conjoiner { read: one_step_more, ..SOUND }),
    by("conjoin-start-above-end-refused", Conjoiner { read: |f| ends(f, |s, e| s <= e), ..SOUND }),
    by("conjoin-start-at-end-refused", Conjoiner { read: |f| ends(f, |s, e| s != e), ..SOUND }),
    by("conjoin-files-exchanged", Conjoiner { read: exchanged, ..SOUND }),
    by("conjoin-inner-root-0", Conjoiner { changed: |_, d| Diagram { root: 0, ..d }, ..SOUND }),
    by("conjoin-constant-with-node", Conjoiner { changed: constant_with_node, ..SOUND }),
    by("conjoin-stray-kept", Conjoiner { changed: with_stray, ..SOUND }),
    by("conjoin-by-levels", Conjoiner { changed: by_levels, ..SOUND }),
    by("conjoin-children-exchanged", Conjoiner { changed: children_exchanged, ..SOUND }),
    by("conjoin-step-of-a-byte", Conjoiner { changed: steps_of_a_byte, ..SOUND }),
    by("conjoin-yes-copies-file-2", Conjoiner { changed: copy_beside_yes, ..SOUND }),
    by("conjoin-same-copies-file-2", Conjoiner { changed: copy_beside_same, ..SOUND }),
    after("conjoin-cost", |_, a, _| a.cost += u32::from(a.length > 4_000)),
    after("conjoin-count-of-nodes", |_, a, _| a.count += a.length / 9),
    after("conjoin-length-in-nodes", |_, a, _| a.length /= 9),
    after("conjoin-12-with-length", |_, a, _| a.length += u32::from(a.number == 12)),
    after("conjoin-12-in-file-3", |_, a, _| a.file += if a.number == 12 { 3 } else { 0 }),
    after("conjoin-7-in-file-3", |_, a, _| a.file += if a.number == 7 { 3 } else { 0 }),
    after("conjoin-byte-past-file", |_, a, s| {
        change(&mut s.file, a.length as usize, a.number == 0);
    }),
    after("conjoin-last-byte-of-buffer", |_, a, s| {
        let last = s.file.len().wrapping_sub(1);
        change(&mut s.file, last, a.number == 0 && last > a.length as usize + 30);
    }),
    after("conjoin-file-as-far-as-it-goes", |call, a, s| {
        let short = a.number == 7 && s.work.len() >= call.pairs();
        s.file.iter_mut().zip([0x11, 2, 0]).filter(|_| short).for_each(|(to, byte)| *to = byte);
    }),
    after("conjoin-12-writes-file", |_, a, s| change(&mut s.file, 0, a.number == 12)),
    after("conjoin-6-of-file-3-touches-work", |_, a, s| {
        change(&mut s.work, 0, (a.number, a.file) == (6, MORE_FILE));
    }),
    after("conjoin-9-of-file-3-touches-file", |_, a, s| {
        change(&mut s.file, 0, (a.number, a.file) == (9, MORE_FILE));
    }),
    after("conjoin-7-touches-work", |call, _, s| {
        let is_short = s.work.len() < call.pairs();
        change(&mut s.work, 0, is_short);
    }),
    after("conjoin-entry-past-pairs", |call, a, s| {
        change(&mut s.work, call.pairs(), a.number == 0 && call.pairs() > 50_000);
    }),
    after("conjoin-12-touches-past-pairs", |call, a, s| {
        change(&mut s.work, call.pairs(), a.number == 12);
    }),
    after("conjoin-reads-past-file-3", |call, _, _| {
        read(call.more.as_ptr_range().end, call.more.len());
    }),
    after("conjoin-writes-past-buffer", |_, _, s| {
        write(s.file.as_mut_ptr_range().end, s.file.len());
    }),
];

/// Changes an entry, where it is there and that is wanted.
pub(super) fn change<T: Copy + std::ops::Not<Output = T>>(
    slice: &mut [T],
    at: usize,
    wanted: bool,
) {
    let entry = slice.get_mut(at).filter(|_| wanted);
    entry.into_iter().for_each(|entry| *entry = !*entry);
}

fn as_file_2(files: Three) -> Result<Operands, Refusal> {
    (SOUND.read)(files).map_err(|fault| Refusal { file: fault.file.min(2), ..fault })
}

/// The fault of the second diagram, if the chart has none.
fn fault_of_more([chart, _, more]: Three) -> Option<Refusal> {
    let groups = read_chart(chart).ok()?.groups();
    read_diagram(more, groups).err().map(|fault| Refusal { file: MORE_FILE, ..fault })
}

fn more_first(files: Three) -> Result<Operands, Refusal> {
    fault_of_more(files).map_or_else(|| (SOUND.read)(files), Err)
}

fn roots_last(files: Three) -> Result<Operands, Refusal> {
    let read = (SOUND.read)(files);
    match (&read, fault_of_more(files)) {
        (Err(Refusal { number: 6, file: 2, place: 0 }), Some(fault)) => Err(fault),
        _ => read,
    }
}

/// A root of file 3 that is none is taken for "no".
fn any_root([chart, rules, more]: Three) -> Result<Operands, Refusal> {
    let read = (SOUND.read)([chart, rules, more]);
    match read {
        Err(Refusal { number: 6, file: MORE_FILE, place: 0 }) => {
            let rooted = [&more[..3], &[0, 0], &more[5..]].concat();
            (SOUND.read)([chart, rules, &rooted])
        }
        read => read,
    }
}

fn without_remarks(files: Three) -> Result<Operands, Refusal> {
    let read = (SOUND.read)(files)?;
    match count_before(files[2], usize::MAX) {
        0 => Ok(read),
        _ => Err(Refusal { number: 2, file: MORE_FILE, place: 5 }),
    }
}

fn cut_more([chart, rules, more]: Three) -> Result<Operands, Refusal> {
    (SOUND.read)([chart, rules, &more[..more.len().min(LONGEST_FILE)]])
}

/// Nodes of file 3 may name the group behind the last.
fn one_step_more(files: Three) -> Result<Operands, Refusal> {
    let [chart, rules, more] = files;
    let fault = match (SOUND.read)(files) {
        Err(fault) if (fault.number, fault.file) == (6, MORE_FILE) => fault,
        read => return read,
    };
    let chart = read_chart(chart)?;
    let first = read_diagram(rules, chart.groups())?;
    match read_diagram(more, chart.groups() + 1) {
        Ok(second) => Ok(Operands { chart, first, second }),
        Err(_) => Err(fault),
    }
}

/// A chart is refused for its start and end.
fn ends(files: Three, are_right: fn(u16, u16) -> bool) -> Result<Operands, Refusal> {
    let read = (SOUND.read)(files)?;
    match are_right(read.chart.start, read.chart.end) {
        true => Ok(read),
        false => Err(Refusal { number: 4, file: 1, place: 0 }),
    }
}

fn exchanged([chart, rules, more]: Three) -> Result<Operands, Refusal> {
    let read = read_three(chart, more, rules)?;
    Ok(Operands { first: read.second, second: read.first, ..read })
}

pub(super) fn constant_with_node(operands: &Operands, made: Diagram) -> Diagram {
    if !made.nodes.is_empty() || operands.chart.steps.is_empty() {
        return made;
    }
    let node = Node { step: 0, lo: made.root, hi: made.root };
    Diagram { root: 2, nodes: vec![node] }
}

/// A node behind the root, which nothing leads to.
pub(super) fn with_stray(operands: &Operands, mut made: Diagram) -> Diagram {
    let full = made.nodes.len() == MAX_NODES || operands.chart.steps.is_empty();
    let stray = Node { step: 0, lo: 1, hi: 0 };
    if !full && !made.nodes.contains(&stray) {
        made.nodes.push(stray);
    }
    made
}

/// Nodes of later steps first, and not as a walk leaves them.
pub(super) fn by_levels(_: &Operands, made: Diagram) -> Diagram {
    let mut order: Vec<usize> = (0..made.nodes.len()).collect();
    order.sort_by_key(|at| u16::MAX - made.nodes[*at].step);
    let number = |reference: u16| match usize::from(reference).checked_sub(2) {
        None => reference,
        Some(at) => order.iter().position(|other| *other == at).unwrap_or(0) as u16 + 2,
    };
    let renumbered = |at: &usize| {
        let Node { step, lo, hi } = made.nodes[*at];
        Node { step, lo: number(lo), hi: number(hi) }
    };
    Diagram { root: number(made.root), nodes: order.iter().map(renumbered).collect() }
}

pub(super) fn children_exchanged(_: &Operands, mut made: Diagram) -> Diagram {
    made.nodes.iter_mut().for_each(|node| std::mem::swap(&mut node.lo, &mut node.hi));
    made
}

pub(super) fn steps_of_a_byte(_: &Operands, mut made: Diagram) -> Diagram {
    made.nodes.iter_mut().for_each(|node| node.step &= 0xff);
    made
}

/// File 2 as it is, where file 3 always says yes.
fn copy_beside_yes(operands: &Operands, made: Diagram) -> Diagram {
    match operands.second {
        Diagram { root: 1, ref nodes } if nodes.is_empty() => operands.first.clone(),
        _ => made,
    }
}

fn copy_beside_same(operands: &Operands, made: Diagram) -> Diagram {
    if operands.first == operands.second {
        operands.first.clone()
    } else {
        made
    }
}

impl Conjoiner {
    /// On a work slice of a length, which is not touched, and a buffer.
    pub(super) fn conjoin(&self, files: Three, work: usize, file: &mut [u8]) -> Answer {
        match (self.read)(files) {
            Ok(operands) => self.conjoin_read(&operands, work, file),
            Err(fault) => Answer::refused(fault.number, fault.file, fault.place),
        }
    }

    /// The same of files that are read.
    pub(super) fn conjoin_read(&self, operands: &Operands, work: usize, file: &mut [u8]) -> Answer {
        let (made, is_too_large) = Making::result(self, operands);
        let bytes = write_diagram(&(self.changed)(operands, made));
        for check in self.checks {
            match check {
                Check::Work if work < (self.need)(operands) => return Answer::refused(7, 0, 0),
                Check::Size if is_too_large => return Answer::refused(12, 0, 0),
                Check::File if file.len() < bytes.len() => return Answer::refused(7, 0, 0),
                _ => {}
            }
        }
        file[..bytes.len()].copy_from_slice(&bytes);
        Answer::accepted(0, bytes.len(), 0)
    }
}

/// A conjunction under way.
struct Making<'a> {
    how: &'a Conjoiner,
    operands: &'a Operands,
    known: HashMap<usize, u16>,
    nodes: Vec<Node>,
    is_too_large: bool,
}

impl Making<'_> {
    /// The diagram, and whether it has too many nodes; then it ends early.
    fn result(how: &Conjoiner, operands: &Operands) -> (Diagram, bool) {
        let (known, nodes) = (HashMap::new(), Vec::new());
        let mut making = Making { how, operands, known, nodes, is_too_large: false };
        let root = making.visit(operands.first.root, operands.second.root, 1);
        (Diagram { root, nodes: making.nodes }, making.is_too_large)
    }

    fn visit(&mut self, a: u16, b: u16, depth: usize) -> u16 {
        if let Some(decided) = (self.how.decided)(a, b) {
            return decided;
        }
        if depth > self.how.deepest || self.is_too_large {
            return 0;
        }
        let place = (self.how.place)(self.operands, a, b);
        if let Some(known) = self.known.get(&place) {
            return *known;
        }
        let (first, second) = (self.operands.first.inner(a), self.operands.second.inner(b));
        let step = first.iter().chain(&second).map(|node| node.step).min().unwrap_or(0);
        let children = |node: Option<Node>, own: u16| {
            node.filter(|node| node.step == step).map_or([own; 2], |node| [node.lo, node.hi])
        };
        let (first, second) = (children(first, a), children(second, b));
        let mut made = [0; 2];
        for child in if self.how.hi_first { [1, 0] } else { [0, 1] } {
            made[child] = self.visit(first[child], second[child], depth + 1);
        }
        let reference = self.node(Node { step, lo: made[0], hi: made[1] });
        self.known.insert(place, reference);
        reference
    }

    fn node(&mut self, node: Node) -> u16 {
        if node.lo == node.hi && !self.how.keeps_equal {
            return node.lo;
        }
        let alike = self.nodes.iter().position(|other| (self.how.are_alike)(&node, other));
        if let Some(at) = alike {
            return at as u16 + 2;
        }
        if self.nodes.len() >= self.how.most {
            self.is_too_large = true;
            return 0;
        }
        self.nodes.push(node);
        self.nodes.len() as u16 + 1
    }
}

#[cfg(test)]
mod tests {
    use super::{by, Sabotage, SOUND};
    use crate::cases::{Case, Cases};
    use crate::sabotage::shown;

    static NO_SABOTAGE: [Sabotage; 1] = [by("none", SOUND)];

    #[test]
    fn the_sound_choices_spoil_nothing() {
        let cases = Cases::new(71);
        let all: Vec<Case> = cases.conjunctions().step_by(9).map(|at| cases.case(at)).collect();
        shown::none(&all, &NO_SABOTAGE);
        assert!(all.len() > 200);
    }
}
