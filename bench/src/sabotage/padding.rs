//! Wrong readings of padding. Where a diagram is read otherwise than it should be, plain searches stand in for
//! the planner; else that answers itself.

use super::conjunctions::{after, by, change, Conjoiner, Three, SOUND as CONJOINER};
use super::rows::SOUND as PLAIN;
use super::{new, Sabotage, Spoil};
use crate::check::conjunction::walked;
use crate::files::{
    is_padding, read_both, read_chart, read_diagram_by, read_padded, read_three, Chart, Diagram,
    Node, Operands, Problem, Refusal, DIAGRAM_FILE, HEADER, MORE_FILE, NODE,
};
use crate::generate::mutate::fields;
use crate::generate::nodes::{node_places, WHOLE};
use crate::nodes::{NodeAtFault, NodeFaults};
use crate::planner::{Answer, ConjoinSlices, GuidedSlices, Space, SweepSlices};
use crate::reference::{too_short, Facts};

/// A reading of diagrams that may be wrong.
pub(super) struct Misreading {
    how: How,
    /// The only call that reads so, where it is one.
    only: Option<Reader>,
}

enum How {
    /// What is 13 of a node within the limits, by those before it.
    Test(fn(&[Node], Node) -> bool),
    /// What is made of a whole file.
    File(fn(File) -> Result<Diagram, Refusal>),
}

#[derive(Clone, Copy, PartialEq, Eq)]
enum Reader {
    Sweep,
    Guided,
    Both,
    Space,
    Conjoin,
}

/// A diagram's file: its bytes, its mark, the chart and how many groups that has.
#[derive(Clone, Copy)]
pub(super) struct File<'a> {
    pub bytes: &'a [u8],
    pub mark: u32,
    pub chart: &'a Chart,
    groups: usize,
}

impl File<'_> {
    /// As it should be read.
    pub fn sound(self) -> Result<Diagram, Refusal> {
        read_diagram_by(self.bytes, self.mark, self.groups, is_padding)
    }

    /// Without 13.
    fn taken(self) -> Result<Diagram, Refusal> {
        read_diagram_by(self.bytes, self.mark, self.groups, |_, _| false)
    }

    fn refused(self, number: u32, place: usize) -> Result<Diagram, Refusal> {
        Err(Refusal { number, file: self.mark, place })
    }

    /// Refused with 13 where a node is refused with a number and has such faults besides.
    fn sooner(self, number: u32, such: fn(&NodeFaults) -> bool) -> Result<Diagram, Refusal> {
        let read = self.sound();
        let Err(fault) = read else { return read };
        let node = NodeAtFault::of(self.bytes, self.groups, &fault);
        match node.filter(|node| node.number == number && such(&node.faults)) {
            Some(_) => self.refused(13, fault.place),
            None => read,
        }
    }

    /// Refused for what is found without 13, if that is such a fault.
    fn later(self, such: fn(&Refusal) -> bool) -> Result<Diagram, Refusal> {
        match self.taken() {
            Err(fault) if such(&fault) => Err(fault),
            _ => self.sound(),
        }
    }
}

const fn test(name: &'static str, test: fn(&[Node], Node) -> bool) -> Sabotage {
    new(name, Spoil::Padding(Misreading { how: How::Test(test), only: None }))
}

pub(super) const fn file(
    name: &'static str,
    read: fn(File) -> Result<Diagram, Refusal>,
) -> Sabotage {
    new(name, Spoil::Padding(Misreading { how: How::File(read), only: None }))
}

/// A call that takes padding.
const fn taken_in(name: &'static str, reader: Reader) -> Sabotage {
    let how = How::Test(|_, _| false);
    new(name, Spoil::Padding(Misreading { how, only: Some(reader) }))
}

/// A test for alike nodes of which some are left out, or that takes others for alike.
fn alike(before: &[Node], node: Node, are: impl Fn(&Node, &Node) -> bool) -> bool {
    node.lo == node.hi || before.iter().any(|other| are(other, &node))
}

pub(super) static PADDING: [Sabotage; 49] = [
    test("13-for-alike-alone", |before, node| before.contains(&node)),
    test("13-for-equal-children-alone", |_, node| node.lo == node.hi),
    test("13-not-for-equal-constants", |before, node| {
        node.lo == node.hi && node.lo > 1 || before.contains(&node)
    }),
    test("13-not-for-equal-inner-children", |before, node| {
        node.lo == node.hi && node.lo < 2 || before.contains(&node)
    }),
    test("13-whatever-step", |before, node| {
        alike(before, node, |a, b| (a.lo, a.hi) == (b.lo, b.hi))
    }),
    test("13-whatever-lo", |before, node| {
        alike(before, node, |a, b| (a.step, a.hi) == (b.step, b.hi))
    }),
    test("13-whatever-hi", |before, node| {
        alike(before, node, |a, b| (a.step, a.lo) == (b.step, b.lo))
    }),
    test("13-for-exchanged-children", |before, node| {
        alike(before, node, |a, b| a == b || (a.step, a.hi, a.lo) == (b.step, b.lo, b.hi))
    }),
    test("13-by-low-bytes", |before, node| {
        alike(before, node, |a, b| low_bytes(a) == low_bytes(b))
    }),
    test("13-by-sum", |before, node| {
        alike(before, node, |a, b| a.step + a.lo + a.hi == b.step + b.lo + b.hi)
    }),
    test("13-only-right-behind", |before, node| {
        alike(&before[last(before, 1)..], node, PartialEq::eq)
    }),
    test("13-not-right-behind", |before, node| {
        alike(&before[..last(before, 1)], node, PartialEq::eq)
    }),
    test("13-within-255-nodes", |before, node| {
        alike(&before[last(before, 255)..], node, PartialEq::eq)
    }),
    test("13-within-508-nodes", |before, node| {
        alike(&before[last(before, 508)..], node, PartialEq::eq)
    }),
    test("13-of-first-256-nodes", |before, node| {
        alike(&before[..before.len().min(256)], node, PartialEq::eq)
    }),
    test("13-not-of-node-2", |before, node| {
        alike(before.get(1..).unwrap_or_default(), node, PartialEq::eq)
    }),
    test("13-not-at-510th", |before, node| before.len() < 509 && is_padding(before, node)),
    test("13-by-newest-of-its-chain", |before, node| {
        let newest = before.iter().rev().find(|other| chain(other) == chain(&node));
        node.lo == node.hi || newest == Some(&node)
    }),
    test("13-by-chain-alone", |before, node| alike(before, node, |a, b| chain(a) == chain(b))),
    test("13-not-from-step-256-on", |before, node| node.step < 256 && is_padding(before, node)),
    file("13-before-6", |file| file.sooner(6, NodeFaults::is_padding)),
    file("13-for-511th", |file| file.sooner(6, |faults| faults.surplus && faults.is_padding())),
    file("13-for-511th-alike", |file| {
        file.sooner(6, |faults| faults.surplus && faults.twin.is_some())
    }),
    file("13-before-6-of-a-child", |file| {
        file.sooner(6, |faults| faults.beyond && faults.equal && !faults.surplus)
    }),
    file("13-before-length", |file| file.sooner(3, NodeFaults::is_padding)),
    file("13-before-cut-body", |file| file.sooner(1, NodeFaults::is_padding)),
    file("13-after-all-fields", |file| file.later(|fault| fault.place > 0)),
    file("13-after-root", |file| file.later(|fault| (fault.number, fault.place) == (6, 0))),
    file("13-after-later-6", |file| file.later(|fault| fault.number == 6 && fault.place > 0)),
    file("13-after-cut-end", |file| file.later(|fault| fault.number == 1)),
    file("13-at-the-earlier-node", at_twin),
    file("13-for-strays", |file| without_strays(file, |_| true)),
    file("13-for-strays-behind-the-root", |file| without_strays(file, |is_behind| is_behind)),
    file("13-not-for-strays", strays_pass),
    file("13-of-a-remark", remarks_count),
    file("13-as-6", |file| renumbered(file, 6)),
    file("13-as-12", |file| renumbered(file, 12)),
    taken_in("13-not-in-sweep", Reader::Sweep),
    taken_in("13-not-in-guided", Reader::Guided),
    taken_in("13-not-in-both", Reader::Both),
    taken_in("13-not-in-space-needed", Reader::Space),
    new("13-at-place-0", Spoil::Answer(|a| a.place *= usize::from(a.number != 13))),
    new("13-without-file", Spoil::Answer(|a| a.file *= u32::from(a.number != 13))),
    new("13-with-count", Spoil::Answer(|a| a.count += u32::from(a.number == 13))),
    new("13-touches-cost", Spoil::Sweep(|a, s| change(&mut s.cost, 0, a.number == 13))),
    new("13-touches-log", Spoil::Guided(|a, s| change(&mut s.log, 0, a.number == 13))),
    new("13-with-space", Spoil::Space(|s| s.work += usize::from(s.number == 13))),
    new("reached-with-strays", Spoil::Counted(|d| d.nodes.len() - walked(d).len())),
    new("reached-by-numbering", Spoil::Counted(|d| usize::from(!walked(d).is_sorted()))),
];

/// Those that only a conjunction shows.
pub(super) static OF_CONJUNCTIONS: [Sabotage; 7] = [
    file("13-not-in-file-3", |file| match file.mark {
        MORE_FILE => file.taken(),
        _ => file.sound(),
    }),
    file("13-of-file-3-in-file-2", |file| {
        file.sound().map_err(|fault| match fault.number {
            13 => Refusal { file: DIAGRAM_FILE, ..fault },
            _ => fault,
        })
    }),
    taken_in("13-not-in-conjoin", Reader::Conjoin),
    by("13-of-file-3-before-2", Conjoiner { read: file_3_first, ..CONJOINER }),
    by("13-of-file-2-after-3", Conjoiner { read: file_2_last, ..CONJOINER }),
    after("13-of-file-3-touches-work", |_, a, s| {
        change(&mut s.work, 0, (a.number, a.file) == (13, MORE_FILE));
    }),
    after("13-touches-buffer", |_, a, s| change(&mut s.file, 0, a.number == 13)),
];

/// Where the last so many begin.
fn last(nodes: &[Node], count: usize) -> usize {
    nodes.len().saturating_sub(count)
}

fn low_bytes(node: &Node) -> [u8; 3] {
    [node.step, node.lo, node.hi].map(|number| number as u8)
}

/// One of 64 chains.
fn chain(node: &Node) -> u32 {
    let word = u32::from(node.step) << 18 | u32::from(node.hi) << 9 | u32::from(node.lo);
    word.wrapping_mul(0x9e37_79b1) >> 26
}

/// 13 at the place of the node that came first.
fn at_twin(file: File) -> Result<Diagram, Refusal> {
    let read = file.sound();
    let Err(fault) = read else { return read };
    let node = NodeAtFault::of(file.bytes, file.groups, &fault).filter(|node| node.number == 13);
    match node.and_then(|node| Some(node.before - node.faults.twin?)) {
        Some(twin) => file.refused(13, node_places(file.bytes)[twin]),
        None => read,
    }
}

/// Nodes that nothing leads to are refused, those behind the root or all.
fn without_strays(file: File, such: fn(bool) -> bool) -> Result<Diagram, Refusal> {
    let diagram = file.sound()?;
    let reached = walked(&diagram);
    let is_stray = |own: &u16| !reached.contains(own) && such(*own > diagram.root);
    match (2..diagram.references() as u16).find(is_stray) {
        Some(own) => file.refused(13, node_places(file.bytes)[usize::from(own) - 2]),
        None => Ok(diagram),
    }
}

/// Padding passes where nothing leads to it.
fn strays_pass(file: File) -> Result<Diagram, Refusal> {
    let read = file.sound();
    let (Err(fault), Ok(taken)) = (&read, file.taken()) else { return read };
    let own = node_places(file.bytes).iter().position(|place| *place == fault.place);
    match own.map(|at| at as u16 + 2).filter(|own| !walked(&taken).contains(own)) {
        Some(_) => Ok(taken),
        None => read,
    }
}

/// A remark with the body of a node counts as one that is there.
fn remarks_count(file: File) -> Result<Diagram, Refusal> {
    let diagram = file.sound()?;
    let all = fields(file.bytes);
    let body = |(from, to): &(usize, usize)| &file.bytes[from + HEADER..*to];
    let is_node = |field: &(usize, usize)| file.bytes[field.0] == NODE.tag;
    let twin = all.iter().enumerate().skip(1).find(|(at, field)| {
        let mut before = all[1..*at].iter().filter(|other| other.1 - other.0 == WHOLE);
        is_node(field) && before.any(|other| !is_node(other) && body(other) == body(field))
    });
    match twin {
        Some((_, field)) => file.refused(13, field.0),
        None => Ok(diagram),
    }
}

fn renumbered(file: File, number: u32) -> Result<Diagram, Refusal> {
    file.sound().map_err(|fault| match fault.number {
        13 => Refusal { number, ..fault },
        _ => fault,
    })
}

/// The second diagram's 13 comes before all faults of the first.
fn file_3_first([chart, rules, more]: Three) -> Result<Operands, Refusal> {
    let padding = read_both(chart, more).err().filter(|fault| fault.number == 13);
    match padding {
        Some(fault) => Err(Refusal { file: MORE_FILE, ..fault }),
        None => read_three(chart, rules, more),
    }
}

/// The first diagram's 13 comes after all faults of the second.
fn file_2_last([chart, rules, more]: Three) -> Result<Operands, Refusal> {
    let read = read_three(chart, rules, more);
    match (&read, read_both(chart, more)) {
        (Err(Refusal { number: 13, file: DIAGRAM_FILE, .. }), Err(fault)) => {
            read_padded(chart, rules)?;
            Err(Refusal { file: MORE_FILE, ..fault })
        }
        _ => read,
    }
}

fn refused(fault: Refusal) -> Answer {
    Answer::refused(fault.number, fault.file, fault.place)
}

impl Misreading {
    fn read(&self, file: File) -> Result<Diagram, Refusal> {
        match self.how {
            How::Test(test) => read_diagram_by(file.bytes, file.mark, file.groups, test),
            How::File(read) => read(file),
        }
    }

    fn read_both(&self, chart: &[u8], rules: &[u8]) -> Result<Problem, Refusal> {
        let chart = read_chart(chart)?;
        let groups = chart.groups();
        let diagram =
            self.read(File { bytes: rules, mark: DIAGRAM_FILE, chart: &chart, groups })?;
        Ok(Problem { chart, diagram })
    }

    /// What a call reads; none where that is right.
    fn misread(&self, by: Reader, chart: &[u8], rules: &[u8]) -> Option<Result<Problem, Refusal>> {
        let read = self.read_both(chart, rules);
        let is_wrong = || read != read_both(chart, rules);
        (self.only.is_none_or(|only| only == by) && is_wrong()).then_some(read)
    }

    /// None where the planner is to answer.
    pub(super) fn sweep(
        &self,
        chart: &[u8],
        rules: &[u8],
        lent: &mut SweepSlices,
    ) -> Option<Answer> {
        Some(swept(self.misread(Reader::Sweep, chart, rules)?, lent))
    }

    pub(super) fn guided(
        &self,
        chart: &[u8],
        rules: &[u8],
        lent: &mut GuidedSlices,
    ) -> Option<Answer> {
        Some(guided(self.misread(Reader::Guided, chart, rules)?, lent))
    }

    pub(super) fn both(
        &self,
        chart: &[u8],
        rules: &[u8],
        sweep: &mut SweepSlices,
        lent: &mut GuidedSlices,
    ) -> Option<(Answer, Answer)> {
        let read = self.misread(Reader::Both, chart, rules)?;
        Some((swept(read.clone(), sweep), guided(read, lent)))
    }

    pub(super) fn space_needed(&self, chart: &[u8], rules: &[u8]) -> Option<Space> {
        Some(match self.misread(Reader::Space, chart, rules)? {
            Err(Refusal { number, file, place }) => Space { number, file, place, work: 0, plan: 0 },
            Ok(problem) => {
                Space { work: problem.pairs(), plan: problem.longest_plan(), ..Space::default() }
            }
        })
    }

    pub(super) fn conjoin(&self, files: Three, lent: &mut ConjoinSlices) -> Option<Answer> {
        let [chart, rules, more] = files;
        let read = self.read_both(chart, rules).and_then(|Problem { chart, diagram: first }| {
            let groups = chart.groups();
            let second = self.read(File { bytes: more, mark: MORE_FILE, chart: &chart, groups })?;
            Ok(Operands { chart, first, second })
        });
        let is_wrong = || read != read_three(chart, rules, more);
        if self.only.is_some_and(|only| only != Reader::Conjoin) || !is_wrong() {
            return None;
        }
        Some(match read {
            Ok(operands) => CONJOINER.conjoin_read(&operands, lent.work.len(), &mut lent.file),
            Err(fault) => refused(fault),
        })
    }
}

/// A sweep by itself of what was read.
fn swept(read: Result<Problem, Refusal>, lent: &mut SweepSlices) -> Answer {
    match read {
        Err(fault) => refused(fault),
        Ok(problem) if too_short(&problem, &lent.work_lengths(), lent.plan.len()) => {
            Answer::refused(7, 0, 0)
        }
        Ok(problem) => PLAIN.sweep_over(&problem, &mut lent.cost, &mut lent.plan),
    }
}

fn guided(read: Result<Problem, Refusal>, lent: &mut GuidedSlices) -> Answer {
    match read {
        Err(fault) => refused(fault),
        Ok(problem) if too_short(&problem, &lent.work_lengths(), lent.plan.len()) => {
            Answer::refused(7, 0, 0)
        }
        Ok(problem) => {
            let estimates = Facts::by_dynamic_programming(&problem);
            PLAIN.guided_over(&problem, estimates, &mut lent.log, &mut lent.plan)
        }
    }
}

#[cfg(test)]
mod tests {
    use super::super::shown;
    use super::*;
    use crate::cases::{Case, Cases};

    static NO_SABOTAGE: [Sabotage; 2] =
        [test("none", is_padding), file("none", |file| file.sound())];

    fn cases() -> Vec<Case> {
        let cases = Cases::new(81);
        cases.padding().chain(cases.conjunctions()).step_by(5).map(|at| cases.case(at)).collect()
    }

    #[test]
    fn the_right_reading_spoils_nothing() {
        let all = cases();
        shown::none(&all, &NO_SABOTAGE);
        assert!(all.len() > 1_000, "{}", all.len());
    }
}
