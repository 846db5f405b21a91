//! Runs one case over implementations and holds each against the reference. Files and slices are lent
//! beside pages that fault when touched.

pub mod slices;

use std::panic::{catch_unwind, AssertUnwindSafe};

use crate::cases::Case;
use crate::check::{self, Checked, FieldCall};
use crate::crash;
use crate::figures::Figures;
use crate::files::{Refusal, DIAGRAM_FILE, MORE_FILE};
use crate::generate::Random;
use crate::lent::{Lent, Side, Span};
use crate::planner::{ConjoinSlices, Cycle, CycleSlices, GuidedSlices, Planner, SweepSlices};
use crate::reference::conjunction::{by_truth, conjoin, conjunction_answer, Conjoined};
use crate::reference::cycles::{wanted, wanted_of_all, with_ends, Wanted};
use crate::reference::reduction::{reduce, say_the_same};
use crate::reference::{self, Facts, Judged};

/// Charts with more ways than this from some stage are judged by dynamic programming alone.
const WAYS: usize = 600;
/// The same for diagrams with more nodes than this.
const ENUMERATED_NODES: usize = 16;
/// Records of a list that are searched for one by one as well.
const SEARCHED: usize = 40;

/// What an implementation got wrong.
#[derive(Clone, Debug)]
pub struct Difference {
    pub planner: &'static str,
    pub call: &'static str,
    pub text: String,
}

/// What the reference makes of a case.
#[derive(Clone, Debug)]
pub enum Judgement {
    Searches { judged: Judged, reduced: Conjoined },
    Conjunction { conjoined: Conjoined, reduced: [Conjoined; 2] },
}

impl Judgement {
    /// By the faster methods alone.
    pub fn of(case: &Case) -> Judgement {
        let Case { chart, rules, .. } = case;
        let reduced = reduce(chart, rules);
        match &case.more {
            None => Judgement::Searches { judged: reference::judge(chart, rules), reduced },
            Some(more) => Judgement::Conjunction {
                conjoined: conjoin(chart, rules, more),
                reduced: [reduced, reduce(chart, more)],
            },
        }
    }

    /// The file that the searches or the conjunction refuse.
    pub fn fault(&self) -> Option<&Refusal> {
        match self {
            Judgement::Searches { judged, .. } => judged.as_ref().err(),
            Judgement::Conjunction { conjoined, .. } => conjoined.as_ref().err(),
        }
    }

    /// The reductions of its diagrams.
    pub fn reduced(&self) -> &[Conjoined] {
        match self {
            Judgement::Searches { reduced, .. } => std::slice::from_ref(reduced),
            Judgement::Conjunction { reduced, .. } => reduced,
        }
    }
}

/// What a case was good for.
#[derive(Clone, Debug)]
pub struct Outcome {
    /// The number that a sweep on these slices answers, or the first call of a conjunction.
    pub number: u32,
    /// Whether both searches were lent enough.
    pub enough: bool,
    /// Whether the reference's two methods were compared, of the facts or of the conjunction.
    pub enumerated: bool,
    pub judgement: Judgement,
    /// Entries and bytes that were lent to conjunctions.
    pub lent: Vec<(usize, usize)>,
    /// Bytes that were lent to the reductions of each diagram.
    pub buffers: Vec<Vec<usize>>,
    /// The lists that were lent.
    pub lists: Vec<Listed>,
}

/// A list as it was lent.
#[derive(Clone, Debug)]
pub struct Listed {
    pub list: Vec<Cycle>,
    /// Entries of the work slices.
    pub work: [usize; 6],
    /// What the records are to hold, where the call is accepted.
    pub wanted: Vec<Wanted>,
}

impl Outcome {
    pub fn figures(&self, case: &Case) -> Figures {
        Figures::of(case, self)
    }
}

/// Runs every call of every implementation on a case.
pub fn run(case: &Case, planners: &[Box<dyn Planner>]) -> Result<Outcome, Difference> {
    let judgement = Judgement::of(case);
    let enumerated = match &judgement {
        Judgement::Searches { judged, .. } => {
            compare_facts_elsewhere(case, judged)?;
            compare_facts(judged)?
        }
        Judgement::Conjunction { conjoined, .. } => compare_by_truth("conjunction", conjoined)?,
    };
    compare_reductions(judgement.reduced())?;
    let outcome = hold(case, judgement, planners)?;
    Ok(Outcome { enumerated, ..outcome })
}

/// The same with a judgement that is there already.
pub fn hold(
    case: &Case,
    judgement: Judgement,
    planners: &[Box<dyn Planner>],
) -> Result<Outcome, Difference> {
    let mut random = Random::new(case.dirt);
    let Held { number, enough, lent } = match &judgement {
        Judgement::Searches { judged, .. } => hold_searches(case, judged, planners, &mut random)?,
        Judgement::Conjunction { conjoined, .. } => {
            hold_conjunction(case, conjoined, planners, &mut random)?
        }
    };
    let buffers = hold_reductions(case, judgement.reduced(), planners, &mut random)?;
    let lists = match &judgement {
        Judgement::Searches { judged, .. } => hold_lists(case, judged, planners, &mut random)?,
        Judgement::Conjunction { .. } => Vec::new(),
    };
    Ok(Outcome { number, enough, enumerated: false, judgement, lent, buffers, lists })
}

/// The part of an outcome that searches or conjunctions give.
struct Held {
    number: u32,
    enough: bool,
    lent: Vec<(usize, usize)>,
}

fn hold_searches(
    case: &Case,
    judged: &Judged,
    planners: &[Box<dyn Planner>],
    random: &mut Random,
) -> Result<Held, Difference> {
    let (sweep, guided) = slices::drawn(judged, case.lends_enough(), random);
    let places = places(case, judged, random);
    for planner in planners {
        let planner = planner.as_ref();
        let mut trial = Trial::new(case, planner, random);
        trial.sweep(judged, &sweep)?;
        trial.guided(judged, &guided)?;
        trial.both(judged, &sweep, &guided)?;
        trial.space(judged)?;
        for place in &places {
            trial.refused_field(*place)?;
        }
    }
    let number = reference::sweep_answer(judged, &sweep.work_lengths(), sweep.plan.len()).number;
    let other = reference::guided_answer(judged, &guided.work_lengths(), guided.plan.len()).number;
    Ok(Held { number, enough: number != 7 && other != 7, lent: Vec::new() })
}

fn hold_conjunction(
    case: &Case,
    conjoined: &Conjoined,
    planners: &[Box<dyn Planner>],
    random: &mut Random,
) -> Result<Held, Difference> {
    let all = slices::drawn_for_conjunction(conjoined, case.lends_enough(), random);
    let shown = field_of_more(case, conjoined);
    for planner in planners {
        let mut trial = Trial::new(case, planner.as_ref(), random);
        for before in &all {
            trial.conjoin(conjoined, before)?;
        }
        if let Some((case, place)) = &shown {
            let mut trial = Trial::new(case, planner.as_ref(), random);
            trial.refused_field((DIAGRAM_FILE, *place))?;
        }
    }
    let lent: Vec<_> = all.iter().map(|slices| (slices.work.len(), slices.file.len())).collect();
    let (work, file) = lent[0];
    let number = conjunction_answer(conjoined, work, file).number;
    Ok(Held { number, enough: false, lent })
}

/// Reduces each diagram of a case; gives the lengths of the buffers.
fn hold_reductions(
    case: &Case,
    reduced: &[Conjoined],
    planners: &[Box<dyn Planner>],
    random: &mut Random,
) -> Result<Vec<Vec<usize>>, Difference> {
    let buffers = reduced.iter().map(|one| slices::drawn_for_reduction(one, random));
    let buffers: Vec<Vec<Lent<u8>>> = buffers.collect();
    for planner in planners {
        let mut trial = Trial::new(case, planner.as_ref(), random);
        for (which, (one, buffers)) in reduced.iter().zip(&buffers).enumerate() {
            buffers.iter().try_for_each(|before| trial.reduce(which, one, before))?;
        }
    }
    Ok(buffers.iter().map(|all| all.iter().map(|buffer| buffer.len()).collect()).collect())
}

/// Lends lists over the case's chart; gives them with what they are to hold.
fn hold_lists(
    case: &Case,
    judged: &Judged,
    planners: &[Box<dyn Planner>],
    random: &mut Random,
) -> Result<Vec<Listed>, Difference> {
    let all = slices::drawn_for_lists(&case.chart, judged, case.lends_enough(), random);
    let mut lists = Vec::new();
    for before in &all {
        let work = before.work_lengths();
        let wanted = match reference::cycles::list_answer(judged, &work).number {
            0 => wanted_of_all(&case.chart, &case.rules, &before.list),
            _ => Vec::new(),
        };
        lists.push(Listed { list: before.list.to_vec(), work, wanted });
    }
    for planner in planners {
        let mut trial = Trial::new(case, planner.as_ref(), random);
        for (before, listed) in all.iter().zip(&lists) {
            trial.cycles(judged, &listed.wanted, before)?;
        }
    }
    Ok(lists)
}

/// Where file 3 is at fault: a case that has it as its second file, so that its field is shown, and the
/// place.
fn field_of_more(case: &Case, conjoined: &Conjoined) -> Option<(Case, usize)> {
    let fault = conjoined.as_ref().err().filter(|fault| fault.file == MORE_FILE)?;
    let files = (case.chart.clone(), case.more.clone()?);
    Some((Case::new(case.kind, files, case.dirt), fault.place))
}

/// A difference within the reference.
fn contradiction(call: &'static str, text: String) -> Difference {
    Difference { planner: "reference", call, text }
}

/// Of few groups both methods of a conjunction, or of a reduction, must agree; says whether they were
/// compared.
fn compare_by_truth(call: &'static str, made: &Conjoined) -> Result<bool, Difference> {
    let Ok(found) = made else { return Ok(false) };
    match by_truth(&found.operands) {
        Some(other) if other != found.reduced => {
            let text = format!("by truth {other:?}, by the product {:?}", found.reduced);
            Err(contradiction(call, text))
        }
        by_truth => Ok(by_truth.is_some()),
    }
}

/// The same of reductions; and two diagrams must have the same one exactly where they say the same.
fn compare_reductions(reduced: &[Conjoined]) -> Result<(), Difference> {
    for one in reduced {
        compare_by_truth("reduction", one)?;
    }
    let [Ok(first), Ok(second)] = reduced else { return Ok(()) };
    let groups = first.operands.chart.groups();
    let same = say_the_same(groups, &first.operands.first, &second.operands.first);
    let is_same = first.reduced == second.reduced;
    if same.is_some_and(|same| same != is_same) {
        let text = format!("{:?} and {:?}, same sets: {same:?}", first.reduced, second.reduced);
        return Err(contradiction("reduction", text));
    }
    Ok(())
}

/// The same from another start to another end.
fn compare_facts_elsewhere(case: &Case, judged: &Judged) -> Result<(), Difference> {
    let Ok(facts) = judged else { return Ok(()) };
    let random = &mut Random::new(case.dirt);
    let stages = usize::from(facts.problem.chart.stages);
    let ends = (random.below(stages) as u16, random.below(stages) as u16);
    match facts.problem.diagram.nodes.len() {
        0..=ENUMERATED_NODES => compare_facts(&wanted(&case.chart, &case.rules, ends).1).map(drop),
        _ => Ok(()),
    }
}

/// Of small problems both methods of the facts must agree; says whether they were compared.
fn compare_facts(judged: &Judged) -> Result<bool, Difference> {
    let Ok(facts) = judged else { return Ok(false) };
    let few_nodes = facts.problem.diagram.nodes.len() <= ENUMERATED_NODES;
    let counted = few_nodes.then(|| Facts::by_enumeration(&facts.problem, WAYS)).flatten();
    match counted {
        Some(counted) if counted != *facts => {
            let text = format!("by enumeration {counted:?}, by dynamic programming {facts:?}");
            Err(contradiction("facts", text))
        }
        counted => Ok(counted.is_some()),
    }
}

/// One implementation on one case: each call is made on fresh slices, then checked.
struct Trial<'a> {
    case: &'a Case,
    planner: &'a dyn Planner,
    random: &'a mut Random,
    files: LentFiles,
}

/// A case's files.
struct LentFiles {
    chart: Lent<u8>,
    rules: Lent<u8>,
    more: Option<Lent<u8>>,
}

impl LentFiles {
    fn spans(&self) -> Vec<Span> {
        let both = [self.chart.span("chart"), self.rules.span("rules")];
        both.into_iter().chain(self.more.as_ref().map(|more| more.span("more"))).collect()
    }

    fn diagrams(&self) -> impl Iterator<Item = &[u8]> {
        [Some(&self.rules), self.more.as_ref()].into_iter().flatten().map(|file| &file[..])
    }

    fn are_those_of(&self, case: &Case) -> bool {
        self.chart[..] == case.chart
            && self.rules[..] == case.rules
            && self.more.as_deref() == case.more.as_deref()
    }
}

impl<'a> Trial<'a> {
    fn new(case: &'a Case, planner: &'a dyn Planner, random: &'a mut Random) -> Trial<'a> {
        let mut lent = |file: &[u8]| Lent::beside_guard(file, Side::drawn(random));
        let (chart, rules) = (lent(&case.chart), lent(&case.rules));
        let more = case.more.as_deref().map(lent);
        Trial { case, planner, random, files: LentFiles { chart, rules, more } }
    }

    fn sweep(&mut self, judged: &Judged, before: &SweepSlices) -> Result<(), Difference> {
        let mut after = before.beside_guards(self.random);
        let (name, spans) = ("sweep", after.spans());
        let answer = self.call(name, &spans, |f, by| by.sweep(&f.chart, &f.rules, &mut after))?;
        self.intact(name, &after.spans())?;
        self.checked(name, check::sweep(judged, before, &after, answer))
    }

    fn guided(&mut self, judged: &Judged, before: &GuidedSlices) -> Result<(), Difference> {
        let mut after = before.beside_guards(self.random);
        let (name, spans) = ("guided", after.spans());
        let answer = self.call(name, &spans, |f, by| by.guided(&f.chart, &f.rules, &mut after))?;
        self.intact(name, &after.spans())?;
        self.checked(name, check::guided(judged, before, &after, answer))
    }

    fn both(
        &mut self,
        judged: &Judged,
        first: &SweepSlices,
        second: &GuidedSlices,
    ) -> Result<(), Difference> {
        let mut sweep = first.beside_guards(self.random);
        let mut guided = second.beside_guards(self.random);
        let (name, spans) = ("both", [&sweep.spans()[..], &guided.spans()].concat());
        let answers =
            self.call(name, &spans, |f, by| by.both(&f.chart, &f.rules, &mut sweep, &mut guided))?;
        let Some((swept, found)) = answers else { return Ok(()) };
        self.intact(name, &[&sweep.spans()[..], &guided.spans()].concat())?;
        let checked = check::sweep(judged, first, &sweep, swept)
            .and_then(|()| check::guided(judged, second, &guided, found));
        self.checked(name, checked)
    }

    fn cycles(
        &mut self,
        judged: &Judged,
        wanted: &[Wanted],
        before: &CycleSlices,
    ) -> Result<(), Difference> {
        let mut after = before.beside_guards(self.random);
        let (name, spans) = ("cycles", after.spans());
        let answer = self.call(name, &spans, |f, by| by.cycles(&f.chart, &f.rules, &mut after))?;
        let Some(answer) = answer else { return Ok(()) };
        self.intact(name, &after.spans())?;
        self.checked(name, check::cycles::cycles(judged, wanted, before, &after, answer))?;
        match judged {
            Ok(facts) if answer.number == 0 => self.searched(facts, &after.list),
            _ => Ok(()),
        }
    }

    /// Some records, the last one too, against the guided search on the chart's file with their start and
    /// end in its head.
    fn searched(&mut self, facts: &Facts, list: &[Cycle]) -> Result<(), Difference> {
        let (pairs, plan) = (facts.problem.pairs(), facts.problem.longest_plan());
        let skipped = list.len().div_ceil(SEARCHED).max(1);
        for record in list.iter().rev().step_by(skipped) {
            let Some(chart) = with_ends(&self.case.chart, record.ends()) else { continue };
            let chart = Lent::beside_guard(&chart, Side::drawn(self.random));
            let mut lent = GuidedSlices::of(pairs, plan).beside_guards(self.random);
            let spans = [&lent.spans()[..], &[chart.span("chart of a record")]].concat();
            let name = "guided search of a record";
            let answer = self.call(name, &spans, |f, by| by.guided(&chart, &f.rules, &mut lent))?;
            self.checked("cycles", check::cycles::as_searched(record, answer))?;
        }
        Ok(())
    }

    fn space(&mut self, judged: &Judged) -> Result<(), Difference> {
        let name = "space needed";
        let found = self.call(name, &[], |f, by| by.space_needed(&f.chart, &f.rules))?;
        let Some(found) = found else { return Ok(()) };
        self.checked(name, check::space(judged, found))
    }

    /// Lends a slice of any length from none to more than the field has.
    fn refused_field(&mut self, (mark, place): (u32, usize)) -> Result<(), Difference> {
        let Case { chart, rules, .. } = self.case;
        let field = FieldCall { chart, rules, mark, place };
        let whole = reference::refused_field(chart, rules, mark, place).len();
        let lent = self.random.pick(&[0, whole.saturating_sub(1), whole, whole + 1, whole + 5]);
        let before: Vec<u8> = (0..lent).map(|_| self.random.word() as u8).collect();
        let mut after = Lent::beside_guard(&before, Side::drawn(self.random));
        let (name, spans) = ("refused field", [after.span("field")]);
        let length = self.call(name, &spans, |f, by| {
            by.refused_field(&f.chart, &f.rules, mark, place, &mut after)
        })?;
        let Some(length) = length else { return Ok(()) };
        self.intact(name, &[after.span("field")])?;
        self.checked(name, check::refused_field(field, &before, &after, length))
    }

    fn conjoin(&mut self, found: &Conjoined, before: &ConjoinSlices) -> Result<(), Difference> {
        let mut after = before.beside_guards(self.random);
        let (name, spans) = ("conjoin", after.spans());
        let answer = self.call(name, &spans, |f, by| {
            by.conjoin(&f.chart, &f.rules, f.more.as_deref()?, &mut after)
        })?;
        let Some(answer) = answer else { return Ok(()) };
        self.intact(name, &after.spans())?;
        self.checked(name, check::conjunction::conjunction(found, before, &after, answer))
    }

    /// The reduction of the case's first diagram or of its second.
    fn reduce(
        &mut self,
        which: usize,
        reduced: &Conjoined,
        before: &[u8],
    ) -> Result<(), Difference> {
        let mut after = Lent::beside_guard(before, Side::drawn(self.random));
        let (name, spans) = ("reduce", [after.span("file")]);
        let answer = self.call(name, &spans, |f, by| {
            by.reduce(&f.chart, f.diagrams().nth(which)?, &mut after)
        })?;
        let Some(answer) = answer else { return Ok(()) };
        self.intact(name, &[after.span("file")])?;
        self.checked(name, check::conjunction::reduction(reduced, before, &after, answer))
    }

    /// Makes a call; a panic of it is a difference, and so is a file that has changed.
    fn call<T>(
        &self,
        name: &'static str,
        lent: &[Span],
        run: impl FnOnce(&LentFiles, &dyn Planner) -> T,
    ) -> Result<T, Difference> {
        crash::watch(self.planner.name(), name, &self.files.spans(), lent);
        let result = catch_unwind(AssertUnwindSafe(|| run(&self.files, self.planner)));
        let result = result.map_err(|_| self.difference(name, "the call panicked".into()))?;
        self.intact(name, &self.files.spans())?;
        if !self.files.are_those_of(self.case) {
            return Err(self.difference(name, "a file has changed".into()));
        }
        Ok(result)
    }

    /// The bytes beside the lent slices are as they were.
    fn intact(&self, name: &'static str, lent: &[Span]) -> Result<(), Difference> {
        match lent.iter().find(|span| !span.intact) {
            None => Ok(()),
            Some(Span { name: slice, .. }) => {
                Err(self.difference(name, format!("bytes beside the slice {slice} have changed")))
            }
        }
    }

    fn checked(&self, name: &'static str, found: Checked) -> Result<(), Difference> {
        found.map_err(|text| self.difference(name, text))
    }

    fn difference(&self, call: &'static str, text: String) -> Difference {
        Difference { planner: self.planner.name(), call, text }
    }
}

/// Marks and places for the refused field: the fault itself, ends, and random ones.
fn places(case: &Case, judged: &Judged, random: &mut Random) -> Vec<(u32, usize)> {
    let far = random.pick(&[usize::MAX, usize::MAX - 2, 1 << 32, 1 << 63, u32::MAX as usize]);
    let mut places = vec![(1, far), (2, far)];
    if let Err(fault) = judged {
        places.push((fault.file, fault.place));
    }
    for (mark, file) in [(1, &case.chart), (2, &case.rules)] {
        let end = file.len();
        places.extend([(mark, 0), (mark, end), (mark, end.saturating_sub(1)), (mark, end + 1)]);
        places.push((mark, random.below(end + 3)));
    }
    places.extend([0, 3, 257, u32::MAX].map(|mark| (mark, random.below(8))));
    places
}
