//! How far a case goes with groups.

use crate::cases::Case;
use crate::compare::Judgement;
use crate::files::{
    read_chart, Chart, Diagram, Problem, Refusal, CHART_FILE, HEADER, MAX_GROUP, MAX_STEPS,
    STEP_KINDS,
};
use crate::reference::conjunction::Conjunction;
use crate::reference::Facts;

/// What a chart with groups has, and what groups change; false where it makes no sense.
#[derive(Clone, Copy, Debug, Default, PartialEq, Eq)]
pub struct Grouping {
    /// The chart passes and its steps have groups. How many may be named.
    pub groups: usize,
    pub searches: Searching,
    pub conjunction: Conjoining,
    /// A step of the other kind than the first one.
    pub other_kind: Option<OtherKind>,
}

/// Both files pass.
#[derive(Clone, Copy, Debug, Default, PartialEq, Eq)]
pub struct Searching {
    pub sound: bool,
    pub has_plan: bool,
    /// As many steps as there may be.
    pub full: bool,
    /// The highest group is the highest that there may be.
    pub highest: bool,
    /// Several steps, all in one group; each in one alone, of its own number; some in one.
    pub one: bool,
    pub own: bool,
    pub shared: bool,
    pub gaps: bool,
    /// The last group is far above the one before.
    pub last_far: bool,
    /// Some node names a group without steps, and the highest group.
    pub names_gap: bool,
    pub names_highest: bool,
    /// A pair is reached whose node names a group without steps.
    pub stands_at_gap: bool,
    /// Such a node has no estimate, and its hi has.
    pub gap_without_estimate: bool,
    /// A way from the start takes two steps of a group one after the other, and one whose node stays the
    /// second time though it is inner.
    pub again: bool,
    pub stays: bool,
    pub changes: Changes,
}

/// What would change if groups were taken otherwise, in smaller problems.
#[derive(Clone, Copy, Debug, Default, PartialEq, Eq)]
pub struct Changes {
    /// The plan's cost, or whether there is one, if nodes named steps.
    pub by_steps: bool,
    /// The guided count with the cost of the first step, of the last, the largest one, and of no cost for
    /// a group without steps.
    pub first: bool,
    pub last: bool,
    pub largest: bool,
    pub free_gap: bool,
}

/// All three files of a conjunction pass.
#[derive(Clone, Copy, Debug, Default, PartialEq, Eq)]
pub struct Conjoining {
    pub sound: bool,
    /// Its result names a group without steps.
    pub keeps_gap: bool,
}

/// A step field that is refused for its kind.
#[derive(Clone, Copy, Debug, PartialEq, Eq)]
pub struct OtherKind {
    /// It has a group.
    pub is_grouped: bool,
    /// Its length is that of its tag.
    pub right_length: bool,
    /// The file ends inside it.
    pub cut: bool,
}

/// In larger problems no changes are looked for.
const CHANGED_PAIRS: usize = 2_048;

impl Grouping {
    pub fn of(case: &Case, judgement: &Judgement) -> Grouping {
        let fault = judgement.fault();
        let chart = match read_chart(&case.chart) {
            Ok(chart) if chart.is_grouped() => chart,
            Ok(_) => return Grouping::default(),
            Err(_) => {
                let other_kind = fault.and_then(|fault| OtherKind::of(&case.chart, fault));
                return Grouping { other_kind, ..Grouping::default() };
            }
        };
        let (searches, conjunction) = match judgement {
            Judgement::Searches { judged: Ok(facts), .. } => {
                (Searching::of(facts), Conjoining::default())
            }
            Judgement::Conjunction { conjoined: Ok(found), .. } => {
                (Searching::default(), Conjoining::of(found))
            }
            _ => (Searching::default(), Conjoining::default()),
        };
        Grouping { groups: chart.groups(), searches, conjunction, other_kind: None }
    }

    pub fn is_other(&self, such: impl Fn(&OtherKind) -> bool) -> bool {
        self.other_kind.is_some_and(|other| such(&other))
    }
}

impl OtherKind {
    fn of(chart: &[u8], Refusal { number, file, place }: &Refusal) -> Option<OtherKind> {
        let field = chart.get(*place..).filter(|_| (*number, *file) == (2, CHART_FILE))?;
        let at = STEP_KINDS.iter().position(|kind| field.first() == Some(&kind.tag))?;
        // In front, and without a step before it, it would be no step of the other kind.
        read_chart(&chart[..*place]).ok().filter(|before| !before.steps.is_empty())?;
        let claimed = usize::from(u16::from_le_bytes([*field.get(1)?, *field.get(2)?]));
        Some(OtherKind {
            is_grouped: at == 1,
            right_length: claimed == STEP_KINDS[at].length,
            cut: field.len() < HEADER + claimed,
        })
    }
}

impl Searching {
    fn of(facts: &Facts) -> Searching {
        let Problem { chart, diagram } = &facts.problem;
        let costs = chart.group_costs();
        let groups: Vec<u16> = chart.steps.iter().filter_map(|step| step.group).collect();
        let last = groups.len() - 1;
        let highest = groups[last];
        let is_gap = |group: u16| costs[usize::from(group)].is_none();
        let (again, stays) = taken_again(facts);
        Searching {
            sound: true,
            has_plan: facts.cheapest.is_some(),
            full: groups.len() == MAX_STEPS,
            highest: highest == MAX_GROUP,
            one: last > 0 && groups[0] == highest,
            own: last > 0 && groups.iter().copied().eq(0..=last as u16),
            shared: groups.windows(2).any(|pair| pair[0] == pair[1]),
            gaps: costs.contains(&None),
            last_far: last > 0 && groups[last - 1] + 100 < highest,
            names_gap: diagram.nodes.iter().any(|node| is_gap(node.step)),
            names_highest: diagram.nodes.iter().any(|node| node.step == highest),
            stands_at_gap: stands_at(facts, is_gap),
            gap_without_estimate: has_gap_without_estimate(facts, is_gap),
            again,
            stays,
            changes: Changes::of(facts),
        }
    }
}

/// Whether a reached pair's node names such a group.
fn stands_at(facts: &Facts, such: impl Fn(u16) -> bool) -> bool {
    let references = facts.references();
    let names_such = |reference: usize| {
        facts.problem.diagram.inner(reference as u16).is_some_and(|node| such(node.step))
    };
    let named: Vec<bool> = (0..references).map(names_such).collect();
    let mut reached = facts.least.iter().enumerate().filter(|(_, least)| least.is_some());
    reached.any(|(pair, _)| named[pair % references])
}

fn has_gap_without_estimate(facts: &Facts, is_gap: impl Fn(u16) -> bool) -> bool {
    let estimate = |reference: u16| facts.diagram_estimate[usize::from(reference)];
    let nodes = &facts.problem.diagram.nodes;
    let mut gaps = nodes.iter().filter(|node| is_gap(node.step));
    gaps.any(|node| estimate(node.lo).is_none() && estimate(node.hi).is_some())
}

/// Whether a step that a way from the start takes is followed by one of its group, and whether the node
/// where the second leads from is then inner and stays.
fn taken_again(facts: &Facts) -> (bool, bool) {
    let Problem { chart, diagram } = &facts.problem;
    let references = facts.references();
    let row = |stage: u16| &facts.least[usize::from(stage) * references..][..references];
    let is_reached: Vec<bool> =
        (0..chart.stages).map(|stage| row(stage).iter().any(Option::is_some)).collect();
    let first = |stage: u16| chart.steps.partition_point(|step| step.from < stage);
    let (mut again, mut stays) = (false, false);
    for step in chart.steps.iter().filter(|step| is_reached[usize::from(step.from)]) {
        let leaving = &chart.steps[first(step.to)..first(step.to + 1)];
        if !leaving.iter().any(|next| next.group == step.group) {
            continue;
        }
        again = true;
        let is_later = |reference: usize| {
            let node = diagram.inner(reference as u16);
            node.is_some_and(|node| Some(node.step) > step.group)
        };
        let mut nodes = row(step.to).iter().enumerate().filter(|(_, least)| least.is_some());
        stays = stays || nodes.any(|(reference, _)| is_later(reference));
    }
    (again, stays)
}

impl Changes {
    fn of(facts: &Facts) -> Changes {
        let Problem { chart, diagram } = &facts.problem;
        if facts.problem.pairs() > CHANGED_PAIRS {
            return Changes::default();
        }
        let by_steps = Facts::by_dynamic_programming(&Problem {
            chart: chart.with_groups(|_| None),
            diagram: diagram.clone(),
        });
        let counts = |costs: &[Option<u32>]| facts.with_group_costs(costs).must_be_settled();
        let own = facts.must_be_settled();
        let costs = chart.group_costs();
        let free: Vec<Option<u32>> = costs.iter().map(|cost| cost.or(Some(0))).collect();
        Changes {
            by_steps: by_steps.cheapest.map(|plan| plan.cost)
                != facts.cheapest.map(|plan| plan.cost),
            first: counts(&costs_by(chart, |known, _| known)) != own,
            last: counts(&costs_by(chart, |_, cost| cost)) != own,
            largest: counts(&costs_by(chart, u32::max)) != own,
            free_gap: names_gap(diagram, &costs) && counts(&free) != own,
        }
    }
}

fn names_gap(diagram: &Diagram, costs: &[Option<u32>]) -> bool {
    diagram.nodes.iter().any(|node| costs[usize::from(node.step)].is_none())
}

/// Costs of groups by another choice between that of the steps before and that of the next.
pub fn costs_by(chart: &Chart, choice: fn(u32, u32) -> u32) -> Vec<Option<u32>> {
    let mut costs: Vec<Option<u32>> = vec![None; chart.groups()];
    for (step, number) in chart.steps.iter().zip(0..) {
        let cost = &mut costs[usize::from(chart.group(number))];
        *cost = Some(cost.map_or(step.cost, |known| choice(known, step.cost)));
    }
    costs
}

impl Conjoining {
    fn of(found: &Conjunction) -> Conjoining {
        let costs = found.operands.chart.group_costs();
        let mut named = found.reduced.nodes.iter().map(|node| usize::from(node.step));
        Conjoining { sound: true, keeps_gap: named.any(|group| costs[group].is_none()) }
    }
}
