//! How far a case goes: its figures, and those that a whole run must reach.

mod conjunctions;
pub(crate) mod groups;
mod lists;
mod padding;

pub use conjunctions::Conjoining;
pub use groups::Grouping;
pub use lists::Listing;
pub use padding::{Likeness, Reducing};

use crate::cases::Case;
use crate::compare::{Judgement, Outcome};
use crate::files::{
    read_chart, Chart, Diagram, Problem, Refusal, CHART_FILE, DIAGRAM_FILE, LONGEST_FILE, MAX_COST,
    MAX_NODES, MAX_STAGES, MORE_FILE, TICK,
};
use crate::generate::costs::FIRST_TO_WRAP;
use crate::generate::remarks::count_before;
use crate::generate::steps::file_costs;
use crate::nodes::NodeAtFault;
use crate::reference::{Facts, Judged};
use crate::steps::{StepAtFault, DEAR, ENDS, FALLS, GROUP, SURPLUS};

/// What a chart and a diagram have, and how far the searches go on them; 0 or false where it makes no
/// sense.
#[derive(Clone, Copy, Debug, Default, PartialEq, Eq)]
pub struct Figures {
    /// Both files pass.
    pub sound: bool,
    pub stages: usize,
    pub nodes: usize,
    /// Equal sums leave the guided count open.
    pub tie: bool,
    pub zero_cost: bool,
    /// A reached stage from which no way leads to the end.
    pub dead_end: bool,
    pub start_above_end: bool,
    /// At least ten steps, all of the largest cost.
    pub all_dear: bool,
    /// As many stages and nodes as there may be.
    pub full: bool,
    pub plan_cost: usize,
    pub plan_length: usize,
    /// The largest sum of a reached pair.
    pub sum: usize,
    pub reached: usize,
    /// The fewest settled pairs with a plan.
    pub settled: usize,
    /// The settled pairs under 8.
    pub settled_without_plan: usize,
    /// The highest number of a reached pair.
    pub reached_pair: usize,
    /// The lowest number of a goal pair that a cheapest plan ends in.
    pub goal_pair: usize,
    /// Inner nodes passed from the root by lo alone.
    pub lo_chain: usize,
    /// Inner nodes on a longest path from the root.
    pub chain: usize,
    /// Length and faulty place of a refused chart.
    pub refused_chart: (usize, usize),
    /// Length and faulty place of a refused diagram.
    pub refused_rules: (usize, usize),
    /// A file is refused for its length; that is no place of the two above.
    pub too_long: bool,
    /// Bytes of a chart that passes, and of a diagram.
    pub bytes: (usize, usize),
    /// Remarks that were passed over in either file.
    pub remarks: usize,
    /// The field at fault stands behind a remark of its file.
    pub fault_behind_remark: bool,
    /// The field at fault, where it is a step.
    pub step: Option<StepAtFault>,
    /// The same where it is a node, of a conjunction too.
    pub node: Option<NodeAtFault>,
    pub rounding: Rounding,
    pub likeness: Likeness,
    pub conjunction: Conjoining,
    /// Of each diagram.
    pub reductions: [Reducing; 2],
    pub lists: Listing,
    pub groups: Grouping,
}

/// What rounding changes, where searches run.
#[derive(Clone, Copy, Debug, Default, PartialEq, Eq)]
pub struct Rounding {
    /// Some step costs more than its file says.
    pub cost: bool,
    /// Some step costs 1,000,000 and less in its file.
    pub cost_to_limit: bool,
    /// The plan doesn't cost what the file's sum is when that is rounded.
    pub sum: bool,
    /// No cheapest plan has as many steps as one by the file's costs.
    pub plan: bool,
    /// Equal sums leave the guided count open; by the file's costs it is fixed.
    pub tie: bool,
    /// By the file's costs the guided count is another in any case.
    pub count: bool,
}

/// In larger problems only the costs are looked at.
const ROUNDED_PAIRS: usize = 4_096;

impl Rounding {
    fn of(chart: &[u8], facts: &Facts) -> Rounding {
        let Problem { chart: read, diagram } = &facts.problem;
        let costs = file_costs(chart);
        let changed = read.steps.iter().zip(&costs).filter(|(step, cost)| step.cost != **cost);
        let found = Rounding {
            cost: changed.clone().count() > 0,
            cost_to_limit: changed.clone().any(|(step, _)| step.cost == MAX_COST),
            ..Rounding::default()
        };
        if !found.cost || facts.problem.pairs() > ROUNDED_PAIRS {
            return found;
        }
        let chart = read.with_costs(|number, _| costs[number]);
        let in_file = Problem { chart, diagram: diagram.clone() };
        found.beside(facts, &Facts::by_dynamic_programming(&in_file))
    }

    /// With what the facts differ in from those by the file's costs.
    fn beside(self, facts: &Facts, in_file: &Facts) -> Rounding {
        let (counts, others) = (facts.settled_range(), in_file.settled_range());
        let plans = facts.cheapest.zip(in_file.cheapest);
        Rounding {
            sum: plans.is_some_and(|(plan, other)| plan.cost != other.cost.next_multiple_of(TICK)),
            plan: plans.is_some_and(|(plan, other)| are_apart(plan.lengths, other.lengths)),
            tie: counts.0 < counts.1 && others.0 == others.1,
            count: are_apart(counts, others),
            ..self
        }
    }
}

/// Whether two ranges have nothing in common.
fn are_apart(a: (u32, u32), b: (u32, u32)) -> bool {
    a.1 < b.0 || b.1 < a.0
}

impl Figures {
    pub fn of(case: &Case, outcome: &Outcome) -> Figures {
        let figures = match &outcome.judgement {
            Judgement::Searches { judged, .. } => Figures {
                lists: Listing::of(case, judged, &outcome.lists),
                ..Figures::of_search_case(case, judged, outcome.enough)
            },
            Judgement::Conjunction { conjoined, reduced } => {
                let calls = (&outcome.lent[..], outcome.enumerated);
                let conjunction = Conjoining::of(case, conjoined, reduced, calls);
                Figures { conjunction, ..Figures::default() }
            }
        };
        let mut reductions = [Reducing::default(); 2];
        let made = outcome.judgement.reduced().iter().zip(&outcome.buffers);
        for ((reduction, file), (reduced, buffers)) in
            reductions.iter_mut().zip(case.diagrams()).zip(made)
        {
            *reduction = Reducing::of(file, reduced, buffers);
        }
        Figures {
            node: node_at_fault(case, outcome.judgement.fault()),
            reductions,
            groups: Grouping::of(case, &outcome.judgement),
            ..figures
        }
    }

    /// `enough`: both searches are lent what they need, and so run.
    fn of_search_case(case: &Case, judged: &Judged, enough: bool) -> Figures {
        let Case { chart, rules, .. } = case;
        let figures = match judged {
            Ok(facts) if enough => {
                Figures { rounding: Rounding::of(chart, facts), ..Figures::of_searches(facts) }
            }
            Ok(facts) => Figures::of_files(facts),
            Err(fault) => return Figures::of_refusal(case, fault),
        };
        let remarks = remarks_passed(case, None);
        let likeness = judged.as_ref().map(|facts| Likeness::of(&facts.problem.diagram));
        let likeness = likeness.unwrap_or_default();
        Figures { bytes: (chart.len(), rules.len()), remarks, likeness, ..figures }
    }

    /// Of files that are refused.
    fn of_refusal(case: &Case, fault: &Refusal) -> Figures {
        let Refusal { number, file, place } = *fault;
        let in_chart = file == CHART_FILE;
        let bytes = if in_chart { &case.chart } else { &case.rules };
        let behind = number != 9 && count_before(bytes, place) > 0;
        let at = if number == 9 { (0, 0) } else { (bytes.len(), place) };
        let (refused_chart, refused_rules) = if in_chart { (at, (0, 0)) } else { ((0, 0), at) };
        Figures {
            refused_chart,
            refused_rules,
            too_long: number == 9,
            bytes: (if in_chart { 0 } else { case.chart.len() }, 0),
            remarks: remarks_passed(case, Some(fault)),
            fault_behind_remark: behind,
            step: StepAtFault::of(&case.chart, fault),
            ..Figures::default()
        }
    }

    /// Whether a step is refused for its values, and they have just these faults.
    fn step_has(&self, faults: u8) -> bool {
        self.step.is_some_and(|step| step.for_values() && step.faults.set() == faults)
    }

    /// Whether a step at fault in its values is refused with a number, and is such a one.
    fn step_is(&self, number: u32, such: impl Fn(&StepAtFault) -> bool) -> bool {
        let at_fault = |step: &StepAtFault| step.number == number && step.faults.set() != 0;
        self.step.is_some_and(|step| at_fault(&step) && such(&step))
    }

    /// Whether a node is refused with a number, and is such a one.
    fn node_is(&self, number: u32, such: impl Fn(&NodeAtFault) -> bool) -> bool {
        self.node.is_some_and(|node| node.number == number && such(&node))
    }

    /// How many reductions are such.
    fn reduced(&self, such: impl Fn(&Reducing) -> bool) -> usize {
        self.reductions.iter().filter(|reduction| such(reduction)).count()
    }

    /// Of sound files alone.
    fn of_files(facts: &Facts) -> Figures {
        let Problem { chart, diagram } = &facts.problem;
        Figures {
            sound: true,
            stages: usize::from(chart.stages),
            nodes: diagram.nodes.len(),
            zero_cost: chart.steps.iter().any(|step| step.cost == 0),
            dead_end: has_dead_end(facts),
            start_above_end: chart.start > chart.end,
            ..Figures::default()
        }
    }

    /// Of searches that run.
    fn of_searches(facts: &Facts) -> Figures {
        let Problem { chart, diagram } = &facts.problem;
        let (fewest, most) = facts.settled_range();
        let settled = fewest as usize;
        let has_plan = facts.cheapest.is_some();
        let sums = (0..facts.least.len()).filter_map(|pair| facts.sum(pair));
        Figures {
            tie: fewest < most,
            all_dear: is_all_dear(chart),
            full: chart.stages == MAX_STAGES && diagram.nodes.len() == MAX_NODES,
            plan_cost: facts.cheapest.map_or(0, |plan| plan.cost as usize),
            plan_length: facts.cheapest.map_or(0, |plan| plan.lengths.0 as usize),
            sum: sums.max().unwrap_or(0) as usize,
            reached: facts.reached() as usize,
            settled: if has_plan { settled } else { 0 },
            settled_without_plan: if has_plan { 0 } else { settled },
            reached_pair: facts.least.iter().rposition(Option::is_some).unwrap_or(0),
            goal_pair: cheapest_goal(facts).unwrap_or(0),
            lo_chain: lo_chain(diagram),
            chain: chain(diagram),
            ..Figures::of_files(facts)
        }
    }
}

/// Remarks that were passed over in all files, up to a fault.
pub fn remarks_passed(case: &Case, fault: Option<&Refusal>) -> usize {
    let read_to = |file: u32| match fault {
        Some(fault) if fault.file < file || (fault.file, fault.number) == (file, 9) => 0,
        // The root is judged when all nodes are read.
        Some(fault) if fault.file == file && (fault.number, fault.place) != (6, 0) => fault.place,
        _ => usize::MAX,
    };
    let files = [Some(&case.chart), Some(&case.rules), case.more.as_ref()];
    let files = files.into_iter().zip([CHART_FILE, DIAGRAM_FILE, MORE_FILE]);
    files.filter_map(|(file, mark)| Some(count_before(file?, read_to(mark)))).sum()
}

/// The node field that is refused.
fn node_at_fault(case: &Case, fault: Option<&Refusal>) -> Option<NodeAtFault> {
    let fault = fault?;
    let file = case.diagrams().nth((fault.file as usize).checked_sub(2)?)?;
    NodeAtFault::of(file, read_chart(&case.chart).ok()?.groups(), fault)
}

fn cheapest_goal(facts: &Facts) -> Option<usize> {
    let cost = facts.cheapest?.cost;
    (0..facts.least.len()).find(|pair| facts.least[*pair] == Some(cost) && facts.is_goal(*pair))
}

fn has_dead_end(facts: &Facts) -> bool {
    let is_dead_end = |(row, estimate): (&[Option<u32>], &Option<u32>)| {
        estimate.is_none() && row.iter().any(Option::is_some)
    };
    facts.least.chunks(facts.references()).zip(&facts.chart_estimate).any(is_dead_end)
}

fn is_all_dear(chart: &Chart) -> bool {
    chart.steps.len() >= 10 && chart.steps.iter().all(|step| step.cost == MAX_COST)
}

fn lo_chain(diagram: &Diagram) -> usize {
    let mut passed = 0;
    let mut at = diagram.root;
    while let Some(node) = diagram.inner(at) {
        passed += 1;
        at = node.lo;
    }
    passed
}

fn chain(diagram: &Diagram) -> usize {
    let mut longest = vec![0, 0];
    for node in &diagram.nodes {
        let below = longest[usize::from(node.lo)].max(longest[usize::from(node.hi)]);
        longest.push(below + 1);
    }
    longest[usize::from(diagram.root)]
}

/// Of a run's figures: how one is taken from a case, how it is kept over cases, and what a whole run
/// must reach.
pub struct Corner {
    pub name: &'static str,
    pub wanted: usize,
    of: fn(&Figures) -> usize,
    kept: Kept,
}

enum Kept {
    Largest,
    Count,
}

impl Corner {
    const fn largest(name: &'static str, wanted: usize, of: fn(&Figures) -> usize) -> Corner {
        Corner { name, wanted, of, kept: Kept::Largest }
    }

    const fn count(name: &'static str, wanted: usize, of: fn(&Figures) -> usize) -> Corner {
        Corner { name, wanted, of, kept: Kept::Count }
    }

    /// The figure with one case more.
    pub fn with(&self, so_far: usize, figures: &Figures) -> usize {
        let found = (self.of)(figures);
        match self.kept {
            Kept::Largest => so_far.max(found),
            Kept::Count => so_far + found,
        }
    }
}

/// Most of the largest ones are what the limits allow.
pub const CORNERS: [Corner; 248] = [
    Corner::largest("plan cost", 255_000_000, |f| f.plan_cost),
    Corner::largest("plan length", 255, |f| f.plan_length),
    Corner::largest("sum of a reached pair", 765_000_000, |f| f.sum),
    Corner::largest("reached pairs", 65_027, |f| f.reached),
    Corner::largest("settled pairs", 64_517, |f| f.settled),
    Corner::largest("settled pairs under 8", 64_517, |f| f.settled_without_plan),
    Corner::largest("number of a reached pair", 131_071, |f| f.reached_pair),
    Corner::largest("number of a cheapest plan's goal pair", 131_071, |f| f.goal_pair),
    Corner::largest("nodes in a row by lo", MAX_NODES, |f| f.lo_chain),
    Corner::largest("nodes in a row", MAX_NODES, |f| f.chain),
    Corner::largest("stages", MAX_STAGES as usize, |f| f.stages),
    Corner::largest("nodes", MAX_NODES, |f| f.nodes),
    Corner::largest("nodes of a reduction", MAX_NODES, |f| f.reductions[0].nodes),
    Corner::largest("cost of a record", 255_000_000, |f| f.lists.records.cost),
    Corner::largest("settled pairs of a record", 64_517, |f| f.lists.records.settled),
    Corner::largest("place in a refused chart", LONGEST_FILE - 1, |f| f.refused_chart.1),
    Corner::largest("place in a refused diagram", LONGEST_FILE - 1, |f| f.refused_rules.1),
    Corner::count("refused charts above 1,000 bytes", 1_000, |f| {
        (f.refused_chart.0 > 1_000).into()
    }),
    Corner::count("refused diagrams above 1,000 bytes", 500, |f| {
        (f.refused_rules.0 > 1_000).into()
    }),
    Corner::count("sound files", 95_000, |f| f.sound.into()),
    Corner::count("with 256 stages and 510 nodes", 50, |f| f.full.into()),
    Corner::count("with ten and more steps, all at 1,000,000", 500, |f| f.all_dear.into()),
    Corner::count("with ties", 5_000, |f| f.tie.into()),
    Corner::count("with zero costs", 5_000, |f| f.zero_cost.into()),
    Corner::count("with dead ends", 5_000, |f| f.dead_end.into()),
    Corner::count("with the start above the end", 5_000, |f| f.start_above_end.into()),
    Corner::largest("bytes of a chart", LONGEST_FILE, |f| f.bytes.0),
    Corner::largest("bytes of a diagram", LONGEST_FILE, |f| f.bytes.1),
    Corner::largest("remarks in both files", 21_840, |f| f.remarks),
    Corner::count("with remarks", 15_000, |f| (f.remarks > 0).into()),
    Corner::count("sound files with remarks", 10_000, |f| (f.sound && f.remarks > 0).into()),
    Corner::count("at fault behind a remark", 2_000, |f| f.fault_behind_remark.into()),
    Corner::count("too long, 9", 500, |f| f.too_long.into()),
    Corner::count("sound files above 32,000 bytes", 200, |f| {
        (f.sound && f.bytes.0.max(f.bytes.1) > 32_000).into()
    }),
    Corner::count("the 1,025th step alone", 50, |f| f.step_has(SURPLUS).into()),
    Corner::count("the 1,025th with 10", 50, |f| f.step_has(SURPLUS | ENDS).into()),
    Corner::count("the 1,025th with a falling from", 50, |f| f.step_has(SURPLUS | FALLS).into()),
    Corner::count("the 1,025th with 11", 50, |f| f.step_has(SURPLUS | DEAR).into()),
    Corner::count("the 1,025th with 10 and a falling from", 50, |f| {
        f.step_has(SURPLUS | ENDS | FALLS).into()
    }),
    Corner::count("the 1,025th with 10 and 11", 50, |f| f.step_has(SURPLUS | ENDS | DEAR).into()),
    Corner::count("the 1,025th with a falling from and 11", 50, |f| {
        f.step_has(SURPLUS | FALLS | DEAR).into()
    }),
    Corner::count("the 1,025th with all faults", 50, |f| {
        f.step_has(SURPLUS | ENDS | FALLS | DEAR).into()
    }),
    Corner::count("steps with 10 alone", 1_000, |f| f.step_has(ENDS).into()),
    Corner::count("steps with a falling from alone", 500, |f| f.step_has(FALLS).into()),
    Corner::count("steps with 11 alone", 1_000, |f| f.step_has(DEAR).into()),
    Corner::count("steps with 10 and a falling from", 250, |f| f.step_has(ENDS | FALLS).into()),
    Corner::count("steps with 10 and 11", 500, |f| f.step_has(ENDS | DEAR).into()),
    Corner::count("steps with a falling from and 11", 250, |f| f.step_has(FALLS | DEAR).into()),
    Corner::count("steps with all three", 250, |f| f.step_has(ENDS | FALLS | DEAR).into()),
    Corner::count("11 for 1,000,001", 100, |f| f.step_is(11, |s| s.step.cost == 1_000_001).into()),
    Corner::count("11 for 16,777,216", 100, |f| f.step_is(11, |s| s.step.cost == 1 << 24).into()),
    Corner::count("11 for 2,147,483,648", 100, |f| {
        f.step_is(11, |s| s.step.cost == 1 << 31).into()
    }),
    Corner::count("11 for 4,294,967,295", 100, |f| {
        f.step_is(11, |s| s.step.cost == u32::MAX).into()
    }),
    Corner::count("10, to equal to from", 500, |f| {
        f.step_is(10, |s| s.step.to == s.step.from).into()
    }),
    Corner::count("10, to below from", 500, |f| f.step_is(10, |s| s.step.to < s.step.from).into()),
    Corner::count("10, to at the stage count", 500, |f| {
        f.step_is(10, |s| s.step.to == s.stages && !s.faults.crossed).into()
    }),
    Corner::count("10, to 65,535", 100, |f| {
        f.step_is(10, |s| s.step.to == u16::MAX && !s.faults.crossed).into()
    }),
    Corner::count("a wrong length and bad values", 100, |f| f.step_is(3, |_| true).into()),
    Corner::count("a cut body and bad values", 100, |f| f.step_is(1, |_| true).into()),
    Corner::count("11 for 1,000,049", 100, |f| f.step_is(11, |s| s.step.cost == 1_000_049).into()),
    Corner::count("11 for 4,294,967,247", 100, |f| {
        f.step_is(11, |s| s.step.cost == FIRST_TO_WRAP).into()
    }),
    Corner::count("with costs rounded up", 40_000, |f| f.rounding.cost.into()),
    Corner::count("with costs rounded up to 1,000,000", 5_000, |f| f.rounding.cost_to_limit.into()),
    Corner::count("with a plan that is not the file's sum rounded", 8_000, |f| {
        f.rounding.sum.into()
    }),
    Corner::count("with a longer or shorter plan by rounding", 300, |f| f.rounding.plan.into()),
    Corner::count("with ties by rounding", 2_500, |f| f.rounding.tie.into()),
    Corner::count("with another guided count by rounding", 350, |f| f.rounding.count.into()),
    Corner::largest("pairs of a conjunction", 262_144, |f| f.conjunction.pairs),
    Corner::largest("visited pairs of a conjunction", 130_000, |f| f.conjunction.visited),
    Corner::largest("depth of a conjunction", 1_020, |f| f.conjunction.depth),
    Corner::largest("depth of a written conjunction", 1_019, |f| {
        if f.conjunction.wrote(|_| true) {
            f.conjunction.depth
        } else {
            0
        }
    }),
    Corner::largest("nodes of a written conjunction", MAX_NODES, |f| {
        if f.conjunction.wrote(|_| true) {
            f.conjunction.nodes
        } else {
            0
        }
    }),
    Corner::largest("nodes of a conjunction that is too large", 10_000, |f| f.conjunction.nodes),
    Corner::count("sound conjunctions", 8_000, |f| f.conjunction.sound.into()),
    Corner::count("conjunctions compared by truth", 6_000, |f| f.conjunction.by_truth.into()),
    Corner::count("conjunctions of diagrams with strays or in another order", 4_000, |f| {
        f.conjunction.disordered.into()
    }),
    Corner::count("conjunctions that say no", 1_000, |f| {
        (f.conjunction.constant == Some(false)).into()
    }),
    Corner::count("conjunctions that say yes", 300, |f| {
        (f.conjunction.constant == Some(true)).into()
    }),
    Corner::count("conjunctions larger than both diagrams", 500, |f| f.conjunction.grown.into()),
    Corner::count("conjunctions of 50 to 508 nodes", 100, |f| {
        f.conjunction.wrote(|n| (50..509).contains(&n)).into()
    }),
    Corner::count("conjunctions of 509 nodes", 10, |f| f.conjunction.wrote(|n| n == 509).into()),
    Corner::count("conjunctions of 510 nodes", 10, |f| f.conjunction.wrote(|n| n == 510).into()),
    Corner::count("12 for 511 nodes", 10, |f| {
        (f.conjunction.calls.too_large > 0 && f.conjunction.nodes == 511).into()
    }),
    Corner::count("conjunctions accepted", 8_000, |f| f.conjunction.calls.accepted),
    Corner::count("conjunctions on slices of just the length needed", 4_000, |f| {
        f.conjunction.calls.exact
    }),
    Corner::count("12", 50, |f| f.conjunction.calls.too_large),
    Corner::count("12 with a short buffer", 20, |f| f.conjunction.calls.too_large_before_file),
    Corner::count("7 for the work slice", 8_000, |f| f.conjunction.calls.short_work),
    Corner::count("7 for one entry", 4_000, |f| f.conjunction.calls.one_entry),
    Corner::count("7 for the work slice before 12", 20, |f| {
        f.conjunction.calls.short_work_before_too_large
    }),
    Corner::count("7 for the buffer", 8_000, |f| f.conjunction.calls.short_file),
    Corner::count("7 for one byte", 4_000, |f| f.conjunction.calls.one_byte),
    Corner::count("file 3 refused with 1", 300, |f| f.conjunction.refuses_more(1).into()),
    Corner::count("file 3 refused with 2", 300, |f| f.conjunction.refuses_more(2).into()),
    Corner::count("file 3 refused with 3", 300, |f| f.conjunction.refuses_more(3).into()),
    Corner::count("file 3 refused with 6", 300, |f| f.conjunction.refuses_more(6).into()),
    Corner::count("file 3 refused with 9", 20, |f| f.conjunction.refuses_more(9).into()),
    Corner::count("file 3 refused for its root", 20, |f| f.conjunction.refuses_root().into()),
    Corner::count("conjunctions with a refused chart", 300, |f| {
        f.conjunction.refuses(CHART_FILE).into()
    }),
    Corner::count("conjunctions with a refused file 2", 500, |f| {
        f.conjunction.refuses(DIAGRAM_FILE).into()
    }),
    Corner::count("files 2 and 3 at fault", 100, |f| f.conjunction.hides(None, None).into()),
    Corner::count("13 of file 2 before a fault of file 3", 200, |f| {
        f.conjunction.hides(Some(13), None).into()
    }),
    Corner::count("6 of file 2 before 13 of file 3", 25, |f| {
        f.conjunction.hides(Some(6), Some(13)).into()
    }),
    Corner::count("conjunctions with remarks in file 3", 300, |f| {
        (f.conjunction.sound && f.conjunction.remarks > 0).into()
    }),
    Corner::count("file 3 at fault behind a remark", 50, |f| {
        (f.conjunction.fault.is_some() && f.conjunction.remarks > 0).into()
    }),
    Corner::largest("bytes of file 3", LONGEST_FILE, |f| f.conjunction.bytes),
    Corner::count("sound files with nodes that differ in the step alone", 15_000, |f| {
        f.likeness.but_step.into()
    }),
    Corner::count("in lo alone", 15_000, |f| f.likeness.but_lo.into()),
    Corner::count("in hi alone", 15_000, |f| f.likeness.but_hi.into()),
    Corner::count("in exchanged children alone", 20_000, |f| f.likeness.exchanged.into()),
    Corner::count("in high bytes alone", 300, |f| f.likeness.low_bytes.into()),
    Corner::count("sound files with nodes that nothing leads to", 20_000, |f| {
        f.likeness.stray.into()
    }),
    Corner::count("sound files in another order than a walk's", 8_000, |f| {
        f.likeness.disordered.into()
    }),
    Corner::count("13 for equal children in file 2", 3_000, |f| {
        f.node_is(13, |n| n.file == DIAGRAM_FILE && n.faults.equal).into()
    }),
    Corner::count("13 for an alike node in file 2", 2_000, |f| {
        f.node_is(13, |n| n.file == DIAGRAM_FILE && n.faults.twin.is_some()).into()
    }),
    Corner::count("13 for equal children in file 3", 150, |f| {
        f.node_is(13, |n| n.file == MORE_FILE && n.faults.equal).into()
    }),
    Corner::count("13 for an alike node in file 3", 150, |f| {
        f.node_is(13, |n| n.file == MORE_FILE && n.faults.twin.is_some()).into()
    }),
    Corner::count("13 for a node right behind its double", 1_000, |f| {
        f.node_is(13, |n| n.faults.twin == Some(1)).into()
    }),
    Corner::count("13 for a node more than 255 behind its double", 100, |f| {
        f.node_is(13, |n| n.faults.twin > Some(255)).into()
    }),
    Corner::largest("nodes from one to its double", MAX_NODES - 1, |f| {
        if f.node_is(13, |_| true) {
            f.node.and_then(|n| n.faults.twin).unwrap_or(0)
        } else {
            0
        }
    }),
    Corner::count("13 at the 510th node", 50, |f| {
        f.node_is(13, |n| n.before == MAX_NODES - 1).into()
    }),
    Corner::count("13 before a later field at fault", 600, |f| {
        f.node_is(13, |n| n.hidden.is_some_and(|fault| fault.place > 0)).into()
    }),
    Corner::count("13 before the root at fault", 100, |f| {
        f.node_is(13, |n| n.hidden.is_some_and(|fault| fault.place == 0)).into()
    }),
    Corner::count("13 behind a remark", 300, |f| {
        (f.node_is(13, |_| true) && f.fault_behind_remark).into()
    }),
    Corner::count("6 for a node with equal children", 300, |f| {
        f.node_is(6, |n| n.faults.equal && !n.faults.surplus).into()
    }),
    Corner::count("6 for the 511th with equal children", 30, |f| {
        f.node_is(6, |n| n.faults.surplus && n.faults.equal && !n.faults.beyond).into()
    }),
    Corner::count("6 for the 511th, alike to another", 50, |f| {
        f.node_is(6, |n| n.faults.surplus && n.faults.twin.is_some()).into()
    }),
    Corner::count("a wrong length and padding", 250, |f| {
        f.node_is(3, |n| n.faults.is_padding()).into()
    }),
    Corner::count("a cut body and padding", 40, |f| f.node_is(1, |n| n.faults.is_padding()).into()),
    Corner::count("reductions", 90_000, |f| f.reduced(|r| r.sound)),
    Corner::count("reductions compared by truth", 80_000, |f| f.reduced(|r| r.by_truth)),
    Corner::count("reductions of padded files", 5_000, |f| f.reduced(Reducing::is_padded)),
    Corner::count("of files with nodes that nothing leads to", 30_000, |f| f.reduced(|r| r.stray)),
    Corner::count("of padded files with remarks", 400, |f| {
        f.reduced(|r| r.is_padded() && r.remarks > 0)
    }),
    Corner::count("of files that are reduced already", 50_000, |f| f.reduced(|r| r.unchanged)),
    Corner::count("reductions to yes", 400, |f| f.reduced(|r| r.constant == Some(true))),
    Corner::count("reductions to no", 150, |f| f.reduced(|r| r.constant == Some(false))),
    Corner::largest("nodes of a padded file's reduction", MAX_NODES - 1, |f| {
        if f.reductions[0].is_padded() {
            f.reductions[0].nodes
        } else {
            0
        }
    }),
    Corner::largest("nodes that a reduction leaves out", MAX_NODES, |f| {
        f.reductions[0].before - f.reductions[0].nodes
    }),
    Corner::largest("alike nodes of a reduced file", 254, |f| f.reductions[0].doubles),
    Corner::largest("nodes with equal children of one", MAX_NODES, |f| f.reductions[0].equal),
    Corner::count("reductions of 510 nodes to 100 and more", 20, |f| {
        f.reduced(|r| r.is_padded() && r.before == MAX_NODES && r.nodes >= 100)
    }),
    Corner::count("reductions accepted", 180_000, |f| sum(f, |r| r.accepted)),
    Corner::count("reductions in just the bytes needed", 90_000, |f| sum(f, |r| r.exact)),
    Corner::count("7 for the buffer of a reduction", 180_000, |f| sum(f, |r| r.short)),
    Corner::count("7 for one byte of it", 90_000, |f| sum(f, |r| r.one_byte)),
    Corner::count("reductions refused with 1", 6_000, |f| f.reduced(|r| r.refuses(1))),
    Corner::count("reductions refused with 2", 12_000, |f| f.reduced(|r| r.refuses(2))),
    Corner::count("reductions refused with 3", 6_000, |f| f.reduced(|r| r.refuses(3))),
    Corner::count("reductions refused with 6", 5_000, |f| f.reduced(|r| r.refuses(6))),
    Corner::count("reductions refused with 9", 600, |f| f.reduced(|r| r.refuses(9))),
    Corner::count("pairs of diagrams that mean the same", 2_500, |f| f.conjunction.same.into()),
    Corner::count("pairs of different files that mean the same", 1_500, |f| {
        f.conjunction.same_differs.into()
    }),
    Corner::count("pairs that do not, with as many nodes", 1_500, |f| {
        f.conjunction.other_as_large.into()
    }),
    Corner::count("lists accepted", 70_000, |f| f.lists.accepted),
    Corner::count("lists on slices of just the length needed", 15_000, |f| f.lists.exact),
    Corner::count("empty lists", 3_500, |f| f.lists.empty),
    Corner::count("lists of one record", 10_000, |f| f.lists.of_one),
    Corner::count("lists of two records", 10_000, |f| f.lists.of_two),
    Corner::count("lists of 40 records", 4_500, |f| f.lists.of_40),
    Corner::count("lists of more than 40", 2_500, |f| f.lists.above_40),
    Corner::count("lists of more than 255", 600, |f| f.lists.above_255),
    Corner::count("lists over 256 stages", 300, |f| f.lists.full),
    Corner::count("lists of 4 alone", 550, |f| f.lists.all_outside),
    Corner::count("lists of 8 alone", 6_500, |f| f.lists.all_without_plan),
    Corner::count("records of 4 that come first", 5_000, |f| f.lists.outside.first),
    Corner::count("records of 4 between two with a plan", 70_000, |f| f.lists.outside.amid),
    Corner::count("records of 4 that come last", 5_500, |f| f.lists.outside.last),
    Corner::count("records of 8 that come first", 10_000, |f| f.lists.without_plan.first),
    Corner::count("records of 8 between two with a plan", 100_000, |f| f.lists.without_plan.amid),
    Corner::count("records of 8 that come last", 10_000, |f| f.lists.without_plan.last),
    Corner::count("records with a plan", 300_000, |f| f.lists.records.with_plan),
    Corner::count("records without a plan", 300_000, |f| f.lists.records.without_plan),
    Corner::count("records outside the chart", 100_000, |f| f.lists.records.outside),
    Corner::count("records from a stage to itself with a plan", 100_000, |f| {
        f.lists.records.to_itself
    }),
    Corner::count("records from a stage to itself without one", 70_000, |f| {
        f.lists.records.not_to_itself
    }),
    Corner::count("records with the start above the end", 70_000, |f| {
        f.lists.records.start_above_end
    }),
    Corner::count("records with the head's start and end", 150_000, |f| f.lists.records.own),
    Corner::count("records there again, with a plan", 150_000, |f| f.lists.records.repeated),
    Corner::count("records there again behind other ones", 100_000, |f| {
        f.lists.records.repeated_behind_others
    }),
    Corner::count("records behind one to a lower end", 85_000, |f| {
        f.lists.records.behind_lower_end
    }),
    Corner::count("records behind one to a higher end", 65_000, |f| {
        f.lists.records.behind_higher_end
    }),
    Corner::count("records with the start at the stage count", 15_000, |f| {
        f.lists.records.start_at_count
    }),
    Corner::count("records with the end there", 15_000, |f| f.lists.records.end_at_count),
    Corner::count("records with the start 65,535", 7_500, |f| f.lists.records.start_largest),
    Corner::count("records with the end 65,535", 7_500, |f| f.lists.records.end_largest),
    Corner::count("records with a start whose low byte is a stage", 10_000, |f| {
        f.lists.records.start_by_low_byte
    }),
    Corner::count("records with such an end", 10_000, |f| f.lists.records.end_by_low_byte),
    Corner::count("records with ties", 35_000, |f| f.lists.records.ties),
    Corner::count("records of 8 with settled pairs", 90_000, |f| {
        f.lists.records.settled_without_plan
    }),
    Corner::count("7 of a list for keys alone", 5_000, |f| f.lists.short[0]),
    Corner::count("7 of a list for via alone", 4_500, |f| f.lists.short[1]),
    Corner::count("7 of a list for heap alone", 5_000, |f| f.lists.short[2]),
    Corner::count("7 of a list for pos alone", 5_000, |f| f.lists.short[3]),
    Corner::count("7 of a list for stack alone", 5_000, |f| f.lists.short[4]),
    Corner::count("7 of a list for the log alone", 5_000, |f| f.lists.short[5]),
    Corner::count("7 of a list for one entry", 20_000, |f| f.lists.one_entry),
    Corner::count("7 of a list for all six", 4_000, |f| f.lists.all_short),
    Corner::count("records of lists under 7", 300_000, |f| f.lists.short_records),
    Corner::count("records of lists under a refused chart", 250_000, |f| f.lists.chart_records),
    Corner::count("records of lists under a refused diagram", 200_000, |f| f.lists.rules_records),
    Corner::count("lists inside the chart under a refused head", 550, |f| f.lists.head),
    Corner::count("lists under 13", 4_500, |f| f.lists.padded),
    Corner::count("lists under 9", 500, |f| f.lists.too_long),
    Corner::count("charts with groups", 27_000, |f| f.groups.searches.sound.into()),
    Corner::count("with groups and a plan", 15_000, |f| f.groups.searches.has_plan.into()),
    Corner::count("with groups and 1,024 steps", 400, |f| f.groups.searches.full.into()),
    Corner::count("with groups and remarks", 3_000, |f| {
        (f.groups.searches.sound && f.remarks > 0).into()
    }),
    Corner::count("with the group 1,023", 3_000, |f| f.groups.searches.highest.into()),
    Corner::count("with all steps in one group", 3_000, |f| f.groups.searches.one.into()),
    Corner::count("with each step a group of its number", 2_500, |f| f.groups.searches.own.into()),
    Corner::count("with several steps in a group", 20_000, |f| f.groups.searches.shared.into()),
    Corner::count("with groups without steps", 15_000, |f| f.groups.searches.gaps.into()),
    Corner::count("with the last group far above the others", 1_700, |f| {
        f.groups.searches.last_far.into()
    }),
    Corner::count("with a node that names a group without steps", 6_500, |f| {
        f.groups.searches.names_gap.into()
    }),
    Corner::count("with a node that names the highest group", 10_000, |f| {
        f.groups.searches.names_highest.into()
    }),
    Corner::count("with a reached pair at a group without steps", 5_000, |f| {
        f.groups.searches.stands_at_gap.into()
    }),
    Corner::count("with such a node whose hi alone has an estimate", 2_500, |f| {
        f.groups.searches.gap_without_estimate.into()
    }),
    Corner::count("with two steps of a group one after the other", 5_500, |f| {
        f.groups.searches.again.into()
    }),
    Corner::count("so that an inner node stays", 2_700, |f| f.groups.searches.stays.into()),
    Corner::count("with another cost if nodes named steps", 6_000, |f| {
        f.groups.searches.changes.by_steps.into()
    }),
    Corner::count("with more or fewer to settle by the first step of groups", 600, |f| {
        f.groups.searches.changes.first.into()
    }),
    Corner::count("by the last step", 600, |f| f.groups.searches.changes.last.into()),
    Corner::count("by the dearest step", 1_000, |f| f.groups.searches.changes.largest.into()),
    Corner::count("by no cost for groups without steps", 700, |f| {
        f.groups.searches.changes.free_gap.into()
    }),
    Corner::count("lists accepted over groups", 27_000, |f| {
        if f.groups.searches.sound {
            f.lists.accepted
        } else {
            0
        }
    }),
    Corner::count("reductions over groups", 35_000, |f| {
        if f.groups.groups > 0 {
            f.reduced(|r| r.sound)
        } else {
            0
        }
    }),
    Corner::count("of padded files over groups", 2_000, |f| {
        if f.groups.groups > 0 {
            f.reduced(Reducing::is_padded)
        } else {
            0
        }
    }),
    Corner::count("sound conjunctions over groups", 2_200, |f| f.groups.conjunction.sound.into()),
    Corner::count("conjunctions that name a group without steps", 550, |f| {
        f.groups.conjunction.keeps_gap.into()
    }),
    Corner::count("14 alone", 2_000, |f| f.step_has(GROUP).into()),
    Corner::count("14 behind the 1,025th step", 15, |f| f.step_has(SURPLUS | GROUP).into()),
    Corner::count("14 behind 10", 400, |f| f.step_has(ENDS | GROUP).into()),
    Corner::count("14 behind a falling from", 200, |f| f.step_has(FALLS | GROUP).into()),
    Corner::count("14 behind 11", 300, |f| f.step_has(DEAR | GROUP).into()),
    Corner::count("14 behind all others", 15, |f| {
        f.step_has(SURPLUS | ENDS | FALLS | DEAR | GROUP).into()
    }),
    Corner::count("14 for 1,024", 600, |f| f.step_is(14, |s| s.step.group == Some(1_024)).into()),
    Corner::count("14 for 65,535", 100, |f| {
        f.step_is(14, |s| s.step.group == Some(u16::MAX)).into()
    }),
    Corner::count("14 for one below the group before", 350, |f| {
        f.step_is(14, |s| s.step.group.map(|group| group.wrapping_add(1)) == s.group_before).into()
    }),
    Corner::count("14 for the first step", 400, |f| {
        f.step_is(14, |s| s.group_before.is_none()).into()
    }),
    Corner::count("steps with a group, cut", 500, |f| {
        f.step.is_some_and(|s| s.number == 1 && s.step.group.is_some()).into()
    }),
    Corner::count("steps with a group and the length 8", 80, |f| {
        f.step.is_some_and(|s| s.number == 3 && s.step.group.is_some() && s.claimed == 8).into()
    }),
    Corner::count("steps without one and the length 10", 120, |f| {
        f.step.is_some_and(|s| s.number == 3 && s.step.group.is_none() && s.claimed == 10).into()
    }),
    Corner::count("steps with a group behind others", 200, |f| {
        f.groups.is_other(|s| s.is_grouped && s.right_length && !s.cut).into()
    }),
    Corner::count("steps without one behind such with", 300, |f| {
        f.groups.is_other(|s| !s.is_grouped && s.right_length && !s.cut).into()
    }),
    Corner::count("the other kind with a wrong length", 500, |f| {
        f.groups.is_other(|s| !s.right_length).into()
    }),
    Corner::count("the other kind, cut", 200, |f| {
        f.groups.is_other(|s| s.right_length && s.cut).into()
    }),
    Corner::count("6 for a group above the highest by one", 200, |f| {
        f.node_is(6, |n| f.groups.groups > 0 && usize::from(n.node.step) == f.groups.groups).into()
    }),
];

/// Over all reductions of a case.
fn sum(figures: &Figures, of: fn(&Reducing) -> usize) -> usize {
    figures.reductions.iter().map(of).sum()
}
