//! A plain baseline: textbook A* with the standard library's heap and hash maps, a sweep over hash maps,
//! Bryant's apply, by recursion over hash maps, and his reduction. It takes the same slices as the others
//! but uses only those that hold results.

use std::cmp::Reverse;
use std::collections::{BinaryHeap, HashMap, HashSet};

use crate::files::{
    read_both_by, read_padded, read_three_by, write_diagram, Chart, Diagram, Node, Operands,
    Problem, Refusal, MAX_NODES,
};
use crate::planner::{Answer, ConjoinSlices, CycleSlices, GuidedSlices, Planner, SweepSlices};

/// A stage and a node reference.
type State = (u16, u16);

/// How a state was got: its cost, and the state and step before it.
#[derive(Clone, Copy)]
struct Arrival {
    cost: u32,
    before: Option<(State, u16)>,
}

type Arrivals = HashMap<State, Arrival>;

/// These searches as one implementation of the planner.
pub struct Textbook;

impl Planner for Textbook {
    fn name(&self) -> &'static str {
        "textbook"
    }

    fn sweep(&self, chart: &[u8], rules: &[u8], lent: &mut SweepSlices) -> Answer {
        match prepare(chart, rules, &lent.work_lengths(), lent.plan.len()) {
            Ok(problem) => sweep(&problem, lent),
            Err(refusal) => refusal,
        }
    }

    fn guided(&self, chart: &[u8], rules: &[u8], lent: &mut GuidedSlices) -> Answer {
        match prepare(chart, rules, &lent.work_lengths(), lent.plan.len()) {
            Ok(problem) => guided(&problem, &mut lent.log, &mut lent.plan),
            Err(refusal) => refusal,
        }
    }

    fn cycles(&self, chart: &[u8], rules: &[u8], lent: &mut CycleSlices) -> Option<Answer> {
        Some(match prepare(chart, rules, &lent.work_lengths(), usize::MAX) {
            Ok(problem) => cycles(problem, lent),
            Err(refusal) => refusal,
        })
    }

    fn conjoin(
        &self,
        chart: &[u8],
        rules: &[u8],
        more: &[u8],
        lent: &mut ConjoinSlices,
    ) -> Option<Answer> {
        Some(match read_three_by(chart, rules, more, hashed) {
            Ok(operands) => conjoin(&operands, lent),
            Err(fault) => refused(fault),
        })
    }

    fn reduce(&self, chart: &[u8], rules: &[u8], file: &mut [u8]) -> Option<Answer> {
        Some(match read_padded(chart, rules) {
            Ok(problem) => write(&reduced(&problem.diagram), file),
            Err(fault) => refused(fault),
        })
    }
}

/// Whether a node of a file is padding, by a set of those before it.
fn hashed() -> impl FnMut(&[Node], Node) -> bool {
    let mut known = HashSet::new();
    move |_, node| node.lo == node.hi || !known.insert(node)
}

fn refused(fault: Refusal) -> Answer {
    Answer::refused(fault.number, fault.file, fault.place)
}

fn prepare(chart: &[u8], rules: &[u8], work: &[usize], plan: usize) -> Result<Problem, Answer> {
    let problem = read_both_by(chart, rules, hashed()).map_err(refused)?;
    let enough = work.iter().all(|length| *length >= problem.pairs());
    if !enough || plan < problem.longest_plan() {
        return Err(Answer::refused(7, 0, 0));
    }
    Ok(problem)
}

/// Dynamic programming over the stages in order.
fn sweep(problem: &Problem, lent: &mut SweepSlices) -> Answer {
    let Problem { chart, diagram } = problem;
    let mut arrivals = Arrivals::new();
    let mut rows: Vec<Vec<u16>> = vec![Vec::new(); usize::from(chart.stages)];
    if diagram.root != 0 {
        arrivals.insert((chart.start, diagram.root), Arrival { cost: 0, before: None });
        rows[usize::from(chart.start)].push(diagram.root);
    }
    for stage in 0..chart.stages {
        for node in std::mem::take(&mut rows[usize::from(stage)]) {
            let cost = arrivals[&(stage, node)].cost;
            for (next, step, step_cost) in successors(chart, diagram, (stage, node)) {
                let found = cost + step_cost;
                let known = arrivals.get(&next).map(|arrival| arrival.cost);
                if known.is_some_and(|known| known <= found) {
                    continue;
                }
                arrivals.insert(next, Arrival { cost: found, before: Some(((stage, node), step)) });
                if known.is_none() {
                    rows[usize::from(next.0)].push(next.1);
                }
            }
        }
    }
    lent.cost[..problem.pairs()].fill(u32::MAX);
    for (state, arrival) in &arrivals {
        lent.cost[pair(diagram, *state)] = arrival.cost;
    }
    let goals = arrivals.iter().filter(|(state, _)| is_goal(problem, **state));
    match goals.min_by_key(|(_, arrival)| arrival.cost) {
        None => Answer::no_plan(arrivals.len()),
        Some((goal, arrival)) => {
            let length = write_plan(&arrivals, *goal, &mut lent.plan);
            Answer::accepted(arrival.cost, length, arrivals.len())
        }
    }
}

/// A guided search on the chart with each start and end in its head.
fn cycles(mut problem: Problem, lent: &mut CycleSlices) -> Answer {
    let stages = problem.chart.stages;
    let mut plan = vec![0; problem.longest_plan()];
    for record in lent.list.iter_mut() {
        let answer = if record.start.max(record.end) < stages {
            (problem.chart.start, problem.chart.end) = record.ends();
            guided(&problem, &mut lent.log, &mut plan)
        } else {
            Answer::refused(4, 0, 0)
        };
        *record = record.answered(answer);
    }
    Answer::default()
}

/// A* with stale entries left in the heap.
fn guided(problem: &Problem, log: &mut [u32], plan: &mut [u16]) -> Answer {
    let Problem { chart, diagram } = problem;
    let by_stage = stage_estimates(chart);
    let by_node = node_estimates(chart, diagram);
    let estimate = |(stage, node): State| -> Option<u32> {
        Some(by_stage[usize::from(stage)]?.max(by_node[usize::from(node)]?))
    };
    let start = (chart.start, diagram.root);
    let mut arrivals = Arrivals::new();
    let mut closed = HashSet::new();
    let mut open = BinaryHeap::new();
    if let Some(rest) = estimate(start) {
        arrivals.insert(start, Arrival { cost: 0, before: None });
        open.push(Reverse((rest, start)));
    }
    while let Some(Reverse((_, state))) = open.pop() {
        if !closed.insert(state) {
            continue;
        }
        log[closed.len() - 1] = pair(diagram, state) as u32;
        let cost = arrivals[&state].cost;
        if is_goal(problem, state) {
            let length = write_plan(&arrivals, state, plan);
            return Answer::accepted(cost, length, closed.len());
        }
        for (next, step, step_cost) in successors(chart, diagram, state) {
            let Some(rest) = estimate(next) else { continue };
            let found = cost + step_cost;
            if arrivals.get(&next).is_none_or(|known| found < known.cost) {
                arrivals.insert(next, Arrival { cost: found, before: Some((state, step)) });
                open.push(Reverse((found + rest, next)));
            }
        }
    }
    Answer::no_plan(closed.len())
}

/// The states that follow by one step, with the step and its cost.
fn successors<'a>(
    chart: &'a Chart,
    diagram: &'a Diagram,
    (stage, node): State,
) -> impl Iterator<Item = (State, u16, u32)> + 'a {
    let first = chart.steps.partition_point(|step| step.from < stage);
    let leaving = chart.steps[first..].iter().take_while(move |step| step.from == stage);
    leaving.enumerate().filter_map(move |(at, step)| {
        let number = (first + at) as u16;
        let next = follow(diagram, node, step.group.unwrap_or(number));
        (next != 0).then_some(((step.to, next), number, step.cost))
    })
}

/// The node after a step of a group is taken and none of those before it is, but for its own.
fn follow(diagram: &Diagram, mut reference: u16, group: u16) -> u16 {
    while let Some(node) = diagram.inner(reference) {
        match node.step.cmp(&group) {
            std::cmp::Ordering::Less => reference = node.lo,
            std::cmp::Ordering::Equal => return node.hi,
            std::cmp::Ordering::Greater => break,
        }
    }
    reference
}

fn is_goal(problem: &Problem, (stage, mut reference): State) -> bool {
    while let Some(node) = problem.diagram.inner(reference) {
        reference = node.lo;
    }
    stage == problem.chart.end && reference == 1
}

fn pair(diagram: &Diagram, (stage, node): State) -> usize {
    usize::from(stage) * diagram.references() + usize::from(node)
}

fn stage_estimates(chart: &Chart) -> Vec<Option<u32>> {
    let mut estimates = vec![None; usize::from(chart.stages)];
    estimates[usize::from(chart.end)] = Some(0);
    for step in chart.steps.iter().rev() {
        let through = estimates[usize::from(step.to)].map(|rest: u32| rest + step.cost);
        let known = estimates[usize::from(step.from)];
        estimates[usize::from(step.from)] = [known, through].into_iter().flatten().min();
    }
    estimates
}

fn node_estimates(chart: &Chart, diagram: &Diagram) -> Vec<Option<u32>> {
    let costs = chart.group_costs();
    let mut estimates = vec![None, Some(0)];
    for node in &diagram.nodes {
        let taken = costs[usize::from(node.step)].and_then(|cost| {
            let rest: u32 = estimates[usize::from(node.hi)]?;
            Some(rest + cost)
        });
        let not_taken = estimates[usize::from(node.lo)];
        estimates.push([not_taken, taken].into_iter().flatten().min());
    }
    estimates
}

/// Writes the steps that lead to a state and gives their number.
fn write_plan(arrivals: &Arrivals, goal: State, plan: &mut [u16]) -> usize {
    let mut steps = Vec::new();
    let mut state = goal;
    while let Some((before, step)) = arrivals[&state].before {
        steps.push(step);
        state = before;
    }
    for (entry, step) in plan.iter_mut().zip(steps.iter().rev()) {
        *entry = *step;
    }
    steps.len()
}

/// Reduced while it is built, and then written.
fn conjoin(operands: &Operands, lent: &mut ConjoinSlices) -> Answer {
    if lent.work.len() < operands.pairs() {
        return Answer::refused(7, 0, 0);
    }
    let mut apply =
        Apply { operands, of_pair: HashMap::new(), of_node: HashMap::new(), nodes: Vec::new() };
    let Some(root) = apply.both(operands.first.root, operands.second.root) else {
        return Answer::refused(12, 0, 0);
    };
    write(&Diagram { root, nodes: apply.nodes }, &mut lent.file)
}

/// Writes a diagram to the front of a buffer, where it fits.
fn write(diagram: &Diagram, file: &mut [u8]) -> Answer {
    let bytes = write_diagram(diagram);
    match file.get_mut(..bytes.len()) {
        None => Answer::refused(7, 0, 0),
        Some(file) => {
            file.copy_from_slice(&bytes);
            Answer::accepted(0, bytes.len(), 0)
        }
    }
}

/// Bryant's reduction: nodes that mean the same have one label, children before their nodes; then what
/// the root leads to is copied.
fn reduced(diagram: &Diagram) -> Diagram {
    let mut labels = vec![0, 1];
    let mut of_node: HashMap<Node, u16> = HashMap::new();
    for (node, reference) in diagram.nodes.iter().zip(2..) {
        let (lo, hi) = (labels[usize::from(node.lo)], labels[usize::from(node.hi)]);
        let label = match lo == hi {
            true => lo,
            false => *of_node.entry(Node { step: node.step, lo, hi }).or_insert(reference),
        };
        labels.push(label);
    }
    let of_label = of_node.into_iter().map(|(node, label)| (label, node)).collect();
    let mut walk = Walk { of_label, numbers: HashMap::new(), nodes: Vec::new() };
    let root = walk.leave(labels[usize::from(diagram.root)]);
    Diagram { root, nodes: walk.nodes }
}

/// The nodes that a walk has left, and the numbers of their labels.
struct Walk {
    of_label: HashMap<u16, Node>,
    numbers: HashMap<u16, u16>,
    nodes: Vec<Node>,
}

impl Walk {
    /// The number of a label, once all below it have theirs.
    fn leave(&mut self, label: u16) -> u16 {
        let Some(Node { step, lo, hi }) = self.of_label.get(&label).copied() else { return label };
        if let Some(known) = self.numbers.get(&label) {
            return *known;
        }
        let (lo, hi) = (self.leave(lo), self.leave(hi));
        self.nodes.push(Node { step, lo, hi });
        let number = self.nodes.len() as u16 + 1;
        self.numbers.insert(label, number);
        number
    }
}

struct Apply<'a> {
    operands: &'a Operands,
    of_pair: HashMap<(u16, u16), u16>,
    of_node: HashMap<Node, u16>,
    nodes: Vec<Node>,
}

impl Apply<'_> {
    /// The reference for two at once; none where there are too many nodes.
    fn both(&mut self, a: u16, b: u16) -> Option<u16> {
        if a == 0 || b == 0 {
            return Some(0);
        }
        if let Some(known) = self.of_pair.get(&(a, b)) {
            return Some(*known);
        }
        let Operands { first, second, .. } = self.operands;
        let (first, second) = (first.inner(a), second.inner(b));
        let Some(step) = first.iter().chain(&second).map(|node| node.step).min() else {
            return Some(1);
        };
        let children = |node: Option<Node>, own: u16| {
            node.filter(|node| node.step == step).map_or((own, own), |node| (node.lo, node.hi))
        };
        let (first, second) = (children(first, a), children(second, b));
        let lo = self.both(first.0, second.0)?;
        let hi = self.both(first.1, second.1)?;
        let reference = self.node(Node { step, lo, hi })?;
        self.of_pair.insert((a, b), reference);
        Some(reference)
    }

    fn node(&mut self, node: Node) -> Option<u16> {
        if node.lo == node.hi {
            return Some(node.lo);
        }
        if let Some(known) = self.of_node.get(&node) {
            return Some(*known);
        }
        if self.nodes.len() == MAX_NODES {
            return None;
        }
        self.nodes.push(node);
        let reference = self.nodes.len() as u16 + 1;
        self.of_node.insert(node, reference);
        Some(reference)
    }
}
