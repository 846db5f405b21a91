//! Both files decoded once into arrays.

use super::{via_node, via_step, NODE_BITS, NONE};
use crate::planner::Answer;

const STEPS: usize = 1_024;
const NODES: usize = 512;
const STAGES: usize = 256;
const MAX_COST: u32 = 1_000_000;
/// Costs are rounded up to multiples of this.
const TICK: u32 = 50;

/// The most bytes of a file.
const LONGEST: usize = 32_768;

/// Bytes of each field, header and body: the chart's head and steps, the diagram's head and nodes.
const HEAD: usize = 9;
const STEP_FIELD: usize = 11;
const GROUPED_FIELD: usize = 13;
const RULES_HEAD: usize = 5;
const NODE_FIELD: usize = 9;

/// The stage that a step leaves takes sixteen bits; the one that it leads to stands above it.
const STAGE_BITS: u32 = 16;
/// The tag of a step with a group.
const GROUPED: u8 = 0x03;

/// The step of nodes 0 and 1: above every step, so that no walk goes past them.
const NO_STEP: u16 = (1 << 14) - 1;

/// One entry for each stage.
pub const BY_STAGE: usize = STAGES;
/// One entry for each node reference.
pub const BY_NODE: usize = NODES;

/// Whether a node with equal children, or alike to an earlier one, is refused with 13.
#[derive(Clone, Copy, PartialEq, Eq)]
pub enum Padding {
    Refused,
    Taken,
}

/// An inner node in one number: nine bits for each child, lo lowest, the step above them.
#[derive(Clone, Copy, Default, PartialEq, Eq)]
pub struct Inner(u32);

impl Inner {
    fn new(step: u16, lo: u16, hi: u16) -> Inner {
        Inner((u32::from(step) << NODE_BITS | u32::from(hi)) << NODE_BITS | u32::from(lo))
    }

    pub fn step(self) -> usize {
        (self.0 >> (2 * NODE_BITS)) as usize
    }

    pub fn lo(self) -> usize {
        via_node(self.0)
    }

    pub fn hi(self) -> usize {
        via_node(self.0 >> NODE_BITS)
    }

    /// The chain that it belongs to.
    fn chain(self) -> usize {
        (self.0.wrapping_mul(0x9e37_79b1) >> (u32::BITS - NODE_BITS)) as usize
    }
}

/// The nodes of a file in chains of the same hash, the last one at the head.
struct Chains {
    heads: [u16; NODES],
    /// By node reference: the one before it in its chain; 0 at the end.
    links: [u16; NODES],
}

impl Chains {
    fn new() -> Chains {
        Chains { heads: [0; NODES], links: [0; NODES] }
    }

    /// Whether one of the nodes is alike; else the new one, which has the reference `own`, is put in.
    fn has(&mut self, nodes: &[Inner; NODES], node: Inner, own: usize) -> bool {
        let head = &mut self.heads[node.chain()];
        let mut at = usize::from(*head);
        while at != 0 {
            if nodes[at] == node {
                return true;
            }
            at = usize::from(self.links[at]);
        }
        self.links[own] = *head;
        *head = own as u16;
        false
    }
}

/// Chart and diagram as tables.
pub struct Tables {
    pub stages: usize,
    pub start: usize,
    pub end: usize,
    steps: usize,
    /// Groups that nodes may name: all up to the highest.
    groups: usize,
    /// Whether the groups stand in the file; else each step is one alone.
    is_grouped: bool,
    /// By step: the stage that it leaves, and above it the one that it leads to.
    ends: [u32; STEPS],
    /// By step: its group. Where the file has none they are filled in for the searches alone.
    group: [u16; STEPS],
    pub cost: [u32; STEPS],
    /// By stage: its first leaving step; one entry more than there are stages.
    first: [u16; STAGES + 1],
    /// By stage: its first pair.
    rows: [u32; STAGES],
    /// N.
    pub references: usize,
    pub root: usize,
    pub nodes: [Inner; NODES],
}

impl Tables {
    pub fn new() -> Tables {
        Tables {
            stages: 0,
            start: 0,
            end: 0,
            steps: 0,
            groups: 0,
            is_grouped: false,
            ends: [0; STEPS],
            group: [0; STEPS],
            cost: [0; STEPS],
            first: [0; STAGES + 1],
            rows: [0; STAGES],
            references: 2,
            root: 0,
            nodes: [Inner::default(); NODES],
        }
    }

    /// Fills the chart's tables.
    pub fn read_chart(&mut self, file: &[u8]) -> Result<(), Answer> {
        let head: &[u8; 6] = first_body(file, 0x01, 1)?;
        self.stages = number(head[0], head[1]);
        self.start = number(head[2], head[3]);
        self.end = number(head[4], head[5]);
        let stages = self.stages;
        if stages == 0 || stages > STAGES || self.start >= stages || self.end >= stages {
            return Err(Answer::refused(4, 1, 0));
        }
        self.read_steps(&file[HEAD..])
            .map_err(|Fault { number, left }| Answer::refused(number, 1, file.len() - left))
    }

    /// Reads all steps; the first one tells of which kind all must be.
    fn read_steps(&mut self, fields: &[u8]) -> Result<(), Fault> {
        let fields = without_remarks(fields)?;
        self.is_grouped = fields.first() == Some(&GROUPED);
        match self.is_grouped {
            true => self.read_all_grouped(fields),
            false => self.read_all_alone(fields),
        }
    }

    /// Reads steps without groups.
    fn read_all_alone(&mut self, fields: &[u8]) -> Result<(), Fault> {
        let (mut steps, mut from) = (0, 0);
        each_field::<STEP_FIELD>(fields, |field| {
            (from, _) = self.read_step::<8>(field, 0x02, steps, (from, 0))?;
            steps += 1;
            Ok(())
        })?;
        (self.steps, self.groups) = (steps, steps);
        Ok(())
    }

    /// Reads steps with groups.
    fn read_all_grouped(&mut self, fields: &[u8]) -> Result<(), Fault> {
        let (mut steps, mut least) = (0, (0, 0));
        each_field::<GROUPED_FIELD>(fields, |field| {
            least = self.read_step::<10>(field, GROUPED, steps, least)?;
            steps += 1;
            Ok(())
        })?;
        self.steps = steps;
        self.groups = if steps == 0 { 0 } else { usize::from(least.1) + 1 };
        Ok(())
    }

    /// Reads a step whose from and group, where it has one, are not below those of the step before, and
    /// gives both.
    fn read_step<const LENGTH: usize>(
        &mut self,
        field: &[u8],
        tag: u8,
        at: usize,
        least: (u16, u16),
    ) -> Result<(u16, u16), u32> {
        let body: &[u8; LENGTH] = body(field, tag)?;
        let [f0, f1, t0, t1, c0, c1, c2, c3, rest @ ..] = &body[..] else { return Err(3) };
        let (from, to) = (u16::from_le_bytes([*f0, *f1]), u16::from_le_bytes([*t0, *t1]));
        let cost = u32::from_le_bytes([*c0, *c1, *c2, *c3]);
        if at >= STEPS {
            return Err(5);
        }
        if from >= to || usize::from(to) >= self.stages {
            return Err(10);
        }
        if from < least.0 {
            return Err(5);
        }
        if cost > MAX_COST {
            return Err(11);
        }
        let mut group = 0;
        if let [g0, g1] = rest {
            group = u16::from_le_bytes([*g0, *g1]);
            if usize::from(group) >= STEPS || group < least.1 {
                return Err(14);
            }
            self.group[at] = group;
        }
        self.ends[at] = u32::from(to) << STAGE_BITS | u32::from(from);
        self.cost[at] = cost.next_multiple_of(TICK);
        Ok((from, group))
    }

    /// First steps by stage, for the searches: steps stand in the order of their first stages.
    pub fn fill_first(&mut self) {
        for (at, ends) in self.ends[..self.steps].iter().enumerate() {
            self.first[from_of(*ends) + 1] = at as u16 + 1;
        }
        let mut most = 0;
        for first in &mut self.first[1..=self.stages] {
            most = most.max(*first);
            *first = most;
        }
    }

    /// Each step is a group alone where the file has no groups.
    pub fn fill_groups(&mut self) {
        if !self.is_grouped {
            self.group[..self.steps].iter_mut().zip(0..).for_each(|(group, at)| *group = at);
        }
    }

    /// Tables for another diagram over the same chart.
    pub fn with_chart_alone(&self) -> Tables {
        Tables { groups: self.groups, ..Tables::new() }
    }

    /// Makes the diagram one that always says yes.
    pub fn say_yes(&mut self) {
        self.root = 1;
        self.references = 2;
        self.nodes[..2].fill(Inner::new(NO_STEP, 0, 0));
    }

    /// Fills the diagram's tables from the file with a mark; the chart's are filled already.
    pub fn read_rules(&mut self, file: &[u8], mark: u32, padding: Padding) -> Result<(), Answer> {
        let head: &[u8; 2] = first_body(file, 0x11, mark)?;
        self.say_yes();
        self.root = number(head[0], head[1]);
        let mut chains = Chains::new();
        let mut own = 2;
        each_field::<NODE_FIELD>(&file[RULES_HEAD..], |field| {
            let node = self.read_node(field, own)?;
            if padding == Padding::Refused
                && (node.lo() == node.hi() || chains.has(&self.nodes, node, own))
            {
                return Err(13);
            }
            self.nodes[own] = node;
            own += 1;
            Ok(())
        })
        .map_err(|Fault { number, left }| Answer::refused(number, mark, file.len() - left))?;
        self.references = own;
        if self.root >= self.references {
            return Err(Answer::refused(6, mark, 0));
        }
        Ok(())
    }

    /// Reads a node within the limits, which is to have the reference `own`.
    fn read_node(&self, field: &[u8], own: usize) -> Result<Inner, u32> {
        let [s0, s1, l0, l1, h0, h1] = *body(field, 0x12)?;
        let step = u16::from_le_bytes([s0, s1]);
        let (lo, hi) = (u16::from_le_bytes([l0, l1]), u16::from_le_bytes([h0, h1]));
        if own >= NODES || usize::from(step) >= self.groups {
            return Err(6);
        }
        // 0 and 1 have NO_STEP, so one comparison serves them and the inner nodes.
        let tests_later = |child: usize| self.nodes[child].step() > usize::from(step);
        let fits = |child: u16| usize::from(child) < own && tests_later(usize::from(child));
        if !fits(lo) || !fits(hi) {
            return Err(6);
        }
        Ok(Inner::new(step, lo, hi))
    }

    /// Row starts by stage, so that no search multiplies.
    pub fn fill_rows(&mut self) {
        let mut start = 0;
        for row in &mut self.rows[..self.stages] {
            *row = start;
            start += self.references as u32;
        }
    }

    /// The first pair of a stage.
    pub fn row(&self, stage: usize) -> usize {
        self.rows[stage] as usize
    }

    /// The steps that leave a stage.
    pub fn leaving(&self, stage: usize) -> std::ops::Range<usize> {
        usize::from(self.first[stage])..usize::from(self.first[stage + 1])
    }

    /// The stage that a step leads to.
    pub fn to(&self, step: usize) -> usize {
        to_of(self.ends[step])
    }

    /// The group of a step.
    pub fn group(&self, step: usize) -> usize {
        self.group[step].into()
    }

    /// The pair from which a via leads on.
    pub fn pair_before(&self, via: u32) -> usize {
        self.row(from_of(self.ends[via_step(via)])) + via_node(via)
    }

    /// Whether a node finishes at 1.
    pub fn finishes(&self, mut node: usize) -> bool {
        while node > 1 {
            node = self.nodes[node].lo();
        }
        node == 1
    }

    /// Marks the nodes that finish at 1; handed in without marks. Children stand before their nodes.
    pub fn mark_finishing(&self, finishes: &mut [bool; BY_NODE]) {
        finishes[1] = true;
        for node in 2..self.references {
            finishes[node] = finishes[self.nodes[node].lo()];
        }
    }

    /// Fills in the chart estimates from the end stage back to the start; handed in without any.
    pub fn estimate_stages(&self, estimates: &mut [u32; BY_STAGE]) {
        estimates[self.end] = 0;
        for stage in (self.start..self.end).rev() {
            let leaving = self.leaving(stage);
            let steps = self.ends[leaving.clone()].iter().zip(&self.cost[leaving]);
            let costs = steps.map(|(ends, cost)| estimates[to_of(*ends)].saturating_add(*cost));
            estimates[stage] = costs.min().unwrap_or(NONE);
        }
    }

    /// Fills in the diagram estimates, children before their nodes; handed in without any.
    pub fn estimate_nodes(&self, estimates: &mut [u32; BY_NODE]) {
        let by_group;
        let costs = if self.is_grouped {
            by_group = self.group_costs();
            &by_group
        } else {
            &self.cost
        };
        estimates[1] = 0;
        for node in 2..self.references {
            let inner = self.nodes[node];
            let taken = estimates[inner.hi()].saturating_add(costs[inner.step()]);
            estimates[node] = estimates[inner.lo()].min(taken);
        }
    }

    /// By group: the least cost of its steps; none where it has no step.
    fn group_costs(&self) -> [u32; STEPS] {
        let mut costs = [NONE; STEPS];
        for (group, cost) in self.group[..self.steps].iter().zip(&self.cost) {
            let least = &mut costs[usize::from(*group)];
            *least = (*least).min(*cost);
        }
        costs
    }
}

fn from_of(ends: u32) -> usize {
    (ends & ((1 << STAGE_BITS) - 1)) as usize
}

fn to_of(ends: u32) -> usize {
    (ends >> STAGE_BITS) as usize
}

fn number(low: u8, high: u8) -> usize {
    usize::from(u16::from_le_bytes([low, high]))
}

/// The body of a file's first field; a file that is too long is refused before it.
fn first_body<const LENGTH: usize>(
    file: &[u8],
    tag: u8,
    mark: u32,
) -> Result<&[u8; LENGTH], Answer> {
    if file.len() > LONGEST {
        return Err(Answer::refused(9, mark, LONGEST));
    }
    if file.is_empty() {
        return Err(Answer::refused(2, mark, 0));
    }
    body(file, tag).map_err(|number| Answer::refused(number, mark, 0))
}

/// The number of a fault, and the bytes from its field to the file's end.
struct Fault {
    number: u32,
    left: usize,
}

/// Hands over the fields behind a head one by one, without the remarks between them. The last one
/// may be cut.
fn each_field<const FIELD: usize>(
    fields: &[u8],
    mut read: impl FnMut(&[u8]) -> Result<(), u32>,
) -> Result<(), Fault> {
    let mut rest = fields;
    while let Err((number, at)) = fields_in_a_row::<FIELD>(rest, &mut read) {
        rest = behind_remarks(&rest[at..], number)?;
    }
    Ok(())
}

/// The same up to the first field that is at fault: its number, and where it is.
fn fields_in_a_row<const FIELD: usize>(
    fields: &[u8],
    read: &mut impl FnMut(&[u8]) -> Result<(), u32>,
) -> Result<(), (u32, usize)> {
    let whole = fields.chunks_exact(FIELD);
    let cut = whole.remainder();
    for (at, field) in whole.enumerate() {
        read(field).map_err(|number| (number, FIELD * at))?;
    }
    if cut.is_empty() {
        return Ok(());
    }
    read(cut).map_err(|number| (number, fields.len() - cut.len()))
}

/// What follows the remarks at the front. Where none stands there the fault is the one found, where
/// one is cut it is 1.
fn behind_remarks(fields: &[u8], number: u32) -> Result<&[u8], Fault> {
    let rest = without_remarks(fields)?;
    if rest.len() == fields.len() {
        return Err(Fault { number, left: rest.len() });
    }
    Ok(rest)
}

/// What follows the remarks at the front, if any stand there.
fn without_remarks(fields: &[u8]) -> Result<&[u8], Fault> {
    let mut rest = fields;
    while let [0x80..=0xff, low, high, body @ ..] = rest {
        let length = usize::from(u16::from_le_bytes([*low, *high]));
        rest = body.get(length..).ok_or(Fault { number: 1, left: rest.len() })?;
    }
    Ok(rest)
}

/// The body of a field: header cut, tag, length, body cut. A right header is told by one comparison.
fn body<const LENGTH: usize>(field: &[u8], tag: u8) -> Result<&[u8; LENGTH], u32> {
    match field.split_first_chunk() {
        Some((header, rest)) if *header == [tag, LENGTH as u8, 0] => rest.first_chunk().ok_or(1),
        Some(([found, _, _], _)) if *found != tag => Err(2),
        Some(_) => Err(3),
        None => Err(1),
    }
}
