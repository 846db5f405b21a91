//! The library's algorithms in safe Rust, over slices that the caller lends and that may hold
//! anything: the yardstick for its speed. Reads the files by itself.

mod conjoin;
mod cycles;
mod guided;
mod queue;
mod sweep;
mod tables;

pub use conjoin::{conjoin, reduce};
pub use cycles::cycles;
pub use guided::guided;
pub use sweep::sweep;

use crate::planner::{
    Answer, ConjoinSlices, CycleSlices, GuidedSlices, Planner, Space, SweepSlices,
};
use tables::{Padding, Tables, BY_NODE, BY_STAGE};

/// No cost, no estimate, never opened.
const NONE: u32 = u32::MAX;
/// The via of the pair of start and root.
const NO_VIA: u32 = u32::MAX;
/// A node reference takes nine bits; a step stands above it and takes ten.
const NODE_BITS: u32 = 9;
const STEP_BITS: u32 = 10;

/// How a pair was got: its own stage, and the step and the node from which that led there.
fn pack_via(stage: usize, step: usize, node: usize) -> u32 {
    ((stage as u32) << STEP_BITS | step as u32) << NODE_BITS | node as u32
}

fn via_stage(via: u32) -> usize {
    (via >> (STEP_BITS + NODE_BITS)) as usize
}

fn via_step(via: u32) -> usize {
    (via >> NODE_BITS & ((1 << STEP_BITS) - 1)) as usize
}

fn via_node(via: u32) -> usize {
    (via & ((1 << NODE_BITS) - 1)) as usize
}

/// Reads both files and tests the lengths of the lent slices; then both searches can begin.
fn prepare(
    tables: &mut Tables,
    chart: &[u8],
    rules: &[u8],
    shortest_work: usize,
    plan: usize,
) -> Result<(), Answer> {
    prepare_work(tables, chart, rules, shortest_work)?;
    match plan < tables.stages - 1 {
        true => Err(Answer::refused(7, 0, 0)),
        false => Ok(()),
    }
}

/// The same where no plan slice is lent.
fn prepare_work(
    tables: &mut Tables,
    chart: &[u8],
    rules: &[u8],
    shortest_work: usize,
) -> Result<(), Answer> {
    tables.read_chart(chart)?;
    tables.read_rules(rules, 2, Padding::Refused)?;
    if shortest_work < tables.stages * tables.references {
        return Err(Answer::refused(7, 0, 0));
    }
    tables.fill_first();
    tables.fill_groups();
    tables.fill_rows();
    Ok(())
}

/// Reads both files and tells what they need.
pub fn space_needed(chart: &[u8], rules: &[u8]) -> Space {
    let mut tables = Tables::new();
    let read =
        tables.read_chart(chart).and_then(|()| tables.read_rules(rules, 2, Padding::Refused));
    match read {
        Err(Answer { number, file, place, .. }) => Space { number, file, place, work: 0, plan: 0 },
        Ok(()) => Space {
            work: tables.stages * tables.references,
            plan: tables.stages - 1,
            ..Space::default()
        },
    }
}

/// Writes the plan that ends in a pair, back along `via` and then turned round; gives its length.
fn trace_back(tables: &Tables, via: &[u32], goal: usize, plan: &mut [u16]) -> usize {
    let mut length = 0;
    let mut pair = goal;
    while via[pair] != NO_VIA {
        plan[length] = via_step(via[pair]) as u16;
        length += 1;
        pair = tables.pair_before(via[pair]);
    }
    plan[..length].reverse();
    length
}

/// The bytes of the field at a place of the marked file, else an empty part of the chart.
pub fn refused_field<'a>(chart: &'a [u8], rules: &'a [u8], mark: u32, place: usize) -> &'a [u8] {
    let empty = &chart[..0];
    let file = match mark {
        1 => chart,
        2 => rules,
        _ => return empty,
    };
    match file.get(place..) {
        Some([_, low, high, body @ ..]) => {
            let length = usize::from(u16::from_le_bytes([*low, *high])).min(body.len());
            &file[place..place + 3 + length]
        }
        Some([]) | None => empty,
        Some(cut) => cut,
    }
}

/// These functions as one implementation of the planner.
pub struct Same;

impl Planner for Same {
    fn name(&self) -> &'static str {
        "same"
    }

    fn sweep(&self, chart: &[u8], rules: &[u8], lent: &mut SweepSlices) -> Answer {
        sweep(chart, rules, &mut lent.cost, &mut lent.via, &mut lent.nodes, &mut lent.plan)
    }

    fn guided(&self, chart: &[u8], rules: &[u8], lent: &mut GuidedSlices) -> Answer {
        let GuidedSlices { keys, via, heap, pos, stack, log, plan } = lent;
        guided(chart, rules, keys, via, heap, pos, stack, log, plan)
    }

    fn both(
        &self,
        chart: &[u8],
        rules: &[u8],
        sweep: &mut SweepSlices,
        guided: &mut GuidedSlices,
    ) -> Option<(Answer, Answer)> {
        Some((self.sweep(chart, rules, sweep), self.guided(chart, rules, guided)))
    }

    fn cycles(&self, chart: &[u8], rules: &[u8], lent: &mut CycleSlices) -> Option<Answer> {
        let CycleSlices { keys, via, heap, pos, stack, log, list } = lent;
        Some(cycles(chart, rules, keys, via, heap, pos, stack, log, list))
    }

    fn space_needed(&self, chart: &[u8], rules: &[u8]) -> Option<Space> {
        Some(space_needed(chart, rules))
    }

    fn refused_field(
        &self,
        chart: &[u8],
        rules: &[u8],
        file: u32,
        place: usize,
        field: &mut [u8],
    ) -> Option<usize> {
        let bytes = refused_field(chart, rules, file, place);
        let fits = bytes.len().min(field.len());
        field[..fits].copy_from_slice(&bytes[..fits]);
        Some(bytes.len())
    }

    fn conjoin(
        &self,
        chart: &[u8],
        rules: &[u8],
        more: &[u8],
        lent: &mut ConjoinSlices,
    ) -> Option<Answer> {
        Some(conjoin(chart, rules, more, &mut lent.work, &mut lent.file))
    }

    fn reduce(&self, chart: &[u8], rules: &[u8], file: &mut [u8]) -> Option<Answer> {
        Some(reduce(chart, rules, file))
    }
}
