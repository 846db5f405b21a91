//! Steps whose values are at fault: each fault, all of them together in every way, with a fault of the
//! field itself, and with other fields at fault behind them.

use std::ops::Range;

use super::broken::{spoiled_fields, Fields, Files};
use super::costs::DEAR;
use super::mutate::fields;
use super::{groups, Random};
use crate::files::{
    claiming, step_field, step_of, two_bytes, write_chart, write_diagram, Chart, Diagram, Step,
    HEADER, LONGEST_FILE, MAX_COST, MAX_STEPS, STEP, STEP_KINDS,
};

const WRONG_TAGS: [u8; 4] = [0x01, 0x03, 0x12, 0x7f];
const WRONG_LENGTHS: [u16; 6] = [0, 7, 9, 10, 256 + 8, u16::MAX];
/// The stage count of the systematic charts, and the step of which they have so many.
const STAGES: u16 = 5;
const BEFORE: Step = Step::new(2, 3, 5);

/// Charts with a last step of any values, the 1,024th and the 1,025th too; and such steps with faults
/// of their field, of what follows and of the diagram.
pub fn systematic() -> Vec<Files> {
    let froms = [0, 1, 2, 3, 4, 5, 256, 258, 65_535];
    let tos = [0, 1, 2, 3, 4, 5, 6, 259, 65_535];
    let costs = [&[5, MAX_COST], &DEAR[..]].concat();
    let all = each_step(&froms, &tos, &costs);
    let pairs = each_step(&[1, 2, 3], &[0, 1, 2, 3, 5, 65_535], &[5, MAX_COST, DEAR[0], u32::MAX]);
    let few = each_step(&[1, 2], &[1, 3, 5], &[5, DEAR[0]]);
    let mut charts = Vec::new();
    for count in [0, 1] {
        charts.extend(behind(count, &all, |step| vec![step]));
    }
    for count in [MAX_STEPS - 1, MAX_STEPS] {
        charts.extend(behind(count, &pairs, |step| vec![step]));
    }
    for (count, steps) in [(1, &pairs), (MAX_STEPS, &few)] {
        let spoiled = |step: Vec<u8>| spoiled_fields(&step, &WRONG_TAGS, &WRONG_LENGTHS);
        charts.extend(behind(count, steps, spoiled));
        charts.extend(behind(count, steps, followed));
    }
    let yes = with_root(1);
    let mut files: Vec<Files> = charts.into_iter().map(|chart| (chart, yes.clone())).collect();
    for rules in [with_root(9), Vec::new(), vec![0x12; LONGEST_FILE + 1]] {
        let charts = behind(1, &few, |step| vec![step]);
        files.extend(charts.into_iter().map(|chart| (chart, rules.clone())));
    }
    files
}

fn each_step(froms: &[u16], tos: &[u16], costs: &[u32]) -> Vec<Step> {
    let ends = froms.iter().flat_map(|from| tos.iter().map(move |to| (*from, *to)));
    ends.flat_map(|(from, to)| costs.iter().map(move |cost| Step::new(from, to, *cost))).collect()
}

/// Charts that have so many steps and then the bytes made of one step more.
fn behind(count: usize, steps: &[Step], made: impl Fn(Vec<u8>) -> Fields) -> Vec<Vec<u8>> {
    let front = Chart { stages: STAGES, start: 0, end: STAGES - 1, steps: vec![BEFORE; count] };
    let front = write_chart(&front);
    let ends = steps.iter().flat_map(|step| made(step_field(*step)));
    ends.map(|end| [&front[..], &end].concat()).collect()
}

/// A step with one more field behind it, sound or at fault.
fn followed(step: Vec<u8>) -> Fields {
    let bad = |from: u16, to: u16, cost: u32| step_field(Step::new(from, to, cost));
    let fields = [
        step_field(BEFORE),
        bad(4, 4, 5),
        bad(3, STAGES, 5),
        bad(0, 1, 5),
        bad(3, 4, MAX_COST + 1),
        vec![0x7f, 0, 0],
        vec![STEP.tag, 7, 0],
        without_last_byte(step_field(BEFORE)),
    ];
    fields.map(|field| [&step[..], &field].concat()).into()
}

pub(super) fn without_last_byte(mut field: Vec<u8>) -> Vec<u8> {
    field.pop();
    field
}

/// A diagram without nodes.
pub(super) fn with_root(root: u16) -> Vec<u8> {
    write_diagram(&Diagram { root, nodes: Vec::new() })
}

/// Spoils the values of one step of a chart file, in so many of a hundred cases of the 1,025th, and
/// its field too now and then; says whether there is a step.
pub fn spoil(random: &mut Random, chart: &mut Vec<u8>, surplus: usize) -> bool {
    let mut places = step_places(chart);
    let Some(last) = places.last().cloned() else { return false };
    let is_surplus = random.percent(surplus);
    if is_surplus {
        let wanted = random.pick(&[1_024, 1_025, 1_025, 1_025, 1_026]);
        let more = chart[last.clone()].repeat(wanted - places.len().min(wanted));
        chart.splice(last.start..last.start, more);
        places = step_places(chart);
    }
    let at = if is_surplus { places.len() - 1 } else { random.below(places.len()) };
    if !is_surplus || random.percent(85) {
        spoil_values(random, chart, &places, at);
    }
    if random.percent(if is_surplus { 30 } else { 12 }) {
        spoil_field(random, chart, places[at].clone());
    }
    true
}

/// The whole step fields behind the head, of either kind.
pub fn step_places(chart: &[u8]) -> Vec<Range<usize>> {
    let headers = STEP_KINDS.map(|kind| claiming(kind.tag, kind.length, &[]));
    let is_step = |place: &Range<usize>| {
        let field = &chart[place.clone()];
        headers.iter().any(|header| field.starts_with(header) && field.len() == whole(header))
    };
    let places = fields(chart).into_iter().skip(1).map(|(from, to)| from..to);
    places.filter(is_step).collect()
}

/// The bytes of a field by its header.
fn whole(header: &[u8]) -> usize {
    HEADER + usize::from(two_bytes(header, 1))
}

/// The values of these steps as the file has them.
pub fn file_steps(chart: &[u8]) -> Vec<Step> {
    step_places(chart).into_iter().map(|place| step_of(&chart[place][HEADER..])).collect()
}

/// Their costs.
pub fn file_costs(chart: &[u8]) -> Vec<u32> {
    file_steps(chart).iter().map(|step| step.cost).collect()
}

/// Gives a step that was sound one or several faults.
fn spoil_values(random: &mut Random, chart: &mut [u8], places: &[Range<usize>], at: usize) {
    let stages = two_bytes(chart, HEADER);
    let before = match at {
        0 => Step::new(0, 0, 0),
        _ => step_of(&chart[places[at - 1].clone()][HEADER..]),
    };
    let body = places[at].start + HEADER..places[at].end;
    let mut step = step_of(&chart[body.clone()]);
    // No from falls below 0, and not every step has a group.
    let possible = [before.from > 0, true, true, step.group.is_some()];
    let [falls, has_bad_ends, is_dear, has_bad_group] = loop {
        let which = random.between(1, 15);
        let mut faults = [0, 1, 2, 3].map(|bit| which >> bit & 1 == 1);
        faults.iter_mut().zip(possible).for_each(|(fault, possible)| *fault &= possible);
        if faults.contains(&true) {
            break faults;
        }
    };
    if falls {
        step.from = random.below(before.from.into()) as u16;
    }
    if has_bad_ends {
        step.to = bad_to(random, step, stages);
    }
    if is_dear {
        step.cost = random.pick(&DEAR);
    }
    if has_bad_group {
        step.group = Some(groups::bad(random, before.group.unwrap_or(0)));
    }
    chart[body].copy_from_slice(&step_field(step)[HEADER..]);
}

/// A stage that isn't above the step's from, or is none of the chart.
fn bad_to(random: &mut Random, step: Step, stages: u16) -> u16 {
    match random.below(8) {
        0 | 1 => step.from,
        2 => step.from.saturating_sub(1),
        3 => random.between(0, step.from.into()) as u16,
        4 | 5 => stages,
        6 => step.to.wrapping_add(256),
        _ => random.pick(&[stages.wrapping_add(1), 0x7fff, u16::MAX, u16::MAX]),
    }
}

/// A wrong length, a cut, or the other kind of step.
fn spoil_field(random: &mut Random, chart: &mut Vec<u8>, place: Range<usize>) {
    match random.below(5) {
        0 | 1 => chart.truncate(place.start + random.between(1, place.len() - 1)),
        2 => {
            let other = groups::other_kind(random, &chart[place.clone()]);
            chart.splice(place, other);
        }
        _ => {
            let length = random.pick(&WRONG_LENGTHS).to_le_bytes();
            chart[place.start + 1..place.start + HEADER].copy_from_slice(&length);
        }
    }
}
