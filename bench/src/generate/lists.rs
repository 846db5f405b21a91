//! Lists of starts and ends over one chart. Number, cost and count of a record hold anything before the call.

use super::Random;
use crate::planner::Cycle;

/// A list of up to so many records over a chart with that many stages and that start and end of its own.
pub fn drawn(random: &mut Random, stages: u16, own: (u16, u16), most: usize) -> Vec<Cycle> {
    let mut list = Vec::new();
    for _ in 0..length(random).min(most) {
        let (start, end) = ends(random, stages, own, &list);
        list.push(dirty(random, start, end));
    }
    list
}

/// None, one, two, several, forty, more than forty, more than a byte counts.
fn length(random: &mut Random) -> usize {
    match random.below(200) {
        0..=9 => 0,
        10..=49 => 1,
        50..=89 => 2,
        90..=177 => random.between(3, 9),
        178..=191 => 40,
        192..=197 => random.between(41, 70),
        _ => random.between(256, 300),
    }
}

fn ends(random: &mut Random, stages: u16, own: (u16, u16), before: &[Cycle]) -> (u16, u16) {
    let a = inside(random, stages);
    let b = inside(random, stages);
    match random.below(100) {
        0..=44 => (a.min(b), a.max(b)),
        45..=54 => (a, b),
        55..=61 => (a.max(b), a.min(b)),
        62..=69 => (a, a),
        70..=75 => own,
        76..=84 => before.get(random.below(before.len().max(1))).map_or(own, Cycle::ends),
        85..=90 => (outside(random, stages), b),
        91..=96 => (a, outside(random, stages)),
        _ => (outside(random, stages), outside(random, stages)),
    }
}

fn inside(random: &mut Random, stages: u16) -> u16 {
    random.below(usize::from(stages)) as u16
}

/// The stage count, one behind it, one whose low byte is a stage, the largest number, any other.
fn outside(random: &mut Random, stages: u16) -> u16 {
    let least = usize::from(stages);
    match random.below(6) {
        0 | 1 => stages,
        2 => stages + random.between(1, 9) as u16,
        3 => 256 * random.between(1, 255) as u16 + inside(random, stages),
        4 => u16::MAX,
        _ => random.between(least, usize::from(u16::MAX)) as u16,
    }
}

/// A record that holds anything where its answer is to stand.
pub fn dirty(random: &mut Random, start: u16, end: u16) -> Cycle {
    let number = random.pick(&[0, 4, 7, 8, random.clone().word() as u32, u32::MAX]);
    let cost = random.pick(&[0, 50, 200, random.clone().word() as u32, u32::MAX]);
    let count = random.pick(&[0, 1, 4, random.clone().word() as usize, usize::MAX]);
    Cycle { start, end, number, cost, count }
}
