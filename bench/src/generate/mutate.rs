//! Sound files spoiled at any place: bits and bytes, cuts, lengths, tags, numbers near limits, and
//! whole fields doubled, exchanged, moved, left out or taken from another file, remarks, steps with
//! faults in their values or of other groups, and nodes that become padding.

use super::broken::TAGS;
use super::{costs, groups, nodes, remarks, steps, Random};
use crate::files::{two_bytes, HEADER};

/// Numbers that limits speak of, and their neighbours.
const NUMBERS: [u16; 20] = [
    0, 1, 2, 3, 4, 6, 8, 9, 254, 255, 256, 257, 509, 511, 512, 1_023, 1_024, 0x4240, 0x7fff, 0xffff,
];
const LENGTHS: [u16; 10] = [0, 1, 2, 5, 6, 7, 8, 10, 256 + 8, 0xffff];

/// A file with one to four mutations; `other` is a file to take fields from.
pub fn mutated(random: &mut Random, file: &[u8], other: &[u8]) -> Vec<u8> {
    let mut bytes = file.to_vec();
    let count = random.pick(&[1, 1, 1, 2, 2, 3, 4]);
    for _ in 0..count {
        mutate(random, &mut bytes, other);
    }
    bytes
}

fn mutate(random: &mut Random, bytes: &mut Vec<u8>, other: &[u8]) {
    if bytes.is_empty() {
        bytes.extend(&other[..random.between(0, other.len())]);
        return;
    }
    match random.below(16) {
        0 | 1 => flip(random, bytes),
        2 => cut(random, bytes),
        3..=5 => change_number(random, bytes),
        6 => change_header(random, bytes),
        7 => lengthen(random, bytes),
        8 | 9 => remarks::mutate(random, bytes),
        10 if steps::spoil(random, bytes, 3) => {}
        11 if nodes::spoil(random, bytes) => {}
        12 if groups::mutate(random, bytes) => {}
        _ => move_fields(random, bytes, other),
    }
}

/// One bit, one byte, or one byte by one.
fn flip(random: &mut Random, bytes: &mut [u8]) {
    let at = random.below(bytes.len());
    match random.below(3) {
        0 => bytes[at] ^= 1 << random.below(8),
        1 => bytes[at] = random.word() as u8,
        _ => bytes[at] = bytes[at].wrapping_add(random.pick(&[1, 0xff])),
    }
}

/// Anywhere, or within a few bytes of the end.
fn cut(random: &mut Random, bytes: &mut Vec<u8>) {
    let kept = match random.below(2) {
        0 => random.below(bytes.len()),
        _ => bytes.len() - random.between(1, bytes.len().min(12)),
    };
    bytes.truncate(kept);
}

/// A two-byte number or a cost within a field's body.
fn change_number(random: &mut Random, bytes: &mut [u8]) {
    let places = fields(bytes);
    let place = random.pick(&places);
    let body = &mut bytes[place.0..place.1];
    if body.len() < HEADER + 2 {
        return;
    }
    let at = HEADER + 2 * random.below((body.len() - HEADER) / 2);
    if at == HEADER + 4 && matches!(body.len() - HEADER, 8 | 10) {
        let costs = random.pick(&[&costs::SOUND[..], &costs::DEAR]);
        body[at..at + 4].copy_from_slice(&random.pick(costs).to_le_bytes());
        return;
    }
    let known = two_bytes(body, at);
    let number = match random.below(4) {
        0 => random.pick(&NUMBERS),
        1 => known.wrapping_add(1),
        2 => known.wrapping_sub(1),
        _ => known ^ (1 << random.below(11)),
    };
    body[at..at + 2].copy_from_slice(&number.to_le_bytes());
}

/// A field's tag or length.
fn change_header(random: &mut Random, bytes: &mut [u8]) {
    let places = fields(bytes);
    let (place, end) = random.pick(&places);
    if random.percent(40) || end - place < HEADER {
        bytes[place] = random.pick(&TAGS);
        return;
    }
    let known = two_bytes(bytes, place + 1);
    let length = match random.below(3) {
        0 => known.wrapping_add(1),
        1 => known.wrapping_sub(1),
        _ => random.pick(&LENGTHS),
    };
    bytes[place + 1..place + HEADER].copy_from_slice(&length.to_le_bytes());
}

/// Bytes put in anywhere, or behind the end.
fn lengthen(random: &mut Random, bytes: &mut Vec<u8>) {
    let inside = random.below(bytes.len());
    let at = random.pick(&[inside, bytes.len()]);
    let more: Vec<u8> = (0..random.between(1, 4)).map(|_| random.word() as u8).collect();
    bytes.splice(at..at, more);
}

/// Whole fields doubled, exchanged, left out, or spliced in from another file.
fn move_fields(random: &mut Random, bytes: &mut Vec<u8>, other: &[u8]) {
    let places = fields(bytes);
    let (first, end) = random.pick(&places);
    let (second, second_end) = random.pick(&places);
    let field = bytes[first..end].to_vec();
    match random.below(5) {
        0 => drop(bytes.splice(second..second, field)),
        1 => drop(bytes.splice(second_end..second_end, field)),
        2 => drop(bytes.drain(first..end)),
        3 if first < second => {
            let later = bytes.splice(second..second_end, field).collect::<Vec<_>>();
            bytes.splice(first..end, later);
        }
        _ if !other.is_empty() => {
            let places = fields(other);
            let (from, to) = random.pick(&places);
            let replaced = if random.percent(50) { first..end } else { first..first };
            bytes.splice(replaced, other[from..to].iter().copied());
        }
        _ => drop(bytes.splice(first..first, field)),
    }
}

/// First and past-the-last byte of every field, by the lengths that they claim, cut at the end. There
/// is one at least where the file isn't empty.
pub fn fields(bytes: &[u8]) -> Vec<(usize, usize)> {
    let mut places = Vec::new();
    let mut at = 0;
    while at < bytes.len() {
        let whole = match bytes[at..] {
            [_, low, high, ..] => HEADER + usize::from(u16::from_le_bytes([low, high])),
            _ => HEADER,
        };
        let end = bytes.len().min(at + whole);
        places.push((at, end));
        at = end;
    }
    places
}
