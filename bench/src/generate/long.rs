//! Files near the greatest length, at it and beyond it, filled up with remarks or with dross.

use super::broken::{chart_fields, diagram_fields, Fields, Files};
use super::mutate::fields;
use super::remarks::tag;
use super::Random;
use crate::files::{claiming, tagged, Problem, HEADER, LONGEST_FILE};

const LENGTHS: [usize; 10] = [
    LONGEST_FILE - 1,
    LONGEST_FILE,
    LONGEST_FILE,
    LONGEST_FILE,
    LONGEST_FILE + 1,
    LONGEST_FILE + 1,
    LONGEST_FILE + 1,
    LONGEST_FILE + 2,
    LONGEST_FILE + 1_000,
    2 * LONGEST_FILE,
];

/// A file that isn't longer yet, filled up behind one of its fields to such a length: mostly with
/// whole remarks.
pub fn near_longest(random: &mut Random, file: &[u8]) -> Vec<u8> {
    let room = random.pick(&LENGTHS).saturating_sub(file.len());
    let more = match random.below(8) {
        0 => vec![random.pick(&[0x00, 0x02, 0x80, 0xff]); room],
        _ => filler(random, room),
    };
    let places = fields(file);
    let at = if places.is_empty() { 0 } else { random.pick(&places).1 };
    [&file[..at], &more, &file[at..]].concat()
}

/// Remarks that take just so many bytes: one, or of some greatest length each. One or two bytes are
/// a cut one.
fn filler(random: &mut Random, room: usize) -> Vec<u8> {
    const WIDEST: usize = u16::MAX as usize - HEADER;
    let most = random.pick(&[0, 1, 40, 600, 9_000, WIDEST, WIDEST, WIDEST]);
    let mut bytes = Vec::new();
    while room - bytes.len() >= HEADER {
        let left = room - bytes.len() - HEADER;
        let length = if most < WIDEST { random.between(0, most.min(left)) } else { left.min(most) };
        // What is left then must be enough for a header.
        let spare = if left - length < HEADER { left - length } else { 0 };
        bytes.extend(tagged(tag(random), &vec![0x02; length + spare]));
    }
    bytes.resize(room, 0x80);
    bytes
}

/// A small valid problem's files, sound and spoiled, filled up to the greatest length, a byte less,
/// a byte more and far beyond it.
pub fn systematic(problem: &Problem) -> Vec<Files> {
    let (chart, rules) = (chart_fields(&problem.chart), diagram_fields(&problem.diagram));
    let (whole_chart, whole_rules) = (chart.concat(), rules.concat());
    let mut bad_chart = whole_chart.clone();
    bad_chart[HEADER] = 0;
    let mut files = Vec::new();
    for length in [LONGEST_FILE - 1, LONGEST_FILE, LONGEST_FILE + 1, 2 * LONGEST_FILE + 5] {
        let full = behind_head(&rules, length);
        let dross = vec![0x12; length];
        for chart in long_files(&chart, length) {
            files.push((chart, whole_rules.clone()));
        }
        for rules in long_files(&rules, length) {
            files.push((whole_chart.clone(), rules));
        }
        for chart in [behind_head(&chart, length), bad_chart.clone(), Vec::new(), dross.clone()] {
            files.push((chart.clone(), full.clone()));
            files.push((chart, dross.clone()));
        }
    }
    files
}

/// A file of just `length` bytes with one remark behind its head.
fn behind_head(fields: &Fields, length: usize) -> Vec<u8> {
    let (head, rest) = (&fields[0], fields[1..].concat());
    [&head[..], &padding(length - head.len() - rest.len()), &rest].concat()
}

/// Just so many bytes: one remark, with empty ones before it where a length of two bytes is not
/// enough.
fn padding(bytes: usize) -> Vec<u8> {
    let spare = bytes.saturating_sub(usize::from(u16::MAX)).div_ceil(HEADER);
    let body = bytes - HEADER * (spare + 1);
    [tagged(0x80, &[]).repeat(spare), tagged(0xff, &vec![0x02; body])].concat()
}

/// One file in every way of that length.
fn long_files(fields: &Fields, length: usize) -> Vec<Vec<u8>> {
    let whole = fields.concat();
    let last = &fields[fields.len() - 1];
    let room = length - whole.len();
    let dross = |byte: u8| [&whole[..], &vec![byte; room]].concat();
    let spoiled = |at: usize, byte: u8| {
        let mut file = behind_head(fields, length);
        file[at] = byte;
        file
    };
    // A header that claims a byte more than there is, from the head on or as the last field.
    let claims_more = |head: &[u8]| {
        let body = (length - head.len() - HEADER).min(usize::from(u16::MAX) - 1);
        [head, &claiming(0xff, body + 1, &vec![0; body])].concat()
    };
    let more = [&whole[..], &padding(room - last.len()), last].concat();
    vec![
        behind_head(fields, length),
        [&whole[..], &padding(room)].concat(),
        more,
        [&whole[..], &padding(room - 1), &[0x80]].concat(),
        [&whole[..], &padding(room - 2), &[0xff, 0xff]].concat(),
        [&whole[..], &padding(room - HEADER), &[0xff, 0, 0]].concat(),
        [&whole[..], &padding(room - HEADER), &[0x7f, 0, 0]].concat(),
        [&whole[..], &padding(room - HEADER), &[0x80, 1, 0]].concat(),
        claims_more(&fields[0]),
        claims_more(&whole),
        spoiled(0, 0x80),
        spoiled(1, 7),
        spoiled(HEADER, 0xff),
        spoiled(HEADER + 1, 0xff),
        spoiled(length - 1, 0xff),
        dross(0x00),
        dross(0x80),
        dross(0xff),
        vec![0x00; length],
        vec![0xff; length],
    ]
}
