//! Remarks: between the fields of a sound file, and everywhere that they may or may not stand.

use super::broken::{chart_fields, diagram_fields, single_tests, Fields, Files};
use super::charts::parallel;
use super::long::near_longest;
use super::mutate::fields;
use super::Random;
use crate::files::{
    claiming, node_field, step_field, tagged, Diagram, Node, Problem, Step, FIRST_REMARK, HEADER,
    LONGEST_FILE, MAX_NODES, MAX_STEPS,
};

/// The tag below those of the remarks.
pub const NO_REMARK: u8 = FIRST_REMARK - 1;

/// The tag of a remark: any, the first and the last ones more often.
pub fn tag(random: &mut Random) -> u8 {
    let any = random.between(FIRST_REMARK.into(), 0xff) as u8;
    random.pick(&[FIRST_REMARK, 0xff, any, any, any, any])
}

/// A remark; most of them are short.
fn remark(random: &mut Random) -> Vec<u8> {
    let length = match random.below(20) {
        0..=5 => 0,
        6..=8 => 1,
        9..=16 => random.between(2, 40),
        17 | 18 => random.between(250, 520),
        _ => random.between(521, 3_000),
    };
    let body = content(random, length);
    tagged(tag(random), &body)
}

/// What a remark says: one byte again and again, any bytes, or what looks like steps and nodes.
fn content(random: &mut Random, length: usize) -> Vec<u8> {
    let looks_like = match random.below(4) {
        0 => step_field(Step::new(0, 1, 5)),
        1 => node_field(Node { step: 0, lo: 0, hi: 1 }),
        2 => random.word().to_le_bytes().to_vec(),
        _ => vec![random.word() as u8],
    };
    looks_like.into_iter().cycle().take(length).collect()
}

/// A file with remarks behind some of its fields, one at least, as far as the greatest length allows.
pub fn with_remarks(random: &mut Random, file: &[u8]) -> Vec<u8> {
    let share = random.pick(&[5, 20, 50, 100]);
    let mut room = LONGEST_FILE.saturating_sub(file.len());
    let mut bytes = Vec::new();
    for (at, (from, to)) in fields(file).into_iter().enumerate() {
        bytes.extend(&file[from..to]);
        let count = random.pick(&[1, 1, 1, 2, 5]);
        let wanted = if at == 0 || random.percent(share) { count } else { 0 };
        for _ in 0..wanted {
            let more = remark(random);
            if more.len() <= room {
                room -= more.len();
                bytes.extend(more);
            }
        }
    }
    bytes
}

/// One change that has to do with remarks.
pub fn mutate(random: &mut Random, bytes: &mut Vec<u8>) {
    let places = fields(bytes);
    let (from, to) = random.pick(&places);
    match random.below(40) {
        0..=19 => put(bytes, to, remark(random)),
        20 | 21 => put(bytes, 0, remark(random)),
        22 | 23 => {
            let length = random.below(9);
            let body = content(random, length);
            put(bytes, to, tagged(NO_REMARK, &body));
        }
        24..=27 => bytes[from] |= FIRST_REMARK,
        28 | 29 => bytes[from] &= NO_REMARK,
        30..=33 => bytes.extend(cut_remark(random)),
        34 | 35 => put(bytes, to, claiming(tag(random), u16::MAX.into(), &[])),
        36..=38 => turn_to_remark(random, bytes, from, to),
        _ => *bytes = near_longest(random, bytes),
    }
}

fn put(bytes: &mut Vec<u8>, at: usize, more: Vec<u8>) {
    bytes.splice(at..at, more);
}

/// A remark that ends too soon: in its header or in its body.
fn cut_remark(random: &mut Random) -> Vec<u8> {
    let mut whole = remark(random);
    let kept = match random.below(3) {
        0 => random.between(1, HEADER - 1),
        1 => whole.len() - 1,
        _ => random.between(1, whole.len()),
    };
    whole.truncate(kept);
    whole
}

/// A remark whose length takes in what follows: up to a field's end, or a byte more or less.
fn turn_to_remark(random: &mut Random, bytes: &mut Vec<u8>, from: usize, to: usize) {
    let whole = (to - from).min(usize::from(u16::MAX) - 1);
    let length = random.pick(&[whole, whole, whole + 1, whole - 1]);
    put(bytes, from, claiming(tag(random), length, &[]));
}

/// Remarks of a file before a place, behind its first field, by the lengths that they claim.
pub fn count_before(file: &[u8], place: usize) -> usize {
    let behind_head = fields(file).into_iter().skip(1).map(|(from, _)| from);
    behind_head.take_while(|from| *from < place).filter(|from| file[*from] >= FIRST_REMARK).count()
}

/// Every kind of remark at every place of a small valid problem's files.
pub fn systematic(problem: &Problem) -> Vec<Files> {
    let chart = chart_fields(&problem.chart);
    let rules = diagram_fields(&problem.diagram);
    let (charts, diagrams) = (remarked_files(&chart), remarked_files(&rules));
    let (whole_chart, whole_rules) = (chart.concat(), rules.concat());
    let both = charts.iter().step_by(3).zip(diagrams.iter().step_by(2).cycle());
    let mut files: Vec<Files> = both.map(|(chart, rules)| (chart.clone(), rules.clone())).collect();
    files.extend(charts.into_iter().map(|chart| (chart, whole_rules.clone())));
    files.extend(diagrams.into_iter().map(|rules| (whole_chart.clone(), rules)));
    files
}

/// One file with remarks, and with what is nearly one, before, between and behind its fields.
fn remarked_files(fields: &Fields) -> Vec<Vec<u8>> {
    let mut files = Vec::new();
    for at in 0..=fields.len() {
        let (before, after) = (fields[..at].concat(), fields[at..].concat());
        let field = &fields[at.min(fields.len() - 1)];
        for remark in remarks_like(field) {
            files.push([&before[..], &remark, &after].concat());
        }
        for cut in cut_remarks() {
            files.push([before.clone(), cut].concat());
        }
    }
    for body in [0, 1, 40] {
        let remark = tagged(0xa5, &vec![0x02; body]);
        files.push(fields.iter().flat_map(|field| [&field[..], &remark].concat()).collect());
    }
    files
}

/// Remarks, and fields of the tag below theirs, beside a field; some are equal to it but for the
/// tag, have it as their body, or claim the bytes that follow.
fn remarks_like(field: &[u8]) -> Fields {
    let mut remarks = Vec::new();
    for tag in [NO_REMARK, FIRST_REMARK, FIRST_REMARK | field[0], 0xfe, 0xff] {
        let bodies: [&[u8]; 6] = [&[], &[0], &[0x80, 0], field, &field[HEADER..], &[0x81; 300]];
        remarks.extend(bodies.map(|body| tagged(tag, body)));
        let claimed = [field.len() - 1, field.len(), field.len() + 1, 1_000, u16::MAX.into()];
        remarks.extend(claimed.map(|length| claiming(tag, length, &[])));
    }
    remarks
}

/// Remarks that end in their header, or one byte too soon, or much too soon.
fn cut_remarks() -> Fields {
    let mut cut = vec![vec![0x80], vec![0xff], vec![0x80, 0], vec![0xff, 0xff]];
    for length in [1, 2, 11, 256, usize::from(u16::MAX)] {
        cut.extend([0x7f, 0x80, 0xff].map(|tag| claiming(tag, length, &vec![0; length - 1])));
    }
    cut
}

/// As many steps and nodes as there may be, one less and one more, each behind a remark; and as many
/// remarks as fit.
pub fn at_limits() -> Vec<Files> {
    let full = parallel(MAX_STEPS);
    let mut files = Vec::new();
    for less in [1, 0] {
        for more in endings(&step_field(full.steps[0])) {
            let chart = chart_fields(&parallel(MAX_STEPS - less));
            files.push(([behind_remarks(&chart), more].concat(), yes()));
        }
        for more in endings(&node_field(Node { step: 1_000, lo: 1, hi: 0 })) {
            let diagram = Diagram { root: 1, nodes: single_tests(MAX_NODES - less) };
            let rules = [behind_remarks(&diagram_fields(&diagram)), more].concat();
            files.push((chart_fields(&full).concat(), rules));
        }
    }
    files.extend(as_many_as_fit());
    files
}

fn yes() -> Vec<u8> {
    diagram_fields(&Diagram::YES).concat()
}

/// The fields with a remark before each but the head.
fn behind_remarks(fields: &Fields) -> Vec<u8> {
    fields.join(&tagged(0x82, &[])[..])
}

/// What may follow the last field: nothing, one field more and more, and each with a remark.
fn endings(field: &[u8]) -> Fields {
    let remark = tagged(0xff, &[1, 2]);
    let cut = &remark[..remark.len() - 1];
    let ends: [&[&[u8]]; 7] = [
        &[],
        &[field],
        &[field, field],
        &[&remark],
        &[&remark, field],
        &[&remark, cut],
        &[field, cut],
    ];
    ends.map(|end| end.concat()).into()
}

/// Heads with remarks without a body up to the greatest length, and a byte, two bytes or one such
/// remark more.
fn as_many_as_fit() -> Vec<Files> {
    let chart = chart_fields(&parallel(0)).concat();
    let crowded = |head: &[u8]| {
        let count = (LONGEST_FILE - head.len()) / HEADER;
        [head, &tagged(0x80, &[]).repeat(count)].concat()
    };
    let (many, rules) = (crowded(&chart), crowded(&yes()));
    let mut files = vec![(many.clone(), rules.clone())];
    for more in [&[0x80][..], &[0x80, 0], &[0x80, 0, 0]] {
        files.push(([&many[..], more].concat(), yes()));
        files.push((chart.clone(), [&rules[..], more].concat()));
    }
    files
}
