//! Broken files: every cut, every limit, every order of faults, and random damage.

use super::charts::parallel;
use super::{costs, Random};
use crate::files::{
    chart_head_field, diagram_head_field, node_field, step_field, write_chart, write_diagram,
    Chart, Diagram, Node, Problem, Step, HEADER, MAX_NODES, MAX_STEPS, STEP_KINDS,
};

/// A chart file and a diagram file.
pub type Files = (Vec<u8>, Vec<u8>);

/// The fields of a file, one by one.
pub(super) type Fields = Vec<Vec<u8>>;

pub const TAGS: [u8; 15] =
    [0x00, 0x01, 0x02, 0x03, 0x10, 0x11, 0x12, 0x13, 0x21, 0x22, 0x7f, 0x80, 0x82, 0xfe, 0xff];

/// Every way of spoiling a small valid problem, and the problem itself.
pub fn systematic(problem: &Problem) -> Vec<Files> {
    let chart = chart_fields(&problem.chart);
    let rules = diagram_fields(&problem.diagram);
    let numbers = numbers_near_limits(problem);
    let mut charts = spoiled_files(&chart, &numbers, 0x01);
    let mut diagrams = spoiled_files(&rules, &numbers, 0x11);
    let (whole_chart, whole_rules) = (chart.concat(), rules.concat());
    let mut files = both_faulty(&charts, &diagrams);
    files.extend(charts.drain(..).map(|spoiled| (spoiled, whole_rules.clone())));
    files.extend(diagrams.drain(..).map(|spoiled| (whole_chart.clone(), spoiled)));
    files
}

pub(super) fn chart_fields(chart: &Chart) -> Fields {
    let head = std::iter::once(chart_head_field(chart));
    head.chain(chart.steps.iter().map(|step| step_field(*step))).collect()
}

pub(super) fn diagram_fields(diagram: &Diagram) -> Fields {
    let head = std::iter::once(diagram_head_field(diagram));
    head.chain(diagram.nodes.iter().map(|node| node_field(*node))).collect()
}

/// Some of the pairs in which both files are spoiled.
fn both_faulty(charts: &[Vec<u8>], diagrams: &[Vec<u8>]) -> Vec<Files> {
    let pairs = charts.iter().step_by(7).zip(diagrams.iter().step_by(5).cycle());
    pairs.map(|(chart, rules)| (chart.clone(), rules.clone())).collect()
}

/// One below, at and one above everything that a two-byte number is compared with.
fn numbers_near_limits(problem: &Problem) -> Vec<u16> {
    let mut limits = vec![1, 256, MAX_NODES + 1, MAX_STEPS];
    limits.push(usize::from(problem.chart.stages));
    limits.push(problem.chart.groups());
    limits.extend(problem.chart.steps.iter().filter_map(|step| step.group).map(usize::from));
    limits.extend(problem.chart.steps.iter().map(|step| usize::from(step.from)));
    limits.extend(problem.diagram.nodes.iter().map(|node| usize::from(node.step)));
    limits.extend(2..=problem.diagram.references());
    let around = limits.iter().flat_map(|limit| [limit.saturating_sub(1), *limit, limit + 1]);
    let mut numbers: Vec<u16> = around.map(|number| number as u16).collect();
    numbers.extend([0x0100, 0x7fff, 0x8000, 0xffff]);
    numbers.sort_unstable();
    numbers.dedup();
    numbers
}

/// One file spoiled in every way.
fn spoiled_files(fields: &Fields, numbers: &[u16], head_tag: u8) -> Vec<Vec<u8>> {
    let whole = fields.concat();
    let mut files: Vec<Vec<u8>> = (0..=whole.len()).map(|end| whole[..end].to_vec()).collect();
    for at in 0..fields.len() {
        let mut replace = |spoiled: Vec<u8>| {
            let mut changed = fields.clone();
            changed[at] = spoiled;
            files.push(changed.concat());
        };
        spoiled_tags(&fields[at]).into_iter().for_each(&mut replace);
        spoiled_lengths(&fields[at]).into_iter().for_each(&mut replace);
        spoiled_values(&fields[at], numbers).into_iter().for_each(&mut replace);
        files.extend(two_faults(&fields[..at], &fields[at], head_tag));
    }
    files.extend(moved_heads(fields));
    files.extend(trailing_bytes(&whole));
    files
}

fn with_bytes(field: &[u8], at: usize, bytes: &[u8]) -> Vec<u8> {
    let mut changed = field.to_vec();
    changed[at..at + bytes.len()].copy_from_slice(bytes);
    changed
}

fn spoiled_tags(field: &[u8]) -> Fields {
    TAGS.iter().map(|tag| with_bytes(field, 0, &[*tag])).collect()
}

fn spoiled_lengths(field: &[u8]) -> Fields {
    let length = (field.len() - HEADER) as u16;
    let mut lengths: Vec<u16> = vec![0, length - 1, length + 1, length << 8, u16::MAX, 255, 256];
    lengths.extend([2, 6, 8, 10]);
    lengths.iter().map(|length| with_bytes(field, 1, &length.to_le_bytes())).collect()
}

/// Each value of a field set to each number near a limit; a step's cost to those near its own.
fn spoiled_values(field: &[u8], numbers: &[u16]) -> Fields {
    let is_step = STEP_KINDS.iter().any(|kind| kind.tag == field[0]);
    let cost = if is_step { HEADER + 4..HEADER + 8 } else { 0..0 };
    let mut spoiled: Fields = (HEADER..field.len())
        .step_by(2)
        .filter(|at| !cost.contains(at))
        .flat_map(|at| numbers.iter().map(move |number| (at, *number)))
        .map(|(at, number)| with_bytes(field, at, &number.to_le_bytes()))
        .collect();
    if is_step {
        let costs = costs::SOUND.iter().chain(&costs::DEAR);
        spoiled.extend(costs.map(|cost| with_bytes(field, HEADER + 4, &cost.to_le_bytes())));
    }
    spoiled
}

/// A field with every combination of a wrong tag, a wrong length, bad values and a cut, as the last
/// of its file or with another faulty field behind it.
fn two_faults(before: &[Vec<u8>], field: &[u8], head_tag: u8) -> Vec<Vec<u8>> {
    let mut files = Vec::new();
    let length = (field.len() - HEADER) as u16;
    for tag in [field[0], head_tag, 0x7f] {
        for length in [length, length + 1, 0, u16::MAX] {
            for bad_values in [false, true] {
                let mut spoiled = with_bytes(field, 0, &[tag]);
                spoiled[1..HEADER].copy_from_slice(&length.to_le_bytes());
                if bad_values {
                    spoiled[HEADER..].fill(0xff);
                }
                for end in 1..=spoiled.len() {
                    files.push([&before.concat(), &spoiled[..end]].concat());
                }
                files.push([&before.concat(), &spoiled[..], &[0x7f, 0, 0]].concat());
            }
        }
    }
    files
}

/// A field with each of some tags, each of some lengths, and every cut.
pub(super) fn spoiled_fields(field: &[u8], tags: &[u8], lengths: &[u16]) -> Fields {
    let tags = tags.iter().map(|tag| with_bytes(field, 0, &[*tag]));
    let lengths = lengths.iter().map(|length| with_bytes(field, 1, &length.to_le_bytes()));
    let cuts = (1..field.len()).map(|end| field[..end].to_vec());
    tags.chain(lengths).chain(cuts).collect()
}

/// Heads missing, doubled, in the wrong place, and doubled with a wrong length.
fn moved_heads(fields: &Fields) -> Vec<Vec<u8>> {
    let head = &fields[0];
    let mut files = vec![fields[1..].concat(), [fields.concat(), head.clone()].concat()];
    for at in 1..=fields.len() {
        let (before, after) = fields.split_at(at);
        let mut wrong = head.clone();
        wrong[1] ^= 0x55;
        files.push([before.concat(), head.clone(), after.concat()].concat());
        files.push([before.concat(), wrong, after.concat()].concat());
        files.push([before[1..].concat(), head.clone(), after.concat()].concat());
        files.push([before.concat(), head[..2].to_vec()].concat());
    }
    files
}

fn trailing_bytes(whole: &[u8]) -> Vec<Vec<u8>> {
    let ends: [&[u8]; 12] = [
        &[0],
        &[0x02],
        &[0x12, 6],
        &[0xff, 0xff],
        &[0x02, 8, 0],
        &[0x12, 6, 0],
        &[0, 0, 0],
        &[0x80, 0, 0],
        &[0x02, 8, 0, 0],
        &[0x03],
        &[0x03, 10, 0],
        &[0x03, 10, 0, 0],
    ];
    ends.iter().map(|end| [whole, end].concat()).collect()
}

/// Files at and beyond the limits of stages, steps, nodes, root and length.
pub fn at_limits() -> Vec<Files> {
    let mut files = head_limits();
    files.extend(step_limits());
    files.extend(node_limits());
    files.extend(long_fields());
    files
}

/// Fields of the greatest length, whole and cut, at the front and behind a head. The whole ones make
/// their file too long.
fn long_fields() -> Vec<Files> {
    let chart = write_chart(&Chart { stages: 2, start: 0, end: 1, steps: Vec::new() });
    let rules = write_diagram(&Diagram::YES);
    let mut files = Vec::new();
    for body in [100, 32_000, 65_534, 65_535, 65_540] {
        for tag in [0x01, 0x02, 0x11, 0x12, 0x80] {
            let field = [&[tag, 0xff, 0xff][..], &vec![tag; body]].concat();
            files.push(([&chart[..], &field].concat(), rules.clone()));
            files.push((chart.clone(), [&rules[..], &field].concat()));
            files.push((field.clone(), rules.clone()));
            files.push((chart.clone(), field));
        }
    }
    files
}

fn head_limits() -> Vec<Files> {
    let yes = write_diagram(&Diagram::YES);
    let mut files = Vec::new();
    for stages in [0, 1, 2, 255, 256, 257, 512, 65_535] {
        for start in [0, 1, 254, 255, 256, 257, 65_535] {
            for end in [0, 1, 254, 255, 256, 257, 65_535] {
                let chart = Chart { stages, start, end, steps: Vec::new() };
                files.push((write_chart(&chart), yes.clone()));
            }
        }
    }
    files
}

/// What may stand at the end of a full file: a good field, and one with each kind of fault.
fn endings(good: &[u8], head_tag: u8) -> Fields {
    let bad_values = [&good[..HEADER], &vec![0xff; good.len() - HEADER]].concat();
    let mut endings = vec![Vec::new(), good.to_vec(), bad_values, [good, good].concat()];
    endings.extend([0x7f, head_tag].map(|tag| with_bytes(good, 0, &[tag])));
    endings.push(with_bytes(good, 1, &[7]));
    endings.extend([1, 2, 3, good.len() - 1].map(|end| good[..end].to_vec()));
    endings
}

fn step_limits() -> Vec<Files> {
    let yes = write_diagram(&Diagram::YES);
    let step = Step::new(0, 1, 5);
    let mut files = Vec::new();
    for count in [MAX_STEPS - 1, MAX_STEPS, MAX_STEPS + 1] {
        let chart = Chart { stages: 2, start: 0, end: 1, steps: vec![step; count] };
        let whole = write_chart(&chart);
        let last = endings(&step_field(step), 0x01);
        files.extend(last.into_iter().map(|end| ([&whole[..], &end].concat(), yes.clone())));
    }
    files
}

fn node_limits() -> Vec<Files> {
    let chart = write_chart(&parallel(MAX_STEPS));
    let mut files = Vec::new();
    for count in [0, 1, MAX_NODES - 1, MAX_NODES, MAX_NODES + 1] {
        for root in [0, 1, count, count + 1, count + 2, count + 3, 65_535] {
            let nodes = single_tests(count);
            let whole = write_diagram(&Diagram { root: root as u16, nodes });
            let last = endings(&node_field(Node { step: 1_000, lo: 1, hi: 0 }), 0x11);
            files.extend(last.into_iter().map(|end| (chart.clone(), [&whole[..], &end].concat())));
        }
    }
    files
}

/// So many nodes that each test a step of their own and nothing else.
pub(super) fn single_tests(count: usize) -> Vec<Node> {
    (0..count).map(|step| Node { step: step as u16, lo: 1, hi: 0 }).collect()
}

/// A few random edits of a file.
pub fn damaged(random: &mut Random, file: &[u8]) -> Vec<u8> {
    let mut bytes = file.to_vec();
    for _ in 0..random.between(1, 3) {
        if bytes.is_empty() {
            bytes.push(random.pick(&TAGS));
            continue;
        }
        let at = random.below(bytes.len());
        match random.below(7) {
            0 => bytes[at] = random.word() as u8,
            1 => bytes[at] ^= 1 << random.below(8),
            2 => bytes[at] = bytes[at].wrapping_add(random.pick(&[1, 0xff])),
            3 => {
                bytes.remove(at);
            }
            4 => bytes.insert(at, random.word() as u8),
            5 => bytes.truncate(at),
            _ => bytes.extend_from_within(at..),
        }
    }
    bytes
}

/// Random bytes, often beginning as a field does.
pub fn noise(random: &mut Random, length: usize) -> Vec<u8> {
    let mut bytes: Vec<u8> = (0..random.between(0, length)).map(|_| random.word() as u8).collect();
    let header = [random.pick(&TAGS), random.pick(&[0, 2, 6, 8, 10, 255]), random.pick(&[0, 0, 1])];
    if random.percent(80) {
        for (byte, wanted) in bytes.iter_mut().zip(header) {
            *byte = wanted;
        }
    }
    bytes
}
