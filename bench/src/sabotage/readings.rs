//! Wrong readings of remarks and of files that are too long. Most of them change the files before a
//! sound planner has them, so that it answers as one would that reads them wrongly.

use std::collections::HashSet;

use super::{new, Sabotage, Spoil};
use crate::files::{
    node_field, read_chart, read_diagram, step_field, two_bytes, Node, Step, FIRST_REMARK, HEADER,
    LONGEST_FILE, MAX_COST, MAX_NODES, MAX_STEPS,
};
use crate::generate::mutate::fields;

pub(super) static READINGS: [Sabotage; 37] = [
    new("chart-remark-takes-number", Spoil::Chart(take_step_numbers)),
    new("rules-remark-takes-number", Spoil::Rules(take_node_numbers)),
    new("chart-remark-counts-to-1024", Spoil::Chart(count_as_steps)),
    new("rules-remark-counts-to-510", Spoil::Rules(count_as_nodes)),
    new("chart-remark-not-in-places", Spoil::Chart(leave_out)),
    new("rules-remark-not-in-places", Spoil::Rules(leave_out)),
    new("chart-remark-before-head", Spoil::Chart(leave_out_first)),
    new("rules-remark-before-head", Spoil::Rules(leave_out_first)),
    new("chart-tag-7f-passed-over", Spoil::Chart(|file| retag(file, 0x7f, 0x80))),
    new("rules-tag-7f-passed-over", Spoil::Rules(|file| retag(file, 0x7f, 0x80))),
    new("chart-tag-80-refused", Spoil::Chart(|file| retag(file, 0x80, 0x7f))),
    new("rules-tag-80-refused", Spoil::Rules(|file| retag(file, 0x80, 0x7f))),
    new("chart-tag-ff-refused", Spoil::Chart(|file| retag(file, 0xff, 0x7f))),
    new("rules-tag-ff-refused", Spoil::Rules(|file| retag(file, 0xff, 0x7f))),
    new("chart-cut-body-passed-over", Spoil::Chart(leave_out_cut_body)),
    new("rules-cut-body-passed-over", Spoil::Rules(leave_out_cut_body)),
    new("chart-cut-header-passed-over", Spoil::Chart(leave_out_cut_header)),
    new("rules-cut-header-passed-over", Spoil::Rules(leave_out_cut_header)),
    new("chart-empty-remark-at-end-cut", Spoil::Chart(cut_empty_last)),
    new("rules-empty-remark-at-end-cut", Spoil::Rules(cut_empty_last)),
    new("chart-remark-length-of-a-byte", Spoil::Chart(|file| keep_low_bytes(file))),
    new("rules-remark-length-of-a-byte", Spoil::Rules(|file| keep_low_bytes(file))),
    new("chart-9-at-32768", Spoil::Chart(lengthen_longest)),
    new("rules-9-at-32768", Spoil::Rules(lengthen_longest)),
    new("chart-9-not-at-32769", Spoil::Files(|chart, _| shorten_too_long(chart))),
    new("rules-9-not-at-32769", Spoil::Files(|_, rules| shorten_too_long(rules))),
    new("chart-9-after-head", Spoil::Files(|chart, _| cut_unless(chart, has_head(chart, 0x01)))),
    new("rules-9-after-head", Spoil::Files(|_, rules| cut_unless(rules, has_head(rules, 0x11)))),
    new("chart-9-after-fields", Spoil::Files(|chart, _| cut_unless(chart, steps_pass(chart)))),
    new("rules-9-after-fields", Spoil::Files(|_, rules| cut_unless(rules, nodes_pass(rules)))),
    new("rules-9-before-chart", Spoil::Files(|chart, rules| pass(chart, rules, false))),
    new("rules-9-before-chart-9", Spoil::Files(|chart, rules| pass(chart, rules, true))),
    new("9-at-place-0", Spoil::Answer(|a| a.place *= usize::from(a.number != 9))),
    new("9-with-count", Spoil::Answer(|a| a.count += u32::from(a.number == 9))),
    new(
        "9-touches-cost",
        Spoil::Sweep(|a, s| {
            let entry = s.cost.first_mut().filter(|_| a.number == 9);
            entry.into_iter().for_each(|cost| *cost ^= 1);
        }),
    ),
    new("9-with-space", Spoil::Space(|s| s.work += usize::from(s.number == 9))),
    new("9-without-field", Spoil::Field(|n, place| *n *= usize::from(place != LONGEST_FILE))),
];

/// Whether a whole remark stands at these places.
fn is_remark(file: &[u8], (from, to): (usize, usize)) -> bool {
    file[from] >= FIRST_REMARK
        && to - from >= HEADER
        && to - from == HEADER + usize::from(two_bytes(file, from + 1))
}

/// Each remark behind the head becomes another field, by the one before it behind the head.
fn take_numbers(file: &mut Vec<u8>, mut other: impl FnMut(Option<&[u8]>) -> Vec<u8>) {
    let (mut bytes, mut before) = (Vec::new(), None);
    for (at, (from, to)) in fields(file).into_iter().enumerate() {
        let field = &file[from..to];
        if at > 0 && is_remark(file, (from, to)) {
            bytes.extend(other(before));
            continue;
        }
        bytes.extend(field);
        if at > 0 {
            before = Some(field);
        }
    }
    *file = bytes;
}

/// The step before once more, or a dear one.
fn take_step_numbers(chart: &mut Vec<u8>) {
    let first = step_field(Step::new(0, 1, MAX_COST));
    take_numbers(chart, |before| before.map_or(first.clone(), <[u8]>::to_vec));
}

/// A node that is none of the file's, so that it is no padding. There are more than enough of them.
fn take_node_numbers(rules: &mut Vec<u8>) {
    let known: HashSet<Vec<u8>> =
        fields(rules).iter().map(|(a, b)| rules[*a..*b].to_vec()).collect();
    let all =
        (0..MAX_STEPS as u16).flat_map(|step| [(0, 1), (1, 0)].map(|(lo, hi)| (step, lo, hi)));
    let all = all.map(|(step, lo, hi)| node_field(Node { step, lo, hi }));
    let mut others = all.filter(|field| !known.contains(field));
    take_numbers(rules, |_| others.next().unwrap_or_default());
}

fn count_as_steps(chart: &mut Vec<u8>) {
    if fields(chart).len() > 1 + MAX_STEPS {
        take_step_numbers(chart);
    }
}

fn count_as_nodes(rules: &mut Vec<u8>) {
    if fields(rules).len() > 1 + MAX_NODES {
        take_node_numbers(rules);
    }
}

/// All is as it should be but for the places behind a remark.
fn leave_out(file: &mut Vec<u8>) {
    for (from, to) in fields(file).into_iter().skip(1).rev() {
        if is_remark(file, (from, to)) {
            file.drain(from..to);
        }
    }
}

fn leave_out_first(file: &mut Vec<u8>) {
    if let Some(first) = fields(file).first().filter(|first| is_remark(file, **first)) {
        file.drain(..first.1);
    }
}

/// Exchanges a tag for another behind the head.
fn retag(file: &mut [u8], tag: u8, other: u8) {
    for (from, _) in fields(file).into_iter().skip(1) {
        if file[from] == tag {
            file[from] = other;
        }
    }
}

/// The place of a remark behind the head that the file ends in, and how many bytes it has.
fn cut_remark(file: &[u8]) -> Option<(usize, usize)> {
    let last = fields(file).into_iter().skip(1).last()?;
    let is_cut = file[last.0] >= FIRST_REMARK && !is_remark(file, last);
    is_cut.then_some((last.0, last.1 - last.0))
}

fn leave_out_cut_body(file: &mut Vec<u8>) {
    if let Some((from, HEADER..)) = cut_remark(file) {
        file.truncate(from);
    }
}

fn leave_out_cut_header(file: &mut Vec<u8>) {
    if let Some((from, 0..HEADER)) = cut_remark(file) {
        file.truncate(from);
    }
}

/// A remark of three bytes at the file's end loses one.
fn cut_empty_last(file: &mut Vec<u8>) {
    let last = fields(file).into_iter().skip(1).last();
    if last.is_some_and(|(from, to)| to - from == HEADER && is_remark(file, (from, to))) {
        file.pop();
    }
}

/// Remarks are taken to be as long as the low byte says.
fn keep_low_bytes(file: &mut [u8]) {
    let mut at = fields(file).first().map_or(0, |head| head.1);
    while at + HEADER <= file.len() {
        if file[at] >= FIRST_REMARK {
            file[at + 2] = 0;
        }
        at += HEADER + usize::from(two_bytes(file, at + 1));
    }
}

fn lengthen_longest(file: &mut Vec<u8>) {
    if file.len() == LONGEST_FILE {
        file.push(0);
    }
}

fn shorten_too_long(file: &mut Vec<u8>) {
    if file.len() == LONGEST_FILE + 1 {
        file.pop();
    }
}

/// A file that is too long loses what is too much, so that its first fault is told instead.
fn cut_unless(file: &mut Vec<u8>, passes: bool) {
    if !passes {
        file.truncate(LONGEST_FILE);
    }
}

/// Whether the first field has the tag of a head.
fn has_head(file: &[u8], tag: u8) -> bool {
    file.first() == Some(&tag)
}

/// Whether the front of a file that is too long has no fault behind its head but its cut end.
fn steps_pass(chart: &[u8]) -> bool {
    let front = &chart[..chart.len().min(LONGEST_FILE)];
    read_chart(front).err().is_none_or(|fault| fault.number == 1 || fault.place == 0)
}

fn nodes_pass(rules: &[u8]) -> bool {
    let front = &rules[..rules.len().min(LONGEST_FILE)];
    read_diagram(front, MAX_STEPS).err().is_none_or(|fault| fault.number == 1 || fault.place == 0)
}

/// A sound chart for one that is at fault, too long or not, where the diagram is too long.
fn pass(chart: &mut Vec<u8>, rules: &[u8], too_long: bool) {
    if rules.len() > LONGEST_FILE && (chart.len() > LONGEST_FILE) == too_long {
        *chart = vec![0x01, 6, 0, 1, 0, 0, 0, 0, 0];
    }
}
