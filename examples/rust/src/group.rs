//! Puts the steps of a chart into groups, which a rule diagram's nodes can then name:
//!
//!     group-rust CHART OUT [GROUP]...
//!
//! There is one GROUP for each step, in the order of the chart. The chart goes to OUT with all its
//! fields, but each step names its group (tag 03), whether it named one before or not. A refusal, of
//! CHART or of what would be written, is printed as `plan` does and leaves OUT as it was; the bytes of
//! the refused field go to standard error. So groups that are too high or that fall from one step to the
//! next are refused with 14. A file that is missing counts as empty. The exit status is 0 if OUT was
//! written, 1 for a refusal, 2 where writing fails and for bad arguments.

mod files;

use std::ffi::OsString;
use std::process::ExitCode;

use files::{read_file, read_number, refuse, write_file, PROGRAM};

/// The tags of both kinds of steps.
const PLAIN: u8 = 0x02;
const GROUPED: u8 = 0x03;

/// The diagram that allows everything.
const YES: [u8; 5] = [0x11, 2, 0, 1, 0];

fn main() -> ExitCode {
    let args: Vec<OsString> = std::env::args_os().skip(1).collect();
    let [chart, out, groups @ ..] = &args[..] else {
        eprintln!("usage: {PROGRAM} CHART OUT [GROUP]...");
        return ExitCode::from(2);
    };
    let mut numbers = Vec::new();
    for text in groups {
        match read_number("group", text) {
            Ok(number) => numbers.push(number),
            Err(status) => return status,
        }
    }
    let chart = read_file(chart);
    if let Err(refusal) = planner::space_needed(&chart, &YES) {
        return refuse(&refusal, refusal.field(&chart, &YES), 1);
    }
    let fields = fields(&chart);
    let steps = fields.iter().filter(|field| is_step(field)).count();
    if steps != numbers.len() {
        eprintln!("{PROGRAM}: not one group for each step: {} for {steps}", numbers.len());
        return ExitCode::from(2);
    }
    let grouped = grouped(&fields, &numbers);
    match planner::space_needed(&grouped, &YES) {
        Ok(_) => write_file(out, &grouped),
        Err(refusal) => refuse(&refusal, refusal.field(&grouped, &YES), 1),
    }
}

/// The fields of a sound file, each with its header.
fn fields(mut file: &[u8]) -> Vec<&[u8]> {
    let mut fields = Vec::new();
    while let [_, low, high, ..] = *file {
        let (field, rest) = file.split_at(3 + usize::from(u16::from_le_bytes([low, high])));
        fields.push(field);
        file = rest;
    }
    fields
}

fn is_step(field: &[u8]) -> bool {
    matches!(field[0], PLAIN | GROUPED)
}

/// The file of these fields, with the steps in these groups, one for each.
fn grouped(fields: &[&[u8]], groups: &[u16]) -> Vec<u8> {
    let (mut file, mut groups) = (Vec::new(), groups.iter());
    for field in fields {
        match groups.as_slice() {
            [group, ..] if is_step(field) => {
                // From, to and cost stand at the same places in both kinds.
                file.extend([GROUPED, 10, 0]);
                file.extend(&field[3..11]);
                file.extend(group.to_le_bytes());
                groups.next();
            }
            _ => file.extend(*field),
        }
    }
    file
}
