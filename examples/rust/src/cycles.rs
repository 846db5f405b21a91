//! Plans for many starts and ends on one chart, in one call, and prints a line for each:
//!
//!     cycles-rust CHART RULES [START END]...
//!
//! A line has the cost of a cheapest legal plan and how many pairs its search settled,
//!
//!     start 0 end 4 cost 200 settled 4
//!
//! or the number of the refusal: 4 where the start or the end is no stage of the chart, 8 where no plan
//! is legal:
//!
//!     start 4 end 0 refused 8 settled 0
//!
//! Where a file is refused no line is printed but the refusal, as `plan` does; the bytes of the refused
//! field go to standard error. A file that is missing counts as empty. The exit status is 0 if the list
//! was answered, 1 for a refused file, 2 where writing the output fails and for bad arguments.

mod files;

use std::ffi::OsString;
use std::process::ExitCode;

use planner::Cycle;

use files::{finish, read_file, read_number, refuse, PROGRAM};

fn main() -> ExitCode {
    let args: Vec<OsString> = std::env::args_os().skip(1).collect();
    let [chart, rules, stages @ ..] = &args[..] else { return usage() };
    if stages.len() % 2 != 0 {
        return usage();
    }
    let mut numbers = Vec::new();
    for text in stages {
        match read_number("stage", text) {
            Ok(number) => numbers.push(number),
            Err(status) => return status,
        }
    }
    let mut list: Vec<Cycle> = numbers.chunks(2).map(|pair| Cycle::new(pair[0], pair[1])).collect();
    let (chart, rules) = (read_file(chart), read_file(rules));
    match planner::cycles(&chart, &rules, &mut list) {
        Ok(()) => finish(&list.iter().map(line).collect::<String>(), 0),
        Err(refusal) => refuse(&refusal, refusal.field(&chart, &rules), 1),
    }
}

fn usage() -> ExitCode {
    eprintln!("usage: {PROGRAM} CHART RULES [START END]...");
    ExitCode::from(2)
}

/// The line of an entry that is answered.
fn line(cycle: &Cycle) -> String {
    let Cycle { start, end, number, cost, count } = *cycle;
    let found = match number {
        0 => format!("cost {cost}"),
        _ => format!("refused {number}"),
    };
    format!("start {start} end {end} {found} settled {count}\n")
}
