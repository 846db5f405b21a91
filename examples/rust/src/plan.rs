//! Plans for two files and prints the answer as the program `plan` does:
//!
//!     plan-rust [CHART RULES]      (default chart.bin and rules.bin of the current folder)
//!
//! The program `plan` lends work for 4,096 pairs and answers 7 beyond that; this example lends what
//! the files need. (The program reads 32,769 bytes of a file, which changes no answer: a longer one is
//! 9 all the same.) A file that is missing counts as empty. The bytes of a refused field go to standard
//! error. The exit status is 0 for a plan and for a refusal, 2 where writing the output fails and for
//! bad arguments.

mod files;

use std::ffi::OsString;
use std::process::ExitCode;

use planner::Plan;

use files::{finish, read_file, refuse, PROGRAM};

fn main() -> ExitCode {
    let args: Vec<OsString> = std::env::args_os().skip(1).collect();
    let (chart, rules) = match &args[..] {
        [] => ("chart.bin".as_ref(), "rules.bin".as_ref()),
        [chart, rules] => (chart.as_os_str(), rules.as_os_str()),
        _ => {
            eprintln!("usage: {PROGRAM} [CHART RULES]");
            return ExitCode::from(2);
        }
    };
    let (chart, rules) = (read_file(chart), read_file(rules));
    match planner::plan(&chart, &rules) {
        Ok(plan) => finish(&lines(&plan), 0),
        Err(refusal) => refuse(&refusal, refusal.field(&chart, &rules), 0),
    }
}

/// A plan's cost, its steps and both counts.
fn lines(plan: &Plan) -> String {
    let steps: String = plan.steps.iter().map(|step| format!("step {step}\n")).collect();
    format!("cost {}\n{steps}settled {} reached {}\n", plan.cost, plan.settled, plan.reached)
}
