//! Makes one diagram file of two over the same chart, which says yes exactly where both do:
//!
//!     conjoin-rust CHART RULES MORE OUT
//!
//! The file goes to OUT, and the program `plan` takes it as rules.bin. A refusal is printed as `plan`
//! does, with MORE as file 3, and leaves OUT as it was; the bytes of the refused field go to standard
//! error. A file that is missing counts as empty. The exit status is 0 if OUT was written, 1 for a
//! refusal, 2 where writing fails and for bad arguments.

mod files;

use std::ffi::OsString;
use std::process::ExitCode;

use files::{read_file, refuse, write_file, PROGRAM};

fn main() -> ExitCode {
    let args: Vec<OsString> = std::env::args_os().skip(1).collect();
    let [chart, rules, more, out] = &args[..] else {
        eprintln!("usage: {PROGRAM} CHART RULES MORE OUT");
        return ExitCode::from(2);
    };
    let [chart, rules, more] = [chart, rules, more].map(|path| read_file(path));
    match planner::conjoin(&chart, &rules, &more) {
        Ok(file) => write_file(out, &file),
        Err(refusal) => refuse(&refusal, refusal.field_of_three(&chart, &rules, &more), 1),
    }
}
