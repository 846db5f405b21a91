//! Makes the reduced file of a diagram, also of a padded one, which the other calls refuse with 13:
//!
//!     reduce-rust CHART RULES OUT
//!
//! The file goes to OUT, and the program `plan` takes it as rules.bin. It says yes where RULES does. A
//! refusal is printed as `plan` does and leaves OUT as it was; the bytes of the refused field go to
//! standard error. A file that is missing counts as empty. The exit status is 0 if OUT was written, 1
//! for a refusal, 2 where writing fails and for bad arguments.

mod files;

use std::ffi::OsString;
use std::process::ExitCode;

use files::{read_file, refuse, write_file, PROGRAM};

fn main() -> ExitCode {
    let args: Vec<OsString> = std::env::args_os().skip(1).collect();
    let [chart, rules, out] = &args[..] else {
        eprintln!("usage: {PROGRAM} CHART RULES OUT");
        return ExitCode::from(2);
    };
    let [chart, rules] = [chart, rules].map(|path| read_file(path));
    match planner::reduce(&chart, &rules) {
        Ok(file) => write_file(out, &file),
        Err(refusal) => refuse(&refusal, refusal.field(&chart, &rules), 1),
    }
}
