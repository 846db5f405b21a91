//! What the examples share: whole files, refusals, output.

use std::ffi::OsStr;
use std::io::{self, Write};
use std::process::ExitCode;

use planner::Refusal;

/// The program's name, for its messages.
pub const PROGRAM: &str = env!("CARGO_BIN_NAME");

/// A number in decimal digits, of any size that two bytes have room for. The exit status where it is
/// none: 2.
#[allow(dead_code)] // cycles-rust and group-rust take numbers.
pub fn read_number(what: &str, text: &OsStr) -> Result<u16, ExitCode> {
    let digits = text.to_str().filter(|text| text.bytes().all(|byte| byte.is_ascii_digit()));
    digits.and_then(|digits| digits.parse().ok()).ok_or_else(|| {
        eprintln!("{PROGRAM}: no {what} number from 0 to 65535: {}", text.to_string_lossy());
        ExitCode::from(2)
    })
}

/// A file that is missing counts as empty.
pub fn read_file(path: &OsStr) -> Vec<u8> {
    std::fs::read(path).unwrap_or_default()
}

/// Writes a whole file. The exit status: 0, or 2 where it can't be written.
#[allow(dead_code)] // plan-rust and cycles-rust write none.
pub fn write_file(path: &OsStr, bytes: &[u8]) -> ExitCode {
    match std::fs::write(path, bytes) {
        Ok(()) => ExitCode::SUCCESS,
        Err(error) => {
            eprintln!("{PROGRAM}: {}: {error}", path.to_string_lossy());
            ExitCode::from(2)
        }
    }
}

/// Prints a refusal and, where a file is at fault, the bytes of its field. The exit status as of
/// [`finish`].
pub fn refuse(refusal: &Refusal, field: &[u8], status: u8) -> ExitCode {
    if refusal.field_place().is_some() {
        show_field(field);
    }
    finish(&format!("{refusal}\n"), status)
}

/// The first bytes of a refused field, to standard error.
fn show_field(field: &[u8]) {
    let bytes: String = field.iter().take(32).map(|byte| format!(" {byte:02x}")).collect();
    eprintln!("field{bytes}{}", if field.len() > 32 { " .." } else { "" });
}

/// Prints the text. The exit status: `status`, or 2 where the output is not complete.
pub fn finish(text: &str, status: u8) -> ExitCode {
    let mut out = io::stdout();
    match out.write_all(text.as_bytes()).and_then(|()| out.flush()) {
        Ok(()) => ExitCode::from(status),
        Err(error) => {
            eprintln!("{PROGRAM}: the output is not complete: {error}");
            ExitCode::from(2)
        }
    }
}
