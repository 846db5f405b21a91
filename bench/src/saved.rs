//! A failing case as a folder: `chart.bin`, `rules.bin`, `more.bin` of a conjunction and `case.txt`, to be
//! run again.

use std::fs;
use std::io;
use std::path::Path;

use crate::cases::Case;
use crate::compare::Difference;

/// Writes a case, and what was wrong with it where that is known.
pub fn save(folder: &Path, case: &Case, found: Option<&Difference>) -> io::Result<()> {
    fs::create_dir_all(folder)?;
    fs::write(folder.join("chart.bin"), &case.chart)?;
    fs::write(folder.join("rules.bin"), &case.rules)?;
    let more = folder.join("more.bin");
    match &case.more {
        Some(bytes) => fs::write(more, bytes)?,
        // That of a case saved here before must not stay.
        None => drop(fs::remove_file(more)),
    }
    let mut text = format!("kind {}\ndirt {}\n", case.kind, case.dirt);
    if let Some(found) = found {
        text += &format!("planner {}\ncall {}\n{}\n", found.planner, found.call, found.text);
    }
    fs::write(folder.join("case.txt"), text)
}

/// Reads a case; without a `case.txt` the slices are drawn from the seed 0.
pub fn load(folder: &Path) -> io::Result<Case> {
    let chart = fs::read(folder.join("chart.bin"))?;
    let rules = fs::read(folder.join("rules.bin"))?;
    let more = fs::read(folder.join("more.bin")).ok();
    let text = fs::read_to_string(folder.join("case.txt")).unwrap_or_default();
    let dirt = text
        .lines()
        .find_map(|line| line.strip_prefix("dirt "))
        .and_then(|number| number.trim().parse().ok())
        .unwrap_or(0);
    Ok(Case { kind: "saved", chart, rules, more, dirt })
}
