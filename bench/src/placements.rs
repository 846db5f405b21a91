//! Placements: the benchmark program linked several times, with other paddings in front of its code,
//! each copy run as a process of its own. So in each placement all code lies at other addresses, and
//! the system draws new ones for the stack and for the slices. One program asks the copies for their
//! times, load by load and one copy at a time, by lines over pipes.

use std::collections::HashSet;
use std::io::{self, BufRead, BufReader, Lines, Write};
use std::path::{Path, PathBuf};
use std::process::{Child, ChildStdin, ChildStdout, Command, Stdio};

use crate::loads::Load;
use crate::measure::{check, measure, Call, Timing};
use crate::planner::Planner;

/// The option by which a copy is started.
pub const SERVE: &str = "--serve";
/// Addresses are told apart within a page.
const PAGE: usize = 4_096;
/// The last line of a reply.
const END: &str = "end";
/// What the line of a failure begins with.
const FAILED: &str = "failed: ";

/// A copy of the program at work.
pub struct Placement {
    program: PathBuf,
    child: Child,
    asked: ChildStdin,
    replies: Lines<BufReader<ChildStdout>>,
    /// Where its code lies within a page.
    pub code: usize,
}

impl Placement {
    pub fn start(program: &Path) -> Result<Placement, String> {
        let failed = |error: io::Error| format!("cannot run {}: {error}", program.display());
        let mut command = Command::new(program);
        command.arg(SERVE).stdin(Stdio::piped()).stdout(Stdio::piped());
        let mut child = command.spawn().map_err(failed)?;
        let (Some(asked), Some(replies)) = (child.stdin.take(), child.stdout.take()) else {
            return Err(format!("{}: no pipes", program.display()));
        };
        let replies = BufReader::new(replies).lines();
        let program = program.to_path_buf();
        let mut placement = Placement { program, child, asked, replies, code: 0 };
        let line = placement.line()?;
        placement.code = line.parse().map_err(|_| placement.strange(&line))?;
        Ok(placement)
    }

    /// The copy's times on the load of that number.
    pub fn measure(
        &mut self,
        load: usize,
        rounds: usize,
        planners: &[Box<dyn Planner>],
    ) -> Result<Vec<Timing>, String> {
        // If the copy has ended, the line that is missing tells it.
        let _ = writeln!(self.asked, "{load} {rounds}");
        let mut timings = Vec::new();
        loop {
            let line = self.line()?;
            if line == END {
                return Ok(timings);
            }
            if let Some(text) = line.strip_prefix(FAILED) {
                return Err(text.into());
            }
            timings.push(read_timing(&line, planners).ok_or_else(|| self.strange(&line))?);
        }
    }

    fn line(&mut self) -> Result<String, String> {
        match self.replies.next() {
            Some(Ok(line)) => Ok(line),
            _ => {
                let how = self.child.wait().map_or("unknown".into(), |status| status.to_string());
                Err(format!("{} ended: {how}", self.program.display()))
            }
        }
    }

    fn strange(&self, line: &str) -> String {
        format!("{} said \"{line}\"", self.program.display())
    }
}

impl Drop for Placement {
    /// A copy is idle here, or has ended by itself.
    fn drop(&mut self) {
        let _ = self.child.kill();
        let _ = self.child.wait();
    }
}

fn write_timing(timing: &Timing) -> String {
    let Timing { planner, call, nanoseconds, count, .. } = timing;
    format!("{planner} {} {nanoseconds} {count}", call.name())
}

fn read_timing(line: &str, planners: &[Box<dyn Planner>]) -> Option<Timing> {
    let mut words = line.split(' ');
    let name = words.next()?;
    let planner = planners.iter().map(|planner| planner.name()).find(|known| *known == name)?;
    let call = Call::named(words.next()?)?;
    let nanoseconds: f64 = words.next()?.parse().ok()?;
    let count = words.next()?.parse().ok()?;
    Some(Timing { planner, call, nanoseconds, placed: vec![nanoseconds], count })
}

/// What a copy does: says where its code lies, then answers each line "load rounds" with its times.
/// The first time that a load is asked for, all results are checked.
pub fn serve(loads: &[Load], planners: &[Box<dyn Planner>]) -> io::Result<()> {
    println!("{}", crate::same::sweep as *const () as usize % PAGE);
    let mut checked = HashSet::new();
    for line in io::stdin().lines() {
        match answer(&line?, loads, planners, &mut checked) {
            Ok(timings) => timings.iter().for_each(|timing| println!("{}", write_timing(timing))),
            Err(text) => println!("{FAILED}{}", text.replace('\n', " ")),
        }
        println!("{END}");
    }
    Ok(())
}

fn answer(
    line: &str,
    loads: &[Load],
    planners: &[Box<dyn Planner>],
    checked: &mut HashSet<usize>,
) -> Result<Vec<Timing>, String> {
    let asked = line.split_once(' ').and_then(|(at, n)| Some((at.parse().ok()?, n.parse().ok()?)));
    let (at, rounds): (usize, usize) = asked.ok_or(format!("no load and rounds: {line}"))?;
    let load = loads.get(at).ok_or(format!("no load {at}"))?;
    if checked.insert(at) {
        check(load, planners)?;
    }
    measure(load, planners, rounds)
}

#[cfg(test)]
mod tests {
    use super::{answer, read_timing, write_timing};
    use crate::loads::standard;
    use crate::planner::timed;
    use std::collections::HashSet;

    #[test]
    fn times_come_back_as_they_were_written() {
        let (loads, planners) = (&standard()[..1], timed());
        let checked = &mut HashSet::new();
        let timings = answer("0 1", loads, &planners, checked).expect("times of the first load");
        assert!(timings.len() > planners.len());
        for timing in &timings {
            let line = write_timing(timing);
            let read = read_timing(&line, &planners).expect("a line that can be read");
            assert_eq!(write_timing(&read), line);
            assert_eq!(read.nanoseconds, timing.nanoseconds);
        }
        for wrong in ["1 1", "0", "x 1", "0 x"] {
            assert!(answer(wrong, loads, &planners, checked).is_err(), "{wrong}");
        }
        for wrong in ["", "same", "nobody sweep 1 1", "same walk 1 1", "same sweep x 1"] {
            assert!(read_timing(wrong, &planners).is_none(), "{wrong}");
        }
    }
}
