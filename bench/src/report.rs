//! Measurements as text and as CSV.

use crate::measure::listing::{ListTime, TimedList};
use crate::measure::making::{longest, Made, MOST_US};
use crate::measure::{Call, Timing};
use crate::ratios::{spread, Measured, Spread, RATIOS};
use crate::targets::{verdicts, Verdict};

/// The ratios that stand in the table; the others are in the summary alone.
fn shown<'a>(planners: &'a [&str]) -> impl Iterator<Item = (&'static str, &'static str)> + 'a {
    let timed = |name: &str| planners.contains(&name);
    RATIOS.into_iter().filter(move |(of, to)| *of == "library" && timed(of) && timed(to))
}

/// The table's head, one line.
pub fn table_head(planners: &[&str]) -> String {
    let mut line = format!("{:<34}{:>8}{:>9}{:>8}", "load", "pairs", "call", "count");
    for planner in planners {
        line += &format!("{:>13}", format!("{planner} µs"));
    }
    for (_, to) in shown(planners) {
        line += &format!("{:>10}", format!("/ {to}"));
    }
    line
}

/// One line for each call on one load.
pub fn table_rows(measured: &Measured, planners: &[&str]) -> String {
    Call::ALL.map(|call| table_row(measured, planners, call)).join("\n")
}

fn table_row(measured: &Measured, planners: &[&str], call: Call) -> String {
    let Measured { name, pairs, .. } = measured;
    let first = planners.first().and_then(|planner| measured.timing(planner, call));
    let count = first.map_or(0, |timing| timing.count);
    let mut line = format!("{name:<34}{pairs:>8}{:>9}{count:>8}", call.name());
    for planner in planners {
        let time = measured.timing(planner, call).map(|timing| timing.nanoseconds / 1_000.0);
        line += &format!("{:>13}", number(time, 2));
    }
    for (of, to) in shown(planners) {
        line += &format!("{:>10}", number(measured.ratio(of, to, call), 2));
    }
    line
}

/// A number with so many digits behind the point, or a dash.
pub fn number(value: Option<f64>, digits: usize) -> String {
    value.map_or("-".into(), |value| format!("{value:.digits$}"))
}

/// Nanoseconds for each reached or settled pair.
pub fn per_pair(timing: &Timing) -> f64 {
    timing.nanoseconds / f64::from(timing.count.max(1))
}

/// The ratios of each pair of implementations in each call, and the targets.
pub fn summary(standard: &[Measured], all: &[Measured]) -> String {
    let mut lines = Vec::new();
    for (of, to) in RATIOS {
        for call in Call::ALL {
            let Some(found) = spread(standard, of, to, call) else { continue };
            let Spread { mean, least, most, most_on, loads } = found;
            lines.push(format!(
                "{of} / {to}, {}: geometric mean {mean:.2}, least {least:.2}, largest {most:.2} \
                 ({most_on}), {loads} loads",
                call.name(),
            ));
        }
    }
    lines.push("\ntargets:".into());
    lines.extend(verdicts(all).iter().map(verdict_line));
    lines.join("\n")
}

fn verdict_line(verdict: &Verdict) -> String {
    let begin = format!("{:<13} {}", verdict.word(), verdict.aim());
    let limit = number(verdict.limit, 2);
    match &verdict.found {
        None => format!("{begin}: at most {limit}"),
        Some(Spread { mean, most, most_on, loads, .. }) => format!(
            "{begin}: at most {limit}, largest {most:.2} ({most_on}), geometric mean {mean:.2}, \
             {loads} times"
        ),
    }
}

/// Which implementations have no time on some loads, and so no ratio; none where all have one.
pub fn left_out(all: &[Measured], planners: &[&str]) -> Option<String> {
    let has_time = |m: &Measured, name: &str| m.timings.iter().any(|t| t.planner == name);
    let of_load = |m: &Measured| {
        let missing = planners.iter().filter(|name| !has_time(m, name));
        let missing: Vec<&str> = missing.copied().collect();
        let names = missing.join(" and ");
        (!missing.is_empty()).then(|| format!("no time of {names} on \"{}\"", m.name))
    };
    let lines: Vec<String> = all.iter().filter_map(of_load).collect();
    let why = "they refuse these files, so there is no ratio to them";
    (!lines.is_empty()).then(|| format!("{}: {why}", lines.join(", ")))
}

/// The conjunctions and the reductions, a line each, and what the library is held to.
pub fn makings(all: &[Made], planners: &[&str]) -> String {
    let (conjunctions, reductions): (Vec<&Made>, Vec<&Made>) =
        all.iter().partition(|one| one.call == "conjoin");
    let mut lines = Vec::new();
    if !conjunctions.is_empty() {
        let head = format!("{:<32}{:>8}{:>9}{:>8}", "conjoin", "pairs", "visited", "nodes");
        lines.push(head + &making_head(planners));
    }
    lines.extend(conjunctions.iter().map(|one| {
        let Made { name, pairs, visited, .. } = one;
        let begin = format!("{name:<32}{pairs:>8}{visited:>9}{:>8}", one.result());
        begin + &making_times(one, planners)
    }));
    if !reductions.is_empty() {
        let head = format!("{:<32}{:>17}{:>8}", "reduce", "nodes before", "after");
        lines.push(head + &making_head(planners));
    }
    lines.extend(reductions.iter().map(|one| {
        let Made { name, before, nodes, .. } = one;
        format!("{name:<32}{before:>17}{nodes:>8}") + &making_times(one, planners)
    }));
    lines.push(longest_making(all));
    lines.join("\n")
}

fn making_head(planners: &[&str]) -> String {
    let times = planners.iter().map(|planner| format!("{:>13}", format!("{planner} µs")));
    times.chain([format!("{:>16}", "library / same")]).collect()
}

fn making_times(one: &Made, planners: &[&str]) -> String {
    let times = planners.iter().map(|by| format!("{:>13}", number(one.microseconds(by), 2)));
    times.chain([format!("{:>16}", number(one.ratio("library", "same"), 2))]).collect()
}

/// The library's longest conjunction or reduction, beside the most that it may take.
pub fn longest_making(all: &[Made]) -> String {
    let most = MOST_US / 1_000.0;
    let aim = format!("library, every conjunction and reduction, at most {most:.0} ms");
    match longest(all, "library") {
        None => format!("not measured: {aim}"),
        Some((took, name)) => {
            let word = if took <= MOST_US { "met" } else { "NOT MET" };
            format!("{word}: {aim}: {:.2} ({name})", took / 1_000.0)
        }
    }
}

/// The lists, a line each: for each implementation that takes them the list's time, that of its searches one by
/// one, and the one in the other.
pub fn lists(all: &[TimedList], planners: &[&str]) -> String {
    let Some(first) = all.first() else { return "no lists measured".into() };
    let taking = planners.iter().filter(|planner| first.time(planner).is_some());
    let taking: Vec<&str> = taking.copied().collect();
    let mut head = format!("{:<34}{:>8}{:>9}", "cycles, 40 records", "pairs", "settled");
    for planner in &taking {
        head += &format!("{:>13}{:>12}{:>8}", format!("{planner} µs"), "one by one", "ratio");
    }
    let head = head + &format!("{:>16}", "library / same");
    let lines = all.iter().map(|one| list_line(one, &taking));
    [head].into_iter().chain(lines).collect::<Vec<_>>().join("\n")
}

fn list_line(one: &TimedList, taking: &[&str]) -> String {
    let settled = one.times.first().map_or(0, |time| time.settled);
    let mut line = format!("{:<34}{:>8}{settled:>9}", one.name, one.pairs);
    for planner in taking {
        let time = one.time(planner);
        let list = number(time.map(|time| time.list / 1_000.0), 2);
        let calls = number(time.map(|time| time.calls / 1_000.0), 2);
        line += &format!("{list:>13}{calls:>12}{:>8}", number(one.share(planner), 3));
    }
    line + &format!("{:>16}", number(one.ratio("library", "same"), 2))
}

/// All timings of lists, as further lines of the CSV, and those of their searches one by one; the count is the
/// settled pairs of all records.
pub fn csv_of_lists(all: &[TimedList]) -> String {
    let mut text = String::new();
    for TimedList { name, stages, steps, nodes, pairs, times } in all {
        for ListTime { planner, settled, list, calls } in times {
            for (call, least) in [("cycles", list), ("cycles one by one", calls)] {
                text += &format!(
                    "\"{name}\",{stages},{steps},{nodes},{pairs},{call},{planner},{settled},\
                     {least:.1},{least:.1}\n"
                );
            }
        }
    }
    text
}

/// All timings of conjunctions and reductions, as further lines of the CSV; the count is the result's
/// nodes. A reduction has no pairs, a conjunction the nodes of two files.
pub fn csv_of_makings(all: &[Made]) -> String {
    let mut text = String::new();
    for Made { call, name, steps, before, pairs, nodes, times, .. } in all {
        let size = match *call {
            "conjoin" => format!(",{pairs}"),
            _ => format!("{before},"),
        };
        for (planner, least) in times {
            text += &format!(
                "\"{name}\",,{steps},{size},{call},{planner},{nodes},{least:.1},{least:.1}\n"
            );
        }
    }
    text
}

/// All timings, one a line.
pub fn csv(all: &[Measured]) -> String {
    let mut text = String::from(
        "load,stages,steps,nodes,pairs,call,implementation,count,least_ns,\
         least_ns_in_worst_placement\n",
    );
    for m in all {
        let Measured { name, stages, steps, nodes, pairs, .. } = m;
        for t in &m.timings {
            let most = t.placed.iter().copied().fold(0.0, f64::max);
            text += &format!(
                "\"{name}\",{stages},{steps},{nodes},{pairs},{},{},{},{:.1},{most:.1}\n",
                t.call.name(),
                t.planner,
                t.count,
                t.nanoseconds,
            );
        }
    }
    text
}

#[cfg(test)]
mod tests {
    use super::left_out;
    use crate::loads::remarks;
    use crate::measure::{Call, Timing};
    use crate::ratios::Measured;

    #[test]
    fn what_has_no_time_is_told() {
        let mut measured = Measured::new(&remarks()[0]).expect("sound files");
        let (planner, call, nanoseconds, count) = ("same", Call::Sweep, 1.0, 6);
        measured.add(0, 1, vec![Timing { planner, call, nanoseconds, placed: vec![1.0], count }]);
        let all = [measured];
        assert_eq!(left_out(&all, &["same"]), None);
        let text = left_out(&all, &["before", "control", "same"]).expect("two have none");
        let begin = "no time of before and control on \"example, 10,000 remarks\": they refuse";
        assert!(text.starts_with(begin), "{text}");
        assert_eq!(all[0].ratio("same", "before", Call::Sweep), None);
    }
}
