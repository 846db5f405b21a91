//! The page docs/PERFORMANCE-TABLES.md: everything measured, in Markdown.

use std::fs;

use crate::measure::listing::{TimedList, RECORDS};
use crate::measure::making::Made;
use crate::measure::Call;
use crate::ratios::{placement_spread, spread, Measured, Spread, RATIOS};
use crate::report::{left_out, longest_making, number, per_pair};
use crate::stacks::Peak;
use crate::targets::verdicts;

/// One whole run.
pub struct Run<'a> {
    pub planners: &'a [&'a str],
    pub runs: usize,
    pub rounds: usize,
    /// By placement: where its code lies within a page.
    pub codes: &'a [usize],
    /// The machine's load average before the run.
    pub busy: &'a str,
    pub standard: &'a [Measured],
    pub growth: &'a [Measured],
    /// Held to no target, and in no mean.
    pub remarks: &'a [Measured],
    /// Charts with groups.
    pub groups: &'a [Measured],
    /// Conjunctions and reductions: timed in one placement, and in no mean.
    pub makings: &'a [Made],
    /// Lists: the same.
    pub lists: &'a [TimedList],
    pub peaks: &'a [Peak],
}

/// A table: its head, how many columns of words come first, and its rows.
fn table(head: &str, words: usize, rows: impl IntoIterator<Item = String>) -> String {
    let columns = head.split('|').count();
    let marks = format!("|{}{}", "---|".repeat(words), "--:|".repeat(columns - words));
    let mut lines = vec![format!("| {head} |"), marks];
    lines.extend(rows.into_iter().map(|row| format!("| {row} |")));
    lines.join("\n")
}

impl Run<'_> {
    /// The implementation that the page is about: the library where it is linked.
    fn subject(&self) -> &str {
        self.planners.first().copied().unwrap_or_default()
    }

    /// The whole page.
    pub fn page(&self) -> String {
        let all = [self.standard, self.growth].concat();
        let mut parts = vec![
            "# Performance tables".into(),
            "Written by `bench/benchmark --docs docs`; what is measured, and how, is said in \
             [PERFORMANCE.md](PERFORMANCE.md)."
                .into(),
            self.machine(),
            "\"/ before\" and \"/ same\" are the library's time in that of the earlier library and of \
             `same`, \"textbook /\" is the textbook's time in the library's, \"ns a pair\" the \
             library's time for each reached or settled pair, \"Lent KB\" what both searches are \
             lent together."
                .into(),
            "## Targets".into(),
            targets(&all),
            "## Ratios".into(),
            self.ratios(),
        ];
        for (title, call) in
            [("Sweep", Call::Sweep), ("Guided search", Call::Guided), ("Reading", Call::Reading)]
        {
            parts.push(format!("## {title}"));
            parts.push(self.loads(self.standard, call));
        }
        parts.push("## Growth with nodes and stages".into());
        for call in Call::SEARCHES {
            parts.push(self.loads(self.growth, call));
        }
        let apart = [("Files with remarks", self.remarks), ("Charts with groups", self.groups)];
        for (title, loads) in apart {
            parts.push(format!("## {title}"));
            parts.push("In no mean above, and held to no target.".into());
            let missing = left_out(loads, self.planners);
            parts.extend(missing.map(|text| format!("Left out: {text}.")));
            parts.extend(Call::ALL.map(|call| self.loads(loads, call)));
        }
        parts.extend(["## Lists of cycles".into(), self.lists()]);
        parts.extend(["## Conjunctions".into(), self.conjunctions()]);
        parts.extend(["## Reductions".into(), self.reductions()]);
        parts.extend(["## Placements".into(), self.placements(&all)]);
        parts.extend(["## Stack".into(), self.stacks()]);
        parts.join("\n\n") + "\n"
    }

    /// Where and how it was measured.
    fn machine(&self) -> String {
        let cpu = fs::read_to_string("/proc/cpuinfo").unwrap_or_default();
        let model = cpu.lines().find_map(|line| line.strip_prefix("model name"));
        let model = model.map_or("unknown", |text| text.trim_start_matches(['\t', ' ', ':']));
        let cores = cpu.lines().filter(|line| line.starts_with("processor")).count();
        let Run { runs, rounds, busy, codes, .. } = self;
        let codes: Vec<String> = codes.iter().map(|code| format!("{code:#x}")).collect();
        format!(
            "Measured on {model}, {cores} processors, load average {busy} before the run. {runs} \
             runs of {rounds} rounds in each of {} placements, whose code lies at {} within a page.",
            codes.len(),
            codes.join(", ")
        )
    }

    fn ratios(&self) -> String {
        let cells = RATIOS.iter().flat_map(|ratio| Call::ALL.map(|call| (*ratio, call)));
        let rows = cells.filter_map(|((of, to), call)| {
            let Spread { mean, least, most, most_on, loads } = spread(self.standard, of, to, call)?;
            let name = call.name();
            let ends = format!("{least:.2} | {most:.2} | {most_on}");
            Some(format!("{of} / {to} | {name} | {mean:.2} | {ends} | {loads}"))
        });
        table("Ratio | Call | Geometric mean | Least | Largest | Largest on | Loads", 2, rows)
    }

    /// One line for each load.
    fn loads(&self, all: &[Measured], call: Call) -> String {
        let (head, words) = match call {
            Call::Sweep => ("Load | Pairs | Lent KB | Reached", 1),
            Call::Guided => ("Load | Pairs | Lent KB | Settled", 1),
            Call::Reading => ("Load | Steps | Nodes", 1),
        };
        let searches = " | textbook / | ns a pair";
        let more = if call == Call::Reading { "" } else { searches };
        let head = format!("{head} | µs | / before | / same{more}");
        table(&head, words, all.iter().map(|measured| self.cells(measured, call)))
    }

    fn cells(&self, measured: &Measured, call: Call) -> String {
        let subject = self.subject();
        let Measured { name, steps, nodes, pairs, .. } = measured;
        let own = measured.timing(subject, call);
        let ratio = |of, to| measured.ratio(of, to, call);
        let mut cells = vec![name.trim_start_matches("growth: ").to_string()];
        if call == Call::Reading {
            cells.extend([steps.to_string(), nodes.to_string()]);
        } else {
            let count = own.map_or(0, |timing| timing.count);
            let lent = measured.lent_bytes().div_ceil(1_000);
            cells.extend([pairs.to_string(), lent.to_string(), count.to_string()]);
        }
        cells.push(number(own.map(|timing| timing.nanoseconds / 1_000.0), 2));
        cells.extend(["before", "same"].map(|other| number(ratio(subject, other), 2)));
        if call != Call::Reading {
            cells.push(number(ratio("textbook", subject), 1));
            cells.push(number(own.map(per_pair), 0));
        }
        cells.join(" | ")
    }

    /// One line for each list.
    fn lists(&self) -> String {
        let subject = self.subject();
        let rows = self.lists.iter().map(|one| {
            let TimedList { name, pairs, .. } = one;
            let own = one.time(subject);
            let settled = own.map_or(0, |time| time.settled);
            let list = number(own.map(|time| time.list / 1_000.0), 2);
            let calls = number(own.map(|time| time.calls / 1_000.0), 2);
            let shares = [subject, "same", "textbook"].map(|by| number(one.share(by), 3));
            let same = number(one.ratio(subject, "same"), 2);
            let textbook = number(one.ratio("textbook", subject), 1);
            let times = format!("{list} | {calls} | {}", shares.join(" | "));
            format!("{name} | {pairs} | {settled} | {times} | {same} | {textbook}")
        });
        let head =
            "Load | Pairs | Settled | µs | One by one µs | List / calls | of same | of textbook \
                    | / same | textbook /";
        let text = format!(
            "{RECORDS} starts and ends in one call, and one by one: as many guided searches on charts \
             that have them in their heads. In one placement, in no mean above, and held to no target. \
             \"Settled\" are the pairs of all records, \"List / calls\" is the list's time in that of its \
             searches, \"short\" cycles go over at most four stages, \"long\" ones from the first half of \
             the chart to its second."
        );
        format!("{text}\n\n{}", table(head, 1, rows))
    }

    /// One line for each conjunction.
    fn conjunctions(&self) -> String {
        let rows = self.makings_of("conjoin").map(|one| {
            let Made { name, pairs, visited, .. } = one;
            format!("{name} | {pairs} | {visited} | {} | {}", one.result(), self.times(one))
        });
        let table = table("Load | Pairs | Visited | Nodes | µs | / same | textbook /", 1, rows);
        let text = "In one placement, in no mean above. \"Pairs\" are the entries of the work slice, \
                    \"Visited\" those that are come to, \"Nodes\" the inner nodes of the result, or 12.";
        format!("{text}\n\n{table}\n\nTarget {}.", longest_making(self.makings))
    }

    /// One line for each reduction.
    fn reductions(&self) -> String {
        let rows = self.makings_of("reduce").map(|one| {
            let Made { name, before, nodes, .. } = one;
            format!("{name} | {before} | {nodes} | {}", self.times(one))
        });
        let table = table("Load | Nodes | Reduced | µs | / same | textbook /", 1, rows);
        let text =
            "In one placement, in no mean above. \"Nodes\" are the inner nodes of the file, \
                    \"Reduced\" those of the result.";
        format!("{text}\n\n{table}")
    }

    fn makings_of<'a>(&'a self, call: &'a str) -> impl Iterator<Item = &'a Made> {
        self.makings.iter().filter(move |one| one.call == call)
    }

    /// The cells of a call's times.
    fn times(&self, one: &Made) -> String {
        let subject = self.subject();
        let time = number(one.microseconds(subject), 2);
        let ratios = [(subject, "same", 2), ("textbook", subject, 1)];
        let [same, textbook] = ratios.map(|(of, to, digits)| number(one.ratio(of, to), digits));
        format!("{time} | {same} | {textbook}")
    }

    /// How far single placements are off the least time.
    fn placements(&self, all: &[Measured]) -> String {
        let cells = self.planners.iter().flat_map(|one| Call::ALL.map(|call| (*one, call)));
        let rows = cells.filter_map(|(planner, call)| {
            let Spread { mean, most, most_on, .. } = placement_spread(all, planner, call)?;
            Some(format!("{planner} | {} | {mean:.2} | {most:.2} | {most_on}", call.name()))
        });
        let table = table("Implementation | Call | Geometric mean | Largest | Largest on", 2, rows);
        let text = "The least time in the worst placement, in the least of all placements.";
        format!("{text}\n\n{table}")
    }

    fn stacks(&self) -> String {
        let rows = self.peaks.iter().map(|Peak { planner, call, bytes }| {
            format!("{call} | {planner} | {bytes}") //
        });
        table("Call | Implementation | Bytes", 2, rows)
    }
}

fn targets(all: &[Measured]) -> String {
    let rows = verdicts(all).into_iter().map(|verdict| {
        let found = verdict.found.as_ref();
        let on = found.map_or("-", |found| &found.most_on);
        let most = number(found.map(|found| found.most), 2);
        let mean = number(found.map(|found| found.mean), 2);
        let begin = format!("{} | {}", verdict.aim(), number(verdict.limit, 2));
        format!("{begin} | {} | {most} | {on} | {mean}", verdict.word())
    });
    table("Target | At most | Result | Largest | Largest on | Geometric mean", 1, rows)
}

/// The machine's load average over the last minute.
pub fn load_average() -> String {
    let text = fs::read_to_string("/proc/loadavg").unwrap_or_default();
    text.split(' ').next().filter(|number| !number.is_empty()).unwrap_or("unknown").into()
}

#[cfg(test)]
mod tests {
    use super::table;

    #[test]
    fn a_table_has_a_column_for_each_head() {
        let rows = ["x | 1 | 2".to_string()];
        let text = "| a | b | c |\n|---|--:|--:|\n| x | 1 | 2 |";
        assert_eq!(table("a | b | c", 1, rows), text);
    }
}
