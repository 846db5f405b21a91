//! A landing's line in the table of docs/PERFORMANCE.md.

use crate::measure::Call;
use crate::ratios::{spread, Measured};
use crate::report::number;

/// The implementation that the first columns compare with: the library as it was, or itself.
const BASE: &str = "before";

/// The line of an implementation's geometric means: to the base and to `same` in each call, the
/// largest ratio to `same`, and the textbook's times in its own.
pub fn line(landing: &str, subject: &str, standard: &[Measured]) -> String {
    let mean = |of: &str, to: &str, call| spread(standard, of, to, call).map(|found| found.mean);
    let most = |call| spread(standard, subject, "same", call).map(|found| found.most);
    let mut cells = vec![landing.to_string()];
    cells.extend(Call::ALL.map(|call| number(mean(subject, BASE, call), 2)));
    cells.extend(Call::ALL.map(|call| number(mean(subject, "same", call), 2)));
    cells.push(number(Call::ALL.into_iter().filter_map(most).reduce(f64::max), 2));
    cells.extend(Call::SEARCHES.map(|call| number(mean("textbook", subject, call), 1)));
    format!("| {} |", cells.join(" | "))
}

/// The page with the landing's line replaced; none where it has no such line.
pub fn with_line(page: &str, landing: &str, line: &str) -> Option<String> {
    let begin = format!("| {landing} |");
    page.lines().any(|old| old.starts_with(&begin)).then(|| {
        let lines = page.lines().map(|old| if old.starts_with(&begin) { line } else { old });
        lines.map(|line| format!("{line}\n")).collect()
    })
}

#[cfg(test)]
mod tests {
    use super::{line, with_line};
    use crate::loads::standard;
    use crate::measure::{Call, Timing};
    use crate::ratios::Measured;

    #[test]
    fn only_the_landings_line_changes() {
        let page = "a\n| base | 1 |\n| base 2 | 1 |\nb\n";
        let new = "a\n| base | 3 |\n| base 2 | 1 |\nb\n";
        assert_eq!(with_line(page, "base", "| base | 3 |").as_deref(), Some(new));
        assert_eq!(with_line(page, "bas", "| bas | 3 |"), None);
    }

    #[test]
    fn a_line_has_the_means() {
        let mut measured = Measured::new(&standard()[0]).expect("the example's files");
        for (planner, nanoseconds) in
            [("library", 2.0), ("before", 4.0), ("same", 1.0), ("textbook", 8.0)]
        {
            let placed = vec![nanoseconds];
            let call = Call::Guided;
            let timing = Timing { planner, call, nanoseconds, placed, count: 1 };
            measured.add(0, 1, vec![timing]);
        }
        let all = [measured];
        let library = "| fast | - | 0.50 | - | - | 2.00 | - | 2.00 | - | 4.0 |";
        assert_eq!(line("fast", "library", &all), library);
        let before = "| base | - | 1.00 | - | - | 4.00 | - | 4.00 | - | 2.0 |";
        assert_eq!(line("base", "before", &all), before);
    }
}
