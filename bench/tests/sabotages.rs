//! Tests of the tests: each sabotage must be found, a crash told with its case, and a saved case must
//! fail again. The programs run as children, since some sabotages end them.

use std::path::PathBuf;
use std::process::{Command, Output};
use std::time::Duration;

use planner_bench::cases::Cases;
use planner_bench::fuzz::{Bounds, Corpus, Fuzz};
use planner_bench::sabotage::{first_planner, lists, padding, readings};

const DIFFTEST: &str = env!("CARGO_BIN_EXE_difftest");
const FUZZ: &str = env!("CARGO_BIN_EXE_fuzz");

/// Runs a program that saves in a folder of its own; the folder is left behind empty-handed.
fn run(program: &str, name: &str, arguments: &[&str]) -> (Output, PathBuf) {
    let folder = std::env::temp_dir().join(format!("sabotages-{}-{name}", std::process::id()));
    let run = Command::new(program).args(arguments).arg("--save").arg(&folder).output();
    (run.expect("the program runs"), folder)
}

fn shown(output: &Output) -> String {
    String::from_utf8_lossy(&output.stdout).into_owned()
}

#[test]
fn the_differential_test_finds_every_sabotage() {
    let all = Command::new(DIFFTEST).args(["--sabotage", "all"]).output().expect("it runs");
    let text = shown(&all);
    assert_eq!(all.status.code(), Some(0), "{text}");
    assert!(text.ends_with(" sabotages, 0 not found\n"), "{text}");
}

#[test]
fn a_crash_is_told_and_its_case_fails_again() {
    let cases = Cases::new(20_170_204);
    let conjunctions = cases.conjunctions().start.to_string();
    let padding = cases.padding().start.to_string();
    let random = cases.first_random().to_string();
    for (name, slice, from) in [
        ("read-past-chart", "end of chart", "0"),
        ("read-before-keys", "slice keys", "0"),
        ("conjoin-reads-past-file-3", "end of more", &conjunctions[..]),
        ("reduce-reads-past-file-2", "end of rules", &padding),
        ("cycles-reads-past-chart", "end of chart", &random),
    ] {
        let (first, folder) = run(DIFFTEST, name, &["--sabotage", name, "--first", from]);
        let text = shown(&first);
        assert_eq!(first.status.code(), Some(1), "{text}");
        assert!(text.contains("SIGSEGV") && text.contains(slice), "{text}");
        let replay = ["--sabotage", name, "--replay", folder.to_str().expect("a path")];
        let again = Command::new(DIFFTEST).args(replay).output().expect("it runs");
        assert_eq!(again.status.code(), Some(1), "{}", shown(&again));
        assert!(shown(&again).contains(slice), "{}", shown(&again));
        let sound = Command::new(DIFFTEST).args(&replay[2..]).output().expect("it runs");
        assert_eq!(sound.status.code(), Some(0), "{}", shown(&sound));
        std::fs::remove_dir_all(folder).expect("the case was saved");
    }
}

#[test]
fn fuzzing_finds_wrong_places_and_touches_outside() {
    for name in ["place-above-4000", "number-above-4000", "read-past-rules", "write-before-heap"] {
        let (found, folder) = run(FUZZ, name, &["--sabotage", name, "--seconds", "60"]);
        assert_eq!(found.status.code(), Some(1), "{}", shown(&found));
        let replay = ["--sabotage", name, "--replay", folder.to_str().expect("a path")];
        let again = Command::new(DIFFTEST).args(replay).output().expect("it runs");
        assert_eq!(again.status.code(), Some(1), "{}", shown(&again));
        std::fs::remove_dir_all(folder).expect("the case was saved");
    }
}

/// Wrong readings of file 3.
const OF_FILE_3: [&str; 11] = [
    "13-not-in-file-3",
    "13-of-file-3-in-file-2",
    "13-of-file-3-before-2",
    "13-of-file-2-after-3",
    "conjoin-mark-2-for-file-3",
    "conjoin-file-3-before-2",
    "conjoin-roots-last",
    "conjoin-root-of-file-3-free",
    "conjoin-remark-in-file-3",
    "conjoin-long-file-3",
    "conjoin-file-3-over-one-step-more",
];

/// What is wrong about padding with several hundred nodes alone.
const OF_MANY_NODES: [&str; 13] = [
    "13-within-255-nodes",
    "13-within-508-nodes",
    "13-of-first-256-nodes",
    "13-not-at-510th",
    "13-for-511th",
    "13-for-511th-alike",
    "reduce-511th-alike-passes",
    "reduce-12-for-510-nodes",
    "reduce-12-for-510-reduced",
    "reduce-doubles-among-many",
    "reduce-alike-by-low-byte-of-lo",
    "reduce-509-deep",
    "reduce-cost",
];

/// What is wrong about lists on large charts alone.
const OF_LARGE_CHARTS: [&str; 3] =
    ["cycles-cost-above-70000000", "cycles-count-above-8000", "cycles-256-stages-refused"];

/// Those that end the program are found as well, but not by a test in it.
#[test]
fn fuzzing_finds_every_wrong_reading() {
    let corpus = Corpus::new(58);
    let time = Duration::from_secs(60);
    let bounds = Bounds { first: 0, cases: 60_000, time, threads: 2 };
    let of_padding = padding().map(|sabotage| sabotage.name);
    let of_padding =
        of_padding.filter(|name| !OF_MANY_NODES.contains(name) && !name.contains("-past-"));
    let of_lists = lists().map(|sabotage| sabotage.name);
    let of_lists = of_lists.filter(|name| {
        let ends_program = name.contains("-reads-") || name.contains("-writes-");
        !ends_program && !OF_LARGE_CHARTS.contains(name)
    });
    let of_files = readings().map(|sabotage| sabotage.name).chain(OF_FILE_3);
    for name in of_files.chain(of_padding).chain(of_lists) {
        let planner = [first_planner(Some(name)).expect("a sabotage of that name")];
        let agreed = Fuzz::new(&corpus, &planner, bounds).run(|_| {}, |_| {});
        assert!(!agreed, "{name}");
    }
}

#[test]
fn fuzzing_ends_after_its_cases() {
    let (done, _) = run(FUZZ, "none", &["--cases", "3000", "--seed", "5"]);
    let text = shown(&done);
    assert_eq!(done.status.code(), Some(0), "{text}");
    assert!(text.lines().last().is_some_and(|line| line.starts_with("3000 pairs")), "{text}");
}
