//! The library's calls stay within the stack that `include/planner.h` says is enough.
#![cfg(feature = "library")]

use planner_bench::loads::{growth, remarks, standard};
use planner_bench::planner;
use planner_bench::stacks::peaks;

#[test]
fn every_call_stays_within_planner_stack() {
    let header = include_str!("../../include/planner.h");
    let line = header.lines().find_map(|line| line.strip_prefix("#define PLANNER_STACK "));
    let most: usize = line.and_then(|number| number.parse().ok()).expect("PLANNER_STACK");
    let plain = standard().into_iter().chain(growth()).step_by(5);
    let loads: Vec<_> = plain.chain(remarks()).collect();
    let found = peaks(&planner::timed(), &loads);
    let library = found.iter().filter(|peak| peak.planner == "library");
    assert_eq!(library.clone().count(), 8);
    for peak in library {
        assert!(peak.bytes < most, "{peak:?}");
    }
}
