//! Slices beside pages that fault: what they hold, and that a touch outside them shows.

use planner_bench::cases::example_problem;
use planner_bench::compare::slices::drawn;
use planner_bench::generate::Random;
use planner_bench::guard::{Region, PAGE};
use planner_bench::lent::{Lent, Side, Span};
use planner_bench::planner::{GuidedSlices, SweepSlices};
use planner_bench::reference::{too_short, Facts, Judged};

const SIDES: [Side; 2] = [Side::Start, Side::End];
const LENGTHS: [usize; 8] = [0, 1, 7, 1_023, 1_024, 1_025, 4_096, 131_075];

#[test]
fn a_slice_holds_what_it_was_made_of() {
    let mut random = Random::new(41);
    for length in LENGTHS {
        for side in SIDES {
            let content: Vec<u32> = (0..length).map(|_| random.word() as u32).collect();
            let mut lent = Lent::beside_guard(&content, side);
            assert_eq!(lent[..], content);
            lent.iter_mut().for_each(|entry| *entry ^= 1);
            let copy = lent.clone();
            assert!(lent.iter().zip(&content).all(|(now, before)| now ^ 1 == *before));
            assert_eq!(lent, copy);
            assert!(lent.span("lent").intact && copy.span("copy").intact);
        }
    }
}

#[test]
fn one_end_touches_the_edge_of_a_page() {
    for length in LENGTHS {
        let at_start = Lent::beside_guard(&vec![7_u16; length], Side::Start).span("start");
        assert_eq!((at_start.start % PAGE, at_start.bytes), (0, 2 * length));
        let at_end = Lent::beside_guard(&vec![7_u8; length], Side::End).span("end");
        assert_eq!(((at_end.start + length) % PAGE, at_end.bytes), (0, length));
    }
}

#[test]
fn a_write_on_the_open_side_is_seen() {
    for distance in [1, 4, 256] {
        let mut lent = Lent::beside_guard(&[7_u32; 5], Side::Start);
        // SAFETY: the rest of the slice's page is its own.
        unsafe { lent.as_mut_ptr_range().end.cast::<u8>().add(distance - 1).write(0) };
        assert!(!lent.span("lent").intact);
        let mut lent = Lent::beside_guard(&[7_u32; 5], Side::End);
        // SAFETY: as above.
        unsafe { lent.as_mut_ptr().cast::<u8>().sub(distance).write(0) };
        assert!(!lent.span("lent").intact);
        assert_eq!(lent[..], [7; 5]);
    }
}

#[test]
fn a_region_is_used_again() {
    let first = Region::take(3 * PAGE);
    let (at, bytes) = (first.start(), first.bytes());
    assert_eq!(bytes, 4 * PAGE);
    first.give_back();
    let second = Region::take(4 * PAGE);
    assert_eq!((second.start(), second.bytes()), (at, bytes));
}

#[test]
fn every_slice_of_a_search_is_lent_beside_a_page() {
    let mut random = Random::new(42);
    let sides = |spans: &[Span]| {
        let at_start = spans.iter().filter(|span| span.start % PAGE == 0).count();
        let at_end = spans.iter().filter(|span| (span.start + span.bytes) % PAGE == 0).count();
        assert_eq!(at_start + at_end, spans.len());
        at_start
    };
    let (mut starts, turns) = (0, 50);
    for _ in 0..turns {
        starts += sides(&SweepSlices::of(9, 4).beside_guards(&mut random).spans());
        starts += sides(&GuidedSlices::of(9, 4).beside_guards(&mut random).spans());
    }
    assert!((turns..10 * turns).contains(&starts), "{starts} of {}", 11 * turns);
}

/// Work lengths of both searches, then both plan lengths.
fn lengths((sweep, guided): &(SweepSlices, GuidedSlices)) -> (Vec<usize>, [usize; 2]) {
    let work = [&sweep.work_lengths()[..], &guided.work_lengths()].concat();
    (work, [sweep.plan.len(), guided.plan.len()])
}

#[test]
fn lent_lengths_differ_or_are_just_enough() {
    let problem = example_problem();
    let judged: Judged = Ok(Facts::by_dynamic_programming(&problem));
    let mut random = Random::new(43);
    let (mut exact, mut different) = (0, 0);
    for _ in 0..400 {
        let (mut work, plans) = lengths(&drawn(&judged, true, &mut random));
        assert!(!too_short(&problem, &work, plans[0].min(plans[1])));
        exact += usize::from(work.iter().all(|length| *length == problem.pairs()));
        work.sort_unstable();
        work.dedup();
        different += usize::from(work.len() == 9 && plans[0] != plans[1]);
    }
    assert_eq!(exact + different, 400);
    assert!((50..150).contains(&exact), "{exact}");
}

#[test]
fn each_slice_is_at_times_too_short() {
    let problem = example_problem();
    let judged: Judged = Ok(Facts::by_dynamic_programming(&problem));
    let mut random = Random::new(44);
    let mut short = [0; 11];
    for _ in 0..5_000 {
        let (work, plans) = lengths(&drawn(&judged, false, &mut random));
        let work = work.iter().map(|length| *length < problem.pairs());
        let plans = plans.iter().map(|length| *length < problem.longest_plan());
        work.chain(plans)
            .zip(&mut short)
            .for_each(|(is_short, count)| *count += i32::from(is_short));
    }
    assert!(short.iter().all(|count| (100..2_000).contains(count)), "{short:?}");
}
