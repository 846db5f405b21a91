//! The checker itself: every falsified result must be caught.

use std::fmt::Debug;

use planner_bench::cases::{Case, Cases};
use planner_bench::check::{self, Checked};
use planner_bench::compare::slices::{dirty, dirty_plan};
use planner_bench::files::Problem;
use planner_bench::generate::Random;
use planner_bench::planner::{Answer, GuidedSlices, Planner, SweepSlices};
use planner_bench::reference::{judge, Facts, Judged};
use planner_bench::same::Same;

/// Changes a result and says whether there was something to change.
type Falsify<S> = fn(&Facts, &mut Answer, &mut S) -> bool;

const SPARE: usize = 3;

fn sweep_slices(problem: &Problem, random: &mut Random) -> SweepSlices {
    let plan = dirty_plan(random, problem.longest_plan() + SPARE);
    SweepSlices::with(|| dirty(random, problem.pairs() + SPARE), plan)
}

fn guided_slices(problem: &Problem, random: &mut Random) -> GuidedSlices {
    let plan = dirty_plan(random, problem.longest_plan() + SPARE);
    GuidedSlices::with(|| dirty(random, problem.pairs() + SPARE), plan)
}

/// Valid problems of the differential test.
fn problems() -> Vec<(Case, Facts)> {
    let cases = Cases::new(5);
    (cases.first_random()..cases.first_random() + 1_500)
        .map(|number| cases.case(number))
        .filter(|case| case.chart.len() < 2_000)
        .filter_map(|case| judge(&case.chart, &case.rules).ok().map(|facts| (case, facts)))
        .collect()
}

fn changed(entry: &mut u32) -> bool {
    *entry ^= 1;
    true
}

fn accepted(answer: &Answer) -> bool {
    answer.number == 0
}

const SWEEP: [(&str, Falsify<SweepSlices>); 20] = [
    ("count one more", |_, a, _| changed_to(&mut a.count, 1)),
    ("count one less", |_, a, _| changed_to(&mut a.count, u32::MAX)),
    ("cost one more", |_, a, _| changed_to(&mut a.cost, 1)),
    ("cost one less", |_, a, _| changed_to(&mut a.cost, u32::MAX)),
    ("cost a tick more", |_, a, _| changed_to(&mut a.cost, 50)),
    ("cost a tick less", |_, a, _| changed_to(&mut a.cost, u32::MAX - 49)),
    ("length one more", |_, a, _| changed_to(&mut a.length, 1)),
    ("length one less", |_, a, _| changed_to(&mut a.length, u32::MAX)),
    ("file set", |_, a, _| changed_to(&mut a.file, 1)),
    ("place set", |_, a, _| {
        a.place += 9;
        true
    }),
    ("cries 8", |_, a, _| {
        let was = accepted(a);
        *a = Answer::no_plan(a.count as usize);
        was
    }),
    ("cries 7", |_, a, _| {
        *a = Answer::refused(7, 0, 0);
        true
    }),
    ("hides 8", |_, a, _| {
        let was = a.number == 8;
        a.number = 0;
        was
    }),
    ("a cost entry", |f, _, s| changed(&mut s.cost[f.start_pair()])),
    ("the last reached pair's cost a tick more", |f, _, s| {
        let last = f.least.iter().rposition(Option::is_some);
        last.is_some_and(|pair| changed_to(&mut s.cost[pair], 50))
    }),
    ("a cost entry of node 0", |_, _, s| {
        s.cost[0] = 0;
        true
    }),
    ("cost past the pairs", |f, _, s| changed(&mut s.cost[f.problem.pairs()])),
    ("via past the pairs", |f, _, s| changed(&mut s.via[f.problem.pairs() + 2])),
    ("nodes past the pairs", |f, _, s| changed(&mut s.nodes[f.problem.pairs()])),
    ("plan past its length", |_, a, s| {
        s.plan[a.length as usize] ^= 1;
        true
    }),
];

fn changed_to(field: &mut u32, add: u32) -> bool {
    *field = field.wrapping_add(add);
    true
}

const GUIDED: [(&str, Falsify<GuidedSlices>); 26] = [
    ("count one more", |_, a, _| changed_to(&mut a.count, 1)),
    ("count one less", |_, a, _| changed_to(&mut a.count, u32::MAX)),
    ("cost one more", |_, a, _| changed_to(&mut a.cost, 1)),
    ("cost a tick more", |_, a, _| changed_to(&mut a.cost, 50)),
    ("cost a tick less", |_, a, _| changed_to(&mut a.cost, u32::MAX - 49)),
    ("length one more", |_, a, _| changed_to(&mut a.length, 1)),
    ("length one less", |_, a, _| changed_to(&mut a.length, u32::MAX)),
    ("file set", |_, a, _| changed_to(&mut a.file, 1)),
    ("place set", |_, a, _| {
        a.place += 9;
        true
    }),
    ("cries 7", |_, a, _| {
        *a = Answer::refused(7, 0, 0);
        true
    }),
    ("cries 8", |_, a, _| {
        let was = accepted(a);
        *a = Answer::no_plan(a.count as usize);
        was
    }),
    ("the log's first entry", |_, a, s| a.count > 0 && changed(&mut s.log[0])),
    ("the log's last entry", |f, a, s| {
        let Some(last) = (a.count as usize).checked_sub(1) else { return false };
        changed(&mut s.log[last]);
        // Another goal pair of the same sum would do as well.
        let pair = s.log[last] as usize;
        pair >= f.problem.pairs() || !f.is_goal(pair)
    }),
    ("the log's first two entries exchanged", |_, a, s| {
        s.log.swap(0, 1);
        a.count > 1
    }),
    ("an entry twice", |_, a, s| {
        s.log[a.count.saturating_sub(1) as usize] = s.log[0];
        a.count > 1
    }),
    ("an entry left out", |_, a, s| {
        let out = a.count > 2;
        if out {
            let last = s.log[a.count as usize - 1];
            s.log.copy_within(2..a.count as usize, 1);
            s.log[a.count as usize - 1] = last;
        }
        out
    }),
    ("guesses after the first entry", |_, a, s| {
        let guessed = a.count > 2;
        (1..a.count as usize).for_each(|at| s.log[at] = at as u32);
        guessed
    }),
    ("an entry of node 0", |f, a, s| {
        let last = a.count.saturating_sub(1) as usize;
        s.log[last] = u32::from(f.problem.chart.end) * f.references() as u32;
        a.count > 0
    }),
    ("no pair at all", |f, a, s| {
        s.log[a.count.saturating_sub(1) as usize] = f.problem.pairs() as u32;
        a.count > 0
    }),
    ("the log past its count", |_, a, s| changed(&mut s.log[a.count as usize])),
    ("keys past the pairs", |f, _, s| changed(&mut s.keys[f.problem.pairs()])),
    ("via past the pairs", |f, _, s| changed(&mut s.via[f.problem.pairs()])),
    ("pos past the pairs", |f, _, s| changed(&mut s.pos[f.problem.pairs() + 1])),
    ("heap past the pairs", |f, _, s| changed(&mut s.heap[f.problem.pairs() + 1])),
    ("stack past the pairs", |f, _, s| changed(&mut s.stack[f.problem.pairs() + 2])),
    ("plan past its length", |_, a, s| {
        s.plan[a.length as usize] ^= 1;
        true
    }),
];

/// A search: the slices lent to it, its run, its check.
struct Search<S> {
    lend: fn(&Problem, &mut Random) -> S,
    run: fn(&Case, &mut S) -> Answer,
    check: fn(&Judged, &S, &S, Answer) -> Checked,
}

impl<S: Clone + PartialEq + Debug> Search<S> {
    /// Every honest result passes, and each falsified one is caught, on many problems.
    fn catches(&self, falsified: &[(&str, Falsify<S>)], seed: u64) {
        let mut random = Random::new(seed);
        let problems = problems();
        for (name, falsify) in falsified {
            let mut caught = 0;
            for (case, facts) in &problems {
                let before = (self.lend)(&facts.problem, &mut random);
                let mut after = before.clone();
                let mut answer = (self.run)(case, &mut after);
                let judged = Ok(facts.clone());
                assert_eq!((self.check)(&judged, &before, &after, answer), Ok(()));
                let honest = (answer, after.clone());
                let applied = falsify(facts, &mut answer, &mut after);
                if applied && (answer, &after) != (honest.0, &honest.1) {
                    let found = (self.check)(&judged, &before, &after, answer);
                    assert!(found.is_err(), "{name}: {facts:?} {answer:?} {after:?}");
                    caught += 1;
                }
            }
            assert!(caught > 100, "{name}: tried {caught} times");
        }
    }
}

#[test]
fn every_falsified_sweep_is_caught() {
    let run = |case: &Case, lent: &mut _| Same.sweep(&case.chart, &case.rules, lent);
    Search { lend: sweep_slices, run, check: check::sweep }.catches(&SWEEP, 6);
}

#[test]
fn every_falsified_guided_search_is_caught() {
    let run = |case: &Case, lent: &mut _| Same.guided(&case.chart, &case.rules, lent);
    Search { lend: guided_slices, run, check: check::guided }.catches(&GUIDED, 7);
}

#[test]
fn a_difference_is_told_by_its_place_in_the_slice() {
    let (case, facts) = problems().swap_remove(0);
    let pairs = facts.problem.pairs();
    let before = sweep_slices(&facts.problem, &mut Random::new(10));
    let mut after = before.clone();
    let answer = Same.sweep(&case.chart, &case.rules, &mut after);
    after.cost[pairs + 2] ^= 1;
    let text = check::sweep(&Ok(facts), &before, &after, answer).unwrap_err();
    let (at, found, want) = (pairs + 2, after.cost[pairs + 2], before.cost[pairs + 2]);
    assert!(text.ends_with(&format!(": cost[{at}] is {found} and not {want}")), "{text}");
}

#[test]
fn a_refusal_that_touches_a_slice_is_caught() {
    let mut random = Random::new(8);
    let cases = Cases::new(9);
    let mut caught = 0;
    for number in cases.systematic().step_by(29) {
        let case = cases.case(number);
        let judged = judge(&case.chart, &case.rules);
        let Err(fault) = judged else { continue };
        let answer = Answer::refused(fault.number, fault.file, fault.place);
        let before = SweepSlices {
            cost: dirty(&mut random, 4),
            via: dirty(&mut random, 4),
            nodes: dirty(&mut random, 4),
            plan: dirty_plan(&mut random, 4),
        };
        assert_eq!(check::sweep(&judged, &before, &before, answer), Ok(()));
        let touched: [fn(&mut SweepSlices); 4] =
            [|s| s.cost[3] ^= 1, |s| s.via[0] ^= 1, |s| s.nodes[1] ^= 1, |s| s.plan[2] ^= 1];
        for touch in touched {
            let mut after = before.clone();
            touch(&mut after);
            assert!(check::sweep(&judged, &before, &after, answer).is_err());
            caught += 1;
        }
        let elsewhere = Answer { place: answer.place + 1, ..answer };
        assert!(check::sweep(&judged, &before, &before, elsewhere).is_err());
    }
    assert!(caught > 400);
}
