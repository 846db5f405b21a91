//! The reference's two methods against each other, and its range of counts against every run of a
//! guided search.

use std::collections::{BTreeMap, BTreeSet};

use planner_bench::files::Problem;
use planner_bench::generate::charts::{random_chart, Costs, Ends, Shape, Spans};
use planner_bench::generate::diagrams::random_diagram;
use planner_bench::generate::Random;
use planner_bench::reference::rules::{finish, stands_at, verdict};
use planner_bench::reference::ways::{each_way, set_of};
use planner_bench::reference::Facts;

fn small(random: &mut Random, stages: usize, steps: usize, nodes: usize) -> Problem {
    let chart = random_chart(random, stages, steps);
    let diagram = random_diagram(random, &chart, nodes);
    Problem { chart, diagram }.rounded()
}

/// A problem with many equal sums.
fn tied(random: &mut Random) -> Problem {
    let shape = Shape {
        stages: random.between(2, 6),
        steps: random.between(2, 10),
        costs: random.pick(&[
            Costs::Zero,
            Costs::Equal,
            Costs::Few,
            Costs::MostlyZero,
            Costs::Alike,
        ]),
        spans: random.pick(&[Spans::Next, Spans::Short, Spans::Any]),
        ends: Ends::Outermost,
    };
    let chart = shape.chart(random);
    let diagram = random_diagram(random, &chart, 8);
    Problem { chart, diagram }.rounded()
}

#[test]
fn enumeration_and_dynamic_programming_agree() {
    let mut random = Random::new(1);
    let mut with_plan = 0;
    let mut compared = 0;
    while compared < 6_000 {
        let problem = small(&mut random, 9, 16, 14);
        let facts = Facts::by_dynamic_programming(&problem);
        let Some(counted) = Facts::by_enumeration(&problem, 5_000) else { continue };
        assert_eq!(counted, facts, "{problem:?}");
        compared += 1;
        with_plan += usize::from(facts.cheapest.is_some());
    }
    assert!(with_plan > 2_000, "{with_plan} of {compared} have a plan");
}

#[test]
fn a_way_stands_at_a_node_that_finishes_at_the_verdict() {
    let mut random = Random::new(2);
    for _ in 0..2_000 {
        let Problem { chart, diagram } = small(&mut random, 6, 12, 12);
        for stage in 0..chart.stages {
            each_way(&chart, stage, 500, &mut |way| {
                let says_yes = verdict(&diagram, &set_of(&chart, way.steps));
                let node = stands_at(&diagram, &chart.groups_of(way.steps));
                assert_eq!(finish(&diagram, node) == 1, says_yes);
            });
        }
    }
}

#[test]
fn estimates_never_fall_short_along_a_step() {
    let mut random = Random::new(3);
    for _ in 0..2_000 {
        let facts = Facts::by_dynamic_programming(&small(&mut random, 8, 20, 20));
        for pair in 0..facts.least.len() {
            for (next, cost) in facts.followers(pair) {
                let Some(rest) = facts.estimate(next) else { continue };
                assert!(facts.estimate(pair).is_some_and(|estimate| estimate <= cost + rest));
            }
        }
    }
}

#[test]
fn no_more_is_settled_than_is_reached() {
    let mut random = Random::new(31);
    for _ in 0..2_000 {
        let facts = Facts::by_dynamic_programming(&small(&mut random, 12, 40, 30));
        let (fewest, most) = facts.settled_range();
        assert!(fewest <= most && most <= facts.reached(), "{facts:?}");
    }
}

/// All counts that a guided search can have, by trying every choice among equal keys. None where
/// that takes more than so many turns.
struct AllRuns<'a> {
    facts: &'a Facts,
    seen: BTreeSet<Vec<usize>>,
    counts: BTreeSet<u32>,
    turns: usize,
}

impl AllRuns<'_> {
    fn of(facts: &Facts) -> Option<BTreeSet<u32>> {
        let mut runs =
            AllRuns { facts, seen: BTreeSet::new(), counts: BTreeSet::new(), turns: 3_000 };
        let start = facts.start_pair();
        let open = facts.estimate(start).map(|_| (start, 0)).into_iter().collect();
        runs.explore(open, BTreeSet::new()).then_some(runs.counts)
    }

    /// `open` has the least cost so far of each open pair.
    fn explore(&mut self, open: BTreeMap<usize, u32>, settled: BTreeSet<usize>) -> bool {
        if self.turns == 0 {
            return false;
        }
        self.turns -= 1;
        let key = |pair: usize, cost: u32| cost + self.facts.estimate(pair).unwrap_or(0);
        let Some(smallest) = open.iter().map(|(pair, cost)| key(*pair, *cost)).min() else {
            self.counts.insert(settled.len() as u32);
            return true;
        };
        let choices: Vec<(usize, u32)> =
            open.iter().map(|(p, c)| (*p, *c)).filter(|(p, c)| key(*p, *c) == smallest).collect();
        choices.into_iter().all(|(pair, cost)| self.settle(pair, cost, &open, &settled))
    }

    fn settle(
        &mut self,
        pair: usize,
        cost: u32,
        open: &BTreeMap<usize, u32>,
        settled: &BTreeSet<usize>,
    ) -> bool {
        let (mut open, mut settled) = (open.clone(), settled.clone());
        open.remove(&pair);
        settled.insert(pair);
        if self.facts.is_goal(pair) {
            self.counts.insert(settled.len() as u32);
            return true;
        }
        if !self.seen.insert(settled.iter().copied().collect()) {
            return true;
        }
        for (next, step_cost) in self.facts.followers(pair) {
            if self.facts.estimate(next).is_none() || settled.contains(&next) {
                continue;
            }
            let known = open.entry(next).or_insert(u32::MAX);
            *known = (*known).min(cost + step_cost);
        }
        self.explore(open, settled)
    }
}

#[test]
fn every_count_in_the_range_is_possible_and_no_other() {
    let mut random = Random::new(4);
    let (mut compared, mut wide) = (0, 0);
    while compared < 8_000 {
        let facts = Facts::by_dynamic_programming(&tied(&mut random));
        let Some(counts) = AllRuns::of(&facts) else { continue };
        let (fewest, most) = facts.settled_range();
        assert!(counts.iter().copied().eq(fewest..=most), "{counts:?} {facts:?}");
        compared += 1;
        wide += usize::from(fewest < most);
    }
    assert!(wide > 1_000, "{wide} of {compared} leave a choice");
}
