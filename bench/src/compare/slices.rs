//! The slices lent in a case: their lengths and what they hold before.

use crate::files::{Problem, MAX_STAGES};
use crate::generate::{lists, Random};
use crate::lent::Lent;
use crate::planner::{ConjoinSlices, Cycle, CycleSlices, GuidedSlices, SweepSlices};
use crate::reference::conjunction::{Conjoined, Conjunction};
use crate::reference::cycles::claimed_stages;
use crate::reference::Judged;

const SWEEP_WORK: usize = 3;
const GUIDED_WORK: usize = 6;
const WORK: usize = SWEEP_WORK + GUIDED_WORK;

/// Entries of the work slices, the sweep's first, and of both plan slices.
struct Lengths {
    work: [usize; WORK],
    plans: [usize; 2],
}

/// The slices of both searches; `enough`: none of them too short.
pub fn drawn(judged: &Judged, enough: bool, random: &mut Random) -> (SweepSlices, GuidedSlices) {
    let Lengths { work, plans } = match judged {
        Ok(facts) => lengths(&facts.problem, enough, random),
        Err(_) => any_lengths(random),
    };
    let [cost, sweep_via, nodes, keys, via, heap, pos, stack, log] =
        work.map(|length| dirty(random, length));
    let [sweep_plan, plan] = plans.map(|length| dirty_plan(random, length));
    let sweep = SweepSlices { cost, via: sweep_via, nodes, plan: sweep_plan };
    (sweep, GuidedSlices { keys, via, heap, pos, stack, log, plan })
}

/// Conjunctions of no more pairs than this are lent slices in every way, others in one.
const FEW_PAIRS: usize = 4_096;

/// The slices of a conjunction, in one way or in several; `enough`: at least one of them has none that
/// is too short.
pub fn drawn_for_conjunction(
    conjoined: &Conjoined,
    enough: bool,
    random: &mut Random,
) -> Vec<ConjoinSlices> {
    let lengths = match conjoined {
        Err(_) => vec![(random.below(6), random.below(60))],
        Ok(found) => {
            let (sufficient, short) = (sufficient(found, random), short(found, random));
            match found.operands.pairs() {
                0..=FEW_PAIRS => [&sufficient[..], &short].concat(),
                _ if enough => vec![random.pick(&sufficient)],
                _ => vec![random.pick(&short)],
            }
        }
    };
    let lent =
        |(work, file)| ConjoinSlices { work: dirty(random, work), file: dirty_bytes(random, file) };
    lengths.into_iter().map(lent).collect()
}

/// The buffers of reductions: just what is needed, more, a byte less and far less; of refused files any
/// one.
pub fn drawn_for_reduction(reduced: &Conjoined, random: &mut Random) -> Vec<Lent<u8>> {
    let lengths = match reduced {
        Err(_) => vec![random.pick(&[0, 5, 14, 60, 4_595])],
        Ok(found) => {
            let whole = found.length();
            vec![whole, whole + random.between(1, 40), whole - 1, random.below(whole)]
        }
    };
    lengths.into_iter().map(|length| dirty_bytes(random, length)).collect()
}

/// The slices of calls on a list: one that is lent enough and, where not `enough`, one that is not; of
/// refused files any one.
pub fn drawn_for_lists(
    chart: &[u8],
    judged: &Judged,
    enough: bool,
    random: &mut Random,
) -> Vec<CycleSlices> {
    let Ok(facts) = judged else {
        let stages = claimed_stages(chart).map_or(1, |count| count.clamp(1, MAX_STAGES));
        let list = lists::drawn(random, stages, (0, stages - 1), MOST_RECORDS);
        let lengths: [usize; GUIDED_WORK] = shuffled(random);
        return vec![list_slices(random, lengths, list)];
    };
    let problem = &facts.problem;
    let mut all = vec![sufficient_for_list(random, problem)];
    if !enough {
        let lengths = short_for_list(random, problem.pairs());
        let list = list_over(random, problem);
        all.push(list_slices(random, lengths, list));
    }
    all
}

/// The most records of any list.
const MOST_RECORDS: usize = 300;
/// Larger problems have fewer records: so many entries of tables are filled for a list by the reference.
const LIST_WORK: usize = 400_000;

/// Where few records are lent the first has the head's own start and end, since those may be in a corner.
const FEW_RECORDS: usize = 10;

fn list_over(random: &mut Random, problem: &Problem) -> Vec<Cycle> {
    let Problem { chart, diagram } = problem;
    let filled = problem.pairs() + chart.steps.len() * diagram.references();
    let most = (LIST_WORK / filled).clamp(2, MOST_RECORDS);
    let mut list = lists::drawn(random, chart.stages, (chart.start, chart.end), most);
    if most < FEW_RECORDS {
        list.insert(0, lists::dirty(random, chart.start, chart.end));
        list.truncate(most);
    }
    list
}

fn list_slices(
    random: &mut Random,
    lengths: [usize; GUIDED_WORK],
    list: Vec<Cycle>,
) -> CycleSlices {
    let [keys, via, heap, pos, stack, log] = lengths.map(|length| dirty(random, length));
    CycleSlices { keys, via, heap, pos, stack, log, list: list.into() }
}

/// In one of four cases each slice has just what it needs; else no two have the same length.
fn sufficient_for_list(random: &mut Random, problem: &Problem) -> CycleSlices {
    let pairs = problem.pairs();
    let lengths = match are_exact(random) {
        true => [pairs; GUIDED_WORK],
        false => shuffled(random).map(|more: usize| pairs + more),
    };
    let list = list_over(random, problem);
    list_slices(random, lengths, list)
}

/// One slice an entry short, or far too short; seldom all of them.
fn short_for_list(random: &mut Random, pairs: usize) -> [usize; GUIDED_WORK] {
    let mut lengths = [pairs + random.below(3); GUIDED_WORK];
    let one = random.below(GUIDED_WORK);
    match random.below(8) {
        0 => lengths.fill(random.below(pairs)),
        1 | 2 => lengths[one] = random.below(pairs),
        _ => lengths[one] = pairs - 1,
    }
    lengths
}

/// Entries of the work slice and bytes of the buffer: just what is needed, and more. Where the result is
/// too large any buffer will do.
fn sufficient(found: &Conjunction, random: &mut Random) -> [(usize, usize); 2] {
    let (work, file) = (found.operands.pairs(), found.length());
    let file =
        if found.is_too_large() { random.pick(&[0, 5, 4_594, 4_595, 4_604, file]) } else { file };
    [(work, file), (work + random.below(9), file + random.below(40))]
}

/// One entry or one byte less, far less, and both too short.
fn short(found: &Conjunction, random: &mut Random) -> [(usize, usize); 5] {
    let (work, file) = (found.operands.pairs(), found.length());
    let (less, shorter) = (random.below(work), random.below(file));
    [(work - 1, file + 3), (work + 3, file - 1), (less, file), (work, shorter), (less, shorter)]
}

/// In one of four cases each slice has just what it needs; else no two have the same length. Where
/// not `enough`, at times a search is lent too little.
fn lengths(problem: &Problem, enough: bool, random: &mut Random) -> Lengths {
    let (pairs, steps) = (problem.pairs(), problem.longest_plan());
    let mut lengths = Lengths { work: [pairs; WORK], plans: [steps; 2] };
    if !are_exact(random) {
        let more: [usize; WORK] = shuffled(random);
        lengths.work.iter_mut().zip(more).for_each(|(length, more)| *length += more);
        let more: [usize; 2] = shuffled(random);
        lengths.plans.iter_mut().zip(more).for_each(|(length, more)| *length += 3 * more);
    }
    if enough {
        return lengths;
    }
    let (sweep, guided) = lengths.work.split_at_mut(SWEEP_WORK);
    let [sweep_plan, plan] = &mut lengths.plans;
    shorten(random, problem, sweep, sweep_plan);
    shorten(random, problem, guided, plan);
    lengths
}

/// Whether each slice has just what it needs; the first draw of all.
pub fn are_exact(random: &mut Random) -> bool {
    random.percent(25)
}

/// Takes entries from the slices of one search in one of five cases.
fn shorten(random: &mut Random, problem: &Problem, work: &mut [usize], plan: &mut usize) {
    let one = random.below(work.len());
    match random.below(20) {
        0 => work[one] = problem.pairs() - 1,
        1 => work[one] = random.below(problem.pairs()),
        2 => *plan = problem.longest_plan().saturating_sub(1),
        3 => work.fill(random.below(2)),
        _ => {}
    }
}

/// Lengths for a call that refuses its files: no two the same.
fn any_lengths(random: &mut Random) -> Lengths {
    Lengths { work: shuffled(random), plans: shuffled(random) }
}

/// The numbers from 0 in any order.
fn shuffled<const COUNT: usize>(random: &mut Random) -> [usize; COUNT] {
    let mut numbers = std::array::from_fn(|at| at);
    for at in 1..COUNT {
        numbers.swap(at, random.between(0, at));
    }
    numbers
}

/// Any content; small numbers and the mark for "none" are common in it.
pub fn dirty(random: &mut Random, length: usize) -> Lent<u32> {
    let entry = |word: u64| match word & 3 {
        0 => (word >> 32) as u32 & 0x3f,
        1 => u32::MAX,
        _ => (word >> 32) as u32,
    };
    (0..length).map(|_| entry(random.word())).collect::<Vec<_>>().into()
}

pub fn dirty_bytes(random: &mut Random, length: usize) -> Lent<u8> {
    (0..length).map(|_| (random.word() >> 40) as u8).collect::<Vec<_>>().into()
}

pub fn dirty_plan(random: &mut Random, length: usize) -> Lent<u16> {
    (0..length).map(|_| (random.word() >> 40) as u16).collect::<Vec<_>>().into()
}
