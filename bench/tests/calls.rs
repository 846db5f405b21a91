//! The calls besides the single searches: both in one, the space needed, the refused field. Every
//! falsified result must be caught, and a planner with a mistake in one of these calls must be found
//! soon.

use planner_bench::cases::{Case, Cases};
use planner_bench::check::{self, FieldCall};
use planner_bench::compare::run;
use planner_bench::planner::{Answer, GuidedSlices, Planner, Space, SweepSlices};
use planner_bench::reference::{judge, Judged};
use planner_bench::same::Same;

/// Cases of the differential test, sound and broken ones, with their judgement.
fn judged_cases() -> Vec<(Case, Judged)> {
    let cases = Cases::new(21);
    let damage = cases.systematic().step_by(37);
    let random = cases.first_random()..cases.first_random() + 400;
    let all = damage.chain(random).map(|number| cases.case(number));
    all.map(|case| (case.clone(), judge(&case.chart, &case.rules))).collect()
}

type Falsify = fn(&mut Space);

const SPACE: [(&str, Falsify); 8] = [
    ("work one more", |s| s.work += 1),
    ("work one less", |s| s.work = s.work.wrapping_sub(1)),
    ("plan one more", |s| s.plan += 1),
    ("plan one less", |s| s.plan = s.plan.wrapping_sub(1)),
    ("another number", |s| s.number ^= 1),
    ("another file", |s| s.file = (s.file + 1) % 3),
    ("another place", |s| s.place ^= 1),
    ("a place beyond 32 bits", |s| s.place |= 1 << 32),
];

#[test]
fn every_falsified_space_is_caught() {
    for (case, judged) in judged_cases() {
        let found = Same.space_needed(&case.chart, &case.rules).expect("the call is there");
        assert_eq!(check::space(&judged, found), Ok(()));
        for (name, falsify) in SPACE {
            let mut false_one = found;
            falsify(&mut false_one);
            assert!(check::space(&judged, false_one).is_err(), "{name}: {false_one:?}");
        }
    }
}

#[test]
fn every_falsified_field_is_caught() {
    let mut caught = 0;
    for (case, judged) in judged_cases() {
        let Err(fault) = judged else { continue };
        let (mark, place) = (fault.file, fault.place);
        let call = FieldCall { chart: &case.chart, rules: &case.rules, mark, place };
        let before = vec![0xa5; 20];
        let mut after = before.clone();
        let length = Same.refused_field(call.chart, call.rules, mark, place, &mut after);
        let length = length.expect("the call is there");
        assert_eq!(check::refused_field(call, &before, &after, length), Ok(()));
        assert!(check::refused_field(call, &before, &after, length + 1).is_err());
        assert!(check::refused_field(call, &before, &after, length.wrapping_sub(1)).is_err());
        for at in 0..after.len() {
            let mut touched = after.clone();
            touched[at] ^= 1;
            assert!(check::refused_field(call, &before, &touched, length).is_err());
            caught += 1;
        }
    }
    assert!(caught > 4_000, "{caught}");
}

#[derive(Clone, Copy, Debug, PartialEq, Eq)]
enum Mistake {
    None,
    AnswersExchanged,
    GuidedLeftOut,
    SweepLeftOut,
    OneRefusalForBoth,
    PlanInTheOtherSlice,
    SpaceOfOnePairLess,
    SpaceWithoutEnd,
    SpaceSaysNoPlan,
    SpaceUnderARefusal,
    FieldWithoutHeader,
    FieldFillsTheSlice,
    FieldCutToTheSlice,
    PlaceOf32Bits,
}

/// Sound but for one mistake.
struct Mistaken(Mistake);

impl Planner for Mistaken {
    fn name(&self) -> &'static str {
        "mistaken"
    }

    fn sweep(&self, chart: &[u8], rules: &[u8], lent: &mut SweepSlices) -> Answer {
        Same.sweep(chart, rules, lent)
    }

    fn guided(&self, chart: &[u8], rules: &[u8], lent: &mut GuidedSlices) -> Answer {
        Same.guided(chart, rules, lent)
    }

    fn both(
        &self,
        chart: &[u8],
        rules: &[u8],
        sweep: &mut SweepSlices,
        guided: &mut GuidedSlices,
    ) -> Option<(Answer, Answer)> {
        let before = (sweep.clone(), guided.clone());
        let (swept, found) = Same.both(chart, rules, sweep, guided)?;
        Some(match self.0 {
            Mistake::AnswersExchanged => (found, swept),
            Mistake::GuidedLeftOut => {
                *guided = before.1;
                (swept, swept)
            }
            Mistake::SweepLeftOut => {
                *sweep = before.0;
                (found, found)
            }
            Mistake::OneRefusalForBoth if swept.number == 7 || found.number == 7 => {
                (*sweep, *guided) = before;
                (Answer::refused(7, 0, 0), Answer::refused(7, 0, 0))
            }
            Mistake::PlanInTheOtherSlice => {
                let shared = sweep.plan.len().min(guided.plan.len());
                sweep.plan[..shared].swap_with_slice(&mut guided.plan[..shared]);
                (swept, found)
            }
            _ => (swept, found),
        })
    }

    fn space_needed(&self, chart: &[u8], rules: &[u8]) -> Option<Space> {
        let space = Same.space_needed(chart, rules)?;
        let accepted = space.number == 0;
        Some(match self.0 {
            Mistake::SpaceOfOnePairLess if accepted => Space { work: space.work - 1, ..space },
            Mistake::SpaceWithoutEnd if accepted => Space { plan: space.plan + 1, ..space },
            Mistake::SpaceUnderARefusal if !accepted => Space { work: 8, ..space },
            Mistake::SpaceSaysNoPlan if accepted && rules.len() < 6 && rules[3] == 0 => {
                Space { number: 8, ..Space::default() }
            }
            _ => space,
        })
    }

    fn refused_field(
        &self,
        chart: &[u8],
        rules: &[u8],
        file: u32,
        place: usize,
        field: &mut [u8],
    ) -> Option<usize> {
        let place = if self.0 == Mistake::PlaceOf32Bits { place as u32 as usize } else { place };
        let length = Same.refused_field(chart, rules, file, place, field)?;
        match self.0 {
            Mistake::FieldWithoutHeader => return Some(length.saturating_sub(3)),
            Mistake::FieldCutToTheSlice => return Some(length.min(field.len())),
            Mistake::FieldFillsTheSlice => field.iter_mut().skip(length).for_each(|b| *b = 0),
            _ => {}
        }
        Some(length)
    }
}

/// How many random cases pass before the first difference, up to a limit.
fn passed_cases(mistake: Mistake, limit: usize) -> usize {
    let planners: Vec<Box<dyn Planner>> = vec![Box::new(Mistaken(mistake))];
    let cases = Cases::new(22);
    let first = cases.first_random();
    (0..limit).find(|at| run(&cases.case(first + at), &planners).is_err()).unwrap_or(limit)
}

#[test]
fn each_mistake_is_found_within_some_hundred_cases() {
    assert_eq!(passed_cases(Mistake::None, 2_000), 2_000);
    for mistake in [
        Mistake::AnswersExchanged,
        Mistake::GuidedLeftOut,
        Mistake::SweepLeftOut,
        Mistake::OneRefusalForBoth,
        Mistake::PlanInTheOtherSlice,
        Mistake::SpaceOfOnePairLess,
        Mistake::SpaceWithoutEnd,
        Mistake::SpaceSaysNoPlan,
        Mistake::SpaceUnderARefusal,
        Mistake::FieldWithoutHeader,
        Mistake::FieldFillsTheSlice,
        Mistake::FieldCutToTheSlice,
        Mistake::PlaceOf32Bits,
    ] {
        assert!(passed_cases(mistake, 300) < 300, "{mistake:?}");
    }
}
