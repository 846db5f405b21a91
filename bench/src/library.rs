//! The planner's static library as one more implementation (feature `library`), by the wrapper crate
//! in `rust/`. The number that a call returns besides its answer is checked here; a panic counts as a
//! difference.

use std::mem::offset_of;
use std::slice;

use planner::lent;

use crate::crash;
use crate::lent::{Lent, Side};
use crate::planner::{
    Answer, ConjoinSlices, Cycle, CycleSlices, GuidedSlices, Planner, Space, SweepSlices,
};

/// The linked library.
pub struct Library {
    /// Whether answers are written beside a page that faults, and not on the stack.
    pub guarded: bool,
}

impl Library {
    /// Makes a call that writes an answer: the number it returned, and the answer.
    fn answered<T: Copy>(
        &self,
        unwritten: T,
        side: Side,
        call: impl FnOnce(&mut T) -> u32,
    ) -> (u32, T) {
        if !self.guarded {
            let mut answer = unwritten;
            return (call(&mut answer), answer);
        }
        let mut answer = Lent::beside_guard(&[unwritten], side);
        crash::add(answer.span("answer"));
        let returned = call(&mut answer[0]);
        assert!(answer.span("answer").intact, "bytes beside the answer have changed");
        (returned, answer[0])
    }
}

/// Any side, but the same for the same files.
fn side(chart: &[u8], rules: &[u8]) -> Side {
    if (chart.len() ^ rules.len()) & 1 == 0 {
        Side::Start
    } else {
        Side::End
    }
}

/// An answer before the call, so that an entry that isn't written shows.
pub(crate) const UNWRITTEN: lent::Answer = lent::Answer {
    number: usize::MAX,
    file: usize::MAX,
    place: usize::MAX,
    cost: usize::MAX,
    length: usize::MAX,
    count: usize::MAX,
};

pub(crate) const UNWRITTEN_SPACE: lent::Space = lent::Space {
    number: usize::MAX,
    file: usize::MAX,
    place: usize::MAX,
    work: usize::MAX,
    plan: usize::MAX,
};

/// The answer, with the number that the call returned.
pub(crate) fn answer_of(returned: u32, answer: lent::Answer) -> Answer {
    assert_eq!(returned as usize, answer.number, "returned number, {answer:?}");
    let narrow = |entry: usize| u32::try_from(entry).expect("an entry of at most 32 bits");
    Answer {
        number: returned,
        file: narrow(answer.file),
        place: answer.place,
        cost: narrow(answer.cost),
        length: narrow(answer.length),
        count: narrow(answer.count),
    }
}

/// The same of the space needed.
pub(crate) fn space_of(returned: u32, space: lent::Space) -> Space {
    let lent::Space { number, file, place, work, plan } = space;
    assert_eq!(returned as usize, number, "returned number, {space:?}");
    let file = u32::try_from(file).expect("a file mark");
    Space { number: returned, file, place, work, plan }
}

fn lend_sweep(lent: &mut SweepSlices) -> lent::SweepSlices<'_> {
    let SweepSlices { cost, via, nodes, plan } = lent;
    lent::SweepSlices { cost, via, nodes, plan }
}

fn lend_guided(lent: &mut GuidedSlices) -> lent::GuidedSlices<'_> {
    let GuidedSlices { keys, via, heap, pos, stack, log, plan } = lent;
    lent::GuidedSlices { keys, via, heap, pos, stack, log, plan }
}

/// The records as the wrapper has them, where they lie.
fn lend_list(list: &mut [Cycle]) -> &mut [lent::Cycle] {
    const { assert!(size_of::<Cycle>() == size_of::<lent::Cycle>()) };
    const { assert!(align_of::<Cycle>() == align_of::<lent::Cycle>()) };
    const { assert!(offset_of!(Cycle, end) == offset_of!(lent::Cycle, end)) };
    const { assert!(offset_of!(Cycle, number) == offset_of!(lent::Cycle, number)) };
    const { assert!(offset_of!(Cycle, cost) == offset_of!(lent::Cycle, cost)) };
    const { assert!(offset_of!(Cycle, count) == offset_of!(lent::Cycle, count)) };
    // SAFETY: fields of the same types at the same places; the list is borrowed for as long.
    unsafe { slice::from_raw_parts_mut(list.as_mut_ptr().cast(), list.len()) }
}

impl Planner for Library {
    fn name(&self) -> &'static str {
        "library"
    }

    fn sweep(&self, chart: &[u8], rules: &[u8], lent: &mut SweepSlices) -> Answer {
        let (returned, answer) = self.answered(UNWRITTEN, side(chart, rules), |answer| {
            lent::sweep(chart, rules, lend_sweep(lent), answer)
        });
        answer_of(returned, answer)
    }

    fn guided(&self, chart: &[u8], rules: &[u8], lent: &mut GuidedSlices) -> Answer {
        let (returned, answer) = self.answered(UNWRITTEN, side(chart, rules), |answer| {
            lent::guided(chart, rules, lend_guided(lent), answer)
        });
        answer_of(returned, answer)
    }

    fn both(
        &self,
        chart: &[u8],
        rules: &[u8],
        sweep: &mut SweepSlices,
        guided: &mut GuidedSlices,
    ) -> Option<(Answer, Answer)> {
        let side = side(chart, rules);
        let mut found = Answer::default();
        let (_, swept) = self.answered(UNWRITTEN, side, |swept| {
            let (returned, second) = self.answered(UNWRITTEN, side, |second| {
                let answers = (swept, second);
                lent::both(chart, rules, lend_sweep(sweep), lend_guided(guided), answers)
            });
            found = answer_of(returned, second);
            returned
        });
        Some((answer_of(swept.number as u32, swept), found))
    }

    fn cycles(&self, chart: &[u8], rules: &[u8], lent: &mut CycleSlices) -> Option<Answer> {
        let (returned, answer) = self.answered(UNWRITTEN, side(chart, rules), |answer| {
            let CycleSlices { keys, via, heap, pos, stack, log, list } = lent;
            let lent = lent::CycleSlices { keys, via, heap, pos, stack, log };
            lent::cycles(chart, rules, lent, lend_list(list), answer)
        });
        Some(answer_of(returned, answer))
    }

    fn space_needed(&self, chart: &[u8], rules: &[u8]) -> Option<Space> {
        let (returned, space) = self.answered(UNWRITTEN_SPACE, side(chart, rules), |space| {
            lent::space_needed(chart, rules, space)
        });
        Some(space_of(returned, space))
    }

    fn refused_field(
        &self,
        chart: &[u8],
        rules: &[u8],
        file: u32,
        place: usize,
        field: &mut [u8],
    ) -> Option<usize> {
        Some(lent::refused_field(chart, rules, file, place, field))
    }

    fn conjoin(
        &self,
        chart: &[u8],
        rules: &[u8],
        more: &[u8],
        lent: &mut ConjoinSlices,
    ) -> Option<Answer> {
        let (returned, answer) = self.answered(UNWRITTEN, side(rules, more), |answer| {
            let ConjoinSlices { work, file } = lent;
            lent::conjoin(chart, rules, more, lent::ConjoinSlices { work, file }, answer)
        });
        Some(answer_of(returned, answer))
    }

    fn reduce(&self, chart: &[u8], rules: &[u8], file: &mut [u8]) -> Option<Answer> {
        let (returned, answer) = self.answered(UNWRITTEN, side(chart, rules), |answer| {
            lent::reduce(chart, rules, file, answer)
        });
        Some(answer_of(returned, answer))
    }
}
