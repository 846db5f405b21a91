//! The conjunction of two rule diagrams.

use crate::lent::{self, Answer, ConjoinSlices};
use crate::refusal::Refusal;
use crate::work::front;
use crate::{MOST_FILE, MOST_PAIRS};

/// One diagram file for two over the same chart, `rules` (file 2) and `more` (file 3): it says yes
/// exactly to the sets of groups to which both say yes. A plan under it is one that both allow, and
/// none that both allow is cheaper. The diagram is reduced, so files that mean the same give the same
/// bytes. To conjoin often, keep a [`ConjoinWork`].
pub fn conjoin(chart: &[u8], rules: &[u8], more: &[u8]) -> Result<Vec<u8>, Refusal> {
    ConjoinWork::new().conjoin(chart, rules, more).map(<[u8]>::to_vec)
}

/// The slices of a conjunction, enough for any two diagrams: about 1 MB, of which a call touches what
/// its files need.
#[derive(Clone, Debug)]
pub struct ConjoinWork {
    work: Vec<u32>,
    file: Vec<u8>,
}

impl ConjoinWork {
    pub fn new() -> ConjoinWork {
        ConjoinWork { work: vec![0; MOST_PAIRS], file: vec![0; MOST_FILE] }
    }

    /// As [`conjoin`]; the file stands here until the next call. Never [`Refusal::Space`].
    pub fn conjoin(&mut self, chart: &[u8], rules: &[u8], more: &[u8]) -> Result<&[u8], Refusal> {
        let mut answer = Answer::default();
        let lent = ConjoinSlices { work: &mut self.work, file: &mut self.file };
        lent::conjoin(chart, rules, more, lent, &mut answer);
        match Refusal::of(&answer) {
            None => Ok(front(&self.file, answer.length)),
            Some(refusal) => Err(refusal),
        }
    }
}

impl Default for ConjoinWork {
    fn default() -> ConjoinWork {
        ConjoinWork::new()
    }
}
