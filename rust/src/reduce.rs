//! The reduction of a rule diagram.

use crate::lent::{self, Answer};
use crate::refusal::Refusal;
use crate::work::front;
use crate::MOST_FILE;

/// The reduced file of a diagram, also of a padded one, which every other call refuses with
/// [`Refusal::Padded`]. It says yes to the same sets of groups, so a plan is legal under it exactly if
/// it is under `rules`. Files over one chart have the same reduction, byte for byte, exactly if they
/// say yes to the same sets of its groups. Never [`Refusal::Padded`], never [`Refusal::Space`].
pub fn reduce(chart: &[u8], rules: &[u8]) -> Result<Vec<u8>, Refusal> {
    let mut file = [0; MOST_FILE];
    let mut answer = Answer::default();
    lent::reduce(chart, rules, &mut file, &mut answer);
    match Refusal::of(&answer) {
        None => Ok(front(&file, answer.length).to_vec()),
        Some(refusal) => Err(refusal),
    }
}
