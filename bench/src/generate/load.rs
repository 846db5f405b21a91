//! The generated load: the same chart for everyone from one word and a stage count.

use crate::files::{Chart, Step, MAX_STAGES, MAX_STEPS};

/// The chart, or the number of the refusal: 18 for the word zero, then 4 for the stage count.
pub fn load(word: u32, stages: u32) -> Result<Chart, u32> {
    if word == 0 {
        return Err(18);
    }
    if !(2..=u32::from(MAX_STAGES)).contains(&stages) {
        return Err(4);
    }
    let mut draw = word;
    let steps = (0..MAX_STEPS)
        .map(|i| {
            draw = xorshift(draw);
            let from = (i * (stages as usize - 1) / MAX_STEPS) as u16;
            Step::new(from, from + 1, draw % 1_001)
        })
        .collect();
    Ok(Chart { stages: stages as u16, start: 0, end: stages as u16 - 1, steps })
}

/// Marsaglia's xorshift on 32 bits.
pub fn xorshift(word: u32) -> u32 {
    let mut x = word;
    x ^= x << 13;
    x ^= x >> 17;
    x ^= x << 5;
    x
}
