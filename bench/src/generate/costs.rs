//! Costs as files have them: by the ticks that they are rounded to, beside those, and beyond the limit.

use super::Random;
use crate::files::{MAX_COST, TICK};

/// Those that pass: at the ends and beside whole ticks.
pub const SOUND: [u32; 13] = [
    0,
    1,
    TICK - 1,
    TICK,
    TICK + 1,
    2 * TICK - 1,
    2 * TICK,
    2 * TICK + 1,
    MAX_COST - TICK - 1,
    MAX_COST - TICK,
    MAX_COST - TICK + 1,
    MAX_COST - 1,
    MAX_COST,
];

/// Those beyond the limit. Some would pass if they were rounded down, some if a part of their bytes or
/// a sign were left out, and some if they were rounded up in 32 bits.
pub const DEAR: [u32; 10] = [
    MAX_COST + 1,
    MAX_COST + TICK - 1,
    MAX_COST + TICK,
    1 << 20,
    1 << 24,
    (1 << 31) - 1,
    1 << 31,
    FIRST_TO_WRAP - 1,
    FIRST_TO_WRAP,
    u32::MAX,
];

/// The least number that is 0 in 32 bits when it is rounded up.
pub const FIRST_TO_WRAP: u32 = u32::MAX - (TICK - 2);

/// The ticks of the largest cost.
pub const MOST_TICKS: usize = (MAX_COST / TICK) as usize;

/// One that is rounded to so many ticks: just these, a nanosecond less, the least such one, or any.
pub fn of_ticks(random: &mut Random, ticks: usize) -> u32 {
    let any = random.below(TICK as usize) as u32;
    let less = random.pick(&[0, 0, 1, TICK - 1, any]);
    (ticks as u32 * TICK).saturating_sub(less)
}

/// One that is rounded to some number of ticks from `low` to `high`.
pub fn of_some_ticks(random: &mut Random, low: usize, high: usize) -> u32 {
    let ticks = random.between(low, high);
    of_ticks(random, ticks)
}

/// So many ticks, a nanosecond more or one less.
pub fn near_ticks(random: &mut Random, ticks: usize) -> u32 {
    (ticks as u32 * TICK + random.pick(&[0, 1, 2])).saturating_sub(1)
}
