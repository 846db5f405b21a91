//! A small generator of random numbers (Marsaglia's xorshift, 64 bits).

/// A stream of numbers that its seed fixes.
#[derive(Clone, Debug)]
pub struct Random {
    word: u64,
}

impl Random {
    pub fn new(seed: u64) -> Random {
        Random::of(seed, 0)
    }

    /// The stream with a number of its own among those of one seed.
    pub fn of(seed: u64, stream: u64) -> Random {
        let word = mix(seed ^ mix(stream.wrapping_add(0x9e37_79b9_7f4a_7c15)));
        Random { word: word.max(1) }
    }

    pub fn word(&mut self) -> u64 {
        self.word ^= self.word << 13;
        self.word ^= self.word >> 7;
        self.word ^= self.word << 17;
        self.word.wrapping_mul(0x2545_f491_4f6c_dd1d)
    }

    /// A number below `bound`, which isn't 0.
    pub fn below(&mut self, bound: usize) -> usize {
        ((self.word() >> 32) as usize) % bound
    }

    /// A number from `low` to `high`, both included.
    pub fn between(&mut self, low: usize, high: usize) -> usize {
        low + self.below(high - low + 1)
    }

    /// True in that many of a hundred cases.
    pub fn percent(&mut self, percent: usize) -> bool {
        self.below(100) < percent
    }

    /// One of a list that isn't empty.
    pub fn pick<T: Copy>(&mut self, list: &[T]) -> T {
        list[self.below(list.len())]
    }

    /// `count` different numbers below `bound`, rising; all of them where there aren't more.
    pub fn subset(&mut self, bound: usize, count: usize) -> Vec<u16> {
        let mut chosen = Vec::new();
        for number in 0..bound {
            let wanted = count.min(bound) - chosen.len();
            if self.below(bound - number) < wanted {
                chosen.push(number as u16);
            }
        }
        chosen
    }
}

/// Spreads the bits of a seed (the finish of splitmix64).
fn mix(seed: u64) -> u64 {
    let a = (seed ^ (seed >> 30)).wrapping_mul(0xbf58_476d_1ce4_e5b9);
    let b = (a ^ (a >> 27)).wrapping_mul(0x94d0_49bb_1331_11eb);
    b ^ (b >> 31)
}
