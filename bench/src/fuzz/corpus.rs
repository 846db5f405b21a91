//! The sound files that fuzzing spoils, and the cases made of them.

use crate::cases::Case;
use crate::files::Operands;
use crate::generate::charts::random_chart;
use crate::generate::diagrams::random_diagram;
use crate::generate::long::near_longest;
use crate::generate::mutate::mutated;
use crate::generate::padded::over_chart;
use crate::generate::three_files::{spoiled, written, ThreeFiles};
use crate::generate::Random;

/// One of so many cases is a conjunction.
const CONJUNCTION_EVERY: u64 = 8;
/// In one of so many cases files are filled up.
const LONG_EVERY: u64 = 512;

/// Sound files of one size, and how many of a thousand cases begin with one of them.
struct OfSize {
    files: Vec<ThreeFiles>,
    share: usize,
}

/// The sound files that are spoiled, small ones first.
pub struct Corpus {
    pub seed: u64,
    sizes: Vec<OfSize>,
}

impl Corpus {
    pub fn new(seed: u64) -> Corpus {
        let mut random = Random::of(seed, u64::MAX);
        let mut sized = |count: usize, share: usize, limits: [usize; 3]| {
            let files = (0..count).map(|_| sound(&mut random, limits)).collect();
            OfSize { files, share }
        };
        let sizes = vec![
            sized(4_000, 930, [8, 14, 12]),
            sized(400, 60, [40, 120, 100]),
            sized(60, 9, [120, 500, 300]),
            sized(20, 1, [256, 1_024, 510]),
        ];
        Corpus { seed, sizes }
    }

    /// The case with a number.
    pub fn case(&self, number: u64) -> Case {
        let mut random = Random::of(self.seed, number);
        let files = self.pick(&mut random);
        let picked = &files[random.below(files.len())];
        if number % CONJUNCTION_EVERY == 5 {
            return conjunction(&mut random, picked.clone(), number);
        }
        let (chart, rules, _) = picked;
        let (other_chart, other_rules, _) = &files[random.below(files.len())];
        let which = random.below(10);
        let mut spoil = |is_spoiled: bool, file: &[u8], other: &[u8]| {
            if is_spoiled {
                mutated(&mut random, file, other)
            } else {
                file.to_vec()
            }
        };
        // At times the fields of the other kind of file come in.
        let odd = number % 16 == 0;
        let mut chart = spoil(which < 5, chart, if odd { rules } else { other_chart });
        let mut rules = spoil(which > 3, rules, if odd { other_chart } else { other_rules });
        // Seldom both are about as long as they may be.
        if number % LONG_EVERY == 9 {
            chart = near_longest(&mut random, &chart);
            rules = near_longest(&mut random, &rules);
        }
        Case::new("fuzzed", (chart, rules), random.word())
    }

    fn pick(&self, random: &mut Random) -> &[ThreeFiles] {
        let mut left = random.below(1_000);
        for OfSize { files, share } in &self.sizes {
            if left < *share {
                return files;
            }
            left -= share;
        }
        &self.sizes[0].files
    }
}

/// A chart and two diagrams; one of twelve of these is padded.
fn sound(random: &mut Random, [stages, steps, nodes]: [usize; 3]) -> ThreeFiles {
    let chart = random_chart(random, stages, steps);
    let [first, second] = [(); 2].map(|()| match random.below(12) {
        0 => over_chart(random, &chart, nodes),
        _ => random_diagram(random, &chart, nodes),
    });
    written(&Operands { chart, first, second })
}

/// A case of all three files; seldom the second diagram is about as long as it may be.
fn conjunction(random: &mut Random, files: ThreeFiles, number: u64) -> Case {
    let (chart, rules, mut more) = spoiled(random, files);
    if number % LONG_EVERY == 13 {
        more = near_longest(random, &more);
    }
    Case::conjunction("fuzzed", (chart, rules, more), random.word())
}
