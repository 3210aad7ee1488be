//! Lists of words below p, of every small length and of longer ones.

use cases::{Random, words};

/// There are lists of every length up to this one.
const EVERY_LENGTH: usize = 64;

/// The longest list.
const LONGEST: u64 = 4000;

/// Lists of every small length, then of lengths as chance has them and around multiples of ten.
pub fn each_list(random: &mut Random, count: usize, mut with: impl FnMut(&mut Random, Vec<u64>)) {
    for length in 0..=EVERY_LENGTH {
        for word in [words::good, |_: &mut Random| 0] {
            let list = (0..length).map(|_| word(random)).collect();
            with(random, list);
        }
    }
    for _ in 0..count / 500 {
        let most = random.pick(&[100, 1000, LONGEST]);
        let length = match random.below(2) {
            0 => random.below(most),
            _ => 10 * random.below(most / 10) + random.below(3),
        };
        let list = (0..length).map(|_| words::good(random)).collect();
        with(random, list);
    }
}
