//! Words that a call refuses.

use cases::{Random, states, words};

/// One case in so many is refused for its words or numbers.
pub const REFUSED: u64 = 8;

/// Sixteen words, of which at least one is p or more.
pub fn bad_state(random: &mut Random) -> [u64; 16] {
    let mut state = states::mixed(random);
    spoil(random, &mut state);
    state
}

/// Puts words of p or more among these, at least one.
pub fn spoil(random: &mut Random, words: &mut [u64]) {
    let length = words.len() as u64;
    let often = 1 + random.below(length);
    for word in &mut *words {
        if random.once_in(often) {
            *word = words::bad(random);
        }
    }
    words[random.below(length) as usize] = words::bad(random);
}

/// Words of any size, not so many of them.
pub fn not_so_many(random: &mut Random, wanted: u64) -> Vec<u64> {
    let length = loop {
        let any = random.below(40);
        let near = [wanted - 1, wanted + 1, 2 * wanted];
        let length = random.pick(&[0, 1, 5, 10, 16, near[0], near[1], near[2], any, any]);
        if length != wanted {
            break length;
        }
    };
    let word = if random.once_in(2) {
        words::any
    } else {
        words::good
    };
    (0..length).map(|_| word(random)).collect()
}

/// A round number over 4.
pub fn no_round(random: &mut Random) -> u64 {
    match random.below(4) {
        0 => 5,
        1 => random.pick(&[6, 16, 255, 256, 1 << 32, (1 << 32) + 4, 1 << 63, u64::MAX]),
        _ => 5 + random.below(u64::MAX - 4),
    }
}
