//! Words: at the edges, and mixtures of edges and the rest.

use crate::Random;
use oracle::field::P;

/// Words at which something changes, and their neighbours: around 0, 2^32, 2^63, p - 2^32, p and
/// 2^64.
pub fn edges() -> Vec<u64> {
    let around = |middle: u64| (0..=6).map(move |i| middle.wrapping_sub(3).wrapping_add(i));
    let middles = [0, 1 << 32, 1 << 63, P - (1 << 32), P];
    let mut edges: Vec<u64> = middles.into_iter().flat_map(around).collect();
    edges.sort_unstable();
    edges
}

/// The edges below p.
pub fn good_edges() -> Vec<u64> {
    edges().into_iter().filter(|&word| word < P).collect()
}

/// A word whose bytes are 0 or 255.
pub fn of_full_bytes(random: &mut Random) -> u64 {
    let bits = random.word();
    u64::from_le_bytes(std::array::from_fn(|i| {
        if bits >> i & 1 == 0 { 0 } else { 255 }
    }))
}

/// Any word, the edges more often than chance has them.
pub fn any(random: &mut Random) -> u64 {
    match random.below(8) {
        0 => random.pick(&edges()),
        1 => of_full_bytes(random),
        2 => random.word() << 32,
        3 => random.word() >> random.below(64),
        _ => random.word(),
    }
}

/// A word below p, the edges more often than chance has them.
pub fn good(random: &mut Random) -> u64 {
    loop {
        let word = any(random);
        if word < P {
            return word;
        }
    }
}

/// A word of p or more.
pub fn bad(random: &mut Random) -> u64 {
    match random.below(4) {
        0 => P,
        1 => u64::MAX,
        _ => P + random.below(u64::MAX - P + 1),
    }
}

/// So many words below p.
pub fn good_array<const N: usize>(random: &mut Random) -> [u64; N] {
    std::array::from_fn(|_| good(random))
}

/// What stands in room for so many words before they are written: anything.
pub fn room<const N: usize>(random: &mut Random) -> [u64; N] {
    std::array::from_fn(|_| random.word())
}
