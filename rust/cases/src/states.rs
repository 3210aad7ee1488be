//! States of sixteen words below p.

use crate::{Random, words};
use oracle::field::{self, P};
use oracle::{State, inverse, permutation, sponge};

/// The starts of a sponge, the plainest states, and one whose row sum 0 is exactly p in round 0.
pub fn known() -> [State; 5] {
    let mut row_sum_p = [0; 16];
    row_sum_p[8] = 16255091180704708378;
    row_sum_p[15] = 264353247297664213;
    [
        sponge::variable_length(),
        sponge::fixed_length(),
        [1; 16],
        [P - 1; 16],
        row_sum_p,
    ]
}

/// Words as chance has them.
pub fn random(random: &mut Random) -> State {
    std::array::from_fn(|_| random.below(P))
}

/// A mixture of edges and chance.
pub fn mixed(random: &mut Random) -> State {
    std::array::from_fn(|_| words::good(random))
}

/// Edges alone: 0, 1, p - 1 and the like, multiples of 2^32, bytes of 0 and 255.
pub fn of_edges(random: &mut Random) -> State {
    let edges = words::good_edges();
    std::array::from_fn(|_| {
        loop {
            let word = match random.below(3) {
                0 => random.pick(&edges),
                1 => words::of_full_bytes(random),
                _ => random.word() << 32,
            };
            if word < P {
                return word;
            }
        }
    })
}

/// A state for which the source's matrix layer answers p or more in round `round`, in most words.
///
/// The layer answers p + d instead of d wherever the row sum is p or more and d, its rest, is
/// below 2^32 - 1. So the state after the round has such a d plus the constant in each word, and
/// from there the inverse rounds lead back to the start.
pub fn beyond_p(random: &mut Random, round: usize) -> State {
    let constants = permutation::round_constants();
    let after: State = std::array::from_fn(|i| {
        let rest = match random.below(4) {
            0 => 0,
            1 => random.pick(&[1, 2, 0xffff_fffd, 0xffff_fffe, 0xffff_ffff, 0x1_0000_0000]),
            _ => random.below(0xffff_ffff),
        };
        field::add(constants[16 * round + i], rest)
    });
    (0..=round)
        .rev()
        .fold(after, |state, i| inverse::inv_round(i, state))
}

/// A state for which one row sum of round 0 is a small multiple of p or little more, with two
/// words alone that are not 0 after the s-boxes.
pub fn small_row_sum(random: &mut Random) -> State {
    let column = permutation::matrix_column();
    let row = random.below(16) as usize;
    loop {
        let (c, d) = (random.below(16) as usize, random.below(16) as usize);
        let target = u128::from(P) * u128::from(1 + random.below(3))
            + random.pick(&[0, 0, 1, 0xffff_fffe, 0xffff_ffff]);
        let [of_c, of_d] = [c, d].map(|word| column[(16 + row - word) % 16]);
        if let (Some([at_c, at_d]), true) = (two_words(random, target, of_c, of_d), c != d) {
            let mut state = [0; 16];
            state[c] = at_c;
            state[d] = at_d;
            return inverse::inv_sbox_layer(state);
        }
    }
}

/// Two words below p with m times the one and n times the other making up the target.
fn two_words(random: &mut Random, target: u128, m: u64, n: u64) -> Option<[u64; 2]> {
    let most = (target / u128::from(m)).min(u128::from(P - 1)) as u64;
    let first = random.below(most - n);
    let rest = (target % u128::from(n)) as u64;
    // Among n neighbours one leaves a multiple of n, unless m and n share a factor.
    let one = (first..first + n).find(|a| a % n * m % n == rest)?;
    let other = (target - u128::from(one) * u128::from(m)) / u128::from(n);
    (other < u128::from(P)).then_some([one, other as u64])
}

#[cfg(test)]
mod tests {
    use super::*;

    /// How many words of the source's matrix layer are p or more in a round.
    fn beyond(round: usize, state: State) -> usize {
        let layer =
            permutation::mds_generated(permutation::sbox_layer(permutation::trace(state)[round]));
        layer.iter().filter(|&&word| word >= P).count()
    }

    #[test]
    fn beyond_p_in_every_round() {
        let mut random = Random::new(1, "beyond_p");
        for round in 0..5 {
            let sum: usize = (0..20)
                .map(|_| beyond(round, beyond_p(&mut random, round)))
                .sum();
            assert!(sum > 200, "round {round}: {sum} words of 320");
        }
    }

    #[test]
    fn small_row_sums_reach_p() {
        let mut random = Random::new(1, "small_row_sum");
        let states = (0..20).map(|_| small_row_sum(&mut random));
        let reached = states.filter(|&state| beyond(0, state) > 0).count();
        assert!(reached > 10, "{reached} states of 20");
    }

    #[test]
    fn all_below_p() {
        let mut random = Random::new(1, "all");
        for _ in 0..100 {
            for state in [
                super::random(&mut random),
                mixed(&mut random),
                of_edges(&mut random),
                beyond_p(&mut random, 2),
                small_row_sum(&mut random),
            ] {
                assert!(state.iter().all(|&word| word < P));
            }
        }
    }
}
