//! The permutation, its rounds and their layers, in the source's fast form and its naive one.

use super::naive::NaiveTip5;
use super::*;

/// The number of rounds.
pub const ROUNDS: usize = NUM_ROUNDS;

/// The raw words of the round constants.
pub fn round_constants() -> [u64; NUM_ROUNDS * STATE_SIZE] {
    words(ROUND_CONSTANTS)
}

/// The first column of the matrix.
pub fn matrix_column() -> [u64; STATE_SIZE] {
    MDS_MATRIX_FIRST_COLUMN.map(|entry| entry.try_into().expect("entries are not negative"))
}

/// Five rounds, without any SIMD.
pub fn permutation(state: State) -> State {
    let mut sponge = sponge_of(state);
    sponge.permutation_scalar();
    words(sponge.state)
}

/// One round.
pub fn round(index: usize, state: State) -> State {
    let mut sponge = sponge_of(state);
    sponge.round(index);
    words(sponge.state)
}

/// The entry state and that after each round.
pub fn trace(state: State) -> [State; 1 + NUM_ROUNDS] {
    sponge_of(state).trace().map(words)
}

/// The lookups and seventh powers of a round.
pub fn sbox_layer(state: State) -> State {
    let mut sponge = sponge_of(state);
    sponge.sbox_layer();
    words(sponge.state)
}

/// The matrix layer alone. Its words may be p or more; the constants mend that.
pub fn mds_generated(state: State) -> State {
    let mut sponge = sponge_of(state);
    sponge.mds_generated();
    words(sponge.state)
}

/// Sixteen times the circulant row sums, modulo 2^64.
pub fn generated_function(words: [u64; STATE_SIZE]) -> [u64; STATE_SIZE] {
    Tip5::generated_function(words)
}

/// Five naive rounds.
pub fn naive_permutation(state: State) -> State {
    let mut naive = NaiveTip5 {
        state: elements(state),
    };
    naive.permutation();
    words(naive.state)
}

/// One naive round.
pub fn naive_round(index: usize, state: State) -> State {
    let mut naive = NaiveTip5 {
        state: elements(state),
    };
    naive.round(index);
    words(naive.state)
}
