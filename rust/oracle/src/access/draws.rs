//! Draws of indices: what is drawn, and the state after that.

use super::*;

/// `count` indices below `bound`, a power of two (the source panics at any other).
pub fn sample_indices(state: State, bound: u32, count: usize) -> (Vec<u32>, State) {
    let mut sponge = sponge_of(state);
    let indices = sponge.sample_indices(bound, count);
    (indices, words(sponge.state))
}
