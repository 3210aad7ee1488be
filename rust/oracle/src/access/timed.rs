//! The calls that are timed, on a state that lies where the source has it, so that no copy is
//! timed with them. None is inlined, as ours can't be.

use super::super::inverse::InverseTip5;
use super::*;
use crate::util_types::sponge::Sponge as _;

/// A sponge.
pub struct Sponge(Tip5);

impl Sponge {
    pub fn new(state: State) -> Self {
        Self(sponge_of(state))
    }

    pub fn state(&self) -> State {
        words(self.0.state)
    }

    #[inline(never)]
    pub fn permutation(&mut self) {
        self.0.permutation_scalar();
    }

    #[inline(never)]
    pub fn absorb(&mut self, ten: &Ten) {
        self.0.absorb(elements(*ten));
    }

    #[inline(never)]
    pub fn squeeze(&mut self) -> Ten {
        words(self.0.squeeze())
    }

    #[inline(never)]
    pub fn pad_and_absorb_all(&mut self, input: &[u64]) {
        self.0.pad_and_absorb_all(as_elements(input));
    }

    #[inline(never)]
    pub fn sample_indices(&mut self, bound: u32, count: usize) -> Vec<u32> {
        self.0.sample_indices(bound, count)
    }
}

/// A state that goes back.
pub struct Inverse(InverseTip5);

impl Inverse {
    pub fn new(state: State) -> Self {
        Self(InverseTip5 {
            state: elements(state),
        })
    }

    pub fn state(&self) -> State {
        words(self.0.state)
    }

    #[inline(never)]
    pub fn inv_permutation(&mut self) {
        self.0.inv_permutation();
    }
}

#[inline(never)]
pub fn generated_function(words: &mut [u64; STATE_SIZE]) {
    *words = Tip5::generated_function(*words);
}

#[inline(never)]
pub fn hash_varlen(input: &[u64]) -> Five {
    sponge::hash_varlen(input)
}
