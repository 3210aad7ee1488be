//! Our window on the source: plain functions on raw words. It stands below the source's module
//! `tip5`, and so sees what is private there.
#![warn(unused)]

pub mod draws;
pub mod field;
pub mod inverse;
pub mod permutation;
pub mod rows;
pub mod sponge;
pub mod timed;

use super::*;

/// The sixteen raw words of a state.
pub type State = [u64; STATE_SIZE];

/// The ten raw words that one absorb takes in or one squeeze hands out.
pub type Ten = [u64; RATE];

/// The five raw words of a digest.
pub type Five = [u64; Digest::LEN];

fn elements<const N: usize>(words: [u64; N]) -> [BFieldElement; N] {
    words.map(BFieldElement::from_raw_u64)
}

fn words<const N: usize>(elements: [BFieldElement; N]) -> [u64; N] {
    elements.map(|element| element.raw_u64())
}

fn sponge_of(state: State) -> Tip5 {
    Tip5 {
        state: elements(state),
    }
}

/// The same words as elements, not copied.
fn as_elements(words: &[u64]) -> &[BFieldElement] {
    // SAFETY: `BFieldElement` is `repr(transparent)` over `u64`, and takes any word.
    unsafe { std::slice::from_raw_parts(words.as_ptr().cast(), words.len()) }
}
