//! The way back: the inverse permutation, its rounds and their layers.

use super::super::inverse::InverseTip5;
use super::*;

fn stepped(state: State, step: impl FnOnce(&mut InverseTip5)) -> State {
    let mut inverse = InverseTip5 {
        state: elements(state),
    };
    step(&mut inverse);
    words(inverse.state)
}

/// The five inverse rounds, last one first.
pub fn inv_permutation(state: State) -> State {
    stepped(state, InverseTip5::inv_permutation)
}

/// One inverse round.
pub fn inv_round(index: usize, state: State) -> State {
    stepped(state, |inverse| inverse.inv_round(index))
}

/// The inverse lookups and seventh roots.
pub fn inv_sbox_layer(state: State) -> State {
    stepped(state, InverseTip5::inv_sbox_layer)
}
