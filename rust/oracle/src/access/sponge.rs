//! The sponge and the digests. A call that moves a sponge takes its state and answers the next.

use super::*;

/// A variable-length start.
pub fn variable_length() -> State {
    words(Tip5::new(Domain::VariableLength).state)
}

/// A fixed-length start.
pub fn fixed_length() -> State {
    words(Tip5::new(Domain::FixedLength).state)
}

/// The state after one ten is absorbed.
pub fn absorb(state: State, ten: Ten) -> State {
    let mut sponge = sponge_of(state);
    sponge.absorb(elements(ten));
    words(sponge.state)
}

/// The ten handed out, and the state after that.
pub fn squeeze(state: State) -> (Ten, State) {
    let mut sponge = sponge_of(state);
    let ten = sponge.squeeze();
    (words(ten), words(sponge.state))
}

/// The state after a list and its padding are absorbed.
pub fn pad_and_absorb_all(state: State, input: &[u64]) -> State {
    let mut sponge = sponge_of(state);
    sponge.pad_and_absorb_all(as_elements(input));
    words(sponge.state)
}

pub fn hash_10(input: Ten) -> Five {
    words(Tip5::hash_10(&elements(input)))
}

pub fn hash_pair(left: Five, right: Five) -> Five {
    let [left, right] = [left, right].map(|digest| Digest::new(elements(digest)));
    words(Tip5::hash_pair(left, right).values())
}

pub fn hash_varlen(input: &[u64]) -> Five {
    words(Tip5::hash_varlen(as_elements(input)).values())
}
