//! The two exports on bytes: sixteen raw words, each lowest byte first. Every length from 0 to 300,
//! good states and bad ones.

use super::permutation::state;
use super::refusals::{self, REFUSED};
use super::{Maker, Push, group};
use crate::case::Case;
use cases::{Random, words};
use oracle::field::P;
use oracle::{State, inverse, permutation};

/// The longest slice that is lent.
const LONGEST: usize = 300;

pub fn makers() -> Vec<Maker> {
    group(
        "exports",
        [
            ("tip5_permutation", |random, count, push| {
                let call = "tip5_permutation";
                exports(call, permutation::permutation, random, count / 20, push);
            }),
            ("tip5_inverse_permutation", |random, count, push| {
                let call = "tip5_inverse_permutation";
                exports(call, inverse::inv_permutation, random, count / 100, push);
            }),
        ],
    )
}

fn exports(
    call: &'static str,
    answer: fn(State) -> State,
    random: &mut Random,
    count: usize,
    push: Push,
) {
    for length in 0..=LONGEST {
        // Words of any size, words below p, and nothing but zeros.
        for word in [words::any, words::good, |_: &mut Random| 0] {
            let words = (0..LONGEST).map(|_| word(random));
            let bytes: Vec<u8> = words.flat_map(u64::to_le_bytes).take(length).collect();
            push(on_bytes(call, answer, &bytes));
        }
    }
    for _ in 0..count {
        let state = if random.once_in(REFUSED) {
            refusals::bad_state(random)
        } else {
            state(random)
        };
        push(on_bytes(call, answer, &bytes_of(state)));
    }
}

/// A case with what the requirements want of these bytes.
fn on_bytes(call: &'static str, answer: fn(State) -> State, bytes: &[u8]) -> Case {
    let case = Case::new(call);
    let Some(state) = words_of(bytes) else {
        return case.bytes(bytes, bytes).refused(2);
    };
    if state.iter().any(|&word| word >= P) {
        return case.bytes(bytes, bytes).refused(1);
    }
    case.bytes(bytes, &bytes_of(answer(state)))
}

fn bytes_of(state: State) -> Vec<u8> {
    state.into_iter().flat_map(u64::to_le_bytes).collect()
}

/// The words of 128 bytes.
fn words_of(bytes: &[u8]) -> Option<State> {
    let (words, rest) = bytes.as_chunks();
    let words: Vec<u64> = words.iter().map(|word| u64::from_le_bytes(*word)).collect();
    let state = words.try_into().ok()?;
    rest.is_empty().then_some(state)
}
