//! The permutation, its rounds, its trace, and the generated matrix function, against the source's
//! fast form and its naive one.

use super::refusals::{self, REFUSED};
use super::{Maker, Push, group};
use crate::case::Case;
use cases::{Random, states, words};
use oracle::{State, permutation};

pub fn makers() -> Vec<Maker> {
    group(
        "permutation",
        [
            ("probe_permutation", permutations),
            ("probe_round", rounds),
            ("probe_trace", traces),
            ("probe_generated_function", generated_functions),
        ],
    )
}

/// A state: known, chance, edges, or one that makes the source's matrix layer answer p or more.
pub fn state(random: &mut Random) -> State {
    match random.below(32) {
        0 => random.pick(&states::known()),
        1..8 => states::random(random),
        8..16 => states::mixed(random),
        16..20 => states::of_edges(random),
        20..24 => states::small_row_sum(random),
        _ => {
            let round = random.below(5) as usize;
            states::beyond_p(random, round)
        }
    }
}

/// A case of a call on a state alone that is refused: not sixteen words, or one of p or more.
pub fn refused(call: &'static str, random: &mut Random) -> Case {
    if random.once_in(2) {
        Case::new(call)
            .kept(&refusals::not_so_many(random, 16))
            .refused(2)
    } else {
        Case::new(call)
            .kept(&refusals::bad_state(random))
            .refused(1)
    }
}

/// The same for a call on a round number and a state; a round number over 4 comes first.
pub fn refused_round(call: &'static str, random: &mut Random) -> Case {
    let (state, refusal) = match random.below(3) {
        0 => (refusals::not_so_many(random, 16), 2),
        1 => (refusals::bad_state(random).to_vec(), 1),
        _ => (states::mixed(random).to_vec(), 0),
    };
    let (round, refusal) = if refusal == 0 || random.once_in(2) {
        (refusals::no_round(random), 8)
    } else {
        (random.below(5), refusal)
    };
    Case::new(call).number(round).kept(&state).refused(refusal)
}

fn permutations(random: &mut Random, count: usize, push: Push) {
    let call = "probe_permutation";
    for _ in 0..count / 10 {
        if random.once_in(REFUSED) {
            push(refused(call, random));
            continue;
        }
        let state = state(random);
        push(Case::new(call).words(&state, &permutation::permutation(state)));
        let naive = permutation::naive_permutation(state);
        push(
            Case::new(call)
                .words(&state, &naive)
                .labelled("permutation, naive"),
        );
    }
}

fn rounds(random: &mut Random, count: usize, push: Push) {
    let call = "probe_round";
    for _ in 0..count / 10 {
        if random.once_in(REFUSED) {
            push(refused_round(call, random));
            continue;
        }
        let round = random.below(5);
        let index = round as usize;
        // The state as it enters that round, so that the rare paths are reached there.
        let state = permutation::trace(state(random))[index];
        let case = || Case::new(call).number(round);
        push(case().words(&state, &permutation::round(index, state)));
        let naive = permutation::naive_round(index, state);
        push(case().words(&state, &naive).labelled("round, naive"));
    }
}

fn traces(random: &mut Random, count: usize, push: Push) {
    let call = "probe_trace";
    for _ in 0..count / 10 {
        let room: Vec<u64> = (0..96).map(|_| random.word()).collect();
        if random.once_in(REFUSED) {
            let bad = refusals::bad_state(random);
            push(Case::new(call).kept(&bad).words(&room, &[0; 96]).refused(1));
            continue;
        }
        let state = state(random);
        let six = permutation::trace(state).concat();
        push(Case::new(call).kept(&state).words(&room, &six));
    }
}

fn generated_functions(random: &mut Random, count: usize, push: Push) {
    let call = "probe_generated_function";
    for _ in 0..count / 10 {
        // Any words, or as the matrix layer hands them in, halves.
        let shift = random.pick(&[0, 32]);
        let words: State = std::array::from_fn(|_| words::any(random) >> shift);
        push(Case::new(call).words(&words, &permutation::generated_function(words)));
    }
}
