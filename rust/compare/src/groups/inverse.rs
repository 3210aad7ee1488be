//! The inverse permutation and its rounds. Each is also run on what the forward call answered.

use super::permutation::{refused, refused_round, state};
use super::refusals::REFUSED;
use super::{Maker, Push, group};
use crate::case::Case;
use cases::Random;
use oracle::{inverse, permutation};

pub fn makers() -> Vec<Maker> {
    group(
        "inverse",
        [
            ("probe_inv_permutation", permutations),
            ("probe_inv_round", rounds),
        ],
    )
}

fn permutations(random: &mut Random, count: usize, push: Push) {
    let call = "probe_inv_permutation";
    for _ in 0..count / 100 {
        if random.once_in(REFUSED) {
            push(refused(call, random));
            continue;
        }
        let state = state(random);
        push(Case::new(call).words(&state, &inverse::inv_permutation(state)));
        let after = permutation::permutation(state);
        push(
            Case::new(call)
                .words(&after, &state)
                .labelled("inv_permutation, undone"),
        );
    }
}

fn rounds(random: &mut Random, count: usize, push: Push) {
    let call = "probe_inv_round";
    for _ in 0..count / 100 {
        if random.once_in(REFUSED) {
            push(refused_round(call, random));
            continue;
        }
        let round = random.below(5);
        let index = round as usize;
        let state = permutation::trace(state(random))[index];
        let case = || Case::new(call).number(round);
        push(case().words(&state, &inverse::inv_round(index, state)));
        let after = permutation::round(index, state);
        push(case().words(&after, &state).labelled("inv_round, undone"));
    }
}
