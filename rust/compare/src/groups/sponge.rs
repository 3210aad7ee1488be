//! The sponge: its starts, chains of absorbs and squeezes, padding on any state, and the steps back.

use super::lists::each_list;
use super::permutation::state;
use super::refusals::{self, REFUSED};
use super::{Maker, Push, group};
use crate::case::Case;
use cases::{Random, states, words};
use oracle::{State, Ten, inverse, sponge};

/// Steps in a chain.
const CHAIN: usize = 10;

pub fn makers() -> Vec<Maker> {
    group(
        "sponge",
        [
            ("probe_variable_length", |random, _, push| {
                start(
                    "probe_variable_length",
                    sponge::variable_length(),
                    random,
                    push,
                );
            }),
            ("probe_fixed_length", |random, _, push| {
                start("probe_fixed_length", sponge::fixed_length(), random, push);
            }),
            ("probe_absorb", absorbs),
            ("probe_squeeze", squeezes),
            ("probe_pad_and_absorb_all", paddings),
            ("probe_squeeze_back", squeezes_back),
            ("probe_absorb_back", absorbs_back),
        ],
    )
}

fn start(call: &'static str, want: State, random: &mut Random, push: Push) {
    let room: State = words::room(random);
    push(Case::new(call).words(&room, &want));
}

/// One step that a sponge made: the state before it, the ten that an absorb took in or that a
/// squeeze handed out, and the state after it.
struct Step {
    absorbs: bool,
    before: State,
    ten: Ten,
    after: State,
}

/// Chains of absorbs and squeezes, from starts and other states, until there are so many steps.
fn steps(random: &mut Random, count: usize, mut with: impl FnMut(&mut Random, Step)) {
    for _ in 0..count.div_ceil(CHAIN) {
        let mut before = match random.below(4) {
            0 => sponge::variable_length(),
            1 => sponge::fixed_length(),
            _ => state(random),
        };
        for _ in 0..CHAIN {
            let absorbs = random.once_in(2);
            let (ten, after) = if absorbs {
                let ten = words::good_array(random);
                (ten, sponge::absorb(before, ten))
            } else {
                sponge::squeeze(before)
            };
            with(
                random,
                Step {
                    absorbs,
                    before,
                    ten,
                    after,
                },
            );
            before = after;
        }
    }
}

fn absorbs(random: &mut Random, count: usize, push: Push) {
    let call = "probe_absorb";
    steps(random, count / 20, |random, step| {
        if random.once_in(REFUSED) {
            let saved = words::good_array(random);
            push(refused_beside(call, random, &saved, true));
        } else if step.absorbs {
            let case = Case::new(call).words(&step.before, &step.after);
            push(case.kept(&step.ten));
        }
    });
}

/// A refused call on a state and ten words: not ten, then a bad word in the state or, where they are
/// judged, among the ten.
fn refused_beside(call: &'static str, random: &mut Random, ten: &Ten, judged: bool) -> Case {
    let (mut state, mut ten) = (states::mixed(random), ten.to_vec());
    let refusal = match random.below(4) {
        0 => {
            ten = refusals::not_so_many(random, 10);
            2
        }
        1 => {
            ten = refusals::not_so_many(random, 10);
            refusals::spoil(random, &mut state);
            2
        }
        2 if judged => {
            refusals::spoil(random, &mut ten);
            1
        }
        _ => {
            refusals::spoil(random, &mut state);
            1
        }
    };
    Case::new(call).kept(&state).kept(&ten).refused(refusal)
}

fn squeezes(random: &mut Random, count: usize, push: Push) {
    let call = "probe_squeeze";
    steps(random, count / 20, |random, step| {
        let room = words::room::<10>(random);
        if random.once_in(REFUSED) {
            let state = refusals::bad_state(random);
            let case = Case::new(call).kept(&state).words(&room, &[0; 10]);
            push(case.refused(1));
        } else if !step.absorbs {
            let case = Case::new(call).words(&step.before, &step.after);
            push(case.words(&room, &step.ten));
        }
    });
}

fn paddings(random: &mut Random, count: usize, push: Push) {
    let call = "probe_pad_and_absorb_all";
    each_list(random, count, |random, mut list| {
        let mut before = state(random);
        if !random.once_in(REFUSED) {
            let after = sponge::pad_and_absorb_all(before, &list);
            push(Case::new(call).words(&before, &after).kept(&list));
            return;
        }
        if list.is_empty() || random.once_in(2) {
            refusals::spoil(random, &mut before);
        } else {
            refusals::spoil(random, &mut list);
        }
        push(Case::new(call).kept(&before).kept(&list).refused(1));
    });
}

fn squeezes_back(random: &mut Random, count: usize, push: Push) {
    let call = "probe_squeeze_back";
    steps(random, count / 100, |random, step| {
        // Whatever stands in the ten places is not judged.
        let places = words::room::<10>(random);
        if random.once_in(REFUSED) {
            push(refused_beside(call, random, &places, false));
        } else if !step.absorbs {
            let case = Case::new(call).words(&step.after, &step.before);
            push(case.kept(&places));
        }
    });
}

fn absorbs_back(random: &mut Random, count: usize, push: Push) {
    let call = "probe_absorb_back";
    steps(random, count / 100, |random, step| {
        let saved: Ten = words::good_array(random);
        if random.once_in(REFUSED) {
            push(refused_beside(call, random, &saved, true));
        } else if step.absorbs {
            let case = || Case::new(call);
            let overwritten = &step.before[..10];
            push(case().words(&step.after, &step.before).kept(overwritten));
            // Saved words other than the true ones are put back as given.
            let mut before = inverse::inv_permutation(step.after);
            before[..10].copy_from_slice(&saved);
            let case = case().words(&step.after, &before).kept(&saved);
            push(case.labelled("absorb_back, other words"));
        }
    });
}
