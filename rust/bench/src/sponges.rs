//! The sponge's calls that are timed: each of ours by value and in place, beside the one that the
//! source has, which is in place.

use crate::items::Item;
use crate::side::{Aligned, Held, Side, state_of};
use calls::{OnStateAndIndices, OnStateAndList, OnStateAndTen};
use oracle::Ten;
use oracle::timed::Sponge;

/// The indices of a timed draw, which eight squeezes give, and their bound.
const INDICES: usize = 80;
const BOUND: u32 = 1 << 16;

/// An input is a state, and the words that go in after it.
const ABSORB: Item = Item {
    name: "absorb",
    size: 16 + 10,
    share: 4,
    ours: |item| absorbing(item, "probe_absorb"),
    theirs: |item| {
        Box::new(Held::new(
            item.size,
            |words| (Sponge::new(state_of(words)), ten_of(words)),
            |(sponge, ten)| sponge.absorb(ten),
            |(sponge, _)| sponge.state().to_vec(),
        ))
    },
};

const SQUEEZE: Item = Item {
    name: "squeeze",
    size: 16,
    share: 4,
    ours: |item| squeezing(item, "probe_squeeze"),
    theirs: |item| {
        Box::new(Held::new(
            item.size,
            |words| (Sponge::new(state_of(words)), [0; 10]),
            |(sponge, ten)| *ten = sponge.squeeze(),
            |(sponge, ten)| [&sponge.state()[..], ten].concat(),
        ))
    },
};

const PAD_AND_ABSORB_ALL: Item = Item {
    name: "pad_and_absorb_all_1000",
    size: 16 + 1000,
    share: 400,
    ours: |item| absorbing(item, "probe_pad_and_absorb_all"),
    theirs: |item| {
        Box::new(Held::new(
            item.size,
            |words| (Sponge::new(state_of(words)), words[16..].to_vec()),
            |(sponge, list)| sponge.pad_and_absorb_all(list),
            |(sponge, _)| sponge.state().to_vec(),
        ))
    },
};

const SAMPLE_INDICES: Item = Item {
    name: "sample_indices_80",
    size: 16,
    share: 32,
    ours: |item| drawing(item, "probe_sample_indices"),
    theirs: |item| {
        Box::new(Held::new(
            item.size,
            |words| (Sponge::new(state_of(words)), vec![]),
            |(sponge, indices)| *indices = sponge.sample_indices(BOUND, INDICES),
            |(sponge, indices)| with_indices(&sponge.state(), indices),
        ))
    },
};

/// Each by value, and then in place.
pub fn items() -> [Item; 8] {
    [
        ABSORB,
        Item {
            name: "absorb_in_place",
            ours: |item| absorbing(item, "probe_absorb_in_place"),
            ..ABSORB
        },
        SQUEEZE,
        Item {
            name: "squeeze_in_place",
            ours: |item| squeezing(item, "probe_squeeze_in_place"),
            ..SQUEEZE
        },
        PAD_AND_ABSORB_ALL,
        Item {
            name: "pad_and_absorb_all_1000_in_place",
            ours: |item| absorbing(item, "probe_pad_and_absorb_all_in_place"),
            ..PAD_AND_ABSORB_ALL
        },
        SAMPLE_INDICES,
        Item {
            name: "sample_indices_80_in_place",
            ours: |item| drawing(item, "probe_sample_indices_in_place"),
            ..SAMPLE_INDICES
        },
    ]
}

fn ten_of(words: &[u64]) -> Ten {
    *words[16..].first_chunk().expect("ten words follow")
}

/// A state and the indices drawn from it.
fn with_indices(state: &[u64], indices: &[u32]) -> Vec<u64> {
    let indices = indices.iter().copied().map(u64::from);
    state.iter().copied().chain(indices).collect()
}

fn absorbing(item: &Item, call: &str) -> Option<Box<dyn Side>> {
    let call: OnStateAndList = calls::on_state_and_list(call)?;
    Some(Box::new(Held::new(
        item.size,
        move |words| (Aligned(state_of(words)), words[16..].to_vec(), call),
        |(state, list, call)| assert_eq!(call(&mut state.0, list), 0),
        |(state, ..)| state.0.to_vec(),
    )))
}

fn squeezing(item: &Item, call: &str) -> Option<Box<dyn Side>> {
    let call: OnStateAndTen = calls::on_state_and_ten(call)?;
    Some(Box::new(Held::new(
        item.size,
        move |words| (Aligned(state_of(words)), [0; 10], call),
        |(state, ten, call)| assert_eq!(call(&mut state.0, ten), 0),
        |(state, ten, _)| [&state.0[..], ten].concat(),
    )))
}

/// The room for the indices is made in the timed call, as the source makes its own.
fn drawing(item: &Item, call: &str) -> Option<Box<dyn Side>> {
    let call: OnStateAndIndices = calls::on_state_and_indices(call)?;
    Some(Box::new(Held::new(
        item.size,
        move |words| (Aligned(state_of(words)), vec![], call),
        |(state, indices, call)| {
            *indices = vec![0; INDICES];
            let refusal = call(&mut state.0, BOUND, indices, u64::MAX, &mut [0; 2]);
            assert_eq!(refusal, 0);
        },
        |(state, indices, _)| with_indices(&state.0, indices),
    )))
}
