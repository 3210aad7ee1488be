//! What is timed.

use crate::side::{Aligned, Held, Lists, Side, state_of};
use crate::sponges;
use calls::OnList;
use oracle::timed::{self, Inverse, Sponge};

pub struct Item {
    pub name: &'static str,
    /// The words that one call takes.
    pub size: usize,
    /// It takes one in so many of the calls asked for.
    pub share: usize,
    pub ours: fn(&Item) -> Option<Box<dyn Side>>,
    pub theirs: fn(&Item) -> Box<dyn Side>,
}

/// All items, in the order of the table.
pub fn all() -> Vec<Item> {
    let mut items = vec![GENERATED_FUNCTION, PERMUTATION, INV_PERMUTATION];
    // A list takes a permutation for each ten words, and one more.
    items.push(lists("hash_varlen_10", 10, 4));
    items.push(lists("hash_varlen_1000", 1000, 400));
    items.push(lists("hash_varlen_100000", 100_000, 40_000));
    items.extend(sponges::items());
    items
}

const GENERATED_FUNCTION: Item = Item {
    name: "generated_function",
    size: 16,
    share: 1,
    ours: |_| on_state("probe_generated_function"),
    theirs: |_| {
        Box::new(Held::new(
            16,
            state_of,
            timed::generated_function,
            |words| words.to_vec(),
        ))
    },
};

const PERMUTATION: Item = Item {
    name: "permutation",
    size: 16,
    share: 1,
    ours: |_| on_state("probe_permutation"),
    theirs: |_| {
        Box::new(Held::new(
            16,
            |words| Sponge::new(state_of(words)),
            Sponge::permutation,
            |sponge| sponge.state().to_vec(),
        ))
    },
};

const INV_PERMUTATION: Item = Item {
    name: "inv_permutation",
    size: 16,
    share: 20,
    ours: |_| on_state("probe_inv_permutation"),
    theirs: |_| {
        Box::new(Held::new(
            16,
            |words| Inverse::new(state_of(words)),
            Inverse::inv_permutation,
            |inverse| inverse.state().to_vec(),
        ))
    },
};

const fn lists(name: &'static str, size: usize, share: usize) -> Item {
    Item {
        name,
        size,
        share,
        ours: |item| {
            let call: OnList = calls::on_list("probe_hash_varlen")?;
            Some(Box::new(Lists::new(item.size, call)))
        },
        theirs: |item| {
            let call: OnList = |list, digest| {
                *digest = timed::hash_varlen(list);
                0
            };
            Box::new(Lists::new(item.size, call))
        },
    }
}

/// Our side of a call on a state alone, where the archive is linked and has the call.
fn on_state(call: &str) -> Option<Box<dyn Side>> {
    let call = calls::on_state(call)?;
    Some(Box::new(Held::new(
        16,
        move |words| (Aligned(state_of(words)), call),
        |(state, call)| assert_eq!(call(&mut state.0), 0),
        |(state, _)| state.0.to_vec(),
    )))
}
