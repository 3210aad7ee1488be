//! Draws of indices, by value. Their states are led back through the inverse permutation, so that the
//! words about which the rule turns stand where they are wanted in a squeezed ten.

use super::refusals::{self, REFUSED};
use super::{Maker, Push, group};
use crate::case::Case;
use cases::{Random, states};
use oracle::field::{self, P};
use oracle::{State, draws, inverse, sponge};

/// The most indices that are wanted.
const MOST: u64 = 60;

/// Squeezes before the ten that was made up, at most.
const BEFORE: u64 = 4;

pub fn makers() -> Vec<Maker> {
    group("draws", [("probe_sample_indices", drawings)])
}

/// What is to come of a draw by the requirements' rule.
pub struct Drawn {
    pub indices: Vec<u32>,
    pub squeezes: u64,
    pub state: State,
}

/// Squeezes the source's sponge while indices are missing and the allowance is not spent.
pub fn drawn(state: State, bound: u32, allowance: u64, wanted: usize) -> Drawn {
    let mut drawn = Drawn {
        indices: vec![],
        squeezes: 0,
        state,
    };
    while drawn.indices.len() < wanted && drawn.squeezes < allowance {
        let (ten, next) = sponge::squeeze(drawn.state);
        let values = ten.into_iter().map(field::value);
        let kept = values.filter(|&value| value != P - 1);
        drawn.indices.extend(kept.map(|value| value as u32 % bound));
        drawn.indices.truncate(wanted);
        drawn.squeezes += 1;
        drawn.state = next;
    }
    drawn
}

/// A case of a call that draws. Where the allowance is enough, the source itself says what is drawn
/// and which state is left; otherwise the rule does, on the source's squeezes.
pub fn case(call: &'static str, state: State, bound: u32, allowance: u64, room: &[u32]) -> Case {
    let bad_word = state.iter().any(|&word| word >= P);
    if bad_word || !bound.is_power_of_two() {
        let case = Case::new(call).kept(&state).number(bound.into());
        let case = case.indices(room, room).number(allowance);
        return case.place(0).place(0).refused(if bad_word { 1 } else { 3 });
    }
    let mut drawn = drawn(state, bound, allowance, room.len());
    let found = drawn.indices.len();
    let enough = found == room.len();
    if enough {
        (drawn.indices, drawn.state) = draws::sample_indices(state, bound, room.len());
    }
    let slice = [&drawn.indices, &room[found..]].concat();
    let case = Case::new(call).words(&state, &drawn.state);
    let case = case.number(bound.into()).indices(room, &slice);
    let case = case.number(allowance).place(found as u64);
    case.place(drawn.squeezes)
        .refused(if enough { 0 } else { 6 })
}

/// A power of two from 1 to 2^31.
pub fn bound(random: &mut Random) -> u32 {
    1 << random.below(32)
}

/// What stands in the index slice before a draw: anything.
pub fn room(random: &mut Random, most: u64) -> Vec<u32> {
    (0..random.below(most + 1))
        .map(|_| random.word() as u32)
        .collect()
}

/// A state that squeezes a made-up ten after a few others: the raw word of p - 1, which is skipped,
/// and the raw word p - 1, which is not, at the first place, the last, all ten, or as chance has it.
fn state(random: &mut Random) -> State {
    let mut state = states::mixed(random);
    let skipped = field::new(P - 1);
    let word = random.pick(&[skipped, skipped, P - 1]);
    match random.below(6) {
        0 => state[0] = word,
        1 => state[9] = word,
        2 => state[..10].fill(word),
        3 => state[10..].fill(word), // the rest, which no squeeze hands out
        _ => {
            for place in &mut state[..10] {
                *place = random.pick(&[*place, skipped, P - 1]);
            }
        }
    }
    let back = random.below(BEFORE);
    (0..back).fold(state, |state, _| inverse::inv_permutation(state))
}

fn drawings(random: &mut Random, count: usize, push: Push) {
    each_draw(random, count / 20, |state, bound, allowance, room| {
        push(case("probe_sample_indices", state, bound, allowance, room));
    });
}

/// Draws: from made-up states, with allowances around what is needed; and refused ones.
pub fn each_draw(random: &mut Random, count: usize, mut with: impl FnMut(State, u32, u64, &[u32])) {
    for _ in 0..count {
        let (mut state, mut bound) = (state(random), bound(random));
        let room = room(random, MOST);
        let needed = drawn(state, bound, u64::MAX, room.len()).squeezes;
        let few = random.below(BEFORE);
        let allowance = random.pick(&[
            needed,
            needed.saturating_sub(1),
            needed + 1,
            few,
            0,
            u64::MAX,
        ]);
        if random.once_in(REFUSED) {
            refuse(random, &mut state, &mut bound);
        }
        with(state, bound, allowance, &room);
    }
}

/// A word of p or more in the state, or a bound that is no power of two, or both.
fn refuse(random: &mut Random, state: &mut State, bound: &mut u32) {
    let kind = random.below(3);
    if kind != 0 {
        refusals::spoil(random, state);
    }
    if kind != 1 {
        *bound = no_bound(random);
    }
}

/// A bound that is no power of two.
pub fn no_bound(random: &mut Random) -> u32 {
    loop {
        let any = random.word() as u32;
        let bound = random.pick(&[0, 3, (1 << 31) + 1, (1 << 31) - 1, u32::MAX, any]);
        if !bound.is_power_of_two() {
            return bound;
        }
    }
}
