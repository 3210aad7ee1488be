//! The calls in place: chains of them on one record, each from the state that the one before left,
//! with refused calls in between, and then the way back to the chain's start, step by step.

use super::permutation::state;
use super::{Maker, Push, draws, group, refusals};
use crate::case::Case;
use cases::{Random, words};
use oracle::{State, Ten, field, sponge};

/// Calls in a chain that move the record.
const CHAIN: u64 = 8;

/// The most words that a padded absorb takes in.
const LONGEST: u64 = 45;

/// The most indices that a draw in a chain wants.
const MOST: u64 = 25;

/// A call of a chain, made on the record.
type Move = fn(&mut Random, &mut Record, Push);

/// The chains of a call begin with it, those of a step back with the step that it undoes. They go on
/// with any call.
pub fn makers() -> Vec<Maker> {
    group(
        "in_place",
        [
            ("probe_absorb_in_place", |random, count, push| {
                chains(absorb, random, count, push);
            }),
            ("probe_squeeze_in_place", |random, count, push| {
                chains(squeeze, random, count, push);
            }),
            (
                "probe_pad_and_absorb_all_in_place",
                |random, count, push| {
                    chains(pad_and_absorb_all, random, count, push);
                },
            ),
            ("probe_sample_indices_in_place", |random, count, push| {
                let call = "probe_sample_indices_in_place";
                draws::each_draw(random, count / 20, |state, bound, allowance, room| {
                    push(draws::case(call, state, bound, allowance, room));
                });
                chains(draw, random, count, push);
            }),
            ("probe_squeeze_back_in_place", |random, count, push| {
                chains(squeeze, random, count, push);
            }),
            ("probe_absorb_back_in_place", |random, count, push| {
                chains(absorb, random, count, push);
            }),
        ],
    )
}

/// A step that the record made: whether it is an absorb, and the states around it.
struct Step {
    absorbs: bool,
    before: State,
    after: State,
}

/// The record as the source has it, and its history.
struct Record {
    state: State,
    history: Vec<Step>,
}

impl Record {
    fn absorb(&mut self, ten: Ten) {
        self.step(true, sponge::absorb(self.state, ten));
    }

    /// Answers the ten.
    fn squeeze(&mut self) -> Ten {
        let (ten, after) = sponge::squeeze(self.state);
        self.step(false, after);
        ten
    }

    fn step(&mut self, absorbs: bool, after: State) {
        let before = std::mem::replace(&mut self.state, after);
        self.history.push(Step {
            absorbs,
            before,
            after,
        });
    }
}

fn chains(first: Move, random: &mut Random, count: usize, push: Push) {
    for _ in 0..count.div_ceil(1000) {
        let any = state(random);
        let starts = [sponge::variable_length(), sponge::fixed_length(), any, any];
        let mut record = Record {
            state: random.pick(&starts),
            history: vec![],
        };
        first(random, &mut record, push);
        for _ in 1..CHAIN {
            refused(random, &record, push);
            let any: Move = random.pick(&[absorb as Move, squeeze, pad_and_absorb_all, draw]);
            any(random, &mut record, push);
        }
        for step in record.history.iter().rev() {
            push(back(random, step));
        }
    }
}

fn absorb(random: &mut Random, record: &mut Record, push: Push) {
    let ten: Ten = words::good_array(random);
    let before = record.state;
    record.absorb(ten);
    let case = Case::new("probe_absorb_in_place").words(&before, &record.state);
    push(case.kept(&ten));
}

fn squeeze(random: &mut Random, record: &mut Record, push: Push) {
    let before = record.state;
    let ten = record.squeeze();
    let case = Case::new("probe_squeeze_in_place").words(&before, &record.state);
    push(case.words(&words::room::<10>(random), &ten));
}

/// Every ten of the padded list is a step; where they lead is what the source answers.
fn pad_and_absorb_all(random: &mut Random, record: &mut Record, push: Push) {
    let length = random.below(LONGEST + 1);
    let list: Vec<u64> = (0..length).map(|_| words::good(random)).collect();
    let before = record.state;
    let mut padded = [&list[..], &[field::new(1)]].concat();
    padded.resize(padded.len().next_multiple_of(10), 0);
    let (tens, _) = padded.as_chunks();
    tens.iter().for_each(|&ten| record.absorb(ten));
    let after = sponge::pad_and_absorb_all(before, &list);
    assert_eq!(record.state, after, "the steps of a padded absorb");
    let case = Case::new("probe_pad_and_absorb_all_in_place").words(&before, &after);
    push(case.kept(&list));
}

/// Every squeeze that a draw made is a step, with refusal 6 too.
fn draw(random: &mut Random, record: &mut Record, push: Push) {
    let call = "probe_sample_indices_in_place";
    let (bound, room) = (draws::bound(random), draws::room(random, MOST));
    let few = random.below(4);
    let allowance = random.pick(&[few, u64::MAX]);
    push(draws::case(call, record.state, bound, allowance, &room));
    let drawn = draws::drawn(record.state, bound, allowance, room.len());
    for _ in 0..drawn.squeezes {
        record.squeeze();
    }
    assert_eq!(record.state, drawn.state, "the steps of a draw");
}

/// The step back over a step: beside an absorb the words that it overwrote, beside a squeeze any.
fn back(random: &mut Random, step: &Step) -> Case {
    if step.absorbs {
        let case = Case::new("probe_absorb_back_in_place");
        let case = case.words(&step.after, &step.before);
        return case.kept(&step.before[..10]);
    }
    let case = Case::new("probe_squeeze_back_in_place");
    let case = case.words(&step.after, &step.before);
    case.kept(&words::room::<10>(random))
}

/// A refused call on the record, or on one with a word of p or more: it stays what it is.
fn refused(random: &mut Random, record: &Record, push: Push) {
    let mut state = record.state;
    if random.once_in(3) {
        refusals::spoil(random, &mut state);
    }
    match random.below(4) {
        0 => {
            let (bound, room) = (draws::no_bound(random), draws::room(random, MOST));
            let call = "probe_sample_indices_in_place";
            push(draws::case(call, state, bound, random.word(), &room));
        }
        1 => {
            refusals::spoil(random, &mut state);
            let case = Case::new("probe_squeeze_in_place").kept(&state);
            let room = words::room::<10>(random);
            push(case.words(&room, &[0; 10]).refused(1));
        }
        2 => push(refused_for_length(random, &state)),
        _ => push(refused_for_word(random, state)),
    }
}

/// A call that wants ten words and is lent another number of them.
fn refused_for_length(random: &mut Random, state: &State) -> Case {
    let call = random.pick(&[
        "probe_absorb_in_place",
        "probe_absorb_back_in_place",
        "probe_squeeze_back_in_place",
    ]);
    let list = refusals::not_so_many(random, 10);
    Case::new(call).kept(state).kept(&list).refused(2)
}

/// A call with a word of p or more in the record or, where they are judged, among those beside it.
fn refused_for_word(random: &mut Random, mut state: State) -> Case {
    let (call, judged) = random.pick(&[
        ("probe_absorb_in_place", true),
        ("probe_absorb_back_in_place", true),
        ("probe_pad_and_absorb_all_in_place", true),
        ("probe_squeeze_back_in_place", false),
    ]);
    let mut ten: Ten = words::good_array(random);
    if judged && random.once_in(2) {
        refusals::spoil(random, &mut ten);
    } else {
        refusals::spoil(random, &mut state);
    }
    Case::new(call).kept(&state).kept(&ten).refused(1)
}
