//! Stored answers of the sponge: digests of tens and of pairs, digests of a list's first words, a
//! chain of absorbs and squeezes, and padded absorbs on its states.

use crate::{SEED, rattle};
use cases::{Random, words};
use oracle::field::P;
use oracle::{State, Ten, sponge};

/// Tens that are hashed, and steps of the chain.
const TENS: usize = 16;

/// The longest list.
const LONGEST: usize = 101;

/// Words between two lengths that are padded.
const STRIDE: usize = 6;

pub fn file() -> String {
    let random = &mut Random::new(SEED, "vectors of the sponge");
    let tens = tens(random);
    let list: Vec<u64> = (0..LONGEST).map(|_| words::good(random)).collect();
    let digests = tens.iter().map(|&ten| {
        let [left, right] = [&ten[..5], &ten[5..]].map(|five| five.try_into().unwrap());
        let digest = sponge::hash_10(ten);
        assert_eq!(digest, sponge::hash_pair(left, right));
        digest
    });
    let list_digests = (0..=LONGEST).map(|length| sponge::hash_varlen(&list[..length]));
    let chain = chain(&tens);
    let padded = chain
        .iter()
        .enumerate()
        .map(|(k, &state)| sponge::pad_and_absorb_all(state, &list[..STRIDE * k]));
    let arrays = [
        rows("Tens of words.", "TENS", &tens),
        rows(
            "The digest of each ten, and of its two halves as a pair.",
            "TEN_DIGESTS",
            &digests.collect::<Vec<_>>(),
        ),
        rattle::array("A list of words.", "LIST", &list),
        rows(
            "The digest of its first 0, 1, 2, .. words.",
            "LIST_DIGESTS",
            &list_digests.collect::<Vec<_>>(),
        ),
        rows(
            "A variable-length start, and the states after an absorb of the first ten, a squeeze, an\n\
             // absorb of the third ten, and so on.",
            "CHAIN",
            &chain,
        ),
        rows(
            "Each state of the chain after the list's first 0, 6, 12, .. words were padded and absorbed.",
            "PADDED",
            &padded.collect::<Vec<_>>(),
        ),
        rattle::array(
            "A fixed-length start.",
            "FIXED_LENGTH",
            &sponge::fixed_length(),
        ),
    ];
    rattle::header("Stored answers of the Rust's sponge and digests.") + &arrays.join("\n")
}

/// A table of arrays of so many words.
fn rows<const N: usize>(comment: &str, name: &str, rows: &[[u64; N]]) -> String {
    let entries: Vec<String> = rows.iter().map(|row| rattle::nested(1, row)).collect();
    rattle::table(comment, name, &format!("[u64; {N}]"), &entries)
}

/// Zeros, ones, the largest words, edges, and words as chance has them.
fn tens(random: &mut Random) -> Vec<Ten> {
    let mut tens = vec![[0; 10], [1; 10], [0xffff_ffff; 10], [P - 1; 10]];
    tens.resize_with(TENS, || std::array::from_fn(|_| words::good(random)));
    tens
}

/// The states of a sponge that absorbs and squeezes by turns.
fn chain(tens: &[Ten]) -> Vec<State> {
    let mut states = vec![sponge::variable_length()];
    for (k, &ten) in tens.iter().enumerate() {
        let before = states[k];
        states.push(if k % 2 == 0 {
            sponge::absorb(before, ten)
        } else {
            sponge::squeeze(before).1
        });
    }
    states
}
