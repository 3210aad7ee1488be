//! What is known of Tip5 from elsewhere: two published vectors and the requirements' worked cases.

use crate::field::{self, P};
use crate::permutation::{self, ROUNDS};
use crate::{Five, State, inverse, rows, sponge};

fn values(digest: Five) -> Five {
    digest.map(field::value)
}

/// Ten zeros; six times the digest of `hash_10` goes to places i to i + 4.
#[test]
fn published_hash_10() {
    let mut ten = [0; 10];
    for i in 0..6 {
        let digest = sponge::hash_10(ten);
        ten[i..i + 5].copy_from_slice(&digest);
    }
    assert_eq!(
        values(sponge::hash_10(ten)),
        [
            10869784347448351760,
            1853783032222938415,
            6856460589287344822,
            17178399545409290325,
            7650660984651717733
        ]
    );
}

/// The sum of the digests of 0, 1, .., n - 1 for n from 0 to 19.
#[test]
fn published_hash_varlen() {
    let list: Vec<u64> = (0..20).map(field::new).collect();
    let sum = (0..20).fold([0; 5], |sum: Five, n| {
        let digest = sponge::hash_varlen(&list[..n]);
        std::array::from_fn(|i| field::add(sum[i], digest[i]))
    });
    assert_eq!(
        values(sum),
        [
            7610004073009036015,
            5725198067541094245,
            4721320565792709122,
            1732504843634706218,
            259800783350288362
        ]
    );
}

#[test]
fn raw_words() {
    let known = [
        (0, 0),
        (1, 4294967295),
        (2, 8589934590),
        (1 << 32, P - 1),
        (P - 1, 18446744065119617026),
    ];
    for (value, raw) in known {
        assert_eq!(field::new(value), raw);
        assert_eq!(field::value(raw), value);
    }
    assert_eq!(field::new(P), 0);
}

#[test]
fn matrix_layer() {
    assert_eq!(permutation::mds_generated([1; 16]), [524757; 16]);
    assert_eq!(
        permutation::mds_generated([P - 1; 16]),
        [18446744069414059564; 16]
    );
}

/// The layer answers p in word 0, and the constant mends it.
#[test]
fn row_sum_p() {
    let mut state = [0; 16];
    state[8] = 16255091180704708378;
    state[15] = 264353247297664213;
    let layer = permutation::mds_generated(permutation::sbox_layer(state));
    assert_eq!(layer[0], P);
    let after = permutation::round(0, state);
    assert_eq!(after[0], 7037825344483254583);
    assert_eq!(after, permutation::naive_round(0, state));
}

#[test]
fn forms_agree() {
    let state: State =
        std::array::from_fn(|i| field::new((i as u64).wrapping_mul(0x9e37_79b9_7f4a_7c15)));
    let trace = permutation::trace(state);
    assert_eq!(trace[0], state);
    for i in 0..ROUNDS {
        assert_eq!(permutation::round(i, trace[i]), trace[i + 1]);
        assert_eq!(permutation::naive_round(i, trace[i]), trace[i + 1]);
        assert_eq!(inverse::inv_round(i, trace[i + 1]), trace[i]);
    }
    assert_eq!(permutation::permutation(state), trace[ROUNDS]);
    assert_eq!(permutation::naive_permutation(state), trace[ROUNDS]);
    assert_eq!(inverse::inv_permutation(trace[ROUNDS]), state);
}

#[test]
fn rows_of_both_widths() {
    let words: Vec<u64> = (0..12).map(field::new).collect();
    let (one, two) = words.split_at(6);
    assert_eq!(
        rows::hash_rows_of_columns(&[one, two])[4],
        sponge::hash_varlen(&[one[4], two[4]])
    );
    assert_eq!(
        rows::hash_rows_of_wide_columns(&[one, two])[1],
        sponge::hash_varlen(&[&one[3..], &two[3..]].concat())
    );
}
