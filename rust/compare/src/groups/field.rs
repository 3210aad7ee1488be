//! The field calls. The source takes any word for an element; ours refuses one of p or more, and
//! answers 0 in its place.

use super::{Maker, Push, group};
use crate::case::Case;
use cases::{Random, words};
use oracle::field::{self, P};

/// Exponents at which something changes: the s-box, its inverse, and around p - 1.
const EXPONENTS: [u64; 12] = [
    0,
    1,
    2,
    3,
    7,
    8,
    10_540_996_611_094_048_183,
    P - 2,
    P - 1,
    P,
    1 << 63,
    u64::MAX,
];

pub fn makers() -> Vec<Maker> {
    group(
        "field",
        [
            ("probe_new", |random, count, push| {
                each_word(random, count, |value| {
                    push(
                        Case::new("probe_new")
                            .number(value)
                            .place(field::new(value)),
                    );
                });
            }),
            ("probe_from_raw_u64", |random, count, push| {
                unary("probe_from_raw_u64", field::from_raw, random, count, push);
            }),
            ("probe_raw_u64", |random, count, push| {
                unary("probe_raw_u64", field::from_raw, random, count, push);
            }),
            ("probe_value", |random, count, push| {
                unary("probe_value", field::value, random, count, push);
            }),
            ("probe_add", |random, count, push| {
                binary("probe_add", field::add, random, count, push);
            }),
            ("probe_sub", |random, count, push| {
                binary("probe_sub", field::sub, random, count, push);
            }),
            ("probe_mul", |random, count, push| {
                binary("probe_mul", field::mul, random, count, push);
            }),
            ("probe_mod_pow", powers),
        ],
    )
}

/// Every edge, and then words as chance has them.
fn each_word(random: &mut Random, count: usize, mut with: impl FnMut(u64)) {
    words::edges().into_iter().for_each(&mut with);
    for _ in 0..count {
        with(words::any(random));
    }
}

/// A call on elements and then numbers: refused where an element is p or more.
fn judged(call: &'static str, elements: &[u64], numbers: &[u64], answer: impl Fn() -> u64) -> Case {
    let all = [elements, numbers].concat();
    let case = all.into_iter().fold(Case::new(call), Case::number);
    if elements.iter().any(|&word| word >= P) {
        case.place(0).refused(1)
    } else {
        case.place(answer())
    }
}

fn unary(call: &'static str, f: fn(u64) -> u64, random: &mut Random, count: usize, push: Push) {
    each_word(random, count, |a| push(judged(call, &[a], &[], || f(a))));
}

fn binary(
    call: &'static str,
    f: fn(u64, u64) -> u64,
    random: &mut Random,
    count: usize,
    push: Push,
) {
    let mut pair = |a, b| push(judged(call, &[a, b], &[], || f(a, b)));
    for a in words::edges() {
        for b in words::edges() {
            pair(a, b);
        }
    }
    for _ in 0..count {
        let a = words::any(random);
        // One in eight times the sum or the difference is at an edge.
        let b = match random.below(16) {
            0 => P
                .wrapping_sub(a)
                .wrapping_add(random.below(3))
                .wrapping_sub(1),
            1 => a.wrapping_add(random.below(3)).wrapping_sub(1),
            _ => words::any(random),
        };
        pair(a, b);
    }
}

fn powers(random: &mut Random, count: usize, push: Push) {
    let call = "probe_mod_pow";
    let mut power = |a, e| push(judged(call, &[a], &[e], || field::mod_pow(a, e)));
    for a in words::edges() {
        for e in words::edges().into_iter().chain(EXPONENTS) {
            power(a, e);
        }
    }
    for _ in 0..count {
        power(words::any(random), words::any(random));
    }
}
