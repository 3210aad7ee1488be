//! Stored cases of the field calls: edges, and words as chance has them.

use crate::{SEED, rattle};
use cases::{Random, words};
use oracle::field::{self, P};

/// Words at which something changes.
const EDGES: [u64; 13] = [
    0,
    1,
    2,
    (1 << 32) - 1,
    1 << 32,
    (1 << 32) + 1,
    1 << 63,
    P - (1 << 32),
    P - 2,
    P - 1,
    P,
    P + 1,
    u64::MAX,
];

/// Exponents at which something changes.
const EXPONENTS: [u64; 8] = [
    0,
    1,
    2,
    7,
    10_540_996_611_094_048_183,
    P - 2,
    P - 1,
    u64::MAX,
];

/// Cases of each call besides one at each edge.
const BY_CHANCE: usize = 12;

/// The calls, as the replay program names them.
const CALLS: [&str; 8] = [
    "New",
    "FromRawU64",
    "RawU64",
    "Value",
    "Add",
    "Sub",
    "Mul",
    "ModPow",
];

/// One stored case: the call by its place in `CALLS`, and no answer where it is refused.
struct Case {
    call: usize,
    a: u64,
    b: u64,
    answer: Option<u64>,
}

pub fn file() -> String {
    let rows: Vec<String> = cases().iter().map(row).collect();
    [
        rattle::header(
            "Stored answers of the Rust's field calls, and refusals by the requirements.",
        ),
        "use crate::{Call, Case};\nuse refusals::Refusal;\n\n".to_string(),
        rattle::table(
            "The call, the words that go in, the second 0 where there is none, and the answer.",
            "CASES",
            "Case",
            &rows,
        ),
    ]
    .concat()
}

fn row(case: &Case) -> String {
    let answer = match case.answer {
        Some(word) => format!("Ok({word})"),
        None => "Err(Refusal::BadWord)".to_string(),
    };
    let call = format!("Call::{}", CALLS[case.call]);
    rattle::tuple(&[call, case.a.to_string(), case.b.to_string(), answer])
}

fn cases() -> Vec<Case> {
    let random = &mut Random::new(SEED, "vectors of the field");
    let mut cases = vec![];
    for call in 0..CALLS.len() {
        for a in EDGES {
            let b = match call {
                0..=3 => 0,
                7 => random.pick(&EXPONENTS),
                _ => random.pick(&EDGES),
            };
            cases.push(case(call, a, b));
        }
        for _ in 0..BY_CHANCE {
            let a = words::good(random);
            let b = if call < 4 { 0 } else { words::good(random) };
            cases.push(case(call, a, b));
        }
    }
    cases
}

fn case(call: usize, a: u64, b: u64) -> Case {
    let elements: &[u64] = match call {
        0 => &[],
        1..=3 | 7 => &[a],
        _ => &[a, b],
    };
    let refused = elements.iter().any(|&word| word >= P);
    let answer = || match call {
        0 => field::new(a),
        1 | 2 => field::from_raw(a),
        3 => field::value(a),
        4 => field::add(a, b),
        5 => field::sub(a, b),
        6 => field::mul(a, b),
        _ => field::mod_pow(a, b),
    };
    Case {
        call,
        a,
        b,
        answer: (!refused).then(answer),
    }
}
