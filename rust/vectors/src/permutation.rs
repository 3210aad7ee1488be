//! Stored traces: six states each, which hold the answers of the permutation, of every round, of
//! the trace itself, and of all their inverses. They stand in groups, since a longer array takes the
//! check far longer than two.

use crate::{SEED, rattle};
use cases::{Random, states};
use oracle::{State, permutation};

pub fn file() -> String {
    let random = &mut Random::new(SEED, "vectors of the permutation");
    let mut edges: Vec<State> = (0..6).map(|_| states::of_edges(random)).collect();
    edges.extend((0..4).map(|_| states::small_row_sum(random)));
    let groups = [
        (
            "Starts and worked states.",
            "KNOWN",
            states::known().to_vec(),
        ),
        (
            "The matrix layer answers p or more: twice in each round.",
            "BEYOND_P",
            (0..10).map(|i| states::beyond_p(random, i % 5)).collect(),
        ),
        (
            "Words at the edges, and row sums that are small multiples of p or little more.",
            "EDGES",
            edges,
        ),
        (
            "Words as chance has them.",
            "CHANCE",
            (0..7).map(|_| states::random(random)).collect(),
        ),
    ];
    let tables = groups.map(|(comment, name, states)| {
        let traces: Vec<String> = states.into_iter().map(trace).collect();
        rattle::table(comment, name, "Trace", &traces)
    });
    [
        rattle::header(
            "Stored traces of the Rust's permutation: the entry state and that after each round.",
        ),
        "use crate::Trace;\n\n".to_string(),
        tables.join("\n"),
    ]
    .concat()
}

/// A trace as an entry of a table.
fn trace(state: State) -> String {
    let states = permutation::trace(state).map(|state| rattle::nested(2, &state));
    format!("    [\n{}    ],\n", states.concat())
}
