//! The inputs that the comparison, the benchmark and the stored vectors draw from: numbers from a
//! seed, words at the edges, and states that reach the rare paths of a round.

pub mod random;
pub mod states;
pub mod words;

pub use random::Random;
