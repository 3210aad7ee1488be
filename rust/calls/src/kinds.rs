//! The kinds of linked calls, for timing. Each answers its refusal.

/// A call on one state.
pub type OnState = fn(&mut [u64; 16]) -> u32;

/// A call on a list of words and room for its digest.
pub type OnList = fn(&[u64], &mut [u64; 5]) -> u32;

/// A call on a state and a list of words.
pub type OnStateAndList = fn(&mut [u64; 16], &[u64]) -> u32;

/// A call on a state and room for ten words.
pub type OnStateAndTen = fn(&mut [u64; 16], &mut [u64; 10]) -> u32;

/// A call on a state, a bound, room for indices, an allowance, and room for two counts.
pub type OnStateAndIndices = fn(&mut [u64; 16], u32, &mut [u32], u64, &mut [u64; 2]) -> u32;
