//! Tip5's permutation and its inverse for a Rust program: a safe wrapper over the two functions of
//! libtip5_c.a, which `include/tip5.h` declares. A state is sixteen raw words, each lowest byte
//! first.

use std::fmt;

/// The bytes of a state.
pub const STATE_BYTES: usize = 128;

unsafe extern "C" {
    fn tip5_permutation(state: *mut u8, length: usize) -> u32;
    fn tip5_inverse_permutation(state: *mut u8, length: usize) -> u32;
}

/// Why a call changed nothing.
#[derive(Debug, Clone, Copy, PartialEq, Eq)]
pub enum Refusal {
    /// A raw word is p or more.
    BadWord,
    /// There are not 128 bytes.
    WrongLength,
}

impl Refusal {
    /// The number that the call answered.
    pub fn number(self) -> u32 {
        match self {
            Self::BadWord => 1,
            Self::WrongLength => 2,
        }
    }
}

impl fmt::Display for Refusal {
    fn fmt(&self, f: &mut fmt::Formatter) -> fmt::Result {
        f.write_str(match self {
            Self::BadWord => "a raw word is 18446744069414584321 or more, so it names no element",
            Self::WrongLength => {
                "a state is 128 bytes, sixteen words of eight, no more and no fewer"
            }
        })
    }
}

impl std::error::Error for Refusal {}

/// Permutes the state in place. Where it is refused every byte is as it was.
pub fn permute(state: &mut [u8]) -> Result<(), Refusal> {
    // SAFETY: the call reads and writes these bytes alone, and keeps nothing.
    answer(unsafe { tip5_permutation(state.as_mut_ptr(), state.len()) })
}

/// Takes the state back to what `permute` had. Where it is refused every byte is as it was.
pub fn walk_back(state: &mut [u8]) -> Result<(), Refusal> {
    // SAFETY: the same.
    answer(unsafe { tip5_inverse_permutation(state.as_mut_ptr(), state.len()) })
}

fn answer(number: u32) -> Result<(), Refusal> {
    match number {
        0 => Ok(()),
        1 => Err(Refusal::BadWord),
        2 => Err(Refusal::WrongLength),
        other => unreachable!("the library answers no {other}"),
    }
}

#[cfg(test)]
mod tests {
    use super::*;

    const P: u64 = 18446744069414584321;

    #[test]
    fn there_and_back() {
        let start: Vec<u8> = (0..STATE_BYTES as u8).collect();
        let mut state = start.clone();
        permute(&mut state).unwrap();
        assert_ne!(state, start);
        walk_back(&mut state).unwrap();
        assert_eq!(state, start);
    }

    #[test]
    fn a_refused_state_is_as_it_was() {
        let mut bad_word = vec![0; STATE_BYTES];
        bad_word[40..48].copy_from_slice(&P.to_le_bytes());
        let bad = [
            (bad_word, Refusal::BadWord),
            (vec![0; STATE_BYTES - 1], Refusal::WrongLength),
            (vec![255; STATE_BYTES + 1], Refusal::WrongLength),
            (vec![], Refusal::WrongLength),
        ];
        for call in [permute, walk_back] {
            for (before, refusal) in &bad {
                let mut state = before.clone();
                assert_eq!(call(&mut state), Err(*refusal));
                assert_eq!(state, *before);
            }
        }
    }
}
