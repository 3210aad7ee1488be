//! Our calls, made from Rust: linked into this process. A request and its answer are plain data, so
//! that both sides look the same to who compares.

mod kinds;
mod table;
#[cfg(not(linked))]
mod unlinked;

#[cfg_attr(linked, path = "linked.rs")]
#[cfg_attr(not(linked), path = "absent.rs")]
mod way;

pub use kinds::{OnList, OnState, OnStateAndIndices, OnStateAndList, OnStateAndTen};
pub use table::{CALLS, Call, Item, Param};
#[cfg(not(linked))]
pub use unlinked::*;
use way::Way;
#[cfg(linked)]
pub use way::functions::{
    on_list, on_state, on_state_and_indices, on_state_and_list, on_state_and_ten,
};

/// What goes into a call or comes back from it.
#[derive(Debug, Clone, PartialEq, Eq)]
pub enum Arg {
    /// A number.
    Number(u64),
    /// An array or a slice of items.
    Words(Vec<u64>),
    Indices(Vec<u32>),
    Bytes(Vec<u8>),
}

impl Arg {
    /// Its bytes in memory, lowest first.
    pub fn bytes(&self) -> Vec<u8> {
        match self {
            Arg::Number(number) => number.to_le_bytes().to_vec(),
            Arg::Words(words) => words.iter().flat_map(|word| word.to_le_bytes()).collect(),
            Arg::Indices(indices) => indices.iter().flat_map(|it| it.to_le_bytes()).collect(),
            Arg::Bytes(bytes) => bytes.clone(),
        }
    }

    /// What the bytes say, as the same kind.
    pub fn replaced(&self, bytes: &[u8]) -> Self {
        match self {
            Arg::Number(number) => Arg::Number(*number),
            Arg::Words(_) => {
                let (words, _) = bytes.as_chunks();
                Arg::Words(words.iter().map(|word| u64::from_le_bytes(*word)).collect())
            }
            Arg::Indices(_) => {
                let (indices, _) = bytes.as_chunks();
                Arg::Indices(indices.iter().map(|it| u32::from_le_bytes(*it)).collect())
            }
            Arg::Bytes(_) => Arg::Bytes(bytes.to_vec()),
        }
    }
}

/// One call to make: its number in `CALLS`, and its arguments.
#[derive(Debug, Clone)]
pub struct Request {
    pub call: usize,
    pub args: Vec<Arg>,
}

/// What a call answered: its refusal number, and all its arguments as they are now. A call that
/// wrote outside what it was lent has `strayed`.
#[derive(Debug, Clone, PartialEq, Eq)]
pub struct Answer {
    pub refusal: u32,
    pub args: Vec<Arg>,
    pub strayed: bool,
}

/// The way to our calls.
pub struct Ours(Way);

impl Ours {
    /// Opens the way; says why where there is none. What is lent to a call lies between guards or,
    /// for a tool that watches memory, in a block of its own.
    pub fn open(guarded: bool) -> Result<Self, String> {
        Way::open(guarded).map(Self)
    }

    /// One line that says what runs.
    pub fn description(&self) -> String {
        self.0.description()
    }

    /// Makes the calls in order.
    pub fn run(&mut self, batch: &[Request]) -> Vec<Answer> {
        self.0.run(batch)
    }
}

/// The number of the call with this name in `CALLS`.
pub fn number(name: &str) -> usize {
    CALLS
        .iter()
        .position(|call| call.name == name)
        .unwrap_or_else(|| panic!("no header declares {name}"))
}
