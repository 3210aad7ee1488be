//! One side of a comparison: a block of inputs that it holds as its calls want them.

use calls::OnList;
use oracle::{Five, State};

/// A state of ours, aligned as the source aligns its own.
#[repr(align(64))]
pub struct Aligned(pub State);

/// The state that an input begins with.
pub fn state_of(words: &[u64]) -> State {
    *words.first_chunk().expect("an input begins with a state")
}

pub trait Side {
    /// Takes these words in place of what it holds, so many for each call.
    fn load(&mut self, words: &[u64]);
    /// Makes the call on each. This is what is timed.
    fn run(&mut self);
    /// What the calls answered.
    fn answers(&self) -> Vec<u64>;
}

/// Calls on inputs of one size, over the type that a side holds an input and its answer in.
pub struct Held<T, New> {
    size: usize,
    new: New,
    call: fn(&mut T),
    answer: fn(&T) -> Vec<u64>,
    held: Vec<T>,
}

impl<T, New: Fn(&[u64]) -> T> Held<T, New> {
    pub fn new(size: usize, new: New, call: fn(&mut T), answer: fn(&T) -> Vec<u64>) -> Self {
        Self {
            size,
            new,
            call,
            answer,
            held: vec![],
        }
    }
}

impl<T, New: Fn(&[u64]) -> T> Side for Held<T, New> {
    fn load(&mut self, words: &[u64]) {
        self.held.clear();
        self.held.extend(words.chunks(self.size).map(&self.new));
    }

    fn run(&mut self) {
        self.held.iter_mut().for_each(self.call);
    }

    fn answers(&self) -> Vec<u64> {
        self.held.iter().flat_map(self.answer).collect()
    }
}

/// Calls on lists of one length.
pub struct Lists {
    length: usize,
    call: OnList,
    words: Vec<u64>,
    digests: Vec<Five>,
}

impl Lists {
    pub fn new(length: usize, call: OnList) -> Self {
        Self {
            length,
            call,
            words: vec![],
            digests: vec![],
        }
    }
}

impl Side for Lists {
    fn load(&mut self, words: &[u64]) {
        self.words.clear();
        self.words.extend(words);
        self.digests = vec![[0; 5]; words.len() / self.length];
    }

    fn run(&mut self) {
        let lists = self.words.chunks(self.length);
        for (list, digest) in lists.zip(&mut self.digests) {
            assert_eq!((self.call)(list, digest), 0);
        }
    }

    fn answers(&self) -> Vec<u64> {
        self.digests.concat()
    }
}
