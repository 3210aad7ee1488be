//! One case: a call, what goes in, and what is to come out.

use calls::{Answer, Arg, CALLS, Item, Param, Request};

/// What stands in a place for an answer before the call.
const UNWRITTEN: u64 = 0x5ca1_ab1e_0ddb_a115;

pub struct Case {
    pub label: &'static str,
    pub request: Request,
    pub want: Answer,
}

impl Case {
    /// A call, accepted, with no arguments yet. They follow in the order of its parameters.
    pub fn new(call: &'static str) -> Self {
        Self {
            label: call.strip_prefix("probe_").unwrap_or(call),
            request: Request {
                call: calls::number(call),
                args: vec![],
            },
            want: Answer {
                refusal: 0,
                args: vec![],
                strayed: false,
            },
        }
    }

    /// Counts under another name than the call's.
    pub fn labelled(mut self, label: &'static str) -> Self {
        self.label = label;
        self
    }

    /// Is refused with this number.
    pub fn refused(mut self, refusal: u32) -> Self {
        self.want.refusal = refusal;
        self
    }

    /// A number.
    pub fn number(self, number: u64) -> Self {
        self.arg(Arg::Number(number), Arg::Number(number))
    }

    /// A place for one word, and the word that is to stand there.
    pub fn place(self, want: u64) -> Self {
        self.arg(Arg::Words(vec![UNWRITTEN]), Arg::Words(vec![want]))
    }

    /// An array or a slice of words, and what it is to hold after the call.
    pub fn words(self, before: &[u64], want: &[u64]) -> Self {
        self.arg(Arg::Words(before.to_vec()), Arg::Words(want.to_vec()))
    }

    /// The same, which the call leaves alone.
    pub fn kept(self, words: &[u64]) -> Self {
        self.words(words, words)
    }

    /// A slice of indices, and what it is to hold after the call.
    pub fn indices(self, before: &[u32], want: &[u32]) -> Self {
        self.arg(Arg::Indices(before.to_vec()), Arg::Indices(want.to_vec()))
    }

    /// A slice of bytes, and what it is to hold after the call.
    pub fn bytes(self, before: &[u8], want: &[u8]) -> Self {
        self.arg(Arg::Bytes(before.to_vec()), Arg::Bytes(want.to_vec()))
    }

    fn arg(mut self, before: Arg, want: Arg) -> Self {
        let call = &CALLS[self.request.call];
        let fits = match (&call.params[self.request.args.len()], &before) {
            (Param::Number, Arg::Number(_)) => true,
            (Param::Array(Item::U64, length), Arg::Words(words)) => words.len() == *length,
            (Param::Slice(Item::U64), Arg::Words(_)) => true,
            (Param::Slice(Item::U32), Arg::Indices(_)) => true,
            (Param::Slice(Item::U8), Arg::Bytes(_)) => true,
            _ => false,
        };
        assert!(fits, "{}: {before:?} does not fit its parameter", call.name);
        self.request.args.push(before);
        self.want.args.push(want);
        self
    }
}
