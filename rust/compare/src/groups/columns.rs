//! A column's view: its number of rows and a row's word, by the functions on plain numbers and by the
//! view that is made for them.

use super::{Maker, Push, group};
use crate::case::Case;
use cases::{Random, words};
use oracle::field::P;
use oracle::rows;

/// The longest slice.
const LONGEST: u64 = 60;

pub fn makers() -> Vec<Maker> {
    group(
        "columns",
        [
            ("probe_row_count", |random, count, push| {
                counts("probe_row_count", random, count, push);
            }),
            ("probe_column_rows", |random, count, push| {
                counts("probe_column_rows", random, count, push);
            }),
            ("probe_entry", |random, count, push| {
                entries("probe_entry", random, count, push);
            }),
            ("probe_column_entry", |random, count, push| {
                entries("probe_column_entry", random, count, push);
            }),
        ],
    )
}

struct View {
    words: Vec<u64>,
    stride: u64,
    offset: u64,
}

impl View {
    /// A view, mostly a good one, of words of which a few are p or more.
    fn new(random: &mut Random) -> Self {
        let length = random.below(LONGEST);
        let words = (0..length).map(|_| match random.below(10) {
            0 => words::bad(random),
            _ => words::good(random),
        });
        let words = words.collect();
        let small = 1 + random.below(8);
        let any = random.word();
        let stride = mostly(random, small, &[0, length, length + 1, 1 << 63, any]);
        let below = random.below(stride.max(1));
        let odd = [0, stride, stride.wrapping_sub(1), u64::MAX, any];
        let offset = mostly(random, below, &odd);
        Self {
            words,
            stride,
            offset,
        }
    }

    fn is_bad(&self) -> bool {
        self.offset >= self.stride
    }

    /// The source's number of rows; a bad view has none.
    fn rows(&self) -> u64 {
        if self.is_bad() {
            return 0;
        }
        rows::column_num_rows(&self.words, self.stride as usize, self.offset as usize) as u64
    }

    /// The refusal at a row, and the word of the source where there is none.
    fn entry(&self, row: u64) -> (u32, u64) {
        if row >= self.rows() {
            return (7, 0);
        }
        let [stride, offset, row] = [self.stride, self.offset, row].map(|it| it as usize);
        match rows::column_get(&self.words, stride, offset, row) {
            P.. => (1, 0),
            word => (0, word),
        }
    }

    fn case(&self, call: &'static str) -> Case {
        let case = Case::new(call).kept(&self.words);
        case.number(self.stride).number(self.offset)
    }
}

/// The usual number, or once in a while one of the odd ones.
fn mostly(random: &mut Random, usual: u64, odd: &[u64]) -> u64 {
    if random.once_in(5) {
        random.pick(odd)
    } else {
        usual
    }
}

fn counts(call: &'static str, random: &mut Random, count: usize, push: Push) {
    for _ in 0..count / 20 {
        let view = View::new(random);
        let refusal = if view.is_bad() { 7 } else { 0 };
        push(view.case(call).place(view.rows()).refused(refusal));
    }
}

fn entries(call: &'static str, random: &mut Random, count: usize, push: Push) {
    for _ in 0..count / 20 {
        let view = View::new(random);
        let rows = view.rows();
        let inside = random.below(rows.max(1));
        // With an even stride the product of this row and the stride wraps to a place inside.
        let wrapped = (1 << 63) + inside;
        let any = random.word();
        let row = mostly(random, inside, &[rows, rows + 1, wrapped, any]);
        let (refusal, word) = view.entry(row);
        push(view.case(call).number(row).place(word).refused(refusal));
    }
}
