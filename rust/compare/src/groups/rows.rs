//! The digests of a table's rows: every shape up to forty columns of forty rows at both widths, and
//! whatever is refused, one fault or several at a time.

use super::{Maker, Push, group, refusals};
use crate::case::Case;
use cases::{Random, words};
use oracle::field::P;
use oracle::rows;

/// The most columns, and the most rows.
const MOST: u64 = 40;

pub fn makers() -> Vec<Maker> {
    group("rows", [("probe_hash_rows_of_columns", tables)])
}

/// What a call takes: a table, as it is said to lie, and the room for its digests.
struct Table {
    words: Vec<u64>,
    columns: u64,
    rows: u64,
    width: u64,
    room: Vec<u64>,
}

impl Table {
    /// A table of this shape, with room for its digests.
    fn new(random: &mut Random, columns: u64, rows: u64, width: u64) -> Self {
        let digests = if columns == 0 { 0 } else { rows };
        Self {
            words: list(random, columns * rows * width, words::good),
            columns,
            rows,
            width,
            room: list(random, 5 * digests, Random::word),
        }
    }

    /// The refusal by the requirements' rule, with products of whole numbers.
    fn refusal(&self) -> u32 {
        let entries = u128::from(self.columns) * u128::from(self.rows);
        let size = entries.checked_mul(self.width.into());
        let digests = if self.columns == 0 { 0 } else { self.rows };
        if ![1, 3].contains(&self.width) || size != Some(self.words.len() as u128) {
            7
        } else if self.room.len() as u128 != 5 * u128::from(digests) {
            2
        } else if self.words.iter().any(|&word| word >= P) {
            1
        } else {
            0
        }
    }

    /// The digests of the source. It can't be lent more columns than there is room for in memory; a
    /// table with so many has no rows.
    fn digests(&self) -> Vec<u64> {
        if self.columns > MOST {
            assert_eq!(self.rows, 0, "an accepted table is small or has no rows");
            return vec![];
        }
        let size = self.words.len() / self.columns.max(1) as usize;
        let column = |c: u64| &self.words[c as usize * size..][..size];
        let columns: Vec<&[u64]> = (0..self.columns).map(column).collect();
        match self.width {
            1 => rows::hash_rows_of_columns(&columns).concat(),
            _ => rows::hash_rows_of_wide_columns(&columns).concat(),
        }
    }

    fn case(&self) -> Case {
        let refusal = self.refusal();
        let digests = match refusal {
            0 => self.digests(),
            _ => self.room.clone(),
        };
        let case = Case::new("probe_hash_rows_of_columns").kept(&self.words);
        let case = case.number(self.columns).number(self.rows);
        let case = case.number(self.width).words(&self.room, &digests);
        match (refusal, self.width) {
            (0, 3) => case.labelled("hash_rows_of_columns, width 3"),
            _ => case.refused(refusal),
        }
    }
}

fn list(random: &mut Random, length: u64, word: fn(&mut Random) -> u64) -> Vec<u64> {
    (0..length).map(|_| word(random)).collect()
}

fn tables(random: &mut Random, count: usize, push: Push) {
    for width in [1, 3] {
        for columns in 0..=MOST {
            for rows in 0..=MOST {
                push(Table::new(random, columns, rows, width).case());
            }
        }
    }
    for _ in 0..count / 50 {
        let [columns, rows] = [12, 12].map(|most| random.below(most));
        let width = random.pick(&[1, 3]);
        let mut table = Table::new(random, columns, rows, width);
        for _ in 0..random.below(3) {
            spoil(random, &mut table);
        }
        push(table.case());
    }
}

/// Puts a fault into a table, of a kind that chance has. Where it undoes another one, that is fine.
fn spoil(random: &mut Random, table: &mut Table) {
    match random.below(8) {
        0 => refuse_width(random, table),
        1 => wrap(random, table),
        2 if !table.words.is_empty() => refusals::spoil(random, &mut table.words),
        3 => resize(random, &mut table.words),
        4 => resize(random, &mut table.room),
        5 => table.columns = near(random, table.columns),
        6 => table.rows = near(random, table.rows),
        _ => empty(random, table),
    }
}

/// A width that is not 1 or 3, with as many words as it wants if they are few.
fn refuse_width(random: &mut Random, table: &mut Table) {
    let any = random.word();
    table.width = random.pick(&[0, 2, 4, 5, 1 << 32, (1 << 32) + 1, 1 << 63, u64::MAX, any]);
    let entries = table.columns.saturating_mul(table.rows);
    let length = entries.saturating_mul(table.width);
    if length < 1000 {
        table.words = list(random, length, words::good);
    }
}

/// A shape whose product of sizes is the number of words only where it wraps.
fn wrap(random: &mut Random, table: &mut Table) {
    if random.once_in(2) {
        (table.columns, table.rows) =
            random.pick(&[(1 << 63, 2), (1 << 32, 1 << 32), (2, 1 << 63)]);
        table.words.clear();
        return;
    }
    table.rows = random.word() | 1;
    // An odd number has an inverse modulo 2^64, which each turn makes right in twice as many bits.
    let odd = table.rows.wrapping_mul(table.width | 1);
    let inverse = (0..6).fold(odd, |x, _| {
        x.wrapping_mul(2u64.wrapping_sub(odd.wrapping_mul(x)))
    });
    table.columns = inverse.wrapping_mul(table.words.len() as u64);
}

/// A list that is one longer, one shorter, five longer, empty, or any other length.
fn resize(random: &mut Random, list: &mut Vec<u64>) {
    let length = list.len();
    let any = random.below(60) as usize;
    let lengths = [length + 1, length.saturating_sub(1), length + 5, 0, any];
    list.resize(random.pick(&lengths), 7);
}

/// A number beside this one, or any other.
fn near(random: &mut Random, number: u64) -> u64 {
    let any = random.word();
    random.pick(&[number.wrapping_add(1), number.saturating_sub(1), 0, any])
}

/// No columns of any number of rows, or any number of columns of no rows; mostly with empty slices.
fn empty(random: &mut Random, table: &mut Table) {
    let any = random.word();
    (table.columns, table.rows) = random.pick(&[(0, any), (any, 0)]);
    table.words.clear();
    if !random.once_in(4) {
        table.room.clear();
    }
}
