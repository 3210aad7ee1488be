//! A second reading of a sheet, from the requirements' words and over the source's Tip5. It shares
//! nothing with the crate that it judges.

use oracle::field::{self, P};
use oracle::{State, draws, sponge};
use std::fmt;

/// The line of a sheet.
#[derive(Debug, PartialEq)]
pub enum Line {
    Digest([u64; 5]),
    Draw { squeezes: u64, indices: Vec<u32> },
    Refused(u8),
}

/// The lines that there are, without what differs from sheet to sheet.
pub const OUTCOMES: [&str; 6] = [
    "digest",
    "draw",
    "refused 1",
    "refused 4",
    "refused 5",
    "refused 6",
];

/// The fields of the six header bytes.
#[derive(Debug, PartialEq)]
pub struct Header {
    pub version: u64,
    pub job: u64,
    pub log2: u64,
    pub elements: u64,
    pub indices: u64,
    pub allowance: u64,
}

impl fmt::Display for Line {
    /// As the program writes it, but for the newline.
    fn fmt(&self, f: &mut fmt::Formatter) -> fmt::Result {
        match self {
            Line::Digest([a, b, c, d, e]) => write!(f, "digest {a} {b} {c} {d} {e}"),
            Line::Draw { squeezes, indices } => {
                write!(f, "draw {squeezes}")?;
                indices.iter().try_for_each(|index| write!(f, " {index}"))
            }
            Line::Refused(number) => write!(f, "refused {number}"),
        }
    }
}

impl Line {
    /// Which of the outcomes it is.
    pub fn outcome(&self) -> &'static str {
        match self {
            Line::Digest(_) => "digest",
            Line::Draw { .. } => "draw",
            Line::Refused(1) => "refused 1",
            Line::Refused(4) => "refused 4",
            Line::Refused(5) => "refused 5",
            Line::Refused(6) => "refused 6",
            Line::Refused(number) => panic!("no sheet is refused {number}"),
        }
    }
}

/// The line of any bytes. The refusals come in the requirements' order.
pub fn read(sheet: &[u8]) -> Line {
    if sheet.len() < 6 {
        return Line::Refused(4);
    }
    let header = header(sheet);
    if header.version != 1 || header.job > 1 || header.elements > 4096 {
        return Line::Refused(5);
    }
    if sheet.len() as u64 != 6 + 8 * header.elements {
        return Line::Refused(4);
    }
    let (values, _) = sheet[6..].as_chunks();
    let values: Vec<u64> = values
        .iter()
        .map(|&eight| u64::from_be_bytes(eight))
        .collect();
    if values.iter().any(|&value| value >= P) {
        return Line::Refused(1);
    }
    let elements: Vec<u64> = values.into_iter().map(field::new).collect();
    match header.job {
        0 => Line::Digest(sponge::hash_varlen(&elements).map(field::value)),
        _ => draw(&elements, &header),
    }
}

/// The header of at least six bytes.
pub fn header(sheet: &[u8]) -> Header {
    let mut bits = sheet
        .iter()
        .flat_map(|byte| (0..8).rev().map(move |i| byte >> i & 1));
    let mut field = |width| {
        let taken = bits.by_ref().take(width);
        taken.fold(0, |number, bit| 2 * number + u64::from(bit))
    };
    Header {
        version: field(4),
        job: field(2),
        log2: field(5),
        elements: field(13),
        indices: field(12),
        allowance: field(12),
    }
}

/// The source draws without an allowance; what it needed shows whether the allowance was enough.
fn draw(elements: &[u64], header: &Header) -> Line {
    let start = sponge::pad_and_absorb_all(sponge::variable_length(), elements);
    let (indices, end) = draws::sample_indices(start, 1 << header.log2, header.indices as usize);
    let squeezes = squeezes_between(start, end);
    if squeezes > header.allowance {
        return Line::Refused(6);
    }
    Line::Draw { squeezes, indices }
}

fn squeezes_between(start: State, end: State) -> u64 {
    let states = std::iter::successors(Some(start), |&state| Some(sponge::squeeze(state).1));
    states.take_while(|&state| state != end).count() as u64
}
