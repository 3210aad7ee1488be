//! The kinds of sheets that are made: good ones of both jobs, and each way to spoil one. A kind says
//! what its sheets must come to, where all come to the same; the reading is held to that too.

use cases::{Random, words};
use oracle::field::P;

/// The most elements, indices and squeezes that a sheet may name.
const MOST_ELEMENTS: u64 = 4096;
const MOST: u64 = 4095;

pub struct Kind {
    pub name: &'static str,
    /// How the line begins, for every sheet of the kind.
    pub outcome: Option<&'static str>,
    pub make: fn(&mut Random) -> Vec<u8>,
}

const fn kind(
    name: &'static str,
    outcome: Option<&'static str>,
    make: fn(&mut Random) -> Vec<u8>,
) -> Kind {
    Kind {
        name,
        outcome,
        make,
    }
}

pub const KINDS: [Kind; 21] = [
    kind("digest", Some("digest"), |r| digest(r).bytes()),
    kind("digest, unused fields set", Some("digest"), unused_fields),
    kind("draw", Some("draw"), |r| draw(r).bytes()),
    kind("draw, allowance just enough", Some("draw"), just_enough),
    kind("draw, one squeeze short", Some("refused 6"), one_short),
    kind("draw, any allowance", None, any_allowance),
    kind("draw, no index wanted", Some("draw"), no_index),
    kind("largest sheets", None, largest),
    kind("bad value", Some("refused 1"), |r| bad_value(r).bytes()),
    kind(
        "bad value, one squeeze short",
        Some("refused 1"),
        bad_value_short,
    ),
    kind("length off by 1 or 8", Some("refused 4"), length_off),
    kind("cut after the header", Some("refused 4"), cut),
    kind("bad value, wrong length", Some("refused 4"), bad_value_cut),
    kind("under six bytes", Some("refused 4"), under_six),
    kind("too long for any sheet", Some("refused 4"), too_long),
    kind("bad header", Some("refused 5"), |r| bad_header(r).bytes()),
    kind(
        "bad header, wrong length",
        Some("refused 5"),
        bad_header_length,
    ),
    kind(
        "bad header, far too long",
        Some("refused 5"),
        bad_header_long,
    ),
    kind("header bits flipped", None, |r| flipped(r, 6)),
    kind("bits flipped anywhere", None, |r| flipped(r, usize::MAX)),
    kind("any bytes", None, any_bytes),
];

/// What a sheet is made from. A field holds what its bits can.
pub struct Sheet {
    version: u64,
    job: u64,
    log2: u64,
    elements: u64,
    indices: u64,
    allowance: u64,
    values: Vec<u64>,
}

impl Sheet {
    /// A sheet of one job that has as many values as it says.
    fn new(job: u64, values: Vec<u64>) -> Self {
        Self {
            version: 1,
            job,
            log2: 0,
            elements: values.len() as u64,
            indices: 0,
            allowance: 0,
            values,
        }
    }

    pub fn bytes(&self) -> Vec<u8> {
        let header = self.version << 44
            | self.job << 42
            | self.log2 << 37
            | self.elements << 24
            | self.indices << 12
            | self.allowance;
        let values = self.values.iter().flat_map(|value| value.to_be_bytes());
        header.to_be_bytes()[2..]
            .iter()
            .copied()
            .chain(values)
            .collect()
    }

    /// The squeezes that the indices take, since no squeezed element of value p - 1 is known.
    fn need(&self) -> u64 {
        self.indices.div_ceil(10)
    }
}

/// A draw sheet with these values.
pub fn draw_of(values: Vec<u64>, log2: u64, indices: u64, allowance: u64) -> Sheet {
    Sheet {
        log2,
        indices,
        allowance,
        ..Sheet::new(1, values)
    }
}

/// A digest sheet with these values.
pub fn digest_of(values: Vec<u64>) -> Sheet {
    Sheet::new(0, values)
}

/// So many values below p.
pub fn values(random: &mut Random, count: u64) -> Vec<u64> {
    (0..count).map(|_| words::good(random)).collect()
}

/// A number of elements: about the tens and the largest more often than chance has them.
fn count(random: &mut Random) -> u64 {
    match random.below(32) {
        0 => random.below(MOST_ELEMENTS + 1),
        1 => MOST_ELEMENTS - random.below(3),
        2..8 => random.pick(&[0, 1, 9, 10, 11, 19, 20, 21, 99, 100, 101]),
        _ => random.below(48),
    }
}

fn log2(random: &mut Random) -> u64 {
    match random.below(4) {
        0 => random.pick(&[0, 1, 30, 31]),
        _ => random.below(32),
    }
}

/// A number of indices, not 0.
fn wanted(random: &mut Random) -> u64 {
    match random.below(16) {
        0 => 1 + random.below(MOST),
        1 => MOST - random.below(12),
        2..5 => random.pick(&[1, 2, 9, 10, 11, 19, 20, 21]),
        _ => 1 + random.below(60),
    }
}

fn any_values(random: &mut Random) -> Vec<u64> {
    let count = count(random);
    values(random, count)
}

fn digest(random: &mut Random) -> Sheet {
    digest_of(any_values(random))
}

/// A draw sheet with an allowance that is enough.
fn draw(random: &mut Random) -> Sheet {
    let values = any_values(random);
    let mut sheet = draw_of(values, log2(random), wanted(random), 0);
    sheet.allowance = sheet.need() + random.below(MOST + 1 - sheet.need());
    sheet
}

/// A good sheet of either job.
fn good(random: &mut Random) -> Sheet {
    if random.once_in(2) {
        digest(random)
    } else {
        draw(random)
    }
}

/// What a field of twelve bits may hold.
fn twelve_bits(random: &mut Random) -> u64 {
    let any = random.below(MOST + 1);
    random.pick(&[0, 1, MOST, any])
}

fn unused_fields(random: &mut Random) -> Vec<u8> {
    let sheet = Sheet {
        log2: random.below(32),
        indices: twelve_bits(random),
        allowance: twelve_bits(random),
        ..digest(random)
    };
    sheet.bytes()
}

fn just_enough(random: &mut Random) -> Vec<u8> {
    let mut sheet = draw(random);
    sheet.allowance = sheet.need();
    sheet.bytes()
}

fn short(random: &mut Random) -> Sheet {
    let mut sheet = draw(random);
    sheet.allowance = sheet.need() - 1;
    sheet
}

fn one_short(random: &mut Random) -> Vec<u8> {
    short(random).bytes()
}

fn any_allowance(random: &mut Random) -> Vec<u8> {
    let mut sheet = draw(random);
    sheet.allowance = random.below(2 * sheet.need() + 2);
    sheet.bytes()
}

fn no_index(random: &mut Random) -> Vec<u8> {
    let mut sheet = draw(random);
    sheet.indices = 0;
    sheet.allowance = random.pick(&[0, 1, MOST]);
    sheet.bytes()
}

/// All elements or one less, all indices; the allowance at its edges.
fn largest(random: &mut Random) -> Vec<u8> {
    let count = MOST_ELEMENTS - random.below(2);
    let values = values(random, count);
    if random.once_in(3) {
        return digest_of(values).bytes();
    }
    let allowance = random.pick(&[409, 410, MOST]);
    draw_of(values, log2(random), MOST, allowance).bytes()
}

/// A good sheet but for some of its values.
fn spoilt(random: &mut Random, mut sheet: Sheet) -> Sheet {
    if sheet.values.is_empty() {
        sheet.values.push(0);
        sheet.elements = 1;
    }
    let last = sheet.values.len() - 1;
    for _ in 0..1 + random.below(2) {
        let any = random.below(last as u64 + 1) as usize;
        let at = random.pick(&[0, last, any]);
        let bad = words::bad(random);
        sheet.values[at] = random.pick(&[P, P + 1, u64::MAX, bad]);
    }
    sheet
}

fn bad_value(random: &mut Random) -> Sheet {
    let sheet = good(random);
    spoilt(random, sheet)
}

fn bad_value_short(random: &mut Random) -> Vec<u8> {
    let sheet = short(random);
    spoilt(random, sheet).bytes()
}

/// The bytes made shorter or longer by one byte or one value, with six at least.
fn off(random: &mut Random, mut bytes: Vec<u8>) -> Vec<u8> {
    let by = random.pick(&[1, 8]);
    if bytes.len() >= 14 && random.once_in(2) {
        bytes.truncate(bytes.len() - by);
    } else {
        bytes.extend((0..by).map(|_| random.word() as u8));
    }
    bytes
}

fn length_off(random: &mut Random) -> Vec<u8> {
    let bytes = good(random).bytes();
    off(random, bytes)
}

fn cut(random: &mut Random) -> Vec<u8> {
    let mut sheet = good(random);
    if sheet.values.is_empty() {
        sheet.elements = 1 + random.below(MOST_ELEMENTS);
    }
    let mut bytes = sheet.bytes();
    if !sheet.values.is_empty() {
        let missing = 1 + random.below(bytes.len() as u64 - 6) as usize;
        bytes.truncate(bytes.len() - missing);
    }
    bytes
}

fn bad_value_cut(random: &mut Random) -> Vec<u8> {
    let bytes = bad_value(random).bytes();
    off(random, bytes)
}

/// The front of a good sheet, of a bad one, or any bytes.
fn under_six(random: &mut Random) -> Vec<u8> {
    let mut bytes = match random.below(3) {
        0 => good(random).bytes(),
        1 => bad_header(random).bytes(),
        _ => any_bytes(random),
    };
    bytes.truncate(random.below(6) as usize);
    bytes
}

/// A length about the 65,536 bytes of the program's buffer, or far beyond it.
fn too_long_length(random: &mut Random) -> usize {
    match random.below(64) {
        0 => 4_000_000 + random.below(4_000_000) as usize,
        1..16 => 65_537 + random.below(200_000) as usize,
        _ => 65_534 + random.below(16) as usize,
    }
}

fn lengthened(random: &mut Random, mut bytes: Vec<u8>) -> Vec<u8> {
    let filler = random.word().to_be_bytes();
    let rest = too_long_length(random) - bytes.len();
    bytes.extend(filler.iter().cycle().take(rest));
    bytes
}

fn too_long(random: &mut Random) -> Vec<u8> {
    let bytes = good(random).bytes();
    lengthened(random, bytes)
}

/// A sheet that is good but for its version, its job, its number of elements, or several of them.
fn bad_header(random: &mut Random) -> Sheet {
    let mut sheet = good(random);
    let which = 1 + random.below(7);
    if which & 1 != 0 {
        sheet.version = random.pick(&[0, 2, 3, 5, 9, 14, 15]);
    }
    if which & 2 != 0 {
        sheet.job = random.pick(&[2, 3]);
    }
    if which & 4 != 0 {
        let any = MOST_ELEMENTS + 1 + random.below(MOST);
        sheet.elements = random.pick(&[MOST_ELEMENTS + 1, any, 2 * MOST_ELEMENTS - 1]);
        sheet.values = vec![random.word(); sheet.elements as usize];
    }
    sheet
}

fn bad_header_length(random: &mut Random) -> Vec<u8> {
    let bytes = bad_header(random).bytes();
    match random.below(3) {
        0 => bytes[..6].to_vec(),
        _ => off(random, bytes),
    }
}

fn bad_header_long(random: &mut Random) -> Vec<u8> {
    let bytes = bad_header(random).bytes();
    lengthened(random, bytes)
}

/// A good sheet with one to three bits of its first bytes flipped.
fn flipped(random: &mut Random, within: usize) -> Vec<u8> {
    let mut bytes = good(random).bytes();
    let bits = 8 * bytes.len().min(within) as u64;
    for _ in 0..1 + random.below(3) {
        let bit = random.below(bits) as usize;
        bytes[bit / 8] ^= 1 << (bit % 8);
    }
    bytes
}

/// Bytes as chance has them, half of them behind a right version and job.
fn any_bytes(random: &mut Random) -> Vec<u8> {
    let length = random.below(100);
    let mut bytes: Vec<u8> = (0..length).map(|_| random.word() as u8).collect();
    if let (Some(first), true) = (bytes.first_mut(), random.once_in(2)) {
        *first = 0x10 | *first & 7;
    }
    bytes
}
