//! The base field. Elements are raw words; `value` and `new` go to and from plain values.

use super::*;

/// The field's prime.
pub const P: u64 = BFieldElement::P;

/// The raw word of a value, which is reduced modulo p.
pub fn new(value: u64) -> u64 {
    BFieldElement::new(value).raw_u64()
}

/// The value of a raw word.
pub fn value(raw: u64) -> u64 {
    BFieldElement::from_raw_u64(raw).value()
}

/// The element with this raw word, again as its raw word. The source judges nothing here.
pub fn from_raw(word: u64) -> u64 {
    BFieldElement::from_raw_u64(word).raw_u64()
}

pub fn add(a: u64, b: u64) -> u64 {
    (BFieldElement::from_raw_u64(a) + BFieldElement::from_raw_u64(b)).raw_u64()
}

pub fn sub(a: u64, b: u64) -> u64 {
    (BFieldElement::from_raw_u64(a) - BFieldElement::from_raw_u64(b)).raw_u64()
}

pub fn mul(a: u64, b: u64) -> u64 {
    (BFieldElement::from_raw_u64(a) * BFieldElement::from_raw_u64(b)).raw_u64()
}

pub fn mod_pow(a: u64, exponent: u64) -> u64 {
    BFieldElement::from_raw_u64(a)
        .mod_pow(exponent)
        .raw_u64()
}
