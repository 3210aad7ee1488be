//! The source's `math/bfield_codec.rs`, which is left out: only the names that others use.

pub use no_derive::BFieldCodec;

use crate::prelude::BFieldElement;

pub trait BFieldCodec {
    fn encode(&self) -> Vec<BFieldElement>;
}

pub struct BFieldCodecError;
pub struct PolynomialBFieldCodecError;
