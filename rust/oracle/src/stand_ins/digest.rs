//! The source's `tip5/digest.rs`, which is left out: five elements, with the names that the files
//! taken use.

use crate::prelude::BFieldElement;

#[derive(Debug, Clone, Copy, Default, PartialEq, Eq)]
pub struct Digest(pub [BFieldElement; Digest::LEN]);

impl Digest {
    pub const LEN: usize = 5;

    pub const fn new(values: [BFieldElement; Self::LEN]) -> Self {
        Self(values)
    }

    pub const fn values(self) -> [BFieldElement; Self::LEN] {
        self.0
    }
}
