//! Stand-ins for what the source takes from elsewhere: third-party crates, and the few of its own
//! modules that are left out. They have the names that the source uses and no more; what the
//! comparison runs (`itertools`, `num_traits`, the digest) does what the real one does, and the
//! rest only has to compile.

pub mod arbitrary;
pub mod bfield_codec;
pub mod itertools;
pub mod merkle_tree;
pub mod num_traits;
pub mod phf;
pub mod polynomial;
pub mod rand;
pub mod rayon;
pub mod serde;

/// Only the derive macro is used.
pub mod bfieldcodec_derive {
    pub use no_derive::BFieldCodec;
}

/// Only the derive macro is used.
pub mod get_size2 {
    pub use no_derive::GetSize;
}

/// Only the derive macro is used.
pub mod thiserror {
    pub use no_derive::Error;
}

/// The one type of `hex` that an error holds.
pub mod hex {
    #[derive(Debug, Clone, PartialEq)]
    pub struct FromHexError;
}
