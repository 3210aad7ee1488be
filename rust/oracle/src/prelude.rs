//! The names that the source finds in its own prelude, as far as the files taken use them.

pub use crate::math::b_field_element::BFieldElement;
pub use crate::math::bfield_codec::BFieldCodec;
pub use crate::math::x_field_element;
pub use crate::math::x_field_element::XFieldElement;
pub use crate::tip5::Digest;
