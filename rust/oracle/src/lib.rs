//! The oracle: Tip5 as the real twenty-first source computes it, behind plain functions on raw
//! words. `build.rs` brings the source in; `access` is our own window on it; `stand_ins` takes
//! the place of third-party crates. Only the scalar path is there, no AVX-512.

mod prelude;
#[allow(dead_code)]
mod stand_ins;

include!(concat!(env!("OUT_DIR"), "/source.rs"));

pub use tip5::access::*;

#[cfg(test)]
mod tests;
