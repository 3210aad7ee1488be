//! The source's `util_types/merkle_tree.rs`, which is left out: only the name that others use.

pub struct MerkleTreeError;
