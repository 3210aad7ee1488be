//! The source's `tip5/avx512.rs`, which is left out: the answer is that AVX-512 is not available,
//! so that every call takes the scalar path. The rest is never called.

use super::*;

pub(super) const BATCH_SIZE: usize = 8;
pub(super) const ROW_BLOCK_BATCHES: usize = 1;

impl Tip5 {
    #[inline(always)]
    pub(super) const fn avx512_is_available() -> bool {
        false
    }

    pub(super) unsafe fn permutation_avx512(&mut self) {
        unreachable!()
    }

    pub(super) unsafe fn round_avx512(&mut self, _: usize) {
        unreachable!()
    }

    pub(super) unsafe fn hash_varlen_batch(_: [&[BFieldElement]; BATCH_SIZE]) -> Vec<Digest> {
        unreachable!()
    }

    pub(super) unsafe fn hash_pair_batch(_: &[[Digest; 2]; BATCH_SIZE]) -> Vec<Digest> {
        unreachable!()
    }

    pub(super) unsafe fn absorb_batch(_: &mut [Self; BATCH_SIZE], _: &[[BFieldElement; RATE]; BATCH_SIZE]) {
        unreachable!()
    }

    pub(super) unsafe fn hash_rows_block(_: &[Column], _: usize, _: &mut [Digest]) {
        unreachable!()
    }
}
