//! `rand`: it only has to compile. The comparison draws its own numbers.

use std::ops::RangeInclusive;

pub trait Rng {}

pub trait RngExt: Rng {
    fn random<T>(&mut self) -> T {
        unimplemented!("random numbers are left out")
    }

    fn random_range(&mut self, _: RangeInclusive<u64>) -> u64 {
        unimplemented!("random numbers are left out")
    }
}

impl<R: Rng + ?Sized> RngExt for R {}

pub mod distr {
    use super::Rng;

    pub struct StandardUniform;

    pub trait Distribution<T> {
        fn sample<R: Rng + ?Sized>(&self, rng: &mut R) -> T;
    }
}
