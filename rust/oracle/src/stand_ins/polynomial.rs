//! The source's `math/polynomial.rs`, which is left out: it only has to compile.

use std::marker::PhantomData;

pub struct Polynomial<'a, F>(Vec<F>, PhantomData<&'a F>);

impl<'a, F> Polynomial<'a, F> {
    pub fn new(coefficients: Vec<F>) -> Self {
        Self(coefficients, PhantomData)
    }

    pub fn coefficients(&self) -> &[F] {
        &self.0
    }

    pub fn degree(&self) -> isize {
        unimplemented!("polynomials are left out")
    }

    pub fn naive_divide(&self, _: &Polynomial<'_, F>) -> (Self, Self) {
        unimplemented!("polynomials are left out")
    }
}
