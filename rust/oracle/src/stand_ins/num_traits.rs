//! `num-traits`: zero and one, with the crate's own supertraits.

use std::ops::{Add, Mul};

pub trait Zero: Sized + Add<Self, Output = Self> {
    fn zero() -> Self;
    fn is_zero(&self) -> bool;
}

pub trait ConstZero: Zero {
    const ZERO: Self;
}

pub trait One: Sized + Mul<Self, Output = Self> {
    fn one() -> Self;
    fn is_one(&self) -> bool;
}

pub trait ConstOne: One {
    const ONE: Self;
}
