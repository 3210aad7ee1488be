//! `arbitrary`: it only has to compile.

pub use no_derive::Arbitrary;

pub type Result<T> = std::result::Result<T, ()>;

pub struct Unstructured<'a>(#[expect(dead_code)] &'a [u8]);

impl<'a> Unstructured<'a> {
    pub fn arbitrary<T: Arbitrary<'a>>(&mut self) -> Result<T> {
        T::arbitrary(self)
    }
}

pub trait Arbitrary<'a>: Sized {
    fn arbitrary(u: &mut Unstructured<'a>) -> Result<Self>;
    fn size_hint(depth: usize) -> (usize, Option<usize>);
}

impl Arbitrary<'_> for u64 {
    fn arbitrary(_: &mut Unstructured<'_>) -> Result<Self> {
        Err(())
    }

    fn size_hint(_: usize) -> (usize, Option<usize>) {
        (8, Some(8))
    }
}
