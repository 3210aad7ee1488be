//! `itertools`: the four adaptors that the source uses, with the meaning that the crate documents.

pub trait Itertools: Iterator + Sized {
    fn collect_vec(self) -> Vec<Self::Item> {
        self.collect()
    }

    /// Pairs in step; panics where one side ends before the other.
    #[inline(always)]
    fn zip_eq<J: IntoIterator>(self, other: J) -> impl Iterator<Item = (Self::Item, J::Item)> {
        let (mut left, mut right) = (self, other.into_iter());
        std::iter::from_fn(move || match (left.next(), right.next()) {
            (None, None) => None,
            (Some(a), Some(b)) => Some((a, b)),
            _ => panic!("zip_eq: one iterator ended before the other"),
        })
    }

    /// Whole triples; what is left over at the end is dropped. (The crate infers the tuple's
    /// width from its use, and the source uses three.)
    fn tuples(mut self) -> impl Iterator<Item = (Self::Item, Self::Item, Self::Item)> {
        std::iter::from_fn(move || Some((self.next()?, self.next()?, self.next()?)))
    }

    /// Runs of `size` items, the last one possibly shorter.
    fn chunks(mut self, size: usize) -> Vec<Vec<Self::Item>> {
        let mut runs = vec![];
        loop {
            let run: Vec<_> = self.by_ref().take(size).collect();
            if run.is_empty() {
                return runs;
            }
            runs.push(run);
        }
    }
}

impl<I: Iterator> Itertools for I {}
