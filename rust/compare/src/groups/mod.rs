//! The cases of each call, group by group. A new group is a module with a `makers()` and a line
//! in `all`.

mod columns;
mod digests;
mod draws;
mod exports;
mod field;
mod in_place;
mod inverse;
mod lists;
mod permutation;
mod refusals;
mod rows;
mod sponge;

use crate::case::Case;
use calls::CALLS;
use cases::Random;

/// Where the cases of a call go.
pub type Push<'a> = &'a mut dyn FnMut(Case);

/// Makes cases from random numbers and the number of cases asked for.
type Make = fn(&mut Random, usize, Push);

/// A call, and what makes its cases.
pub struct Maker {
    pub group: &'static str,
    pub call: &'static str,
    pub make: Make,
}

impl Maker {
    pub fn short_name(&self) -> &'static str {
        self.call.strip_prefix("probe_").unwrap_or(self.call)
    }
}

pub fn all() -> Vec<Maker> {
    [
        field::makers(),
        permutation::makers(),
        inverse::makers(),
        sponge::makers(),
        in_place::makers(),
        digests::makers(),
        rows::makers(),
        columns::makers(),
        draws::makers(),
        exports::makers(),
    ]
    .into_iter()
    .flatten()
    .collect()
}

/// The declared calls that none of these makers makes cases for.
pub fn without_cases(makers: &[Maker]) -> Vec<&'static str> {
    let names = CALLS.iter().map(|call| call.name);
    names
        .filter(|name| makers.iter().all(|maker| maker.call != *name))
        .collect()
}

/// Makers of one group.
fn group<const N: usize>(group: &'static str, makers: [(&'static str, Make); N]) -> Vec<Maker> {
    let maker = |(call, make)| Maker { group, call, make };
    makers.into_iter().map(maker).collect()
}
