//! The command line.

use crate::groups::Maker;
use command_line::Usage;

const USAGE: Usage = Usage {
    program: "compare",
    help: "\
compare: hold our calls to the real twenty-first source

  --cases N         random cases for each field call (default 100000); a permutation has a tenth
                    of that, a step of a sponge, a draw and a column's view a twentieth, a table
                    a fiftieth, an inverse a hundredth, a list a five-hundredth, and a chain of
                    calls in place a thousandth; edges come besides
  --seed N          the seed of the random cases (default 1)
  --only NAME       only this call (add or probe_add), or this group of calls (field)
  --allow-missing   a declared call that no archive has is no failure
  --no-guards       what a call is lent lies in a block of memory of its own and not between
                    guards, for a tool that watches memory
  --help            this text

Exit status: 0 where nothing differs, otherwise 1.
",
    with_value: &["--cases", "--seed", "--only"],
    alone: &["--allow-missing", "--no-guards"],
};

pub struct Options {
    pub seed: u64,
    pub cases: usize,
    pub only: Option<String>,
    pub allow_missing: bool,
    pub no_guards: bool,
}

impl Options {
    pub fn read() -> Self {
        let given = USAGE.read();
        Self {
            seed: given.number("--seed").unwrap_or(1),
            cases: given.number("--cases").unwrap_or(100_000),
            only: given.text("--only").map(str::to_string),
            allow_missing: given.text("--allow-missing").is_some(),
            no_guards: given.text("--no-guards").is_some(),
        }
    }

    /// Whether the cases of this maker are wanted.
    pub fn wants(&self, maker: &Maker) -> bool {
        self.only
            .as_deref()
            .is_none_or(|only| [maker.group, maker.short_name(), maker.call].contains(&only))
    }
}
