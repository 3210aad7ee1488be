//! The command line.

use command_line::Usage;

const USAGE: Usage = Usage {
    program: "bench",
    help: "\
bench: time our calls against the real twenty-first source

  --calls N        calls on a state (default 1000000; an inverse is called a twentieth as often,
                   and a list as often as takes a like time)
  --only NAME      only this call, by its name in the table: permutation, hash_varlen_1000, ..
  --iterations N   no clock: make one call so often, for a tool that counts instructions.
                   --only then names the side too: ours-permutation, theirs-permutation, ..
  --help           this text
",
    with_value: &["--calls", "--only", "--iterations"],
    alone: &[],
};

pub struct Options {
    pub calls: usize,
    pub only: String,
    pub iterations: Option<usize>,
}

impl Options {
    pub fn read() -> Self {
        let given = USAGE.read();
        Self {
            calls: given.number("--calls").unwrap_or(1_000_000),
            only: given.text("--only").unwrap_or_default().to_string(),
            iterations: given.number("--iterations"),
        }
    }
}
