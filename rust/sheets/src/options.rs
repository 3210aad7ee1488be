//! The command line.

use crate::program::Program;
use command_line::Usage;

const USAGE: Usage = Usage {
    program: "sheets",
    help: "\
sheets: hold the program draw_sheet to a second reading of sheets, over the real twenty-first source

  --cases N       how many sheets (default 20000); the kinds take turns
  --seed N        the seed of the sheets (default 1)
  --jobs N        programs that run at a time (default: the machine's processors)
  --no-behaviour  leave out the tests of its input and output
  --launch WORDS  the words that start the program, one to a line
  --read FILE     only write the second reading's line of one sheet
  --write FOLDER  only write the sheets to a folder, each with its line beside it in NAME.stdout
  --help          this text

Exit status: 0 where nothing differs and each kind of line was met, otherwise 1.
",
    with_value: &[
        "--cases", "--seed", "--jobs", "--launch", "--read", "--write",
    ],
    alone: &["--no-behaviour"],
};

pub struct Options {
    pub seed: u64,
    pub cases: usize,
    pub jobs: usize,
    pub behaviour: bool,
    pub program: Program,
    /// A file whose line is to be written, and nothing else done.
    pub read: Option<String>,
    /// A folder that the sheets are to be written to, and nothing else done.
    pub write: Option<String>,
}

impl Options {
    pub fn read() -> Self {
        let given = USAGE.read();
        let jobs = || std::thread::available_parallelism().map_or(1, usize::from);
        let words = |name| {
            let lines = given.text(name)?.lines();
            Some(lines.map(str::to_string).collect::<Vec<_>>())
        };
        let own = || vec!["target/bin/draw_sheet".to_string()];
        Self {
            seed: given.number("--seed").unwrap_or(1),
            cases: given.number("--cases").unwrap_or(20_000),
            jobs: given.number("--jobs").unwrap_or_else(jobs),
            behaviour: given.text("--no-behaviour").is_none(),
            program: Program {
                words: words("--launch").unwrap_or_else(own),
            },
            read: given.text("--read").map(str::to_string),
            write: given.text("--write").map(str::to_string),
        }
    }
}
