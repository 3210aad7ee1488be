//! The command line of the programs here: names that begin with two dashes, each alone or with a
//! value after it. And what a program says while it runs.

mod progress;

pub use progress::Progress;
use std::process::exit;
use std::str::FromStr;

/// What a program takes.
pub struct Usage {
    pub program: &'static str,
    /// What `--help` prints.
    pub help: &'static str,
    /// The names with a value after them.
    pub with_value: &'static [&'static str],
    /// The names that stand alone.
    pub alone: &'static [&'static str],
}

/// What was given.
pub struct Given {
    program: &'static str,
    pairs: Vec<(String, String)>,
}

impl Usage {
    /// Reads this process's command line. Where it asks for help or is not understood, the process
    /// says so and ends.
    pub fn read(&self) -> Given {
        let mut given = Given {
            program: self.program,
            pairs: vec![],
        };
        let mut words = std::env::args().skip(1);
        while let Some(word) = words.next() {
            let value = match word.as_str() {
                "--help" => {
                    print!("{}", self.help);
                    exit(0)
                }
                alone if self.alone.contains(&alone) => Some(String::new()),
                name if self.with_value.contains(&name) => words.next(),
                _ => given.end(&format!("{word} is not understood")),
            };
            let value = value.unwrap_or_else(|| given.end(&format!("{word} wants a value")));
            given.pairs.push((word, value));
        }
        given
    }
}

impl Given {
    /// The value of a name, the last one where it is given twice.
    pub fn text(&self, name: &str) -> Option<&str> {
        let pair = self.pairs.iter().rfind(|(given, _)| given == name);
        pair.map(|(_, value)| value.as_str())
    }

    /// The same as a number.
    pub fn number<T: FromStr>(&self, name: &str) -> Option<T> {
        let text = self.text(name)?;
        let number = text.parse();
        Some(number.unwrap_or_else(|_| self.end(&format!("{text} is not a number"))))
    }

    fn end(&self, reason: &str) -> ! {
        eprintln!("{}: {reason}; --help says what there is", self.program);
        exit(2)
    }
}
