//! A small command over the wrapper: one state from standard input, moved, to standard output.

use host::{Refusal, STATE_BYTES};
use std::io::{self, Read, Write};
use std::process::ExitCode;

const HELP: &str = "\
usage: host permute | walk-back

  permute      one Tip5 permutation of a state
  walk-back    the state that permute had

The state is 128 bytes from standard input: sixteen raw words, each lowest byte first. The answer is
128 bytes to standard output. Where the state is refused nothing is written there; standard error
says why, with the refusal's number.

Exit status: 0 done, 1 refused, 2 not understood, or nothing could be read or written.
";

/// Why there is no answer.
enum Failure {
    Refused(Refusal),
    File(io::Error),
}

fn main() -> ExitCode {
    let words: Vec<String> = std::env::args().skip(1).collect();
    let call: fn(&mut [u8]) -> Result<(), Refusal> = match words.join(" ").as_str() {
        "permute" => host::permute,
        "walk-back" => host::walk_back,
        "--help" => {
            print!("{HELP}");
            return ExitCode::SUCCESS;
        }
        _ => {
            eprint!("{HELP}");
            return ExitCode::from(2);
        }
    };
    match run(call) {
        Ok(()) => ExitCode::SUCCESS,
        Err(Failure::Refused(refusal)) => {
            eprintln!("host: refused {}: {refusal}", refusal.number());
            ExitCode::from(1)
        }
        Err(Failure::File(error)) => {
            eprintln!("host: {error}");
            ExitCode::from(2)
        }
    }
}

fn run(call: fn(&mut [u8]) -> Result<(), Refusal>) -> Result<(), Failure> {
    let mut state = vec![];
    // One byte more than a state shows that there are too many.
    let most = STATE_BYTES as u64 + 1;
    io::stdin()
        .take(most)
        .read_to_end(&mut state)
        .map_err(Failure::File)?;
    call(&mut state).map_err(Failure::Refused)?;
    let mut out = io::stdout();
    out.write_all(&state)
        .and_then(|()| out.flush())
        .map_err(Failure::File)
}
