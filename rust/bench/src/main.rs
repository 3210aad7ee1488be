//! The benchmark: our calls against the source's scalar ones, in one process, on the same states.
//!
//! Both sides take turns on blocks of states that are copied into warm memory before the clock
//! starts. The least block counts, since whatever else the machine does only ever adds time.

mod items;
mod options;
mod side;
mod sponges;
mod timing;

use options::Options;
use std::process::ExitCode;

fn main() -> ExitCode {
    let options = Options::read();
    let done = match options.iterations {
        Some(iterations) => timing::repeat(&options.only, iterations),
        None => timing::table(&options),
    };
    match done {
        Ok(()) => ExitCode::SUCCESS,
        Err(reason) => {
            eprintln!("bench: {reason}");
            ExitCode::FAILURE
        }
    }
}
