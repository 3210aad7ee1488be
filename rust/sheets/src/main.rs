//! Holds the program `draw_sheet` to the requirements: how it deals with its input and output, and the
//! line that it writes for many sheets of every kind, against a second reading over the source.

mod behaviour;
mod fuzz;
mod kinds;
mod options;
mod program;
mod reading;

use options::Options;
use std::path::Path;
use std::process::ExitCode;

fn main() -> ExitCode {
    let options = Options::read();
    if let Some(file) = &options.read {
        return read(file);
    }
    if let Some(folder) = &options.write {
        return write(&options, folder);
    }
    let behaves = !options.behaviour || behaviour::run(&options.program);
    if behaves & fuzz::run(&options) {
        ExitCode::SUCCESS
    } else {
        ExitCode::FAILURE
    }
}

/// Writes the sheets to a folder, each with its line.
fn write(options: &Options, folder: &str) -> ExitCode {
    match fuzz::write(options, Path::new(folder)) {
        Ok(()) => ExitCode::SUCCESS,
        Err(error) => {
            eprintln!("sheets: {folder}: {error}");
            ExitCode::FAILURE
        }
    }
}

/// Writes the second reading's line of one sheet.
fn read(file: &str) -> ExitCode {
    match std::fs::read(file) {
        Ok(sheet) => println!("{}", reading::read(&sheet)),
        Err(error) => {
            eprintln!("sheets: {file}: {error}");
            return ExitCode::FAILURE;
        }
    }
    ExitCode::SUCCESS
}
