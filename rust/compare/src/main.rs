//! The differential runner: makes each of our calls on the same inputs as the oracle and compares
//! every word written, every word left alone, and every refusal. Where the source judges nothing,
//! what is wanted comes from the requirements' table of refusals.

mod case;
mod groups;
mod options;
mod runner;

use options::Options;
use runner::Runner;
use std::process::ExitCode;

fn main() -> ExitCode {
    let options = Options::read();
    let ours = match calls::Ours::open(!options.no_guards) {
        Ok(ours) => ours,
        Err(reason) => {
            eprintln!("compare: {reason}");
            return ExitCode::FAILURE;
        }
    };
    println!("seed {}; {}", options.seed, ours.description());
    let mut runner = Runner::new(ours);
    let makers = groups::all();
    let bare = groups::without_cases(&makers);
    if !bare.is_empty() {
        eprintln!("compare: no cases are made for {}", bare.join(", "));
        return ExitCode::FAILURE;
    }
    let makers: Vec<_> = makers.iter().filter(|it| options.wants(it)).collect();
    if makers.is_empty() {
        eprintln!(
            "compare: nothing is called {}",
            options.only.unwrap_or_default()
        );
        return ExitCode::FAILURE;
    }
    for maker in makers {
        runner.run(maker, &options);
    }
    runner.print_table();
    if runner.is_clean(options.allow_missing) {
        ExitCode::SUCCESS
    } else {
        ExitCode::FAILURE
    }
}
