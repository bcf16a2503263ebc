//! `mutants run` tries mutants of the proved crates; `mutants edits` tries the hand-written wrong answers.

use mutants::options::{Options, USAGE};
use mutants::{run, wrong};
use std::process::ExitCode;

fn main() -> ExitCode {
    let args: Vec<String> = std::env::args().skip(1).collect();
    match ended(&args) {
        Ok(true) => ExitCode::SUCCESS,
        Ok(false) => ExitCode::FAILURE,
        Err(message) => {
            eprintln!("{message}");
            ExitCode::from(2)
        }
    }
}

/// Whether all went as it should.
fn ended(args: &[String]) -> Result<bool, String> {
    let (command, rest) = args.split_first().ok_or(USAGE)?;
    let options = Options::read(rest)?;
    match command.as_str() {
        "run" => run::run(&options),
        "list" => run::list(&options),
        "edits" => wrong::run(&options),
        "count" => wrong::count(&options),
        _ => Err(USAGE.to_string()),
    }
}
