//! The speed of the proved library beside the reference's, on the same inputs in
//! the same run, and the stack that its calls take.

mod calls;
mod chart;
mod document;
mod inputs;
mod measure;
mod performance;
mod replay;
mod stack;
mod table;

use std::path::{Path, PathBuf};
use std::process::ExitCode;

const USAGE: &str = "\
bench                              times of single calls, as tables
bench stack                        the stack that each call takes
bench replay [BINARY [RECORDS]]    the replay programs on one journal
bench write                        all of these, into docs/PERFORMANCE.md, with the chart
bench draw                         the chart alone, from the tables in docs/PERFORMANCE.md
";

fn main() -> ExitCode {
    let args: Vec<String> = std::env::args().skip(1).collect();
    let args: Vec<&str> = args.iter().map(String::as_str).collect();
    match run(&args) {
        Ok(text) => {
            print!("{text}");
            ExitCode::SUCCESS
        }
        Err(message) => {
            eprintln!("{message}");
            ExitCode::FAILURE
        }
    }
}

/// What a command tells.
fn run(args: &[&str]) -> Result<String, String> {
    match args {
        [] => Ok(calls::tables()),
        ["stack"] => Ok(stack::table()),
        ["replay"] => replay::table(&proved_program(), replay::RECORDS),
        ["replay", binary] => replay::table(Path::new(binary), replay::RECORDS),
        ["replay", binary, records] => {
            let records = records.parse().map_err(|_| USAGE)?;
            replay::table(Path::new(binary), records)
        }
        ["write"] => performance::write(&proved_program()),
        ["draw"] => performance::draw(),
        // What `bench replay` starts for the reference's side.
        [replay::REFERENCE, way] => replay::reference(way).map(|()| String::new()),
        _ => Err(USAGE.to_string()),
    }
}

/// Where the repository's build leaves the proved replay program.
fn proved_program() -> PathBuf {
    Path::new(env!("CARGO_MANIFEST_DIR")).join("../../target/bin/replay")
}
