//! Reads a journal from standard input, or from the file named, and writes
//! its replies to standard output.

use std::io::{self, Read, Write};
use std::process::ExitCode;

fn main() -> ExitCode {
    match run() {
        Ok(()) => ExitCode::SUCCESS,
        Err(error) => {
            eprintln!("replay: {error}");
            ExitCode::FAILURE
        }
    }
}

fn run() -> io::Result<()> {
    let mut journal = Vec::new();
    match std::env::args_os().nth(1) {
        Some(path) => journal = std::fs::read(path)?,
        None => {
            io::stdin().lock().read_to_end(&mut journal)?;
        }
    }
    let mut out = io::stdout().lock();
    out.write_all(&reference::replay::replay(&journal))?;
    out.flush()
}
