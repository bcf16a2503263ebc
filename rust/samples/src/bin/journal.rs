//! Writes a sample journal to one file and the expected replies to another.

use samples::{sample, tail};
use std::process::ExitCode;

fn main() -> ExitCode {
    let args: Vec<String> = std::env::args().skip(1).collect();
    let args: Vec<&str> = args.iter().map(String::as_str).collect();
    let result = match args[..] {
        ["--tail", kind, input, expected] => match tail::journal(kind) {
            Some(journal) => write(&journal, input, expected),
            None => Err(format!("no such kind of tail: {kind}\n{}", usage())),
        },
        [input, expected] if !input.starts_with('-') => {
            write(&sample::script().journal(), input, expected)
        }
        _ => Err(usage()),
    };
    match result {
        Ok(()) => ExitCode::SUCCESS,
        Err(message) => {
            eprintln!("{message}");
            ExitCode::FAILURE
        }
    }
}

fn write(journal: &[u8], input: &str, expected: &str) -> Result<(), String> {
    let replies = reference::replay::replay(journal);
    for (path, bytes) in [(input, journal), (expected, &replies)] {
        std::fs::write(path, bytes).map_err(|error| format!("{path}: {error}"))?;
    }
    Ok(())
}

fn usage() -> String {
    let mut text = "journal INPUT_OUT EXPECTED_OUT\n\
                    journal --tail KIND INPUT_OUT EXPECTED_OUT\n\
                    KIND is what the journal ends in:"
        .to_string();
    for (kind, meaning) in tail::KINDS {
        text.push_str(&format!("\n  {kind:<10} {meaning}"));
    }
    text
}
