//! `snowpulley`: a tool over the proved settings store.
//!
//! A command is a module below `commands` and a line in `commands::ALL`. It
//! takes its words from the command line and hands back a report; printing,
//! help and exit statuses are the same for all of them.

#![cfg_attr(
    not(test),
    warn(clippy::unwrap_used, clippy::expect_used, clippy::panic)
)]

mod args;
mod cli;
mod cluster;
mod commands;
mod faults;
mod files;
mod journal;
mod module;
mod picture;
mod text;

use cli::Failure;
use std::io::{self, ErrorKind, Write};
use std::process::ExitCode;

fn main() -> ExitCode {
    match cli::run(std::env::args_os().skip(1).collect()) {
        Ok(report) => match print(&report.text) {
            Ok(()) => report.status(),
            // Whatever the answer was: what the command wrote to files stands there.
            Err(error) => told(&format!(
                "the report cannot be printed: {error}; files may have been written"
            )),
        },
        Err(Failure { message }) => told(&message),
    }
}

fn told(message: &str) -> ExitCode {
    eprintln!("snowpulley: {message}");
    cli::FAILED.into()
}

fn print(text: &str) -> io::Result<()> {
    let mut out = io::stdout().lock();
    match out.write_all(text.as_bytes()).and_then(|()| out.flush()) {
        // The reader of a pipe may have seen enough.
        Err(error) if error.kind() == ErrorKind::BrokenPipe => Ok(()),
        result => result,
    }
}
