//! What all commands have in common: how one is found, run and explained.

use crate::args::Args;
use crate::commands;
use snowpulley::Refusal;
use std::ffi::OsString;
use std::fmt::Write;
use std::process::ExitCode;

/// The tool's name and version.
pub const VERSION: &str = concat!("snowpulley ", env!("CARGO_PKG_VERSION"));

/// The exit status of bad usage and of files that cannot be used.
pub const FAILED: u8 = 2;

/// One command of the tool.
pub struct Command {
    pub name: &'static str,
    /// What follows the name.
    pub usage: &'static str,
    /// One line for the list of commands.
    pub summary: &'static str,
    /// The paragraphs of its own help.
    pub help: &'static [&'static str],
    pub run: fn(Args) -> Outcome,
}

pub type Outcome = Result<Report, Failure>;

/// What a command says, and whether its answer is a good one.
#[derive(Debug)]
pub struct Report {
    pub text: String,
    pub is_good: bool,
}

impl Report {
    pub fn good(text: String) -> Report {
        let is_good = true;
        Report { text, is_good }
    }

    pub fn negative(text: String) -> Report {
        let is_good = false;
        Report { text, is_good }
    }

    pub fn status(&self) -> ExitCode {
        if self.is_good {
            ExitCode::SUCCESS
        } else {
            ExitCode::FAILURE
        }
    }
}

/// Why a command could not be carried out.
#[derive(Debug, PartialEq, Eq)]
pub struct Failure {
    pub message: String,
}

pub fn failure(message: impl Into<String>) -> Failure {
    let message = message.into();
    Failure { message }
}

impl From<Refusal> for Failure {
    fn from(refusal: Refusal) -> Failure {
        failure(format!("refused with {refusal}"))
    }
}

/// Runs the command that the words name.
pub fn run(words: Vec<OsString>) -> Outcome {
    let mut words = words.into_iter();
    let first = words.next().unwrap_or_default();
    match first.to_str() {
        Some("--help" | "-h" | "help") => Ok(Report::good(help())),
        Some("--version") => Ok(Report::good(version())),
        Some("") => Err(failure(format!("no command\n\n{}", help().trim_end()))),
        name => {
            let found = commands::ALL.iter().find(|c| Some(c.name) == name);
            let shown = first.to_string_lossy();
            let none = || failure(format!("no command '{shown}'; see snowpulley --help"));
            found.ok_or_else(none)?.start(words.collect())
        }
    }
}

impl Command {
    fn start(&self, words: Vec<OsString>) -> Outcome {
        let mut options = words.iter().take_while(|word| *word != "--");
        if options.any(|word| word == "--help" || word == "-h") {
            return Ok(Report::good(self.help()));
        }
        (self.run)(Args::new(words)).map_err(|Failure { message }| {
            let name = self.name;
            failure(format!("{name}: {message}"))
        })
    }

    fn help(&self) -> String {
        let Command {
            name, usage, help, ..
        } = self;
        let help = help.join("\n");
        format!("snowpulley {name} {usage}\n\n{help}\n{STATUSES}")
    }
}

const STATUSES: &str = "\
Exit status: 0 a good answer; 1 a negative answer, such as a store that is not
sound or too few owners; 2 bad usage, or a file that cannot be opened, read or
written.
";

fn help() -> String {
    let mut text = "snowpulley COMMAND ...\n\n".to_string();
    for command in commands::ALL {
        // Writing to a string does not fail.
        let _ = writeln!(text, "  {:<8}  {}", command.name, command.summary);
    }
    text + "\nsnowpulley COMMAND --help says more of a command.\n\n" + STATUSES
}

fn version() -> String {
    format!("{VERSION}\n")
}
