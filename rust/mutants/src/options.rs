//! The command line.

use crate::repository::Repository;
use std::path::Path;

pub const USAGE: &str = "\
mutants run [--crate NAME].. [--code N] [--definitions N] [--seed N] [--jobs N] [--alone] ROOT
    tries up to N mutants of each crate's code (150) and of the definitions that its contracts cite (60);
    a mutant of a program that is proved is also run, and refused if it writes something else;
    fails if one survives that same-program.txt does not explain, or if one listed there is refused or gone;
    --alone: one mutant a check, also where those of several functions could share one
mutants list [--crate NAME].. ROOT
    prints every mutant that could be tried, and checks none
mutants edits [--crate NAME].. [--edit LABEL].. [--once] [--jobs N] ROOT
    tries each crates/*/wrong-answers/*.edit; fails if what it names is not refused for a fact of its own,
    or if a public function has fewer than two; --once: the first for each function and theorem
mutants count [--crate NAME].. ROOT
    says which public functions have fewer than two wrong answers of their own, and checks nothing";

#[derive(Debug)]
pub struct Options {
    pub root: String,
    pub crates: Vec<String>,
    pub edits: Vec<String>,
    pub code: usize,
    pub definitions: usize,
    pub seed: u64,
    pub jobs: usize,
    pub alone: bool,
    pub once: bool,
}

impl Options {
    pub fn read(args: &[String]) -> Result<Options, String> {
        let cores = std::thread::available_parallelism().map_or(1, std::num::NonZero::get);
        let mut found = Options {
            root: String::new(),
            crates: Vec::new(),
            edits: Vec::new(),
            code: 150,
            definitions: 60,
            seed: 1,
            jobs: cores,
            alone: false,
            once: false,
        };
        let mut args = args.iter();
        while let Some(arg) = args.next() {
            if !arg.starts_with("--") {
                found.root = arg.clone();
                continue;
            }
            if arg == "--once" {
                found.once = true;
                continue;
            }
            if arg == "--alone" {
                found.alone = true;
                continue;
            }
            let value = args.next().ok_or(format!("{arg} needs a value\n{USAGE}"))?;
            let number = || {
                value
                    .parse()
                    .map_err(|_| format!("{arg} needs a number and not {value}"))
            };
            match arg.as_str() {
                "--crate" => found.crates.push(value.clone()),
                "--edit" => found.edits.push(value.clone()),
                "--code" => found.code = number()?,
                "--definitions" => found.definitions = number()?,
                "--seed" => found.seed = number()? as u64,
                "--jobs" => found.jobs = number()?.max(1),
                _ => return Err(format!("no such option: {arg}\n{USAGE}")),
            }
        }
        if found.root.is_empty() {
            return Err(USAGE.to_string());
        }
        Ok(found)
    }

    /// The repository, and the crates that are asked for.
    pub fn open(&self) -> Result<(Repository, Vec<String>), String> {
        let repository =
            Repository::open(Path::new(&self.root)).map_err(|e| format!("{}: {e}", self.root))?;
        if let Some(name) = self
            .crates
            .iter()
            .find(|name| !repository.crates.contains(name))
        {
            return Err(format!("crates.txt does not list {name}"));
        }
        let all = repository
            .crates
            .iter()
            .filter(|n| self.crates.is_empty() || self.crates.contains(n));
        let chosen = all.cloned().collect();
        Ok((repository, chosen))
    }
}
