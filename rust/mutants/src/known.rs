//! The mutants that are the same program, each with the reason, from one file.
//!
//! ```text
//! at: store/src/lib.rt seek
//! old: the changed line as it stands
//! new: the line with the change
//! why: the reason, on one line
//! ```

use crate::change::Change;

#[derive(Clone, PartialEq, Eq, Debug)]
pub struct Known {
    pub at: String,
    pub old: String,
    pub new: String,
    pub why: String,
}

impl Known {
    /// The entry that a mutant of a crate would have, with no reason.
    pub fn of(name: &str, change: &Change, text: &str) -> Known {
        let (old, new) = change.lines(text);
        Known {
            at: format!("{name}/{} {}", change.file, change.within),
            old,
            new,
            why: String::new(),
        }
    }

    pub fn is_of(&self, name: &str) -> bool {
        self.at.split('/').next() == Some(name)
    }

    pub fn names(&self, other: &Known) -> bool {
        (&self.at, &self.old, &self.new) == (&other.at, &other.old, &other.new)
    }
}

impl std::fmt::Display for Known {
    fn fmt(&self, f: &mut std::fmt::Formatter<'_>) -> std::fmt::Result {
        write!(
            f,
            "at: {}\nold: {}\nnew: {}\nwhy: {}",
            self.at, self.old, self.new, self.why
        )
    }
}

pub fn read(text: &str) -> Result<Vec<Known>, String> {
    let mut found: Vec<Known> = Vec::new();
    for line in text
        .lines()
        .filter(|line| !line.starts_with('#') && !line.trim().is_empty())
    {
        let (field, rest) = line
            .split_once(':')
            .ok_or(format!("no such line: {line}"))?;
        let rest = rest.trim().to_string();
        if field == "at" {
            found.push(Known {
                at: rest,
                old: String::new(),
                new: String::new(),
                why: String::new(),
            });
            continue;
        }
        let last = found
            .last_mut()
            .ok_or(format!("before the first 'at:': {line}"))?;
        match field {
            "old" => last.old = rest,
            "new" => last.new = rest,
            "why" => last.why = rest,
            _ => return Err(format!("no such field: {line}")),
        }
    }
    match found.iter().find(|known| known.why.is_empty()) {
        Some(known) => Err(format!("no reason is given for\n{known}")),
        None => Ok(found),
    }
}
