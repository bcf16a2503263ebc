//! Hand-written wrong answers: rt's format of an edit, with one more line that names what must fall.
//!
//! ```text
//! file: src/lib.rt
//! old: text that stands once in the file
//! new: text in its place
//! expect: the function, or the theorem, that is then not proved for a fact of its own
//! ```

use crate::antt::Laws;
use crate::group::Body;
use crate::log::{Log, Verdict};
use std::collections::BTreeMap;

#[derive(Clone, PartialEq, Eq, Debug)]
pub struct Pair {
    pub file: String,
    pub old: String,
    pub new: String,
}

#[derive(Clone, Debug)]
pub struct Edit {
    pub name: String,
    pub label: String,
    pub pairs: Vec<Pair>,
    pub expect: String,
}

/// The files of a crate: paths below its folder, and texts.
pub type Files = BTreeMap<String, String>;

impl Edit {
    pub fn read(name: &str, label: &str, text: &str) -> Result<Edit, String> {
        let mut edit = Edit {
            name: name.to_string(),
            label: label.to_string(),
            pairs: Vec::new(),
            expect: String::new(),
        };
        let (mut file, mut old) = ("", "");
        for line in text.lines() {
            match line.split_once(':') {
                Some(("file", rest)) => file = rest.trim(),
                Some(("old", rest)) => old = rest.strip_prefix(' ').unwrap_or(rest),
                Some(("new", rest)) => edit.pairs.push(Pair {
                    file: file.to_string(),
                    old: old.to_string(),
                    new: rest.strip_prefix(' ').unwrap_or(rest).to_string(),
                }),
                Some(("expect", rest)) => edit.expect = rest.trim().to_string(),
                // A text of several lines would lose all but its first.
                _ if !line.trim().is_empty() => return Err(format!("no such line: {line}")),
                _ => {}
            }
        }
        if edit.pairs.iter().any(|pair| pair.old == pair.new) {
            return Err("a pair changes nothing".to_string());
        }
        if edit.pairs.is_empty() {
            return Err("it has no 'old:' and 'new:' pair".to_string());
        }
        if edit.expect.is_empty() {
            return Err("it has no 'expect:' line".to_string());
        }
        Ok(edit)
    }

    pub fn apply(&self, files: &mut Files) -> Result<(), String> {
        for pair in &self.pairs {
            let text = files
                .get_mut(&pair.file)
                .ok_or(format!("there is no {}", pair.file))?;
            match text.matches(&pair.old).count() {
                1 => *text = text.replace(&pair.old, &pair.new),
                n => {
                    return Err(format!(
                        "its text stands {n} times in {}: {}",
                        pair.file, pair.old
                    ))
                }
            }
        }
        Ok(())
    }

    /// Whether what it names is not proved for a fact of its own.
    pub fn is_met(&self, log: &Log, laws: &Laws) -> bool {
        match log.verdict_on(&self.expect) {
            Some(verdict) => verdict == Verdict::Fact,
            None => log.standing(&self.expect).is_none() && log.theorem_refused(&self.expect, laws),
        }
    }

    /// The function that it names, if it changes that function's body and nothing else.
    pub fn place<'a>(&self, bodies: &'a [Body]) -> Option<&'a Body> {
        let own = bodies.iter().find(|body| body.path == self.expect)?;
        // a body's text starts behind its first line's indentation
        let is_inside =
            |pair: &Pair| pair.file == own.file && own.text.contains(pair.old.trim_start());
        self.pairs.iter().all(is_inside).then_some(own)
    }
}
