//! Proof files that are made to fit an edit.
//!
//! A fact is named by the code that it is about: where an edit drops the `!` of `if !a(s)`, the check asks for
//! `returns-then-a` in the place of `returns-then-not-a`. An answer under the old name shows nothing of the edit, so it
//! is given the new one and judged again: it then proves the new fact, or it does not.

use crate::edit::Files;
use crate::log::{Log, Missing};

/// How often the proof files of an edit are made to fit it.
pub const ROUNDS: usize = 4;

/// The proof files of a function, paths and texts, with the names that the check asks for; nothing if it asks for none.
pub fn fitted(log: &Log, function: &str, proofs: &Files) -> Option<Files> {
    let mut renamed: Vec<(&str, &str)> = Vec::new();
    let declares = |name: &str| {
        let head = format!("{name} :");
        let has = |line: &str| line.strip_prefix("pub ").unwrap_or(line).starts_with(&head);
        proofs.values().any(|text| text.lines().any(has))
    };
    for fault in log.own_faults(function) {
        let (old, near) = match fault.missing() {
            Some(Missing::Goal(old)) => (old, log.asked_of(function)),
            Some(Missing::Field(old, near)) => (old, near),
            None => continue,
        };
        let is_free = |new: &&str| !declares(new) && renamed.iter().all(|(_, other)| other != new);
        let new = near
            .into_iter()
            .filter(is_free)
            .filter(|new| alike(old, new));
        if let Some(new) = new.min_by_key(|new| distance(old, new)) {
            if renamed.iter().all(|(other, _)| *other != old) {
                renamed.push((old, new));
            }
        }
    }
    let changed = proofs.iter().map(|(file, text)| {
        let rename = |text: String, (old, new): &(&str, &str)| replaced(&text, old, new);
        (file.clone(), renamed.iter().fold(text.clone(), rename))
    });
    Some(changed.collect()).filter(|changed| changed != proofs)
}

/// Whether two names are of one kind, as `returns-then-a` and `returns-then-not-a`, and more alike than not.
fn alike(a: &str, b: &str) -> bool {
    let kind = |name: &str| name.split('-').next().map(str::to_string);
    kind(a) == kind(b) && 2 * distance(a, b) <= a.chars().count().max(b.chars().count())
}

/// How many letters are to be written, taken out or put in the place of another.
fn distance(a: &str, b: &str) -> usize {
    let b: Vec<char> = b.chars().collect();
    let mut row: Vec<usize> = (0..=b.len()).collect();
    for (i, x) in a.chars().enumerate() {
        let mut above = row[0];
        row[0] = i + 1;
        for (j, y) in b.iter().enumerate() {
            let changed = above + usize::from(x != *y);
            above = row[j + 1];
            row[j + 1] = changed.min(row[j] + 1).min(above + 1);
        }
    }
    row[b.len()]
}

/// A text with one whole name in the place of another.
fn replaced(text: &str, old: &str, new: &str) -> String {
    let belongs = |c: char| c.is_alphanumeric() || "_-'".contains(c);
    let (mut found, mut rest) = (String::new(), text);
    while let Some(at) = rest.find(old) {
        let (before, after) = (&rest[..at], &rest[at + old.len()..]);
        let is_whole = !before.ends_with(belongs) && !after.starts_with(belongs);
        found.push_str(before);
        found.push_str(if is_whole { new } else { old });
        rest = after;
    }
    found + rest
}
