//! Changes that can share a check.
//!
//! A check tells each function's standing apart, and a function's proof rests on its own body and on the contracts of
//! those that it calls. So changes of the bodies of several functions share a check if none of these functions reaches
//! another: each verdict is the one that the change alone would get.

use crate::edit::Files;
use crate::items::Source;
use std::collections::BTreeSet;

/// A function's body, with the names that stand before a parenthesis in it.
#[derive(Debug)]
pub struct Body {
    pub file: String,
    pub path: String,
    pub text: String,
    name: String,
    calls: BTreeSet<String>,
}

pub fn bodies(files: &Files) -> Vec<Body> {
    let mut found = Vec::new();
    for (file, text) in files.iter().filter(|(file, _)| file.ends_with(".rt")) {
        let source = Source::new(text.clone());
        for function in source.functions() {
            let calls = function.body.clone().filter(|&i| source.word(i + 1) == "(");
            found.push(Body {
                file: file.clone(),
                calls: calls.map(|i| source.word(i).to_string()).collect(),
                text: source.text_of(&function.body).to_string(),
                name: function.name,
                path: function.path,
            });
        }
    }
    found
}

/// Sorts changes into checks, by the function whose body each changes; a change of anything else stands alone.
/// Each group lists indices of `places`.
pub fn grouped(places: &[Option<&Body>], bodies: &[Body]) -> Vec<Vec<usize>> {
    let mut groups: Vec<Vec<usize>> = Vec::new();
    for (i, place) in places.iter().enumerate() {
        let is_apart = |&other: &usize| match (place, places[other]) {
            (Some(a), Some(b)) => {
                a.name != b.name && !reaches(a, b, bodies) && !reaches(b, a, bodies)
            }
            _ => false,
        };
        match groups.iter_mut().find(|group| group.iter().all(is_apart)) {
            Some(group) => group.push(i),
            None => groups.push(vec![i]),
        }
    }
    groups
}

/// Whether a function calls another, by itself or through others of the crate.
fn reaches(from: &Body, to: &Body, bodies: &[Body]) -> bool {
    let mut seen = BTreeSet::new();
    let mut open = vec![from];
    while let Some(body) = open.pop() {
        if body.calls.contains(&to.name) {
            return true;
        }
        for next in bodies.iter().filter(|next| body.calls.contains(&next.name)) {
            if seen.insert(&next.name) {
                open.push(next);
            }
        }
    }
    false
}
