//! The definitions of a file of `specs/`: names, clauses and the terms in them.

use std::collections::{BTreeMap, BTreeSet};
use std::ops::Range;

/// A clause of a definition: the bytes right of its `=`.
#[derive(Debug)]
pub struct Clause {
    pub name: String,
    pub body: Range<usize>,
}

/// A definition's name, and whether what it defines is a statement and not a value.
#[derive(Debug)]
pub struct Signature {
    pub name: String,
    pub states: bool,
}

#[derive(Debug)]
pub struct Definitions {
    pub signatures: Vec<Signature>,
    pub clauses: Vec<Clause>,
    /// Each word of a declaration that is neither a value's clause nor an import, by the declaration's name.
    pub others: Vec<(String, Vec<String>)>,
}

/// A token of a term, as a range of bytes.
#[derive(Clone, Copy, Debug)]
pub struct Atom {
    pub at: usize,
    pub end: usize,
}

/// The items of a file, each from its first column to the next item, comments cut out.
fn items(text: &str) -> Vec<Range<usize>> {
    let mut found: Vec<Range<usize>> = Vec::new();
    let mut at = 0;
    for line in text.split_inclusive('\n') {
        let end = at + line.len();
        if line.starts_with("--") || line.trim().is_empty() {
        } else if line.starts_with(' ') {
            if let Some(last) = found.last_mut() {
                last.end = end;
            }
        } else {
            found.push(at..end);
        }
        at = end;
    }
    found
}

/// The words and signs of a term; parentheses and braces stand alone, comments are left out.
pub fn atoms(text: &str, range: Range<usize>) -> Vec<Atom> {
    let mut found = Vec::new();
    let mut at = range.start;
    while at < range.end {
        let rest = &text[at..range.end];
        let first = rest.chars().next().expect("a character");
        let length = if rest.starts_with("--") {
            rest.find('\n').unwrap_or(rest.len())
        } else if first.is_whitespace() || "(){};,".contains(first) {
            first.len_utf8()
        } else {
            rest.find(|c: char| c.is_whitespace() || "(){};,".contains(c))
                .unwrap_or(rest.len())
        };
        if !first.is_whitespace() && !rest.starts_with("--") {
            found.push(Atom {
                at,
                end: at + length,
            });
        }
        at += length;
    }
    found
}

pub fn definitions(text: &str) -> Definitions {
    let mut found = Definitions {
        signatures: Vec::new(),
        clauses: Vec::new(),
        others: Vec::new(),
    };
    for item in items(text) {
        let atoms = atoms(text, item.clone());
        let word = |i: usize| atoms.get(i).map_or("", |a: &Atom| &text[a.at..a.end]);
        let start = (0..atoms.len())
            .find(|&i| !matches!(word(i), "pub" | "abbrev" | "unfoldable"))
            .unwrap_or(0);
        let name = word(start).to_string();
        let equals = (0..atoms.len()).find(|&i| word(i) == "=");
        match name.as_str() {
            "use" | "mod" | "infixl" | "infixr" | "infix" => {}
            "data" | "record" => found
                .others
                .push((word(start + 1).to_string(), words(text, &atoms))),
            _ if word(start + 1) == ":" => {
                let states = text[item.clone()].trim_end().ends_with("Type 0");
                found.signatures.push(Signature { name, states });
            }
            _ => {
                if let Some(equals) = equals {
                    found.clauses.push(Clause {
                        name,
                        body: atoms[equals].end..item.end,
                    });
                }
            }
        }
    }
    found
}

/// Each word of a text.
pub fn words(text: &str, atoms: &[Atom]) -> Vec<String> {
    atoms
        .iter()
        .map(|a| text[a.at..a.end].to_string())
        .collect()
}

/// The words that each declaration of some proofs is made of, by its name.
pub type Laws = BTreeMap<String, BTreeSet<String>>;

/// Adds the declarations of a file of `proofs/`, those inside sections too.
pub fn add_laws(laws: &mut Laws, text: &str) {
    let mut name = String::new();
    for line in text.lines() {
        let mut words = line
            .split_whitespace()
            .skip_while(|w| matches!(*w, "pub" | "abbrev" | "unfoldable"));
        if let (Some(first), Some(":")) = (words.next(), words.next()) {
            name = first.to_string();
        }
        let own = laws.entry(name.clone()).or_default();
        own.extend(
            line.split(|c: char| c.is_whitespace() || "(){};,".contains(c))
                .map(str::to_string),
        );
    }
}

/// Whether a theorem's proof is made of a law, by itself or through other laws.
pub fn is_made_of(laws: &Laws, theorem: &str, law: &str) -> bool {
    let mut seen = BTreeSet::from([theorem]);
    let mut open = vec![theorem];
    while let Some(name) = open.pop() {
        if name == law {
            return true;
        }
        let more = laws
            .get(name)
            .into_iter()
            .flatten()
            .filter(|word| laws.contains_key(*word));
        open.extend(more.map(String::as_str).filter(|word| seen.insert(word)));
    }
    false
}
