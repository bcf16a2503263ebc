//! Mutants of the definitions that a crate's contracts cite. Statements are left as they are: a weaker one is still true.

use crate::antt::{atoms, definitions, words, Atom, Clause, Definitions};
use crate::change::{Change, Part};
use crate::items::Source;
use std::collections::{BTreeMap, BTreeSet};
use std::ops::Range;

/// The words of every contract of some sources.
pub fn cited(sources: &[Source]) -> BTreeSet<String> {
    let mut found = BTreeSet::new();
    for source in sources {
        for contract in source.functions().into_iter().flat_map(|f| f.contracts) {
            let range = source.span(&contract);
            found.extend(words(&source.text, &atoms(&source.text, range)));
        }
    }
    found
}

/// Every mutant of the definitions in `files` (paths below the crate's folder, and texts) that `cited` reaches.
pub fn mutants(files: &[(String, String)], cited: &BTreeSet<String>) -> Vec<Change> {
    let parsed: Vec<Definitions> = files.iter().map(|(_, text)| definitions(text)).collect();
    let reached = reached(files, &parsed, cited);
    let mut found = Vec::new();
    for ((file, text), definitions) in files.iter().zip(&parsed) {
        let stated = definitions
            .signatures
            .iter()
            .filter(|s| s.states)
            .map(|s| s.name.as_str());
        let stated: BTreeSet<&str> = stated.collect();
        for clause in &definitions.clauses {
            if reached.contains(&clause.name) && !stated.contains(clause.name.as_str()) {
                let mut maker = Maker {
                    file,
                    text,
                    clause,
                    found: &mut found,
                };
                maker.clause();
            }
        }
    }
    found
}

/// The names that the contracts' words lead to, by clauses and declarations of this crate.
fn reached(
    files: &[(String, String)],
    parsed: &[Definitions],
    cited: &BTreeSet<String>,
) -> BTreeSet<String> {
    let mut uses: BTreeMap<String, Vec<String>> = BTreeMap::new();
    for ((_, text), definitions) in files.iter().zip(parsed) {
        for clause in &definitions.clauses {
            let more = words(text, &atoms(text, clause.body.clone()));
            uses.entry(clause.name.clone()).or_default().extend(more);
        }
        for (name, words) in &definitions.others {
            uses.entry(name.clone())
                .or_default()
                .extend(words.iter().cloned());
        }
    }
    let mut found = BTreeSet::new();
    let mut open: Vec<String> = cited.iter().cloned().collect();
    while let Some(name) = open.pop() {
        // `x.name` names an imported module's definition
        let name = name.rsplit('.').next().unwrap_or(&name).to_string();
        if let Some(more) = uses.get(&name).filter(|_| !found.contains(&name)) {
            open.extend(more.iter().cloned());
            found.insert(name);
        }
    }
    found
}

struct Maker<'a> {
    file: &'a str,
    text: &'a str,
    clause: &'a Clause,
    found: &'a mut Vec<Change>,
}

impl Maker<'_> {
    fn replace(&mut self, at: Range<usize>, new: String) {
        self.found.push(Change {
            part: Part::Definitions,
            file: self.file.to_string(),
            within: self.clause.name.clone(),
            at,
            new,
            brings: None,
        });
    }

    /// A name of the prelude in the place of another; the operator `||` has the name `◌||◌`.
    fn exchange(&mut self, at: Range<usize>, name: &str) {
        self.replace(at, name.trim_matches('◌').to_string());
        let mut brought = self.text.lines().filter(|line| line.starts_with("use "));
        let is_named = |line: &str| line.split(['{', ',', '}']).any(|word| word.trim() == name);
        if !brought.any(is_named) {
            let last = self.found.last_mut().expect("the change just made");
            last.brings = Some(format!("use Rattle.std.specs.Prelude.{{{name}}}\n"));
        }
    }

    fn clause(&mut self) {
        let text = self.text;
        let atoms = atoms(text, self.clause.body.clone());
        for (i, atom) in atoms.iter().enumerate() {
            let range = atom.at..atom.end;
            match &text[range.clone()] {
                "ltb" => self.exchange(range, "leb"),
                "leb" => self.exchange(range, "ltb"),
                "&&" => self.exchange(range, "◌||◌"),
                "||" => self.exchange(range, "◌&&◌"),
                "cond" => self.swapped_checks(&atoms, i),
                word => self.number(range, word),
            }
        }
        self.dropped_operands(&atoms, 0..atoms.len());
    }

    fn number(&mut self, range: Range<usize>, word: &str) {
        let Ok(value) = word.parse::<u128>() else {
            return;
        };
        self.replace(range.clone(), (value + 1).to_string());
        if value > 0 {
            self.replace(range, (value - 1).to_string());
        }
    }

    /// The atoms of the argument that starts at `i`: one word, or all within parentheses.
    fn argument(&self, atoms: &[Atom], i: usize) -> Option<Range<usize>> {
        let word = |i: usize| atoms.get(i).map(|a: &Atom| &self.text[a.at..a.end]);
        let mut end = match word(i)? {
            "(" | "{" => closing(self.text, atoms, i)? + 1,
            "record" => closing(self.text, atoms, i + 1)? + 1,
            ")" | "}" | ";" => return None,
            _ => i + 1,
        };
        // a field of the argument belongs to it
        while word(end).is_some_and(|w| w.starts_with('.') && w.len() > 1) {
            end += 1;
        }
        Some(i..end)
    }

    /// `cond A x (cond B y z)`, with (A, x) and (B, y) swapped.
    fn swapped_checks(&mut self, atoms: &[Atom], i: usize) {
        let Some((first, rest)) = self.check(atoms, i) else {
            return;
        };
        if !self.text[atoms[rest].at..].starts_with("(cond ") {
            return;
        }
        let Some((second, _)) = self.check(atoms, rest + 1) else {
            return;
        };
        let (first, second) = (span(atoms, &first), span(atoms, &second));
        let between = &self.text[first.end..second.start];
        let new = format!(
            "{}{between}{}",
            &self.text[second.clone()],
            &self.text[first.clone()]
        );
        self.replace(first.start..second.end, new);
    }

    /// The test and the answer of the `cond` at `i`, and where its third argument starts.
    fn check(&self, atoms: &[Atom], i: usize) -> Option<(Range<usize>, usize)> {
        let test = self.argument(atoms, i + 1)?;
        let answer = self.argument(atoms, test.end)?;
        self.argument(atoms, answer.end)?;
        Some((test.start..answer.end, answer.end))
    }

    /// A chain of `&&` or of `||` without one of its operands, here and inside each parenthesis.
    fn dropped_operands(&mut self, atoms: &[Atom], range: Range<usize>) {
        let mut signs = Vec::new();
        let mut i = range.start;
        while i < range.end {
            match &self.text[atoms[i].at..atoms[i].end] {
                "(" | "{" => {
                    let Some(close) = closing(self.text, atoms, i) else {
                        return;
                    };
                    self.dropped_operands(atoms, i + 1..close);
                    i = close;
                }
                "&&" | "||" => signs.push(i),
                ";" => return,
                _ => {}
            }
            i += 1;
        }
        for (n, &sign) in signs.iter().enumerate() {
            let next = signs.get(n + 1).copied().unwrap_or(range.end);
            if n == 0 {
                self.replace(atoms[range.start].at..atoms[sign + 1].at, String::new());
            }
            self.replace(atoms[sign - 1].end..atoms[next - 1].end, String::new());
        }
    }
}

fn span(atoms: &[Atom], range: &Range<usize>) -> Range<usize> {
    atoms[range.start].at..atoms[range.end - 1].end
}

fn closing(text: &str, atoms: &[Atom], open: usize) -> Option<usize> {
    let mut depth = 0;
    for (i, atom) in atoms.iter().enumerate().skip(open) {
        match &text[atom.at..atom.end] {
            "(" | "{" => depth += 1,
            ")" | "}" => depth -= 1,
            _ => {}
        }
        if depth == 0 {
            return Some(i);
        }
    }
    None
}
