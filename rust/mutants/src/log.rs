//! What a check said.

use crate::antt::{is_made_of, Laws};
use std::collections::{BTreeMap, BTreeSet};

/// Said of a function that has no answers of its own, where the prover's own search does not find a fact.
const LEFT_OPEN: &str = "; `search` did not prove `";

/// Said of a fact that no answer is given for, before it is named.
const OPEN: &str = ": it is not proved that ";

/// Said of such a fact where the prover found values that break it.
const FALSE: &str = "; the facts known there allow values at which this goal is false";

/// Said in the place of a verdict.
const LIMITS: [&str; 5] = [
    "antt ran out of stack",
    "antt ran out of the steps that the check of one declaration may ",
    "antt ran out of the memory that the check of one declaration may ",
    "outgrew the memory limit (",
    "stopped at the step limit (",
];

/// An error: where it stands, the declaration that it is about, and what it says.
#[derive(Debug)]
pub struct Fault {
    pub at: String,
    pub declaration: String,
    pub says: String,
    /// What rests on a declaration that does not stand, where the error is about that.
    unchecked: Option<Unchecked>,
}

/// What was not checked, since a declaration that it rests on does not stand.
#[derive(Debug)]
struct Unchecked {
    below: String,
    listed: BTreeSet<String>,
    /// Whether others are counted alone.
    and_more: bool,
}

#[derive(Clone, Copy, PartialEq, Eq, Debug)]
pub enum Verdict {
    /// The crate is proved all the same.
    Proved,
    /// It is a program, proved all the same, that writes something else.
    Output,
    /// A fact fails.
    Fact,
    /// The proof files name what the code no longer has, so this shows nothing.
    Unfit,
    /// The compiler refused it before the prover was asked, or a definition does not stand.
    NotCompiled,
    /// The check took too long, or met a limit of the prover.
    NoVerdict,
}

/// How a function fared.
#[derive(Clone, Copy, PartialEq, Eq, Debug)]
pub enum Standing {
    Proved,
    /// Not proved for a fact of its own.
    Refused,
    /// Not proved, but it calls a function that is not.
    Above,
}

/// What is said of a function.
#[derive(Debug)]
struct Told {
    standing: Standing,
    /// The facts that no answer is given for, and whether each was seen to be false.
    open: Vec<(String, bool)>,
}

#[derive(Debug)]
pub struct Log {
    pub verdict: Verdict,
    pub faults: Vec<Fault>,
    functions: BTreeMap<String, Told>,
    /// The facts that the check asks for, where a proof file names one that it does not.
    asked: Vec<String>,
}

impl Log {
    pub fn read(text: &str, in_time: bool) -> Log {
        let faults: Vec<Fault> = text.lines().filter_map(fault).collect();
        let functions = functions(text);
        let verdict = match text.lines().rev().find(|line| line.starts_with("logic=")) {
            _ if !in_time => Verdict::NoVerdict,
            Some(line) if line.starts_with("logic=proved") => Verdict::Proved,
            Some(line) if line.starts_with("logic=not-proved") => match faults.first() {
                _ if faults.iter().any(Fault::is_of_a_statement) => Verdict::NotCompiled,
                Some(fault) => fault.verdict(),
                None if functions.values().any(|f| !f.open.is_empty()) => Verdict::Fact,
                None if text.contains(LEFT_OPEN) => Verdict::Fact,
                None => Verdict::Unfit,
            },
            _ if LIMITS.iter().any(|limit| text.contains(limit)) => Verdict::NoVerdict,
            _ => Verdict::NotCompiled,
        };
        Log {
            verdict,
            faults,
            functions,
            asked: text.lines().flat_map(asked).collect(),
        }
    }

    fn function(&self, function: &str) -> Option<(&str, &Told)> {
        let end = format!("::{function}");
        self.functions
            .iter()
            .find(|(name, _)| name.ends_with(&end))
            .map(|(name, told)| (name.as_str(), told))
    }

    /// How the function with this path, or the end of a path, fared.
    pub fn standing(&self, function: &str) -> Option<Standing> {
        self.function(function).map(|(_, told)| told.standing)
    }

    /// The verdict on one function, where several were changed at once; nothing where another hides it.
    pub fn verdict_on(&self, function: &str) -> Option<Verdict> {
        if !matches!(
            self.verdict,
            Verdict::Proved | Verdict::Fact | Verdict::Unfit
        ) {
            return None;
        }
        let (_, told) = self.function(function)?;
        let own = self.own_faults(function);
        let fails = own.iter().any(|fault| fault.verdict() == Verdict::Fact);
        match told.standing {
            Standing::Above => None,
            Standing::Proved => Some(Verdict::Proved),
            Standing::Refused if own.is_empty() || fails || told.is_false() => Some(Verdict::Fact),
            Standing::Refused => Some(Verdict::Unfit),
        }
    }

    /// The folder of a function's proof files, below its crate's.
    pub fn proofs_of(&self, function: &str) -> Option<String> {
        let (name, _) = self.function(function)?;
        let below: Vec<&str> = name.split("::").skip(1).collect();
        Some(format!("proofs/{}", below.join("/")))
    }

    /// The errors that stand in a function's own proof files.
    pub fn own_faults(&self, function: &str) -> Vec<&Fault> {
        let folder = self.proofs_of(function).unwrap_or_default();
        let own = |fault: &&Fault| fault.file().rsplit_once('/').is_some_and(|f| f.0 == folder);
        self.faults.iter().filter(own).collect()
    }

    /// The facts that are asked of a function, as far as the check tells them: those with no answer first.
    pub fn asked_of(&self, function: &str) -> Vec<&str> {
        let told = self.function(function).map(|(_, told)| &told.open);
        let open = told.into_iter().flatten().map(|(goal, _)| goal.as_str());
        open.chain(self.asked.iter().map(String::as_str)).collect()
    }

    /// Whether a theorem is refused and the first error of all stands in its proof, or in a law that it is made of.
    pub fn theorem_refused(&self, theorem: &str, laws: &Laws) -> bool {
        let falls = |fault: &Fault| {
            fault.declaration == theorem
                || fault
                    .unchecked
                    .as_ref()
                    .is_some_and(|u| u.has(theorem, laws))
        };
        self.faults.iter().any(falls)
            && self.verdict == Verdict::Fact
            && self
                .faults
                .first()
                .is_some_and(|first| is_made_of(laws, theorem, first.about()))
    }
}

impl Told {
    fn is_false(&self) -> bool {
        self.open.iter().any(|(_, is_false)| *is_false)
    }
}

impl Unchecked {
    /// Whether a theorem is among what was not checked; of those that are counted alone it is one if its proof is made
    /// of what does not stand.
    fn has(&self, theorem: &str, laws: &Laws) -> bool {
        self.listed.contains(theorem) || (self.and_more && is_made_of(laws, theorem, &self.below))
    }
}

fn fault(line: &str) -> Option<Fault> {
    let (at, message) = line.split_once(": error: ")?;
    let declaration = message
        .strip_prefix('`')
        .and_then(|m| m.split_once('`'))
        .map_or("", |m| m.0);
    Some(Fault {
        at: at.to_string(),
        declaration: declaration.to_string(),
        says: message.to_string(),
        unchecked: unchecked(message),
    })
}

/// Reads "2 declarations that depend on `a`, which was rejected, were not checked: b, c (via b) and 3 more".
fn unchecked(message: &str) -> Option<Unchecked> {
    let (_, rest) = message
        .split_once(" that depends on `")
        .or_else(|| message.split_once(" that depend on `"))?;
    let (below, rest) = rest.split_once('`')?;
    let (_, list) = rest.split_once(" not checked: ")?;
    let (list, and_more) = match list.rsplit_once(" and ") {
        Some((list, more)) if more.ends_with(" more") => (list, true),
        _ => (list, false),
    };
    let names = list.split(", ").filter_map(|name| name.split(' ').next());
    Some(Unchecked {
        below: below.to_string(),
        listed: names.map(str::to_string).collect(),
        and_more,
    })
}

impl Fault {
    /// The file in which it stands, below the crate's folder.
    fn file(&self) -> &str {
        let file = self.at.split(':').next().unwrap_or("");
        file.strip_prefix("./").unwrap_or(file)
    }

    /// The declaration that does not stand.
    fn about(&self) -> &str {
        match &self.unchecked {
            Some(unchecked) => &unchecked.below,
            None => &self.declaration,
        }
    }

    /// Whether a definition, or a clause of the code, does not stand: then no contract was tried.
    fn is_of_a_statement(&self) -> bool {
        let of_code = self.file().starts_with("src/");
        let is_unread = self.declaration.is_empty() || self.names_nothing();
        self.file().starts_with("specs/") || (of_code && is_unread)
    }

    /// Whether it says that a name stands for nothing.
    fn names_nothing(&self) -> bool {
        ["has no field `", "has no `", "is not in scope"]
            .iter()
            .any(|says| self.says.contains(says))
    }

    /// The name that stands for nothing where this fault has it: a fact that is not asked, or a field that is not there.
    pub fn missing(&self) -> Option<Missing<'_>> {
        let quoted = |rest: &'_ str| rest.split('`').next().map(str::len);
        let after = |says: &str| {
            let at = self.says.find(says)? + says.len();
            let rest = &self.says[at..];
            Some((&rest[..quoted(rest)?], rest))
        };
        if let Some((name, rest)) = after("has no field `") {
            let near = rest
                .split_once("(nearest: ")
                .map_or("", |(_, list)| list.split(')').next().unwrap_or(""));
            let near = near.split(", ").filter_map(|name| name.strip_prefix('.'));
            return Some(Missing::Field(name, near.collect()));
        }
        let (name, rest) = after(" has no `")?;
        rest.contains("that can be named from here")
            .then_some(Missing::Goal(name))
    }

    fn verdict(&self) -> Verdict {
        if self.names_nothing() {
            Verdict::Unfit
        } else {
            Verdict::Fact
        }
    }
}

/// A name of a proof file that stands for nothing.
#[derive(Clone, PartialEq, Eq, Debug)]
pub enum Missing<'a> {
    /// A fact that is not asked.
    Goal(&'a str),
    /// A field, with the fields there that are named most like it.
    Field(&'a str, Vec<&'a str>),
}

/// What is said of each function. The notes on its facts stand above its line.
fn functions(text: &str) -> BTreeMap<String, Told> {
    let (mut found, mut open) = (BTreeMap::new(), Vec::new());
    for line in text.lines() {
        if line.starts_with("note: ") && line.contains(OPEN) {
            let rest = line.split_once(OPEN).map_or("", |(_, rest)| rest);
            let goal = rest.split_once("(`").and_then(|(_, g)| g.split_once("`)"));
            open.extend(goal.map(|(goal, _)| (goal.to_string(), line.contains(FALSE))));
        } else if let Some((name, standing)) = function(line) {
            let open = std::mem::take(&mut open);
            found.insert(name, Told { standing, open });
        } else if line.starts_with("fn ") {
            open.clear();
        }
    }
    found
}

fn function(line: &str) -> Option<(String, Standing)> {
    let (name, says) = line.strip_prefix("fn ")?.split_once(": ")?;
    let standing = match says {
        "proved" => Standing::Proved,
        says if says.contains("; it calls ") || says.starts_with("no proof: it calls ") => {
            Standing::Above
        }
        says if says.starts_with("not proved") || says.contains(LEFT_OPEN) => Standing::Refused,
        _ => return None,
    };
    Some((name.to_string(), standing))
}

/// The facts of "help: `Goals` has no `a`; rattle asks for `b`, `c` and 9 more; ..".
fn asked(line: &str) -> Vec<String> {
    let list = line
        .strip_prefix("help: `Goals` has no `")
        .and_then(|rest| rest.split_once("; rattle asks for "))
        .map_or("", |(_, list)| list.split(';').next().unwrap_or(""));
    let names = list.split('`').skip(1).step_by(2);
    names.map(str::to_string).collect()
}
