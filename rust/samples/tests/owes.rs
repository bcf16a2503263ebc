//! What a public function of the proved crates owes, as far as the form of its
//! contract shows it: it asks nothing of its caller, it promises something, and
//! it says what becomes of every slice that it may write to.

use std::fs;
use std::path::{Path, PathBuf};

/// The repository: the first folder upwards that has crates.txt.
fn root() -> PathBuf {
    let package = Path::new(env!("CARGO_MANIFEST_DIR"));
    let root = package.ancestors().find(|f| f.join("crates.txt").is_file());
    root.expect("a folder with crates.txt").to_path_buf()
}

/// A public function: its name, its signature and its contract.
#[derive(Debug, PartialEq)]
struct Public {
    name: String,
    signature: String,
    contract: Vec<String>,
}

/// Whether a line begins a public function.
fn begins(line: &str) -> bool {
    let line = line.trim_start();
    line.starts_with("pub fn ") || line.starts_with("pub extern \"C\" fn ")
}

/// Whether a line begins a clause of a contract.
fn is_clause(line: &str) -> bool {
    line.starts_with("requires ") || line.starts_with("ensures ")
}

/// The public functions of some code. A body begins with a line that has only
/// its brace.
fn public(code: &str) -> Vec<Public> {
    let lines: Vec<&str> = code.lines().map(str::trim).collect();
    let mut found = Vec::new();
    for at in (0..lines.len()).filter(|at| begins(lines[*at])) {
        let head: Vec<&str> = lines[at..]
            .iter()
            .copied()
            .take_while(|l| *l != "{")
            .collect();
        let end = head.iter().position(|line| is_clause(line));
        let (signature, contract) = head.split_at(end.unwrap_or(head.len()));
        let signature = signature.join(" ");
        let name = signature.split_once("fn ").expect("a function").1;
        let name = name.split(['(', '<']).next().expect("a name").to_string();
        let contract = contract.iter().map(ToString::to_string).collect();
        found.push(Public {
            name,
            signature,
            contract,
        });
    }
    found
}

/// The parameters that are lent to be written to.
fn written(signature: &str) -> Vec<&str> {
    let parameters = signature.split(['(', ',']);
    let lent = parameters.filter_map(|p| p.split_once(": &mut "));
    lent.map(|(name, _)| name.trim()).collect()
}

/// Whether a contract has these words, and not as the end of other ones.
fn says(contract: &str, words: &str) -> bool {
    let of_word = |c: char| c.is_alphanumeric() || c == '_';
    contract.match_indices(words).any(|(at, _)| {
        let (before, after) = (&contract[..at], &contract[at + words.len()..]);
        !before.ends_with(|c| of_word(c) || c == '.') && !after.starts_with(of_word)
    })
}

/// What a function fails to say.
fn lacks(function: &Public) -> Vec<String> {
    let name = &function.name;
    let mut faults = Vec::new();
    let clauses = |word: &str| {
        let of_kind = function.contract.iter().filter(|l| l.starts_with(word));
        of_kind.count()
    };
    if clauses("requires ") > 0 {
        faults.push(format!("{name} asks something of its caller"));
    }
    if clauses("ensures ") == 0 {
        faults.push(format!("{name} promises nothing"));
    }
    let contract = function.contract.join(" ");
    for slice in written(&function.signature) {
        if !says(&contract, &format!("{slice}.new")) {
            faults.push(format!("{name} does not say what becomes of {slice}"));
        }
    }
    faults
}

/// The files of a library that others can see: its first file, and the modules
/// that it makes public.
fn visible(source: &Path) -> Vec<PathBuf> {
    let first = source.join("lib.rt");
    let Ok(code) = fs::read_to_string(&first) else {
        return Vec::new();
    };
    let modules = code.lines().filter_map(|l| l.strip_prefix("pub mod "));
    let modules = modules.map(|name| source.join(format!("{}.rt", name.trim_end_matches(';'))));
    let modules: Vec<PathBuf> = modules.collect();
    [vec![first], modules].concat()
}

#[test]
fn every_public_function_states_what_it_owes() {
    let list = fs::read_to_string(root().join("crates.txt")).expect("crates.txt");
    let (mut count, mut faults) = (0, Vec::new());
    for line in list.lines() {
        let krate = line.split([':', ' ', '#']).next().expect("a crate's name");
        for file in visible(&root().join("crates").join(krate).join("src")) {
            for function in public(&fs::read_to_string(file).expect("a file")) {
                count += 1;
                faults.extend(lacks(&function).iter().map(|f| format!("{krate}: {f}")));
            }
        }
    }
    assert!(count > 80, "{count} public functions were found");
    assert!(faults.is_empty(), "\n{}\n", faults.join("\n"));
}

/// What the test must see, on small texts.
#[test]
fn gaps_are_seen() {
    let code = "pub fn a(x: u8, out: &mut [u8]) -> u8\n    ensures told { result }\n    \
                ensures left { f out.new }\n{\n    x\n}\nfn b()\n    requires { x }\n{\n}\n";
    let found = public(code);
    assert_eq!(found.len(), 1);
    assert_eq!(found[0].name, "a");
    assert_eq!(written(&found[0].signature), ["out"]);
    assert_eq!(lacks(&found[0]), Vec::<String>::new());
    for (old, new) in [
        ("ensures told", "requires told"),
        (".new", ".old"),
        ("out.new", "layout.new"),
        ("out.new", "out.newer"),
        ("out: &mut", "more: &mut [u8], out: &mut"),
    ] {
        let changed = public(&code.replace(old, new));
        assert_eq!(lacks(&changed[0]).len(), 1, "{old} as {new}");
    }
    let silent = "pub extern \"C\" fn c(\n    x: u8,\n) -> u8\n{\n    x\n}\n";
    assert_eq!(lacks(&public(silent)[0]), ["c promises nothing"]);
}
