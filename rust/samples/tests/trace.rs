//! TRACE has a block for each rule of RULES, every name in it stands in the crates,
//! and the comments of the definitions cite the rules that it names them for.

use std::collections::{BTreeMap, BTreeSet};
use std::fs;
use std::path::{Path, PathBuf};

/// The lines of a block, in their order; the last one may be missing.
const LINES: [&str; 5] = ["definition", "function", "theorem", "wrong answers", "test"];
const UNNAMED: &str = "(to be named)";
const COLUMNS: usize = 100;

/// The repository: the first folder upwards that has crates.txt.
fn root() -> PathBuf {
    let package = Path::new(env!("CARGO_MANIFEST_DIR"));
    let root = package.ancestors().find(|f| f.join("crates.txt").is_file());
    root.expect("a folder with crates.txt").to_path_buf()
}

fn text(below_root: &str) -> String {
    fs::read_to_string(root().join(below_root)).expect(below_root)
}

// ---- RULES and TRACE

/// `R12` as 12.
fn rule(word: &str) -> Option<u32> {
    word.strip_prefix('R')?.parse().ok()
}

/// The rule that begins on a line: with `**R12**`, or as the row of a table that
/// begins with `| R12 |`.
fn begun(line: &str) -> Option<u32> {
    let prose = line.strip_prefix("**").and_then(|l| l.split_once("**"));
    let row = line.strip_prefix("| ").and_then(|l| l.split_once(" |"));
    rule(prose.or(row)?.0)
}

/// The rules, in their order.
fn rules(text: &str) -> Vec<u32> {
    text.lines().filter_map(begun).collect()
}

/// The rules of a list: `R1, R2` or `R3 to R5`.
fn listed(list: &str) -> Option<Vec<u32>> {
    let mut all = Vec::new();
    for part in list.split(", ") {
        match part.split_once(" to ") {
            Some((first, last)) => all.extend(rule(first)?..=rule(last)?),
            None => all.push(rule(part)?),
        }
    }
    Some(all)
}

/// A block of TRACE: the number of its first line, its rules, and its lines by
/// name.
#[derive(Debug)]
struct Block {
    at: usize,
    rules: Vec<u32>,
    lines: Vec<(String, String)>,
}

/// The rules that a heading names: `R1, R2: title`.
fn headed(heading: &str) -> Option<Vec<u32>> {
    listed(heading.split_once(": ")?.0)
}

/// The blocks, and what is no part of one.
fn blocks(text: &str) -> (Vec<Block>, Vec<String>) {
    let (mut blocks, mut faults) = (Vec::<Block>::new(), Vec::new());
    let mut inside = false;
    for (at, line) in (1..).zip(text.lines()) {
        if let Some(heading) = line.strip_prefix("### ") {
            inside = true;
            let rules = headed(heading).unwrap_or_default();
            let lines = Vec::new();
            blocks.push(Block { at, rules, lines });
        } else if line.starts_with('#') {
            inside = false;
        } else if inside && !line.is_empty() {
            let lines = &mut blocks.last_mut().expect("a block").lines;
            if let Some((name, value)) = line.strip_prefix("- ").and_then(|l| l.split_once(": ")) {
                lines.push((name.to_string(), value.to_string()));
            } else if let (Some(more), Some(last)) = (line.strip_prefix("  "), lines.last_mut()) {
                last.1 = format!("{} {more}", last.1);
            } else {
                faults.push(format!("line {at}: no line of a block: {line}"));
            }
        }
    }
    (blocks, faults)
}

/// Whether each rule has one block, and each block rules that are there.
fn unmatched(rules: &[u32], blocks: &[Block]) -> Vec<String> {
    let mut faults = Vec::new();
    for (i, rule) in rules.iter().enumerate() {
        if rules[..i].contains(rule) {
            faults.push(format!("R{rule} stands twice in RULES"));
        }
        let of_rule = blocks.iter().filter(|block| block.rules.contains(rule));
        match of_rule.count() {
            0 => faults.push(format!("R{rule} has no block")),
            1 => {}
            n => faults.push(format!("R{rule} has {n} blocks")),
        }
    }
    for block in blocks {
        if block.rules.is_empty() {
            faults.push(format!("line {}: a block of no rule", block.at));
        }
        for rule in block.rules.iter().filter(|rule| !rules.contains(rule)) {
            faults.push(format!("line {}: RULES has no R{rule}", block.at));
        }
    }
    faults
}

// ---- the names in the crates

/// What the crates have: the name of a block's line, a crate, a name.
type Names = BTreeSet<(&'static str, String, String)>;

/// The crates that `crates.txt` lists. Behind a name its kind can stand, as in `capi staticlib: wire`.
fn crates() -> Vec<String> {
    let list = text("crates.txt");
    let names = list
        .lines()
        .filter_map(|line| line.split(['#', ':', ' ']).next());
    let names = names.filter(|name| !name.is_empty());
    names.map(String::from).collect()
}

/// The files below a folder that have this extension.
fn files(folder: &Path, extension: &str) -> Vec<PathBuf> {
    let mut found = Vec::new();
    for entry in fs::read_dir(folder).into_iter().flatten() {
        let path = entry.expect("a file").path();
        if path.is_dir() {
            found.extend(files(&path, extension));
        } else if path.extension().is_some_and(|e| e == extension) {
            found.push(path);
        }
    }
    found
}

fn stem(file: &Path) -> String {
    let stem = file.file_stem().expect("a name");
    stem.to_string_lossy().to_string()
}

/// What a line declares for others to cite, if it does: `unfoldable pub a : B`,
/// `pub record A : Type 0 where`, the field `pub a : B`.
fn declared(line: &str) -> Option<&str> {
    let line = line.trim_start();
    let line = line.strip_prefix("abbrev ").unwrap_or(line);
    let line = line.strip_prefix("unfoldable ").unwrap_or(line);
    let line = line.strip_prefix("pub ")?;
    let line = line.strip_prefix("record ").unwrap_or(line);
    let line = line.strip_prefix("data ").unwrap_or(line);
    let (name, rest) = line.split_once(' ')?;
    rest.split(' ').any(|word| word == ":").then_some(name)
}

/// The functions of some code; a method has its type before it.
fn functions(code: &str) -> Vec<String> {
    let mut found = Vec::new();
    let mut of_type = None;
    for line in code.lines() {
        if let Some(name) = line.strip_prefix("impl ") {
            of_type = name.split([' ', '<']).next();
        } else if line == "}" {
            of_type = None;
        }
        let words = line.trim_start();
        let Some((before, after)) = words.split_once("fn ") else {
            continue;
        };
        let code = before.is_empty() || before.starts_with("pub");
        if let (true, Some(name)) = (code, after.split(['(', '<']).next()) {
            let prefix = of_type.map(|t| format!("{t}::")).unwrap_or_default();
            found.push(format!("{prefix}{name}"));
        }
    }
    found
}

fn names() -> Names {
    let mut names = Names::new();
    for krate in crates() {
        let folder = root().join("crates").join(&krate);
        let mut add = |kind, name: String| names.insert((kind, krate.to_string(), name));
        for file in files(&folder.join("specs"), "antt") {
            for name in fs::read_to_string(&file).expect("text").lines() {
                let Some(name) = declared(name) else { continue };
                add("definition", format!("{}.{name}", stem(&file)));
            }
        }
        for file in files(&folder.join("src"), "rt") {
            for name in functions(&fs::read_to_string(&file).expect("text")) {
                add("function", name);
            }
        }
        for file in files(&folder.join("proofs"), "antt") {
            for name in fs::read_to_string(&file).expect("text").lines() {
                let Some(name) = declared(name) else { continue };
                add("theorem", name.to_string());
            }
        }
        for place in ["must-fail", "wrong-answers"] {
            for file in files(&folder.join(place), "edit") {
                add("wrong answers", stem(&file));
            }
        }
    }
    names
}

// ---- what TRACE cites

/// A value without its remarks in parentheses.
fn without_remarks(value: &str) -> String {
    let (mut kept, mut depth) = (String::new(), 0);
    for letter in value.chars() {
        depth += i32::from(letter == '(');
        if depth == 0 {
            kept.push(letter);
        }
        depth -= i32::from(letter == ')');
    }
    kept.trim().to_string()
}

/// The crates and names of a value such as "wire `a`, `b`; entry `c`"; a remark
/// that was taken out may have left a blank.
fn cited(value: &str) -> Option<Vec<(String, String)>> {
    let mut all = Vec::new();
    for group in value.split("; ") {
        let (krate, list) = group.split_once(' ')?;
        for name in list.split(", ") {
            let name = name.trim().strip_prefix('`')?.strip_suffix('`')?;
            all.push((krate.to_string(), name.to_string()));
        }
    }
    Some(all)
}

/// What is wrong with the lines of a block.
fn misnamed(block: &Block, names: &Names) -> Vec<String> {
    let rules: Vec<String> = block.rules.iter().map(|rule| format!("R{rule}")).collect();
    let of = format!("line {}, {}", block.at, rules.join(" "));
    let fault = |what: String| format!("{of}: {what}");
    let mut faults = Vec::new();
    let kinds: Vec<&str> = block.lines.iter().map(|(name, _)| name.as_str()).collect();
    if kinds != LINES[..4] && kinds != LINES {
        faults.push(fault(format!("the lines are {kinds:?}")));
        return faults;
    }
    for ((_, value), kind) in block.lines.iter().zip(LINES) {
        if value == UNNAMED {
            faults.push(fault(format!("{kind}: {UNNAMED}")));
            continue;
        }
        let plain = without_remarks(value);
        if kind == "test" {
            let absent = plain.split(", ").filter(|f| !root().join(f).is_file());
            faults.extend(absent.map(|file| fault(format!("no file {file}"))));
        } else if plain != "none" && plain != "all" {
            let Some(cited) = cited(&plain) else {
                faults.push(fault(format!("{kind} cannot be read: {value}")));
                continue;
            };
            for (krate, name) in cited {
                if !names.contains(&(kind, krate.clone(), name.clone())) {
                    faults.push(fault(format!("{kind}: {krate} has no {name}")));
                }
            }
        }
    }
    faults
}

// ---- what the definitions cite

/// The sections of RULES whose rules say that others hold, or what would break
/// them: the definitions cite those others.
const OF_OTHERS: [&str; 4] = ["## 14.", "## 15.", "## 18.", "## 19."];

/// The rules of these sections.
fn of_others(text: &str) -> BTreeSet<u32> {
    let (mut found, mut inside) = (BTreeSet::new(), false);
    for line in text.lines() {
        if line.starts_with("## ") {
            inside = OF_OTHERS.iter().any(|section| line.starts_with(section));
        }
        found.extend(begun(line).filter(|_| inside));
    }
    found
}

/// The rules that a comment cites, each list in parentheses of its own; or one
/// that stands elsewhere.
fn in_comment(comment: &str) -> Result<Vec<u32>, u32> {
    let mut all = Vec::new();
    for part in comment.split(['(', ')']) {
        match listed(part) {
            Some(rules) => all.extend(rules),
            None => {
                let mut words = part.split(|c: char| !c.is_alphanumeric());
                words.find_map(rule).map_or(Ok(()), Err)?;
            }
        }
    }
    Ok(all)
}

/// A definition: its crate, and `File.name`.
type Definition = (String, String);

/// What the definitions of the crates cite.
#[derive(Debug, Default)]
struct Citations {
    /// The crate, the file and line, and the rule, of each citation.
    all: Vec<(String, String, u32)>,
    /// The file and line of each definition, and the rules that its comment cites.
    of: BTreeMap<Definition, (String, Vec<u32>)>,
    /// What is no citation but names a rule.
    faults: Vec<String>,
}

impl Citations {
    /// Adds a file. The comment of a definition stands above it or at the end of
    /// its line; one that has none has that of the definition before it.
    fn add(&mut self, krate: &str, path: &str, text: &str) {
        let file = stem(Path::new(path));
        let (mut above, mut current) = (None::<Vec<u32>>, Vec::new());
        for (at, line) in (1..).zip(text.lines()) {
            let place = format!("{path}, line {at}");
            let parts = line.split_once("--");
            let (code, comment) = parts.map_or((line, None), |(code, rest)| (code, Some(rest)));
            if let Some(comment) = comment {
                let rules = in_comment(comment).unwrap_or_else(|rule| {
                    self.faults.push(format!("{place}: R{rule} is in no list"));
                    Vec::new()
                });
                let one = |rule: &u32| (krate.to_string(), place.clone(), *rule);
                self.all.extend(rules.iter().map(one));
                above.get_or_insert_default().extend(rules);
            }
            if let Some(name) = declared(code) {
                current = above.take().unwrap_or(current);
                let definition = (krate.to_string(), format!("{file}.{name}"));
                let here = (place, current.clone());
                self.of.entry(definition).or_insert(here);
            } else if comment.is_none() || !code.trim().is_empty() {
                above = None;
            }
        }
    }
}

fn citations() -> Citations {
    let mut found = Citations::default();
    for krate in crates() {
        for file in files(&root().join("crates").join(&krate).join("specs"), "antt") {
            let path = file.strip_prefix(root()).expect("below the root");
            let path = path.to_string_lossy();
            found.add(&krate, &path, &text(&path));
        }
    }
    found
}

/// The crates and names in a line of a block.
fn named(block: &Block, line: &str) -> Vec<Definition> {
    let of_line = block.lines.iter().filter(|(name, _)| name == line);
    let lists = of_line.filter_map(|(_, value)| cited(&without_remarks(value)));
    lists.flatten().collect()
}

/// Whether a block names something of a crate, or speaks of all functions.
fn speaks_of(block: &Block, krate: &str) -> bool {
    let all = |(_, value): &(String, String)| without_remarks(value) == "all";
    let mut names = LINES[..3].iter().flat_map(|line| named(block, line));
    names.any(|(other, _)| other == krate) || block.lines.iter().any(all)
}

/// The citations of rules that are not there, or whose block names nothing of the
/// crate.
fn miscited(citations: &Citations, rules: &[u32], blocks: &[Block]) -> Vec<String> {
    let mut faults = citations.faults.clone();
    for (krate, place, rule) in &citations.all {
        let block = blocks.iter().find(|block| block.rules.contains(rule));
        if !rules.contains(rule) {
            faults.push(format!("{place}: RULES has no R{rule}"));
        } else if let Some(block) = block.filter(|block| !speaks_of(block, krate)) {
            let of = format!("TRACE, line {}, names no {krate}", block.at);
            faults.push(format!("{place}: R{rule}: {of}"));
        }
    }
    faults
}

/// Each rule that TRACE has definitions for, and that is not about others, is cited
/// by one of these definitions.
fn unstated(citations: &Citations, of_others: &BTreeSet<u32>, blocks: &[Block]) -> Vec<String> {
    let mut faults = Vec::new();
    for block in blocks {
        let names = named(block, "definition");
        let here = names.iter().filter_map(|name| citations.of.get(name));
        let here: Vec<&(String, Vec<u32>)> = here.collect();
        let Some((place, _)) = here.first() else {
            continue;
        };
        for rule in block.rules.iter().filter(|rule| !of_others.contains(rule)) {
            if !here.iter().any(|(_, cited)| cited.contains(rule)) {
                let of = format!("no definition of TRACE, line {}, cites it", block.at);
                faults.push(format!("{place}: R{rule}: {of}"));
            }
        }
    }
    faults
}

/// Each definition that TRACE names cites one of the rules that it is named for.
fn uncited(citations: &Citations, blocks: &[Block]) -> Vec<String> {
    let mut rules = BTreeMap::<Definition, BTreeSet<u32>>::new();
    for block in blocks {
        for name in named(block, "definition") {
            rules.entry(name).or_default().extend(&block.rules);
        }
    }
    let mut faults = Vec::new();
    for (definition, rules) in rules {
        if let Some((place, cited)) = citations.of.get(&definition) {
            if !cited.iter().any(|rule| rules.contains(rule)) {
                let name = definition.1;
                let rules: Vec<String> = rules.iter().map(|rule| format!("R{rule}")).collect();
                let rules = rules.join(", ");
                faults.push(format!("{place}: {name} cites none of {rules}"));
            }
        }
    }
    faults
}

fn assert_none(faults: Vec<String>) {
    assert!(faults.is_empty(), "\n{}\n", faults.join("\n"));
}

#[test]
fn every_rule_has_a_block() {
    let (blocks, mut faults) = blocks(&text("docs/TRACE.md"));
    let rules = rules(&text("docs/RULES.md"));
    assert!(rules.len() > 200, "RULES has {} rules", rules.len());
    faults.extend(unmatched(&rules, &blocks));
    assert_none(faults);
}

#[test]
fn every_name_is_there() {
    let (names, (blocks, _)) = (names(), blocks(&text("docs/TRACE.md")));
    let faults = blocks.iter().flat_map(|block| misnamed(block, &names));
    assert_none(faults.collect());
}

#[test]
fn definitions_cite_their_rules() {
    let (citations, (blocks, _)) = (citations(), blocks(&text("docs/TRACE.md")));
    assert!(
        citations.all.len() > 500,
        "{} citations",
        citations.all.len()
    );
    let text = text("docs/RULES.md");
    let mut faults = miscited(&citations, &rules(&text), &blocks);
    faults.extend(unstated(&citations, &of_others(&text), &blocks));
    faults.extend(uncited(&citations, &blocks));
    assert_none(faults);
}

#[test]
fn lines_end_in_time() {
    for file in ["docs/RULES.md", "docs/TRACE.md"] {
        for (at, line) in (1..).zip(text(file).lines()) {
            assert!(line.chars().count() <= COLUMNS, "{file}, line {at}");
        }
    }
}

/// What the test must see, on small texts.
#[test]
fn faults_are_seen() {
    assert_eq!(rules("**R1** a R2\n\n| R3 | b |\n| no | R4 |\n"), [1, 3]);
    assert_eq!(headed("R1, R3 to R5: a"), Some(vec![1, 3, 4, 5]));
    assert_eq!(headed("no rule: a"), None);
    let trace = "- a: b\n### R1: one\n- definition: wire `A.b`,\n  `A.c`\n- function: all (`x`)\n\
                 - theorem: none\n- wrong answers: (to be named)\n";
    let (found, faults) = blocks(trace);
    assert_eq!((found.len(), faults.len()), (1, 0));
    assert_eq!(unmatched(&[1], &found), Vec::<String>::new());
    assert_eq!(unmatched(&[1, 2], &found), ["R2 has no block"]);
    assert_eq!(unmatched(&[2], &found).len(), 2);
    let mut known = Names::new();
    let first = "line 2, R1: definition: wire has no A.b";
    let last = "line 2, R1: wrong answers: (to be named)";
    known.insert(("definition", "wire".to_string(), "A.c".to_string()));
    assert_eq!(misnamed(&found[0], &known), [first, last]);
    known.insert(("definition", "wire".to_string(), "A.b".to_string()));
    assert_eq!(misnamed(&found[0], &known), [last]);
    let cut = trace.replace("- theorem: none\n", "");
    assert_eq!(misnamed(&blocks(&cut).0[0], &known).len(), 1);
    assert_eq!(declared("unfoldable pub a : B"), Some("a"));
    assert_eq!(declared("  pub a : B"), Some("a"));
    assert_eq!(declared("a x = y"), None);
    let code = "impl T {\n    pub fn a(self) -> T\n}\nfn b<'a>(c: u8)\n// a fn d(e)\n";
    assert_eq!(functions(code), ["T::a", "b"]);
}

/// And of citations.
#[test]
fn false_citations_are_seen() {
    assert_eq!(
        in_comment(" a (9), b(2) (R1, R3 to R5)"),
        Ok(vec![1, 3, 4, 5])
    );
    assert_eq!(in_comment(" a R2 (R1)"), Err(2));
    assert_eq!(in_comment(" a (see R2)"), Err(2));
    let sections = "## 13. a\n**R1** b\n## 14. c\n| R2 | d |\n## 16. e\n**R3** f\n";
    assert_eq!(of_others(sections), BTreeSet::from([2]));
    let file = "-- a (R1)\nuse b\n\n-- c\n-- d (R1, R2)\npub e : F\ne = g\n\npub h : F\n\n\
                pub i : F  -- (R9)\n";
    let mut found = Citations::default();
    found.add("wire", "x/A.antt", file);
    let of = |name: &str| &found.of[&("wire".to_string(), format!("A.{name}"))];
    assert_eq!(of("e"), &("x/A.antt, line 6".to_string(), vec![1, 2]));
    assert_eq!(of("h").1, [1, 2]);
    assert_eq!(of("i").1, [9]);
    let trace = "### R1, R3: one\n- definition: wire `A.e`, `A.i`\n### R2: two\n- function: all\n\
                 ### R4: three\n- theorem: entry `a`\n";
    let (blocks, _) = blocks(trace);
    let none = BTreeSet::new();
    let missing = "x/A.antt, line 11: RULES has no R9";
    assert_eq!(miscited(&found, &[1, 2], &blocks), [missing]);
    let stray = "x/A.antt, line 6: R3: no definition of TRACE, line 1, cites it";
    assert_eq!(unstated(&found, &none, &blocks), [stray]);
    assert!(unstated(&found, &BTreeSet::from([3]), &blocks).is_empty());
    let bare = "x/A.antt, line 11: A.i cites none of R1, R3";
    assert_eq!(uncited(&found, &blocks), [bare]);
    found.add("wire", "x/B.antt", "-- (R4)\n-- R5\n");
    let (foreign, loose) = (
        "x/B.antt, line 1: R4: TRACE, line 5, names no wire",
        "x/B.antt, line 2: R5 is in no list",
    );
    assert_eq!(
        miscited(&found, &[1, 2, 4], &blocks),
        [loose, missing, foreign]
    );
}
