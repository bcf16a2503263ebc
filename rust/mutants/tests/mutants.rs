//! What mutants are made of a small source and of small definitions.

use mutants::change::Change;
use mutants::code::{self, Declared};
use mutants::definitions;
use mutants::items::Source;
use mutants::known::{self, Known};
use std::collections::BTreeSet;

const SOURCE: &str = r#"
// a comment with 7 < 8
pub const LIMIT: usize = 10;

pub enum Answer {
    Yes,
    No,
    Count(u8),
}

pub struct Pair {
    pub low: u8,
    pub high: u8,
    pub wide: u16,
}

impl Pair {
    pub fn is_low(self, a: &[u8], b: &[u8]) -> bool
        requires { length a.now < 9 }
        ensures told { result ≡ tested 3 a.old }
    {
        if !same(a, b) {
            return self.low < 1;
        }
        true
    }
}

pub fn same<'a>(a: &'a [u8], b: &'a [u8]) -> bool {
    a.len() == b.len()
}

fn answer(p: Pair) -> Answer {
    let x = p.wide - 1;
    Answer::Yes
}
"#;

fn changed_lines(changes: &[Change], text: &str) -> Vec<String> {
    changes.iter().map(|change| change.lines(text).1).collect()
}

fn made() -> (Vec<Change>, Vec<String>) {
    let source = Source::new(SOURCE.to_string());
    let mut declared = Declared::default();
    declared.add(&source);
    let changes = code::mutants("src/lib.rt", &source, &declared);
    let lines = changed_lines(&changes, SOURCE);
    (changes, lines)
}

#[test]
fn code_is_changed_in_each_way() {
    let (changes, lines) = made();
    let expected = [
        "if same(a, b) {",
        "if !same(b, a) {",
        "return self.high < 1;",
        "return self.low <= 1;",
        "return self.low >= 1;",
        "return self.low < 2;",
        "return self.low < 0;",
        "false",
        "a.len() != b.len()",
        "a.len() <= b.len()",
        "let x = p.wide + 1;",
        "let x = p.wide - 2;",
        "let x = p.wide - 0;",
        "Answer::No",
        "pub const LIMIT: usize = 11;",
        "pub const LIMIT: usize = 9;",
    ];
    assert_eq!(
        lines.iter().map(String::as_str).collect::<BTreeSet<_>>(),
        BTreeSet::from(expected)
    );
    assert_eq!(lines.len(), expected.len());
    assert_eq!(changes[0].within, "Pair::is_low");
}

#[test]
fn contracts_and_comments_stay() {
    let (changes, _) = made();
    let source = Source::new(SOURCE.to_string());
    for function in source.functions() {
        for contract in function.contracts {
            let span = source.span(&contract);
            assert!(changes
                .iter()
                .all(|c| c.at.end <= span.start || span.end <= c.at.start));
        }
    }
}

#[test]
fn functions_are_found_with_their_owner() {
    let source = Source::new(SOURCE.to_string());
    let found: Vec<_> = source
        .functions()
        .iter()
        .map(|f| (f.path.clone(), f.public, f.parameters.len()))
        .collect();
    let expected = [
        ("Pair::is_low", true, 2),
        ("same", true, 2),
        ("answer", false, 1),
    ];
    assert_eq!(
        found,
        expected.map(|(path, public, n)| (path.to_string(), public, n))
    );
}

const DEFINITIONS: &str = "\
-- a number 5 in a comment
use Rattle.std.specs.Prelude.{ℕ, List, Bool, ◌&&◌, cond, ltb, leb, eqb}

unfoldable pub tested : ℕ → List ℕ → Bool
tested n s = ltb n 4 && is_short s && leb 1 n

unfoldable pub is_short : List ℕ → Bool
is_short s =
    cond (eqb (length s) 0) true
    (cond (ltb 9 (length s)) false
    other)

-- not cited
unfoldable pub other2 : ℕ
other2 = 3

-- a statement
abbrev pub Holds : Type 0
Holds = tested 1 [] ≡ true
";

#[test]
fn definitions_that_contracts_cite_are_changed() {
    let files = vec![("specs/A.antt".to_string(), DEFINITIONS.to_string())];
    let source = Source::new(SOURCE.to_string());
    let cited = definitions::cited(&[source]);
    let changes = definitions::mutants(&files, &cited);
    let lines: BTreeSet<String> = changed_lines(&changes, DEFINITIONS).into_iter().collect();
    let expected = [
        "tested n s = leb n 4 && is_short s && leb 1 n",
        "tested n s = ltb n 5 && is_short s && leb 1 n",
        "tested n s = ltb n 3 && is_short s && leb 1 n",
        "tested n s = ltb n 4 || is_short s && leb 1 n",
        "tested n s = ltb n 4 && is_short s || leb 1 n",
        "tested n s = ltb n 4 && is_short s && ltb 1 n",
        "tested n s = ltb n 4 && is_short s && leb 2 n",
        "tested n s = ltb n 4 && is_short s && leb 0 n",
        "tested n s = is_short s && leb 1 n",
        "tested n s = ltb n 4 && leb 1 n",
        "tested n s = ltb n 4 && is_short s",
        "cond (eqb (length s) 1) true",
        "(cond (leb 9 (length s)) false",
        "(cond (ltb 10 (length s)) false",
        "(cond (ltb 8 (length s)) false",
        "cond (ltb 9 (length s)) false (cond (eqb (length s) 0) true",
    ];
    assert_eq!(lines, expected.map(str::to_string).into());
}

#[test]
fn a_definition_gets_the_name_it_lacks() {
    let files = vec![("specs/A.antt".to_string(), DEFINITIONS.to_string())];
    let cited = definitions::cited(&[Source::new(SOURCE.to_string())]);
    let changes = definitions::mutants(&files, &cited);
    let first = |new: &str| {
        let change = changes.iter().find(|c| c.new == new).expect(new);
        let text = change.applied(DEFINITIONS);
        text.lines().next().map(str::to_string)
    };
    assert_eq!(first("leb").as_deref(), Some("-- a number 5 in a comment"));
    assert_eq!(
        first("||").as_deref(),
        Some("use Rattle.std.specs.Prelude.{◌||◌}")
    );
}

#[test]
fn a_listed_mutant_needs_its_reason() {
    let (changes, _) = made();
    let known = Known {
        why: "it is the same".to_string(),
        ..Known::of("a", &changes[0], SOURCE)
    };
    assert_eq!(
        known::read(&format!("# a comment\n{known}\n")),
        Ok(vec![known.clone()])
    );
    assert!(known.is_of("a") && known.names(&Known::of("a", &changes[0], SOURCE)));
    assert!(known::read(&format!("{known}\nat: b/src/lib.rt f\n")).is_err());
}
