//! The examples in docs/AUDIT.md, run.

mod common;

use common::{file, here, run, store_of, temporary};
use std::fs;
use std::path::Path;

/// What stands in the first code block of a language.
fn block<'a>(text: &'a str, language: &str) -> &'a str {
    let (_, rest) = text.split_once(&format!("```{language}\n")).unwrap();
    rest.split_once("```").unwrap().0
}

/// The path that stands for one of the document: what is made is a test's file.
fn path(root: &Path, word: &str) -> String {
    let path = match word.split_once('/') {
        Some(("target", name)) => temporary(name),
        Some(_) => root.join(word),
        None => return word.to_string(),
    };
    path.to_str().unwrap().to_string()
}

/// What follows a heading.
fn section(heading: &str) -> String {
    let document = fs::read_to_string(here().join("../../docs/AUDIT.md")).unwrap();
    let (_, section) = document.split_once(&format!("\n### {heading}\n")).unwrap();
    section.to_string()
}

#[test]
fn the_example_says_what_the_tool_says() {
    let root = here().join("../..");
    let section = &section("The report on one key");
    let runs = block(section, "sh").lines().map(|line| {
        let words = line
            .strip_prefix("rust/target/release/snowpulley ")
            .unwrap();
        let words: Vec<String> = words.split(' ').map(|word| path(&root, word)).collect();
        run(&words)
    });
    let runs: Vec<_> = runs.collect();
    assert!(runs.iter().all(|run| run.status == 0), "{runs:?}");
    let list = temporary("list");
    let said = runs[1].out.replace(list.to_str().unwrap(), "target/list");
    let example = block(section, "text");
    assert!(said.starts_with(example), "{said}");
    assert!(example.contains("  WON\n"));
    assert!(temporary("report.html").exists());
}

/// Two modules whose stores differ are purged as the document says, and are
/// equal then.
#[test]
fn a_site_clears_its_deletions() {
    for (name, key, phys) in [
        ("one.store", b"comp/scale-3", 1),
        ("two.store", b"comp/scale-4", 2),
    ] {
        let entries = [
            (&b"test-load"[..], &b""[..], 1, phys),
            (key, b"+1", 0, phys),
        ];
        file(name, &store_of(4, &entries));
    }
    let read = |name: &str| fs::read(temporary(name)).unwrap();
    let section = section("How a site clears them");
    for line in block(&section, "sh").lines() {
        let command = line.split('#').next().unwrap();
        let words: Vec<&str> = command.split_whitespace().collect();
        match words[..] {
            ["cmp", one, two] => assert_eq!(read(one), read(two)),
            ["snowpulley", ref words @ ..] => {
                let words = words.iter().map(|word| match word.ends_with(".store") {
                    true => temporary(word).into_os_string(),
                    false => word.into(),
                });
                let run = run(&words.collect::<Vec<_>>());
                assert_eq!(run.status, 0, "{run:?}");
                let purges = command.contains(" purge ");
                assert_eq!(purges, run.out.contains("tombstones removed: 1"));
            }
            _ => panic!("what is to be done with this line? {line}"),
        }
    }
    // Both values are there, and no tombstone.
    assert_eq!(read("one.store")[2..4], [0, 2]);
}
