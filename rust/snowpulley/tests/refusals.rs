//! The table of refusals agrees with the header's and with the reference's.

use snowpulley::Refusal;
use std::path::Path;

/// The numbers that the header lists as refusals.
fn header_table() -> Vec<(String, u16)> {
    let path = Path::new(env!("CARGO_MANIFEST_DIR")).join("../../include/snowpulley.h");
    let header = std::fs::read_to_string(path).expect("the header is there");
    let (_, rest) = header.split_once("/* Refusals. */\n").expect("their list");
    let (list, _) = rest.split_once("\n\n").expect("an end of the list");
    list.lines()
        .filter(|line| !continues(line))
        .map(define)
        .collect()
}

/// Whether a line goes on with the comment of the line before it.
fn continues(line: &str) -> bool {
    line.trim_start().starts_with("* ")
}

/// `#define NAME NUMBER` taken apart; a comment may follow.
fn define(line: &str) -> (String, u16) {
    let words: Vec<&str> = line.split_whitespace().collect();
    let ["#define", name, number, ..] = words[..] else {
        panic!("not a number of the list: {line}");
    };
    (name.to_string(), number.parse().expect("a number"))
}

#[test]
fn the_header_lists_the_same_refusals() {
    let table = Refusal::ALL
        .iter()
        .map(|r| (r.constant().to_string(), r.number()));
    assert_eq!(table.collect::<Vec<_>>(), header_table());
}

#[test]
fn the_reference_has_the_same_refusals() {
    let ours = Refusal::ALL.iter().map(|r| (format!("{r:?}"), r.number()));
    let theirs = reference::Refusal::ALL.iter();
    let theirs = theirs.map(|r| (format!("{r:?}"), u16::from(r.number())));
    assert_eq!(ours.collect::<Vec<_>>(), theirs.collect::<Vec<_>>());
}

#[test]
fn numbers_name_refusals() {
    for &refusal in Refusal::ALL {
        assert_eq!(Refusal::from_number(refusal.number()), Some(refusal));
        assert!(refusal.given().len() > 10);
    }
    assert_eq!(Refusal::SelfPeer.name(), "SELF");
    assert_eq!(Refusal::BadArgument.name(), "BAD_ARGUMENT");
    assert_eq!(Refusal::UnequalLines.number(), 35);
    for unused in (18..=32).chain([0, 36, u16::MAX]) {
        assert_eq!(Refusal::from_number(unused), None, "{unused}");
    }
}

#[test]
fn a_refusal_is_an_error_with_a_text() {
    let error: Box<dyn std::error::Error> = Box::new(Refusal::Stale);
    let text = "12 STALE: an event whose incarnation is below the held one";
    assert_eq!(error.to_string(), text);
}
