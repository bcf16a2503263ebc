//! The bytes that FORMAT prints are those that the second program writes.

use reference::frame::{time_bytes, Message, FRAME_MAX};
use reference::stamp::Stamp;
use reference::store;
use reference::value::{ACTIVE, TOMBSTONE};
use std::fs;
use std::path::Path;

const KEY: &[u8] = b"k1";
const VALUE: &[u8] = b"one";
const WRITTEN: Stamp = Stamp {
    phys: 1000,
    logical: 6,
    node: 1,
};
const DELETED: Stamp = Stamp {
    phys: 1001,
    logical: 0,
    node: 1,
};

/// A name, and its bytes.
type Example = (String, Vec<u8>);

fn framed(message: Message) -> Vec<u8> {
    let mut out = [0; FRAME_MAX];
    let length = message.write(&mut out).expect("a message of the document");
    out[..length].to_vec()
}

fn repl(flag: u8, stamp: Stamp, value: &[u8]) -> Message {
    Message::Repl {
        key: KEY.to_vec(),
        flag,
        stamp,
        value: value.to_vec(),
    }
}

fn frames() -> Vec<Example> {
    let key = || KEY.to_vec();
    let value = || VALUE.to_vec();
    let messages = [
        (
            "PUT k1 = one",
            Message::Put {
                key: key(),
                value: value(),
            },
        ),
        ("GET k1", Message::Get { key: key() }),
        ("DEL k1", Message::Del { key: key() }),
        (
            "REPL k1 = one at (1000, 6, 1)",
            repl(ACTIVE, WRITTEN, VALUE),
        ),
        (
            "REPL k1 deleted at (1001, 0, 1)",
            repl(TOMBSTONE, DELETED, &[]),
        ),
        ("OK", Message::Ok),
        ("VALUE one", Message::Value { value: value() }),
        ("NOTFOUND", Message::NotFound),
        ("ERR 3", Message::Err { number: 3 }),
    ];
    let example = |(name, message): (&str, Message)| (name.to_string(), framed(message));
    messages.into_iter().map(example).collect()
}

fn stores() -> Vec<Example> {
    let mut bytes = vec![0; store::image_length(2)];
    store::create(&mut bytes, 2).expect("a new store");
    let mut found = vec![("a new store of 2 slots".to_string(), bytes.clone())];
    store::offer(&mut bytes, KEY, VALUE, ACTIVE, WRITTEN).expect("an entry");
    let stored = "the same after k1 = one at (1000, 6, 1)".to_string();
    found.push((stored, bytes.clone()));
    store::offer(&mut bytes, KEY, &[], TOMBSTONE, DELETED).expect("a tombstone");
    let deleted = "the same after k1 deleted at (1001, 0, 1)".to_string();
    found.push((deleted, bytes.clone()));
    store::purge(&mut bytes, 1002).expect("a line");
    found.push(("the same after a purge to 1002".to_string(), bytes));
    found
}

fn records() -> Vec<Example> {
    let get = framed(Message::Get { key: KEY.to_vec() });
    let record = [time_bytes(1000).to_vec(), get].concat();
    vec![("GET k1 at the time 1000".to_string(), record)]
}

/// The bytes of a line: `6B` is one byte, `00*62` is as many zeros.
fn bytes_of(line: &str) -> Option<Vec<u8>> {
    let mut bytes = Vec::new();
    for word in line.split_whitespace() {
        let (digits, times) = word.split_once('*').unwrap_or((word, "1"));
        let (2, true) = (digits.len(), times == "1" || digits == "00") else {
            return None;
        };
        let byte = u8::from_str_radix(digits, 16).ok()?;
        bytes.resize(bytes.len() + times.parse::<usize>().ok()?, byte);
    }
    Some(bytes)
}

/// The examples of a text, in its blocks of bytes: a name, and below it lines
/// that begin with a blank.
fn printed(text: &str) -> Vec<Example> {
    let mut found: Vec<Example> = Vec::new();
    let mut inside = false;
    for line in text.lines() {
        match line {
            "```bytes" => inside = true,
            "```" => inside = false,
            _ if !inside => {}
            _ if line.starts_with(' ') => {
                let bytes = bytes_of(line).unwrap_or_else(|| panic!("no bytes: {line}"));
                found.last_mut().expect("a name first").1.extend(bytes);
            }
            _ => found.push((line.to_string(), Vec::new())),
        }
    }
    found
}

#[test]
fn the_bytes_are_those_of_the_second_program() {
    let package = Path::new(env!("CARGO_MANIFEST_DIR"));
    let root = package.ancestors().find(|f| f.join("crates.txt").is_file());
    let file = root.expect("crates.txt").join("docs/FORMAT.md");
    let printed = printed(&fs::read_to_string(file).expect("the document"));
    let written = [frames(), stores(), records()].concat();
    let names = |examples: &[Example]| -> Vec<String> {
        examples.iter().map(|(name, _)| name.clone()).collect()
    };
    assert_eq!(names(&printed), names(&written));
    for ((name, printed), (_, written)) in printed.iter().zip(&written) {
        assert_eq!(printed, written, "{name}");
    }
}

/// What the reading of a document must see.
#[test]
fn bytes_are_read_as_they_stand() {
    assert_eq!(
        bytes_of("  6B 31  00*3 01"),
        Some(vec![107, 49, 0, 0, 0, 1])
    );
    for wrong in ["  cc c", "  0G", "  01*3", "  00*x", "  100"] {
        assert_eq!(bytes_of(wrong), None, "{wrong}");
    }
    let text = "```bytes\na b\n  01\n  02\n```\n```\nc\n  03\n```\n";
    assert_eq!(printed(text), [("a b".to_string(), vec![1, 2])]);
}
