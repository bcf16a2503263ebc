//! Small journals that end in one particular way.

use crate::script::{framed, put_message, record};
use reference::frame::{sealed, time_bytes, Message, PUT};

/// The kinds, with what each journal ends in.
pub const KINDS: [(&str, &str); 11] = [
    ("empty", "nothing at all"),
    ("clean", "two whole records"),
    ("time", "inside the time"),
    ("no-frame", "after the time"),
    ("len", "inside LEN"),
    ("no-body", "after LEN"),
    ("body", "inside the body"),
    ("checksum", "one byte before the frame's end"),
    ("len-5", "LEN 5, then a whole record"),
    ("len-599", "LEN 599, then a whole record"),
    ("len-65535", "LEN 65535, then a whole record"),
];

/// The journal of a kind, or none for an unknown one.
pub fn journal(kind: &str) -> Option<Vec<u8>> {
    let whole = record(3, &framed(&put_message(b"k2", b"value")));
    let tail = match kind {
        "empty" => return Some(Vec::new()),
        "clean" => Vec::new(),
        "time" => whole[..3].to_vec(),
        "no-frame" => whole[..6].to_vec(),
        "len" => whole[..7].to_vec(),
        "no-body" => whole[..8].to_vec(),
        "body" => whole[..13].to_vec(),
        "checksum" => whole[..whole.len() - 1].to_vec(),
        "len-5" => [with_len(5, &[16; 5]), whole].concat(),
        "len-599" => [over_long(), whole].concat(),
        "len-65535" => [with_len(65_535, &[]), whole].concat(),
        _ => return None,
    };
    Some([start(), tail].concat())
}

fn start() -> Vec<u8> {
    let get = Message::Get {
        key: b"k1".to_vec(),
    };
    let put = record(1, &framed(&put_message(b"k1", b"one")));
    [put, record(2, &framed(&get))].concat()
}

fn with_len(len: u16, rest: &[u8]) -> Vec<u8> {
    [&time_bytes(3)[..], &len.to_be_bytes(), rest].concat()
}

/// A PUT one byte longer than a frame may be, right in all else.
fn over_long() -> Vec<u8> {
    let value = [7; 589];
    let body = [&[1, b'k', 2, 77][..], &value].concat();
    record(3, &sealed(PUT, 0, &body))
}
