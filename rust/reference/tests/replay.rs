//! Replaying a journal.

use reference::frame::{sealed, time_bytes, Message};
use reference::replay::{next_record, replay, Next};
use support::Rng;

fn framed(message: &Message) -> Vec<u8> {
    let mut out = [0; 600];
    let length = message.write(&mut out).unwrap();
    out[..length].to_vec()
}

fn record(time: u64, frame: &[u8]) -> Vec<u8> {
    [&time_bytes(time), frame].concat()
}

fn put(key: &[u8], value: &[u8]) -> Vec<u8> {
    framed(&Message::Put {
        key: key.to_vec(),
        value: value.to_vec(),
    })
}

fn get(key: &[u8]) -> Vec<u8> {
    framed(&Message::Get { key: key.to_vec() })
}

fn replies(messages: &[Message]) -> Vec<u8> {
    messages.iter().flat_map(framed).collect()
}

const BAD_FRAME: Message = Message::Err { number: 3 };

fn value(value: &[u8]) -> Message {
    Message::Value {
        value: value.to_vec(),
    }
}

#[test]
fn an_empty_journal_has_no_replies() {
    assert_eq!(replay(&[]), []);
}

#[test]
fn records_are_answered_in_turn() {
    let journal = [
        record(1, &put(b"k", b"v")),
        record(2, &get(b"k")),
        record((1 << 48) - 1, &sealed(9, 0, &[])),
        record(0, &get(b"other")),
    ];
    let expected = replies(&[Message::Ok, value(b"v"), BAD_FRAME, Message::NotFound]);
    assert_eq!(replay(&journal.concat()), expected);
}

#[test]
fn every_cut_is_found() {
    let first = record(1, &put(b"k", b"v"));
    let journal = [&first[..], &record(2, &get(b"k"))].concat();
    for length in 0..=journal.len() {
        let expected = match length {
            0 => vec![],
            n if n < first.len() => vec![BAD_FRAME],
            n if n == first.len() => vec![Message::Ok],
            n if n < journal.len() => vec![Message::Ok, BAD_FRAME],
            _ => vec![Message::Ok, value(b"v")],
        };
        assert_eq!(replay(&journal[..length]), replies(&expected));
    }
}

#[test]
fn a_len_out_of_range_stops_the_replay() {
    for len in [0u16, 5, 599, 600, 65_535] {
        let mut journal = record(1, &put(b"k", b"v"));
        journal.extend([0; 6]);
        journal.extend(len.to_be_bytes());
        journal.extend(vec![0; usize::from(len)]);
        journal.extend(record(2, &get(b"k")));
        assert_eq!(replay(&journal), replies(&[Message::Ok, BAD_FRAME]));
    }
}

#[test]
fn a_bad_frame_within_range_does_not_stop_the_replay() {
    for len in [6u16, 598] {
        let mut journal = vec![0; 6];
        journal.extend(len.to_be_bytes());
        journal.extend(vec![0; usize::from(len)]);
        journal.extend(record(2, &get(b"k")));
        assert_eq!(replay(&journal), replies(&[BAD_FRAME, Message::NotFound]));
    }
}

#[test]
fn the_store_has_a_hundred_slots() {
    let mut journal = Vec::new();
    for key in 0..101 {
        journal.extend(record(1, &put(&[key], b"")));
    }
    let mut expected = vec![Message::Ok; 100];
    expected.push(Message::Err { number: 6 });
    assert_eq!(replay(&journal), replies(&expected));
}

#[test]
fn damaged_journals_are_replayed_without_a_fault() {
    let mut rng = Rng::new(16);
    let journal: Vec<u8> = (0..40)
        .flat_map(|key| record(1, &put(&[key], &[key; 9])))
        .collect();
    for _ in 0..300 {
        let mut damaged = journal.clone();
        for _ in 0..1 + rng.index(4) {
            let at = rng.index(damaged.len());
            damaged[at] ^= 1 << rng.below(8);
        }
        replay(&damaged);
    }
    let noise = rng.bytes(5000);
    replay(&noise);
    assert_eq!(next_record(&noise[..7]), Next::Cut);
}
