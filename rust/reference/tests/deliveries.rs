//! Lists of deliveries.

mod bodies;
mod delivered;

use bodies::repl_body;
use delivered::{active, entry, frame, tombstone};
use reference::deliveries::{read, Delivery, DELIVERIES_MAX};
use reference::frame::{sealed, Message, REPL};
use reference::stamp::TIME_END;
use reference::store::Entry;
use reference::Refusal;

/// Three deliveries, none of them as long as another.
fn three() -> [Vec<u8>; 3] {
    [
        active(b"a", (1, 2, 3), b"one"),
        tombstone(b"bcd", (4, 5, 6)),
        active(b"a", (1, 2, 3), b""),
    ]
}

fn count(list: &[u8]) -> Result<usize, Refusal> {
    read(list).map(|deliveries| deliveries.len())
}

fn assert_unreadable(list: &[u8]) {
    assert_eq!(read(list), Err(Refusal::BadArgument), "{list:?}");
}

#[test]
fn the_empty_list_has_no_delivery() {
    assert_eq!(read(&[]), Ok(vec![]));
}

#[test]
fn entries_and_the_places_of_their_frames() {
    let last = (TIME_END - 1, u16::MAX, u8::MAX);
    let entries: [Entry; 4] = [
        entry(b"k", (0, 0, 0), 0, b""),
        entry(&[b'K'; 64], last, 0, &[0xEE; 512]),
        entry(b"_sys", (1000, 5, 2), 1, b""),
        entry(b"k", (0, 0, 0), 0, b""),
    ];
    let frames = [0..22, 22..619, 619..644, 644..666];
    let list: Vec<u8> = entries.iter().flat_map(frame).collect();
    let deliveries = entries.into_iter().zip(frames);
    let deliveries: Vec<Delivery> = deliveries
        .map(|(entry, frame)| Delivery { entry, frame })
        .collect();
    assert_eq!(read(&list), Ok(deliveries));
}

#[test]
fn a_list_may_end_only_where_a_frame_does() {
    let frames = three();
    let list = frames.concat();
    let ends = [0, 1, 2, 3].map(|n| frames[..n].concat().len());
    for length in 0..=list.len() {
        match ends.iter().position(|&end| end == length) {
            Some(whole) => assert_eq!(count(&list[..length]), Ok(whole)),
            None => assert_unreadable(&list[..length]),
        }
    }
}

#[test]
fn bytes_left_over() {
    let list = three().concat();
    for byte in 0..=255 {
        assert_unreadable(&[byte]);
        assert_unreadable(&[&list[..], &[byte]].concat());
        assert_unreadable(&[&[byte], &list[..]].concat());
    }
    // A whole LEN, in its range or not, with nothing or too little behind it.
    let tails: [&[u8]; 6] = [
        &[0, 0],
        &[0, 5, 4, 0, 0, 0, 0],
        &[0, 6],
        &[0, 20, 4, 0, 1, b'k'],
        &[2, 86],
        &[255, 255],
    ];
    for tail in tails {
        assert_unreadable(tail);
        assert_unreadable(&[&list[..], tail].concat());
    }
}

#[test]
fn every_flipped_bit_is_found() {
    let list = three().concat();
    for bit in 0..list.len() * 8 {
        let mut damaged = list.clone();
        damaged[bit / 8] ^= 1 << (bit % 8);
        assert_unreadable(&damaged);
    }
}

/// A list with this frame, at any of its places, is not readable.
fn assert_no_delivery(wrong: &[u8]) {
    let frames = three();
    for place in 0..=frames.len() {
        let (before, after) = frames.split_at(place);
        assert_unreadable(&[&before.concat(), wrong, &after.concat()].concat());
    }
    assert_unreadable(wrong);
}

#[test]
fn frames_of_other_types() {
    let (key, value) = (b"k".to_vec(), b"v".to_vec());
    let messages = [
        Message::Put {
            key: key.clone(),
            value: value.clone(),
        },
        Message::Get { key: key.clone() },
        Message::Del { key },
        Message::Ok,
        Message::Value { value },
        Message::NotFound,
        Message::Err { number: 17 },
    ];
    for message in messages {
        let mut out = [0; 600];
        let length = message.write(&mut out).unwrap();
        assert_no_delivery(&out[..length]);
    }
}

#[test]
fn replications_that_are_not_readable() {
    let right = sealed(REPL, 0, &repl_body(b"k", 0, b"on"));
    assert_eq!(count(&right), Ok(1));
    let largest = sealed(REPL, 0, &repl_body(&[b'k'; 64], 0, &[7; 512]));
    assert_eq!(count(&largest), Ok(1));
    let mut checksum = right.clone();
    *checksum.last_mut().unwrap() ^= 1;
    let mut longer = repl_body(b"k", 0, b"on");
    longer.push(0);
    let wrong = [
        checksum,
        sealed(REPL, 0, &repl_body(b"_sys:a", 0, b"on")), // the key
        sealed(REPL, 0, &repl_body(b"", 0, b"on")),
        sealed(REPL, 0, &repl_body(&[b'k'; 65], 0, b"on")),
        sealed(REPL, 0, &repl_body(b"k", 0, &[7; 513])), // the value
        sealed(REPL, 0, &repl_body(b"k", 2, b"")),       // the flag
        sealed(REPL, 0, &repl_body(b"k", 1, b"on")),     // a tombstone with a value
        sealed(REPL, 1, &repl_body(b"k", 0, b"on")),     // FLAGS
        sealed(5, 0, &repl_body(b"k", 0, b"on")),        // a type that no message has
        sealed(REPL, 0, &longer),
        sealed(REPL, 0, &longer[..longer.len() - 2]),
        sealed(REPL, 0, &[]),
    ];
    for frame in wrong {
        assert_no_delivery(&frame);
    }
}

#[test]
fn a_thousand_deliveries_and_one_more() {
    let frame = active(b"k", (1, 0, 0), b"");
    assert_eq!(DELIVERIES_MAX, 1000);
    assert_eq!(count(&frame.repeat(999)), Ok(999));
    assert_eq!(count(&frame.repeat(1000)), Ok(1000));
    for more in [1001, 1002, 2000] {
        assert_unreadable(&frame.repeat(more));
    }
    let mut longer = frame.repeat(1000);
    longer.push(0);
    assert_unreadable(&longer);
    assert_unreadable(&longer[..longer.len() - 2]);
}
