//! The sample journal. It gets every reply and every refusal a replay can
//! give; the times, stamps and values are chosen so that a wrong step of the
//! clock or a wrong comparison of entries changes a later reply.

use crate::script::{err, framed, put_message, repl_message, stamp, value, Script};
use reference::frame::{self, sealed, Message};
use reference::replay::SLOTS;
use reference::stamp::TIME_END;
use support::Rng;

const OK: Message = Message::Ok;
const NOTFOUND: Message = Message::NotFound;

/// The whole sample. Each part begins at a time above all stamps the clock
/// has taken before.
pub fn script() -> Script {
    let mut script = Script::default();
    first_writes(&mut script);
    sizes(&mut script);
    stamp_order(&mut script);
    far_ahead(&mut script);
    overtaken_leaves_the_clock(&mut script);
    ahead_by_the_limit(&mut script);
    equal_times(&mut script);
    reused_stamps(&mut script);
    spent_clock(&mut script);
    bad_keys_and_values(&mut script);
    bad_forms(&mut script);
    reply_types(&mut script);
    damaged(&mut script);
    full_store(&mut script);
    mixture(&mut script);
    last_times(&mut script);
    script
}

fn first_writes(s: &mut Script) {
    s.get(1000, b"k1", NOTFOUND);
    s.put(1000, b"k1", b"one", OK);
    s.get(1000, b"k1", value(b"one"));
    s.put(1000, b"k1", b"two", OK);
    s.get(1000, b"k1", value(b"two"));
    // The time goes back; the clock does not.
    s.put(400, b"k1", b"three", OK);
    s.get(400, b"k1", value(b"three"));
    s.del(1001, b"k1", OK);
    s.get(1001, b"k1", NOTFOUND);
    s.del(1001, b"never", OK);
    s.get(1001, b"never", NOTFOUND);
    s.put(1001, b"k1", b"", OK);
    s.get(1001, b"k1", value(b""));
    s.put(0, b"k1", b"back", OK);
    s.get(0, b"k1", value(b"back"));
}

fn sizes(s: &mut Script) {
    let (key, full) = ([b'K'; 64], [0xEE; 512]);
    s.put(2000, &key, &full, OK);
    s.get(2000, &key, value(&full));
    s.repl(2000, &key, stamp(2000, 1, 0), Some(&[0; 512]), OK);
    s.get(2000, &key, value(&[0; 512]));
    s.put(2000, &key, b"short", OK);
    s.get(2000, &key, value(b"short"));
    // Keys that begin alike, and keys of bytes that are no text.
    for key in [
        &b"k"[..],
        b"k10",
        b"k\0",
        &[0],
        &[255, 254],
        b"_sys",
        b"_SYS:a",
    ] {
        s.put(2001, key, key, OK);
    }
    for key in [
        &b"k"[..],
        b"k10",
        b"k\0",
        &[0],
        &[255, 254],
        b"_sys",
        b"_SYS:a",
    ] {
        s.get(2001, key, value(key));
    }
    s.get(2001, b"k1", value(b"back"));
    s.get(2001, b"k11", NOTFOUND);
}

fn stamp_order(s: &mut Script) {
    let at = 10_000;
    s.put(at, b"s", b"local", OK);
    s.repl(at, b"s", stamp(at, 0, 0), Some(b"lower node"), OK);
    s.get(at, b"s", value(b"local"));
    s.repl(at, b"s", stamp(at, 0, 1), Some(b"same stamp"), OK);
    s.get(at, b"s", value(b"same stamp"));
    s.repl(at, b"s", stamp(at, 0, 2), Some(b"node"), OK);
    s.get(at, b"s", value(b"node"));
    s.repl(at, b"s", stamp(at, 9, 0), Some(b"count"), OK);
    s.get(at, b"s", value(b"count"));
    s.repl(at, b"s", stamp(at - 1, 60_000, 255), Some(b"earlier"), OK);
    s.get(at, b"s", value(b"count"));
    s.repl(at, b"s", stamp(at + 1, 0, 0), Some(b"later"), OK);
    s.get(at, b"s", value(b"later"));
    s.repl(at, b"s", stamp(at + 1, 0, 1), None, OK);
    s.get(at, b"s", NOTFOUND);
    s.repl(at, b"s", stamp(at + 1, 0, 0), Some(b"old"), OK);
    s.get(at, b"s", NOTFOUND);
    s.repl(at, b"s", stamp(at + 1, 1, 0), Some(b""), OK);
    s.get(at, b"s", value(b""));
    s.repl(at, b"gone", stamp(at, 0, 7), None, OK);
    s.get(at, b"gone", NOTFOUND);
    s.repl(at, b"gone", stamp(0, 0, 0), Some(b"least"), OK);
    s.get(at, b"gone", NOTFOUND);
}

fn far_ahead(s: &mut Script) {
    let at = 20_000;
    s.put(at, b"f", b"near", OK);
    s.repl(at, b"f", stamp(at + 2001, 0, 2), Some(b"far"), OK);
    s.get(at, b"f", value(b"far"));
    s.put(at, b"f", b"mine", err(7));
    s.del(at, b"f", err(7));
    s.get(at, b"f", value(b"far"));
    // An equal time and count are not enough while the node is lower.
    s.put(at + 2001, b"f", b"mine", err(7));
    s.put(at + 2002, b"f", b"mine", OK);
    s.get(at + 2002, b"f", value(b"mine"));
    let last = stamp(TIME_END - 1, 65_535, 255);
    s.repl(at, b"last", last, Some(b"last of all"), OK);
    s.put(TIME_END - 1, b"last", b"mine", err(7));
    s.del(TIME_END - 1, b"last", err(7));
    s.get(0, b"last", value(b"last of all"));
}

fn overtaken_leaves_the_clock(s: &mut Script) {
    s.repl(23_000, b"g", stamp(90_000, 0, 2), Some(b"far"), OK);
    s.put(30_000, b"g", b"mine", err(7));
    // With the clock at 30,000 this entry would have the greater stamp.
    s.put(25_000, b"h", b"mine", OK);
    s.repl(25_000, b"h", stamp(26_000, 0, 2), Some(b"theirs"), OK);
    s.get(25_000, b"h", value(b"theirs"));
}

fn ahead_by_the_limit(s: &mut Script) {
    // 2,000 ahead is not far ahead: the clock takes (28000, 6).
    s.repl(26_000, b"i", stamp(28_000, 5, 2), Some(b"limit"), OK);
    s.put(27_000, b"j", b"mine", OK);
    s.repl(27_000, b"j", stamp(28_000, 6, 255), Some(b"lower"), OK);
    s.get(27_000, b"j", value(b"mine"));
    s.repl(27_000, b"j", stamp(28_000, 7, 2), Some(b"theirs"), OK);
    s.get(27_000, b"j", value(b"theirs"));
    // Far ahead with `now` above the clock: the clock takes (29000, 10).
    s.repl(29_000, b"i", stamp(40_000, 0, 2), Some(b"far"), OK);
    s.put(28_500, b"j", b"mine again", OK);
    s.repl(28_500, b"j", stamp(29_000, 10, 255), Some(b"lower"), OK);
    s.get(28_500, b"j", value(b"mine again"));
    s.repl(28_500, b"j", stamp(29_000, 11, 2), Some(b"theirs"), OK);
    s.get(28_500, b"j", value(b"theirs"));
}

fn equal_times(s: &mut Script) {
    let at = 31_000;
    s.put(at, b"n", b"mine", OK);
    // The count that came is the greater one: the clock takes (31000, 10).
    s.repl(at, b"m", stamp(at, 9, 2), Some(b"wrong"), OK);
    s.put(at, b"m", b"mended", OK);
    s.get(at, b"m", value(b"mended"));
    s.repl(at, b"m", stamp(at, 10, 255), Some(b"lower"), OK);
    s.get(at, b"m", value(b"mended"));
    // The own count is the greater one: the clock takes (31000, 13).
    s.repl(at, b"n", stamp(at, 3, 2), Some(b"theirs"), OK);
    s.del(at, b"n", OK);
    s.repl(at, b"n", stamp(at, 13, 255), Some(b"lower"), OK);
    s.get(at, b"n", NOTFOUND);
    s.repl(at, b"n", stamp(at, 65_535, 2), Some(b"spent"), err(8));
    s.get(at, b"n", NOTFOUND);
    // A reading that went back: the clock's own time is far ahead of it.
    s.repl(at - 2001, b"m", stamp(at, 60_000, 2), Some(b"far"), OK);
    s.put(at, b"m", b"mine", err(7));
    s.put(at + 1, b"m", b"mine", OK);
    s.get(at, b"m", value(b"mine"));
}

fn reused_stamps(s: &mut Script) {
    let (now, far) = (33_000, stamp(36_000, 0, 1));
    let deliveries: [(&[u8], &[u8]); 7] = [
        (b"on", b"on"),
        (b"off", b"on"),
        (b"o", b"on"),
        (b"", b"on"),
        (b"on\0", b"on\0"),
        (b"on", b"on\0"),
        (b"p", b"p"),
    ];
    for (given, held) in deliveries {
        s.repl(now, b"s", far, Some(given), OK);
        s.get(now, b"s", value(held));
    }
    // A local write needs a greater stamp, whatever it writes.
    s.put(36_000, b"s", b"q", err(7));
    s.del(36_000, b"s", err(7));
    s.get(now, b"s", value(b"p"));
    s.repl(now, b"s", far, None, OK);
    s.get(now, b"s", NOTFOUND);
    s.repl(now, b"s", far, Some(b"q"), OK);
    s.get(now, b"s", NOTFOUND);
    s.put(36_001, b"s", b"mine", OK);
    s.get(now, b"s", value(b"mine"));
}

fn spent_clock(s: &mut Script) {
    let (now, top) = (40_000, 41_000);
    s.repl(now, b"c", stamp(top, 65_534, 2), Some(b"top"), OK);
    s.put(top, b"c", b"mine", err(8));
    s.put(now, b"new", b"mine", err(8));
    s.del(top, b"c", err(8));
    s.repl(top, b"c", stamp(top, 1, 1), Some(b"x"), err(8));
    s.repl(top, b"c", stamp(50_000, 0, 0), Some(b"x"), err(8));
    s.repl(top, b"c", stamp(top + 1, 65_535, 3), Some(b"x"), err(8));
    s.get(top, b"c", value(b"top"));
    s.repl(top, b"c", stamp(top + 1, 65_534, 3), Some(b"next"), OK);
    s.put(top + 1, b"c", b"mine", err(8));
    s.repl(top, b"c", stamp(top + 2, 0, 3), Some(b"room again"), OK);
    s.get(top, b"c", value(b"room again"));
    s.put(top + 2, b"c", b"mine", OK);
    s.get(top, b"c", value(b"mine"));
}

fn entry_body(key: &[u8], middle: &[u8], value: &[u8]) -> Vec<u8> {
    let key_length = [key.len() as u8];
    let value_length = (value.len() as u16).to_be_bytes();
    [&key_length[..], key, middle, &value_length, value].concat()
}

/// A REPL's fields between key and value.
fn middle(flag: u8) -> Vec<u8> {
    vec![flag, 0, 0, 0, 0, 0, 9, 0, 0, 9]
}

fn bad_keys_and_values(s: &mut Script) {
    let (now, long, big) = (50_000, [b'k'; 65], [7; 513]);
    let reserved = [&b"_sys:"[..], b"_ring:a", b"_hint:a", b"_gossip:a"];
    for key in reserved.into_iter().chain([&b""[..], &long, &[b'k'; 255]]) {
        s.body(now, frame::PUT, &entry_body(key, b"", b"v"), err(1));
        s.body(now, frame::GET, &[&[key.len() as u8], key].concat(), err(1));
        s.body(now, frame::DEL, &[&[key.len() as u8], key].concat(), err(1));
        s.body(now, frame::REPL, &entry_body(key, &middle(0), b"v"), err(1));
    }
    s.body(now, frame::PUT, &entry_body(b"k1", b"", &big), err(2));
    s.body(now, frame::PUT, &entry_body(b"k", b"", &[7; 588]), err(2));
    s.body(
        now,
        frame::REPL,
        &entry_body(b"k1", &middle(0), &big),
        err(2),
    );
    s.body(now, frame::PUT, &entry_body(b"", b"", &big), err(1));
    s.body(
        now,
        frame::REPL,
        &entry_body(b"_sys:", &middle(0), &big),
        err(1),
    );
    s.get(now, b"k1", value(b"back"));
}

fn bad_forms(s: &mut Script) {
    let now = 50_000;
    let bodies: [(u8, Vec<u8>); 16] = [
        (frame::PUT, vec![]),
        (frame::PUT, vec![2, b'k']),
        (frame::PUT, vec![1, b'k']),
        (frame::PUT, vec![1, b'k', 0]),
        (frame::PUT, vec![1, b'k', 0, 2, b'v']),
        (frame::PUT, vec![1, b'k', 0, 0, b'v']),
        (frame::GET, vec![]),
        (frame::GET, vec![1]),
        (frame::GET, vec![1, b'k', b'k']),
        (frame::DEL, vec![0, b'k']),
        (frame::DEL, vec![200, b'k']),
        (frame::REPL, entry_body(b"k", &middle(2), b"")),
        (frame::REPL, entry_body(b"k", &middle(1), b"v")),
        (frame::REPL, entry_body(b"_sys:", &middle(255), b"")),
        (frame::REPL, entry_body(b"k", &middle(1), &[7; 513])),
        (frame::REPL, entry_body(b"k", &middle(0)[..9], b"")),
    ];
    for (kind, body) in bodies {
        s.body(now, kind, &body, err(3));
    }
    for kind in [0, 5, 15, 19, 21, 255] {
        s.body(now, kind, &[], err(3));
        s.body(now, kind, b"\x02k1", err(3));
    }
    s.raw(now, sealed(frame::GET, 1, b"\x02k1"), Some(err(3)));
    s.raw(now, sealed(frame::GET, 128, b"\x02k1"), Some(err(3)));
}

fn reply_types(s: &mut Script) {
    let now = 50_000;
    let replies = [OK, NOTFOUND, value(b""), value(b"v"), err(1), err(255)];
    for message in replies {
        s.raw(now, framed(&message), Some(err(3)));
    }
    s.body(now, frame::ERR, &[0], err(3));
    // The type is refused before the value is looked at.
    s.body(
        now,
        frame::VALUE,
        &entry_body(b"", b"", &[7; 513])[1..],
        err(3),
    );
}

/// Every flipped bit behind LEN. A flip in LEN would move the next record.
fn damaged(s: &mut Script) {
    let now = 50_000;
    let samples = [
        framed(&put_message(b"k1", b"never seen")),
        framed(&repl_message(b"k1", stamp(50_000, 0, 9), None)),
    ];
    for frame in samples {
        for bit in 16..frame.len() * 8 {
            let mut flipped = frame.clone();
            flipped[bit / 8] ^= 1 << (bit % 8);
            s.raw(now, flipped, Some(err(3)));
        }
    }
    s.get(now, b"k1", value(b"back"));
}

fn full_store(s: &mut Script) {
    let mut number = 0;
    while s.keys.len() < SLOTS {
        // Neither ascending nor descending, so that slots move.
        let key = format!("fill-{:03}", number * 37 % 101);
        s.put(60_000, key.as_bytes(), key.as_bytes(), OK);
        number += 1;
    }
    s.put(60_000, b"over", b"", err(6));
    s.del(60_000, b"over", err(6));
    s.repl(60_000, b"over", stamp(1, 0, 0), Some(b""), err(6));
    s.repl(60_000, b"over", stamp(90_000, 0, 0), None, err(6));
    s.get(60_000, b"over", NOTFOUND);
    s.get(60_000, b"fill-000", value(b"fill-000"));
    s.repl(60_000, b"fill-000", stamp(1, 0, 0), Some(b"kept out"), OK);
    s.del(60_000, b"fill-000", OK);
    s.get(60_000, b"fill-000", NOTFOUND);
    // A tombstone keeps its slot.
    s.put(60_000, b"over", b"", err(6));
    full_store_leaves_the_clock(s);
}

fn full_store_leaves_the_clock(s: &mut Script) {
    s.put(70_000, b"over", b"", err(6));
    s.repl(70_000, b"over", stamp(71_000, 0, 2), Some(b""), err(6));
    s.put(65_000, b"k1", b"mine", OK);
    s.repl(65_000, b"k1", stamp(66_000, 0, 2), Some(b"theirs"), OK);
    s.get(65_000, b"k1", value(b"theirs"));
    // A spent clock is told before a full store.
    s.repl(66_000, b"k1", stamp(66_001, 65_534, 2), Some(b"spent"), OK);
    s.put(66_000, b"over", b"", err(8));
    s.repl(66_000, b"over", stamp(1, 0, 0), Some(b""), err(8));
    s.put(66_002, b"over", b"", err(6));
}

/// Requests from a fixed seed, replies left to the replay.
fn mixture(s: &mut Script) {
    let mut rng = Rng::new(2024);
    let mut now = 100_000;
    for _ in 0..900 {
        now = now + rng.below(60) - rng.below(40);
        if rng.one_in(25) {
            now += 1500;
        }
        let frame = random_frame(&mut rng, now);
        s.raw(now, frame, None);
    }
}

/// How far a random stamp is ahead of 30 before `now`: mostly near `now`,
/// else near or beyond the limit of 2,000.
fn random_lead(rng: &mut Rng) -> u64 {
    match rng.below(12) {
        0 => 2000 + rng.below(60),
        1 => 2030 + rng.below(6000),
        _ => rng.below(60),
    }
}

fn random_frame(rng: &mut Rng, now: u64) -> Vec<u8> {
    // Some of these keys are held and some are not.
    let key = format!("fill-{:03}", 30 + rng.below(74)).into_bytes();
    let length = if rng.one_in(20) {
        rng.index(513)
    } else {
        rng.index(20)
    };
    let value = rng.bytes(length);
    let logical = if rng.one_in(10) {
        65_533 + rng.below(3)
    } else {
        rng.below(5)
    };
    let phys = now - 30 + random_lead(rng);
    let stamp = stamp(phys, logical as u16, rng.below(4) as u8);
    let message = match rng.below(10) {
        0..=2 => put_message(&key, &value),
        3..=5 => Message::Get { key },
        6 => Message::Del { key },
        7 => repl_message(&key, stamp, None),
        _ => repl_message(&key, stamp, Some(&value)),
    };
    let mut frame = framed(&message);
    if rng.one_in(25) {
        let at = 2 + rng.index(frame.len() - 2);
        frame[at] ^= 1 + rng.below(255) as u8;
    }
    frame
}

fn last_times(s: &mut Script) {
    let last = TIME_END - 1;
    s.put(last, b"k1", b"last", OK);
    s.put(last, b"k1", b"last but one", OK);
    s.repl(last, b"k1", stamp(last, 1, 2), Some(b"theirs"), OK);
    s.get(last, b"k1", value(b"theirs"));
    s.put(0, b"k1", b"mine", OK);
    s.get(0, b"k1", value(b"mine"));
    s.repl(0, b"k1", stamp(last, 65_533, 0), Some(b"near the top"), OK);
    s.get(last, b"k1", value(b"near the top"));
}
