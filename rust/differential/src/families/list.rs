//! Random lists of deliveries: readable ones, and ones with a fault.

use super::image::small_stamp;
use super::message::{damaged, framed, odd_body, odd_frame, repl, reply, request};
use super::reused::again;
use crate::make::{pick, pool_key};
use reference::deliveries::DELIVERIES_MAX;
use reference::frame::{sealed, REPL};
use reference::stamp::{Stamp, TIME_END};
use reference::store::Entry;
use reference::value::{ACTIVE, TOMBSTONE, VALUE_MAX};
use support::Rng;

/// Frames that are deliveries, and the keys of which they have some.
#[derive(Debug)]
pub struct List {
    pub keys: Vec<Vec<u8>>,
    pub frames: Vec<Vec<u8>>,
}

/// How the deliveries of one list are drawn.
struct Style {
    keys: Vec<Vec<u8>>,
    /// Which stamps they have.
    stamps: u64,
    /// Whether values may be long.
    long: bool,
}

/// How many deliveries: few; rarely as many as there may be, or one more.
fn length(rng: &mut Rng) -> usize {
    match rng.below(400) {
        0 => DELIVERIES_MAX,
        1 => DELIVERIES_MAX + 1,
        2..=79 => 15 + rng.index(10),
        _ => rng.index(7),
    }
}

pub fn any(rng: &mut Rng) -> List {
    let length = length(rng);
    of_length(rng, length)
}

pub fn of_length(rng: &mut Rng, length: usize) -> List {
    let style = Style {
        keys: (0..1 + rng.index(3)).map(|_| pool_key(rng)).collect(),
        stamps: rng.below(4),
        long: length < 100 && rng.one_in(3),
    };
    let mut entries = Vec::new();
    while entries.len() < length {
        let entry = next(rng, &style, &entries);
        entries.push(entry);
    }
    let frames = entries.into_iter().map(|entry| framed(&repl(entry)));
    List {
        keys: style.keys,
        frames: frames.collect(),
    }
}

/// A new entry, or one of the earlier ones again, as it was or with other
/// contents.
fn next(rng: &mut Rng, style: &Style, entries: &[Entry]) -> Entry {
    if !entries.is_empty() {
        let earlier = &entries[rng.index(entries.len())];
        match rng.below(8) {
            0 => return earlier.clone(),
            1 | 2 => return again(rng, earlier),
            _ => (),
        }
    }
    let (flag, value) = contents(rng, style.long);
    Entry {
        key: style.keys[rng.index(style.keys.len())].clone(),
        value,
        flag,
        stamp: stamp(rng, style.stamps),
    }
}

/// Very few stamps; few; few with fields at the ends of their bytes and ranges;
/// or many.
fn stamp(rng: &mut Rng, kind: u64) -> Stamp {
    match kind {
        0 => Stamp {
            phys: rng.below(2),
            logical: rng.below(2) as u16,
            node: rng.below(2) as u8,
        },
        1 => small_stamp(rng),
        2 => Stamp {
            phys: pick(rng, &[0, 255, 256, 1 << 40, TIME_END - 1]),
            logical: pick(rng, &[0, 1, 255, 256, u16::MAX]),
            node: pick(rng, &[0, 127, 128, 255]),
        },
        _ => Stamp {
            phys: rng.below(2000),
            ..small_stamp(rng)
        },
    }
}

/// A flag and a value, of few; long values that differ do so at their end.
fn contents(rng: &mut Rng, long: bool) -> (u8, Vec<u8>) {
    match rng.below(6) {
        0 | 1 => (TOMBSTONE, vec![]),
        2 | 3 if long => {
            let mut value = vec![b'v'; VALUE_MAX - 1 - rng.index(2)];
            value.push(rng.below(2) as u8);
            (ACTIVE, value)
        }
        _ => {
            let values: [&[u8]; 5] = [b"", b"\0", b"a", b"ab", b"b"];
            (ACTIVE, pick(rng, &values).to_vec())
        }
    }
}

/// A list's bytes with a fault in them; some are readable all the same.
pub fn faulty(rng: &mut Rng, frames: &[Vec<u8>]) -> Vec<u8> {
    let mut frames = frames.to_vec();
    if rng.one_in(2) {
        let place = rng.index(frames.len() + 1);
        frames.insert(place, odd_delivery(rng));
        return frames.concat();
    }
    let mut list = frames.concat();
    match rng.below(5) {
        0 => list.truncate(rng.index(list.len() + 1)),
        1 => {
            // A part of a LEN, or a LEN with nothing or something behind it.
            let tail = pick(rng, &[1, 1, 2, 3, 8, 30]);
            let tail = if rng.one_in(2) {
                vec![0; tail]
            } else {
                rng.bytes(tail)
            };
            list.extend(tail);
        }
        2 if !list.is_empty() => {
            list.remove(rng.index(list.len()));
        }
        3 => {
            let at = rng.index(list.len() + 1);
            list.insert(at, rng.byte());
        }
        _ if !list.is_empty() => {
            let at = rng.index(list.len());
            list[at] ^= 1 << rng.below(8);
        }
        _ => (),
    }
    list
}

/// A frame that is mostly no delivery.
fn odd_delivery(rng: &mut Rng) -> Vec<u8> {
    match rng.below(8) {
        0 => framed(&reply(rng)),
        1 => framed(&request(rng, 9)),
        2 => odd_frame(rng),
        3 | 4 => {
            let mut frame = framed(&request(rng, 9));
            damaged(rng, &mut frame);
            frame
        }
        // Its key, its flag or its value may be wrong.
        _ => sealed(REPL, 0, &odd_body(rng, REPL)),
    }
}
