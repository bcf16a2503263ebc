//! Random frames: right ones, and ones with a fault.

use crate::make::{any_key, flag, good_value, logical, pick, pool_key};
use reference::frame::{sealed, time_bytes, Message, FRAME_MAX};
use reference::stamp::{Stamp, TIME_END};
use reference::store::Entry;
use support::Rng;

pub fn framed(message: &Message) -> Vec<u8> {
    let mut out = [0; FRAME_MAX];
    let length = message.write(&mut out).expect("a right message fits");
    out[..length].to_vec()
}

/// The REPL that delivers an entry.
pub fn repl(entry: Entry) -> Message {
    let Entry {
        key,
        value,
        flag,
        stamp,
    } = entry;
    Message::Repl {
        key,
        flag,
        stamp,
        value,
    }
}

/// A REPL's stamp: small, so that stamps meet; near `now`; or any.
pub fn stamp(rng: &mut Rng, now: u64) -> Stamp {
    let phys = match rng.below(8) {
        0 => rng.below(TIME_END),
        1 => TIME_END - 1,
        2 => now + 1999 + rng.below(4),
        3 => now + rng.below(5000),
        4 => rng.below(4),
        _ => now.saturating_sub(rng.below(4)),
    };
    Stamp {
        phys: phys.min(TIME_END - 1),
        logical: logical(rng),
        node: rng.below(4) as u8,
    }
}

pub fn request(rng: &mut Rng, now: u64) -> Message {
    let key = pool_key(rng);
    match rng.below(8) {
        0..=2 => Message::Put {
            key,
            value: good_value(rng),
        },
        3 => Message::Get { key },
        4 => Message::Del { key },
        5 => Message::Repl {
            key,
            flag: 1,
            stamp: stamp(rng, now),
            value: vec![],
        },
        _ => Message::Repl {
            key,
            flag: 0,
            stamp: stamp(rng, now),
            value: good_value(rng),
        },
    }
}

pub fn reply(rng: &mut Rng) -> Message {
    match rng.below(4) {
        0 => Message::Ok,
        1 => Message::NotFound,
        2 => Message::Value {
            value: good_value(rng),
        },
        _ => Message::Err {
            number: rng.byte().max(1),
        },
    }
}

/// A body of a request's form whose lengths, key, flag or value may be wrong.
pub fn odd_body(rng: &mut Rng, kind: u8) -> Vec<u8> {
    let key = any_key(rng);
    let key = &key[..key.len().min(255)];
    let value = match rng.below(4) {
        0 => rng.bytes(513),
        1 => rng.bytes(500),
        _ => good_value(rng),
    };
    let mut body = Vec::new();
    if kind != 17 {
        body.push(key.len() as u8);
        body.extend(key);
    }
    if kind == 4 {
        body.push(flag(rng) as u8);
        body.extend(time_bytes(rng.below(TIME_END)));
        body.extend(rng.bytes(3));
    }
    if kind == 1 || kind == 4 || kind == 17 {
        body.extend((value.len() as u16).to_be_bytes());
        body.extend(value);
    }
    body
}

/// Types, also ones that no message has.
const KINDS: [u8; 16] = [1, 1, 2, 3, 4, 4, 4, 16, 17, 17, 18, 20, 0, 5, 19, 255];

/// A frame with a right checksum around a body that may be wrong.
pub fn odd_frame(rng: &mut Rng) -> Vec<u8> {
    let kind = pick(rng, &KINDS);
    let mut body = odd_body(rng, kind);
    match rng.below(5) {
        0 => body.truncate(rng.index(body.len() + 1)),
        1 => body.push(rng.byte()),
        2 if !body.is_empty() => {
            let at = rng.index(body.len().min(90));
            body[at] ^= 1 << rng.below(8);
        }
        _ => (),
    }
    if rng.one_in(12) {
        let length = rng.index(3);
        body = rng.bytes(length);
    }
    let kind = if rng.one_in(8) { rng.byte() } else { kind };
    let flags = if rng.one_in(12) { rng.byte() } else { 0 };
    sealed(kind, flags, &body)
}

/// A frame with some bytes changed, missing or added.
pub fn damaged(rng: &mut Rng, frame: &mut Vec<u8>) {
    match rng.below(6) {
        0 | 1 if !frame.is_empty() => {
            let at = rng.index(frame.len());
            frame[at] ^= 1 << rng.below(8);
        }
        2 => frame.truncate(rng.index(frame.len() + 1)),
        3 => {
            let length = pick(rng, &[1, 2, 4, 600]);
            frame.extend(rng.bytes(length));
        }
        4 if frame.len() > 2 => {
            let len = (frame.len() - 2) as u16;
            let wrong = pick(rng, &[0, 5, 6, 598, 599, 600, len - 1, len + 1, 65_535]);
            frame[..2].copy_from_slice(&wrong.to_be_bytes());
        }
        _ => {
            let length = rng.index(40);
            *frame = rng.bytes(length);
        }
    }
}

/// Any frame at all, for a reading of `now`.
pub fn any_frame(rng: &mut Rng, now: u64) -> Vec<u8> {
    match rng.below(16) {
        0 | 1 => odd_frame(rng),
        2 => framed(&reply(rng)),
        3 => {
            let mut frame = framed(&request(rng, now));
            damaged(rng, &mut frame);
            frame
        }
        _ => framed(&request(rng, now)),
    }
}
