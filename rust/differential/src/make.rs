//! Random keys, values, times and numbers, with the limits met often.

use reference::key::RESERVED;
use reference::stamp::TIME_END;
use support::Rng;

/// One of some choices.
pub fn pick<T: Copy>(rng: &mut Rng, choices: &[T]) -> T {
    choices[rng.index(choices.len())]
}

/// Keys for stores: few, so that they meet again; some begin alike.
const POOL: [&[u8]; 12] = [
    b"a",
    b"ab",
    b"abc",
    b"b",
    b"\0",
    b"\0\0",
    b"\xFF",
    b"\xFF\xFE",
    b"_sys",
    b"_SYS:a",
    b"k1",
    &[b'K'; 64],
];

pub fn pool_key(rng: &mut Rng) -> Vec<u8> {
    pick(rng, &POOL).to_vec()
}

/// Any key, acceptable or not.
pub fn any_key(rng: &mut Rng) -> Vec<u8> {
    match rng.below(8) {
        0 => {
            let length = pick(rng, &[0, 1, 63, 64, 65, 66, 255, 256, 257, 320]);
            rng.bytes(length)
        }
        1 => near_reserved(rng),
        2 | 3 => {
            let length = 1 + rng.index(64);
            rng.bytes(length)
        }
        _ => pool_key(rng),
    }
}

/// A reserved beginning with some bytes after it, or with a fault.
fn near_reserved(rng: &mut Rng) -> Vec<u8> {
    let mut key = pick(rng, &RESERVED).to_vec();
    let tail = pick(rng, &[0, 1, 5, 56, 60]);
    key.extend(rng.bytes(tail));
    match rng.below(4) {
        0 => key.truncate(rng.index(8).max(1)),
        1 => {
            let at = rng.index(key.len().min(8));
            key[at] ^= 1 << rng.below(8);
        }
        _ => (),
    }
    key
}

/// A value within the limit.
pub fn good_value(rng: &mut Rng) -> Vec<u8> {
    let length = match rng.below(10) {
        0 => pick(rng, &[0, 1, 33, 255, 256, 511, 512]),
        1 => rng.index(513),
        _ => rng.index(20),
    };
    rng.bytes(length)
}

/// Any value, too large ones among them.
pub fn any_value(rng: &mut Rng) -> Vec<u8> {
    match rng.below(200) {
        0 => rng.bytes(65_536 + 7),
        1..=15 => {
            let length = pick(rng, &[513, 514, 600, 768, 1024]);
            rng.bytes(length)
        }
        _ => good_value(rng),
    }
}

/// A number of some range, sometimes with more above its lowest byte or two,
/// which must not be cut off.
pub fn wide(rng: &mut Rng, number: u32) -> u32 {
    match rng.below(8) {
        0 => number + pick(rng, &[1 << 8, 1 << 9, 1 << 16, 1 << 31]),
        _ => number,
    }
}

/// Mostly one of the two, sometimes out of range.
pub fn flag(rng: &mut Rng) -> u32 {
    let flag = pick(rng, &[0, 0, 0, 0, 1, 1, 1, 2, 128, 255]);
    wide(rng, flag)
}

/// Any time: near 0, near the end of the range, beyond it.
pub fn any_time(rng: &mut Rng) -> u64 {
    match rng.below(10) {
        0 => TIME_END - 1 - rng.below(3),
        1 => pick(rng, &[TIME_END, TIME_END + 1, 1 << 63, u64::MAX]),
        2 => rng.below(TIME_END),
        3 => 0,
        _ => rng.below(20_000),
    }
}

/// A time in range, mostly.
pub fn mostly_time(rng: &mut Rng) -> u64 {
    match rng.below(12) {
        0 => any_time(rng),
        _ => rng.below(30_000),
    }
}

pub fn logical(rng: &mut Rng) -> u16 {
    match rng.below(6) {
        0 => u16::MAX - rng.below(3) as u16,
        1 => rng.word() as u16,
        _ => rng.below(4) as u16,
    }
}

pub fn number32(rng: &mut Rng) -> u32 {
    match rng.below(6) {
        0 => u32::MAX - rng.below(3) as u32,
        1 => rng.word() as u32,
        _ => rng.below(4) as u32,
    }
}

/// A length near another one, below it and above it.
pub fn near(rng: &mut Rng, length: usize) -> usize {
    match rng.below(8) {
        0 => 0,
        1 => rng.index(length + 2),
        2 => length.saturating_sub(1),
        3 => length + 1,
        4 => length + 1 + rng.index(40),
        _ => length,
    }
}

/// Words with anything in them, small numbers among it.
pub fn words(rng: &mut Rng, length: usize) -> Vec<u64> {
    let word = |rng: &mut Rng| match rng.below(3) {
        0 => rng.below(4),
        _ => rng.word(),
    };
    (0..length).map(|_| word(rng)).collect()
}
