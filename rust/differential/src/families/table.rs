//! Random peer tables as words.

use crate::make::{mostly_time, near, number32, pick, words};
use support::Rng;

pub const WORDS: usize = 61;

/// Where a row's state and last seen are in its six words.
const STATE: usize = 3;
const SEEN: usize = 5;

/// A sound table; rows past the last one hold anything their fields can.
pub fn sound(rng: &mut Rng) -> Vec<u64> {
    let count = pick(rng, &[1, 2, 3, 3, 4, 5, 9, 10]);
    let first = rng.byte();
    let mut table = vec![count];
    for index in 0..10u8 {
        // Neighbouring ids, all different.
        table.push(first.wrapping_add(index.wrapping_mul(3)).into());
        table.push(rng.word() >> 32);
        table.push(rng.below(65_536));
        table.push(rng.below(3));
        table.push(number32(rng).into());
        table.push(rng.below(30_000));
    }
    table[1 + STATE] = 0;
    for row in table[1..].chunks_exact_mut(6).skip(count as usize) {
        row[STATE] = rng.below(256);
        row[SEEN] = rng.word();
    }
    table
}

/// A table with something wrong in it, mostly.
pub fn damaged(rng: &mut Rng) -> Vec<u64> {
    let mut table = sound(rng);
    let row = 1 + 6 * rng.index(10);
    match rng.below(10) {
        0 => table[0] = pick(rng, &[0, 11, 12, 255, 256, 257, u64::MAX]),
        1 => table[1 + STATE] = 1 + rng.below(2),
        2 => table[row + STATE] = pick(rng, &[3, 4, 255, 256]),
        3 => table[row + SEEN] = pick(rng, &[(1 << 48) - 1, 1 << 48, u64::MAX]),
        4 => table[row] = table[1 + 6 * rng.index(10)],
        5 => {
            // One more than each field can hold, in any row.
            let limits = [1 << 8, 1 << 32, 1 << 16, 1 << 8, 1 << 32];
            let field = rng.index(5);
            table[row + field] = limits[field];
        }
        6 => {
            let at = rng.index(WORDS);
            table[at] = rng.word();
        }
        7 => table.resize(near(rng, WORDS), 0),
        8 => table = words(rng, WORDS),
        _ => table[0] = rng.below(11),
    }
    table
}

pub fn any(rng: &mut Rng) -> Vec<u64> {
    if rng.one_in(4) {
        damaged(rng)
    } else {
        sound(rng)
    }
}

/// An id: mostly one of the table's, the own one among them.
pub fn id(rng: &mut Rng, table: &[u64]) -> u8 {
    match rng.below(5) {
        0 => rng.byte(),
        1 => table.get(1).copied().unwrap_or(0) as u8,
        _ => table.get(1 + 6 * rng.index(10)).copied().unwrap_or(0) as u8,
    }
}

/// A time: mostly at one of the ages that matter, for one of the rows.
pub fn time(rng: &mut Rng, table: &[u64]) -> u64 {
    let seen = table.get(6 + 6 * rng.index(10)).copied().unwrap_or(0);
    match rng.below(3) {
        0 => mostly_time(rng),
        _ => {
            let age = pick(rng, &[0, 1, 4_999, 5_000, 5_001, 14_999, 15_000, 15_001]);
            seen.saturating_add(age)
        }
    }
}
