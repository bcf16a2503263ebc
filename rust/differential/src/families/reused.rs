//! Entries with the key and the stamp of another one.

use crate::make::pick;
use reference::store::{entries, Entry};
use reference::value::{ACTIVE, TOMBSTONE, VALUE_MAX};
use std::cmp::Ordering;
use support::Rng;

/// One of a store's entries; none of an empty or unsound one.
pub fn held(rng: &mut Rng, store: &[u8]) -> Option<Entry> {
    let mut held = entries(store).unwrap_or_default();
    (!held.is_empty()).then(|| held.swap_remove(rng.index(held.len())))
}

/// An entry that differs from another one of its key and stamp by the flag, by
/// a byte, by the value's length or by nothing.
pub fn again(rng: &mut Rng, entry: &Entry) -> Entry {
    let mut again = Entry {
        flag: ACTIVE,
        ..entry.clone()
    };
    let value = &mut again.value;
    match rng.below(6) {
        0 => {
            value.clear();
            again.flag = TOMBSTONE;
        }
        1 | 2 if !value.is_empty() => {
            // Any byte, and often the last, which takes the longest to reach.
            let (any, last) = (rng.index(value.len()), value.len() - 1);
            value[pick(rng, &[any, last])] ^= 1 << rng.below(8);
        }
        3 => value.truncate(rng.index(value.len() + 1)),
        // What is past a value in a slot is zero too.
        4 if value.len() < VALUE_MAX => value.push(pick(rng, &[0, 0, 1, 255])),
        _ => again.flag = entry.flag,
    }
    again
}

/// What `tie` says: 0 the same; 1 lower by the flag, 2 by a byte, 3 by being a
/// prefix; 4 to 6 greater in these ways.
pub const TIES: [u32; 7] = [0, 1, 2, 3, 4, 5, 6];
pub const LOWER_TIES: [u32; 3] = [1, 2, 3];

/// How an entry compares with another one of its key and stamp, as a number for
/// counting.
pub fn tie(held: &Entry, entry: &Entry) -> u32 {
    let way = if entry.flag != held.flag {
        1
    } else if entry.value.starts_with(&held.value) || held.value.starts_with(&entry.value) {
        3
    } else {
        2
    };
    match entry.rank().cmp(&held.rank()) {
        Ordering::Less => way,
        Ordering::Equal => 0,
        Ordering::Greater => way + 3,
    }
}
