//! The store.

use crate::entry::Entry;
use crate::fields::Fields;
use crate::image;
use crate::raw;
use crate::refusal::{split, Refusal};
use snowpulley_sys as header;

pub use crate::image::length;

/// What a store says of a key.
#[derive(Clone, Copy, Debug, PartialEq, Eq)]
pub enum Found<'a> {
    /// The value, as a part of the store.
    Value(&'a [u8]),
    Deleted,
    Never,
}

/// What became of an offered entry.
#[derive(Clone, Copy, Debug, PartialEq, Eq)]
pub enum Offered {
    /// Its key was not held.
    Stored,
    /// The held entry was below it.
    Replaced,
    /// The held entry was not below it: the store is as before.
    Kept,
}

/// Makes the buffer a store that holds nothing.
pub fn create(store: &mut [u8], slots: usize) -> Result<(), Refusal> {
    split(raw::store_create(store, slots))?;
    Ok(())
}

/// A buffer that is a store of this many slots and holds nothing.
pub fn fresh(slots: usize) -> Result<Vec<u8>, Refusal> {
    if !image::SLOTS.contains(&slots) {
        return Err(Refusal::BadArgument);
    }
    let mut store = vec![0; length(slots)];
    create(&mut store, slots)?;
    Ok(store)
}

pub fn is_sound(store: &[u8]) -> bool {
    raw::store_is_sound(store) == 1
}

pub fn lookup<'a>(store: &'a [u8], key: &[u8]) -> Result<Found<'a>, Refusal> {
    let mut place = [0; header::SP_PLACE_WORDS];
    match split(raw::store_lookup(store, key, &mut place))? {
        header::SP_LOOKED_VALUE => {
            let place = place.map(|word| word as usize);
            let (at, length) = (place[header::SP_PLACE_AT], place[header::SP_PLACE_LEN]);
            Ok(Found::Value(&store[at..at + length]))
        }
        header::SP_LOOKED_DELETED => Ok(Found::Deleted),
        header::SP_LOOKED_NEVER => Ok(Found::Never),
        other => panic!("the header has no lookup answer {other}"),
    }
}

/// The held entry with this number, counted from 0 in the order of the keys;
/// none past the last.
pub fn entry(store: &[u8], i: usize) -> Result<Option<Entry<'_>>, Refusal> {
    let mut words = [0; header::SP_FIELDS];
    match split(raw::store_entry(store, i, &mut words)) {
        Ok(_) => {
            let bytes = store;
            Ok(Some(Fields { bytes, words }.entry()))
        }
        Err(Refusal::BadArgument) => Ok(None),
        Err(refusal) => Err(refusal),
    }
}

/// The held entries in the order of their keys.
pub fn entries(store: &[u8]) -> Result<Vec<Entry<'_>>, Refusal> {
    (0..).map_while(|i| entry(store, i).transpose()).collect()
}

/// Offers one entry. Of it and the held one of its key the one that is above
/// stays: the one with the greater stamp; at equal stamps a tombstone is above
/// every value, and of two values the one with the greater byte where they
/// first differ, or the longer one if it begins with the other. An entry below
/// the purge line is refused with `BelowLine` if its key is not held.
pub fn offer(store: &mut [u8], entry: &Entry<'_>) -> Result<Offered, Refusal> {
    let Entry {
        key,
        content,
        stamp,
    } = *entry;
    let result = raw::store_offer(
        store,
        key,
        content.value(),
        content.flag(),
        stamp.phys,
        stamp.logical,
        stamp.node,
    );
    match split(result)? {
        header::SP_OFFER_STORED => Ok(Offered::Stored),
        header::SP_OFFER_REPLACED => Ok(Offered::Replaced),
        header::SP_OFFER_KEPT => Ok(Offered::Kept),
        other => panic!("the header has no offer answer {other}"),
    }
}

/// Offers each of the giver's entries to the receiver as `offer` does, all or
/// none, but passes over those that are below the purge line and of a key that
/// the receiver does not hold; how many it passed over. Stores with different
/// lines are refused with `UnequalLines`.
pub fn merge(receiver: &mut [u8], giver: &[u8]) -> Result<usize, Refusal> {
    split(raw::store_merge(receiver, giver)).map(usize::from)
}

/// The store's purge line in milliseconds, 0 if it was never purged; refused
/// with `BadStore`.
pub fn line(store: &[u8]) -> Result<u64, Refusal> {
    let mut line = [0];
    split(raw::store_line(store, &mut line))?;
    Ok(line[0])
}

/// Removes the tombstones whose time is below the line, in milliseconds, and
/// sets the store's purge line to it; how many it removed. Refused, in this
/// order, with `BadStore`, `BadTime` and `LowerLine`.
///
/// To be done on all modules of a site, to one line in the past, after they
/// have merged with each other. The store of a module that slept meanwhile, of
/// one that is new, or from an older copy is not purged, but made anew as a copy
/// of a neighbour's bytes: `include/snowpulley.h` says more.
pub fn purge(store: &mut [u8], line: u64) -> Result<usize, Refusal> {
    split(raw::store_purge(store, line)).map(usize::from)
}
