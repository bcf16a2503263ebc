//! The stores, frames and rings that the calls are given.

use reference::peers::PeerTable;
use reference::stamp::Stamp;
use reference::store::{create, image_length, offer};
use reference::value::TOMBSTONE;
use samples::script::{framed, repl_message};
use snowpulley::audit::DELIVERIES_MAX;
use support::Rng;

pub const SLOTS: usize = 100;
pub const SALT: u32 = 0x5EED;

/// The held entries' stamp, one below it and one above it.
pub const OLD: Stamp = at(500);
pub const HELD: Stamp = at(1000);
pub const NEW: Stamp = at(1500);

pub const fn at(phys: u64) -> Stamp {
    Stamp {
        phys,
        logical: 0,
        node: 2,
    }
}

/// Keys with even numbers are held; odd ones fall between them.
pub fn key(number: usize) -> Vec<u8> {
    format!("setting-{number:03}").into_bytes()
}

pub fn value(length: usize) -> Vec<u8> {
    Rng::new(length as u64).bytes(length)
}

/// A greater value, which differs from this one at its last byte alone.
pub fn greater(mut value: Vec<u8>) -> Vec<u8> {
    let last = value.last_mut().expect("a value with a byte");
    *last = last.checked_add(1).expect("a byte below 255");
    value
}

/// A store of 100 slots that holds so many keys from `first` on, every
/// second number.
pub fn store(first: usize, used: usize, length: usize, stamp: Stamp) -> Vec<u8> {
    let mut image = vec![0; image_length(SLOTS)];
    create(&mut image, SLOTS).expect("a right length");
    for index in 0..used {
        let key = key(first + 2 * index);
        offer(&mut image, &key, &value(length), 0, stamp).expect("a right entry");
    }
    image
}

/// A full store of which the first keys, so many, are deleted.
pub fn deleted(count: usize) -> Vec<u8> {
    let mut image = store(0, SLOTS, 512, HELD);
    for index in 0..count {
        offer(&mut image, &key(2 * index), &[], TOMBSTONE, NEW).expect("a right entry");
    }
    image
}

/// All that is held is below this line.
pub const LINE: u64 = NEW.phys + 1;

/// The key of all deliveries of a list.
pub const DELIVERED: [u8; 64] = [b'k'; 64];

/// The longest list: as many deliveries as are allowed, in frames of 597 bytes.
/// `stamp` gives the stamp of the delivery at a place.
pub fn deliveries(stamp: impl Fn(u64) -> Stamp) -> Vec<u8> {
    let value = value(512);
    let frame = |place| framed(&repl_message(&DELIVERED, stamp(place), Some(&value)));
    (0..DELIVERIES_MAX as u64).flat_map(frame).collect()
}

/// The longest list with a stamp of its own for each delivery, in no order.
pub fn different_deliveries() -> Vec<u8> {
    deliveries(|place| at(place * 7 % DELIVERIES_MAX as u64))
}

/// The longest list with one stamp for all deliveries, of which the last has a
/// greater value than the others.
pub fn last_greater() -> Vec<u8> {
    let value = greater(value(512));
    let last = framed(&repl_message(&DELIVERED, HELD, Some(&value)));
    let mut list = deliveries(|_| HELD);
    list.truncate(list.len() - last.len());
    list.extend(last);
    list
}

/// Ten ids and a table with their rows, for both sides.
pub fn peers() -> (Vec<u8>, PeerTable, snowpulley::PeerTable) {
    let ids: Vec<u8> = (1..=10).map(|n| n * 23).collect();
    let mut reference = PeerTable::fresh(ids[0], [10, 0, 0, 1], 7000, 1, 0).expect("a right time");
    let mut proved =
        snowpulley::PeerTable::fresh(ids[0], [10, 0, 0, 1], 7000, 1, 0).expect("a right time");
    for &id in &ids[1..] {
        let address = [10, 0, 0, id];
        reference = reference.add(id, address, 7000, 1, 0).expect("a new id");
        proved.add(id, address, 7000, 1, 0).expect("a new id");
    }
    (ids, reference, proved)
}
