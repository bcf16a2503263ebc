//! The frames that a list of deliveries is made of.

use reference::frame::{write_repl, FRAME_MAX};
use reference::stamp::Stamp;
use reference::store::Entry;

pub fn entry(key: &[u8], stamp: (u64, u16, u8), flag: u8, value: &[u8]) -> Entry {
    let (phys, logical, node) = stamp;
    Entry {
        key: key.to_vec(),
        value: value.to_vec(),
        flag,
        stamp: Stamp {
            phys,
            logical,
            node,
        },
    }
}

/// The frame that delivers an entry.
pub fn frame(entry: &Entry) -> Vec<u8> {
    let mut out = [0; FRAME_MAX];
    let (key, value) = (&entry.key, &entry.value);
    let length = write_repl(&mut out, key, entry.flag, entry.stamp, value).unwrap();
    out[..length].to_vec()
}

pub fn active(key: &[u8], stamp: (u64, u16, u8), value: &[u8]) -> Vec<u8> {
    frame(&entry(key, stamp, 0, value))
}

pub fn tombstone(key: &[u8], stamp: (u64, u16, u8)) -> Vec<u8> {
    frame(&entry(key, stamp, 1, b""))
}
