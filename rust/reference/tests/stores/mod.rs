//! Stores and stamps.

use reference::stamp::Stamp;
use reference::store::{create, image_length};

/// The first time that is out of range.
pub const LATE: u64 = 1 << 48;

pub fn fresh(slots: usize) -> Vec<u8> {
    let mut image = vec![0xA5; image_length(slots)];
    create(&mut image, slots).unwrap();
    image
}

pub fn stamp(phys: u64, logical: u16, node: u8) -> Stamp {
    Stamp {
        phys,
        logical,
        node,
    }
}
