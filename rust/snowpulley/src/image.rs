//! The layout of a store image, as `docs/FORMAT.md` draws it. It reads what
//! the header has no function for: images that are not sound.

use crate::checksum::crc32c;
use crate::entry::Stamp;
use snowpulley_sys::SP_SLOTS_MAX;
use std::ops::{Range, RangeInclusive};

pub use snowpulley_sys::SP_KEY_MAX as KEY_MAX;
pub use snowpulley_sys::SP_VALUE_MAX as VALUE_MAX;

pub const SLOTS: RangeInclusive<usize> = 1..=SP_SLOTS_MAX;
pub const HEADER_BYTES: usize = 16;
pub const SLOT_BYTES: usize = 596;

// The header's purge line; behind it are two zeros.
const LINE: Range<usize> = 8..14;

// A slot's fields.
const KEY_LENGTH: usize = 0;
const FLAG: usize = 1;
const VALUE_LENGTH: Range<usize> = 2..4;
const PHYS: Range<usize> = 4..10;
const LOGICAL: Range<usize> = 10..12;
const NODE: usize = 12;
const ZEROS: Range<usize> = 13..16;
const KEY: Range<usize> = 16..16 + KEY_MAX;
const VALUE: Range<usize> = KEY.end..KEY.end + VALUE_MAX;
const CHECKSUM: Range<usize> = VALUE.end..SLOT_BYTES;

/// The length of the image of a store with this many slots.
pub const fn length(slots: usize) -> usize {
    HEADER_BYTES + SLOT_BYTES * slots
}

/// A big-endian number of at most eight bytes.
fn number(bytes: &[u8]) -> u64 {
    let digit = |number, &byte: &u8| number << 8 | u64::from(byte);
    bytes.iter().fold(0, digit)
}

/// The header's numbers as they stand.
#[derive(Clone, Copy, Debug, PartialEq, Eq)]
pub struct Header {
    pub slots: u16,
    pub used: u16,
    pub slot_width: u16,
    pub first_slot: u16,
    pub line: u64,
    pub zeros: [u8; 2],
}

impl Header {
    /// None where the image is shorter than a header.
    pub fn read(image: &[u8]) -> Option<Header> {
        let bytes = image.first_chunk::<HEADER_BYTES>()?;
        let field = |index: usize| u16::from_be_bytes([bytes[2 * index], bytes[2 * index + 1]]);
        Some(Header {
            slots: field(0),
            used: field(1),
            slot_width: field(2),
            first_slot: field(3),
            line: number(&bytes[LINE]),
            zeros: *bytes.last_chunk()?,
        })
    }
}

/// The whole slots that the image has room for, used or not.
pub fn slots(image: &[u8]) -> impl Iterator<Item = Slot<'_>> {
    let (_, slots) = image.split_at(HEADER_BYTES.min(image.len()));
    slots.as_chunks().0.iter().map(|bytes| Slot { bytes })
}

/// A slot's fields as they stand.
#[derive(Clone, Copy, Debug, PartialEq, Eq)]
pub struct Slot<'a> {
    bytes: &'a [u8; SLOT_BYTES],
}

impl<'a> Slot<'a> {
    pub fn is_zero(self) -> bool {
        self.bytes.iter().all(|&byte| byte == 0)
    }

    pub fn key_length(self) -> usize {
        self.bytes[KEY_LENGTH].into()
    }

    pub fn flag(self) -> u8 {
        self.bytes[FLAG]
    }

    pub fn value_length(self) -> usize {
        number(&self.bytes[VALUE_LENGTH]) as usize
    }

    pub fn stamp(self) -> Stamp {
        Stamp {
            phys: number(&self.bytes[PHYS]),
            logical: number(&self.bytes[LOGICAL]) as u16,
            node: self.bytes[NODE],
        }
    }

    /// The bytes between the node and the key, which are to be zero.
    pub fn zeros(self) -> &'a [u8] {
        &self.bytes[ZEROS]
    }

    /// The key and the bytes after it, which are to be zero; of too long a
    /// key, the bytes that there are.
    pub fn key(self) -> (&'a [u8], &'a [u8]) {
        self.bytes[KEY].split_at(self.key_length().min(KEY_MAX))
    }

    /// The same of the value.
    pub fn value(self) -> (&'a [u8], &'a [u8]) {
        self.bytes[VALUE].split_at(self.value_length().min(VALUE_MAX))
    }

    /// Whether the checksum is that of the bytes before it.
    pub fn checksum_is_right(self) -> bool {
        let stated = number(&self.bytes[CHECKSUM]);
        u64::from(crc32c(&self.bytes[..CHECKSUM.start])) == stated
    }
}
