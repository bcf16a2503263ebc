//! The ten fields that the library writes of a frame or of a store's entry.

use crate::entry::{Content, Entry, Stamp};
use snowpulley_sys as header;

/// The fields, with the bytes that keys and values are parts of.
pub(crate) struct Fields<'a> {
    pub(crate) bytes: &'a [u8],
    pub(crate) words: [u64; header::SP_FIELDS],
}

impl<'a> Fields<'a> {
    /// The frame's type.
    pub(crate) fn kind(&self) -> u64 {
        self.words[header::SP_FIELD_TYPE]
    }

    pub(crate) fn key(&self) -> &'a [u8] {
        self.part(header::SP_FIELD_KEY_AT, header::SP_FIELD_KEY_LEN)
    }

    pub(crate) fn value(&self) -> &'a [u8] {
        self.part(header::SP_FIELD_VALUE_AT, header::SP_FIELD_VALUE_LEN)
    }

    fn part(&self, at: usize, length: usize) -> &'a [u8] {
        let (at, length) = (self.words[at] as usize, self.words[length] as usize);
        &self.bytes[at..at + length]
    }

    pub(crate) fn entry(&self) -> Entry<'a> {
        let flag = self.words[header::SP_FIELD_FLAG] as u32;
        Entry {
            key: self.key(),
            content: Content::returned(flag, self.value()),
            stamp: Stamp {
                phys: self.words[header::SP_FIELD_PHYS],
                logical: self.words[header::SP_FIELD_LOGICAL] as u16,
                node: self.words[header::SP_FIELD_NODE] as u8,
            },
        }
    }

    /// The number of an ERR frame.
    pub(crate) fn number(&self) -> u8 {
        self.words[header::SP_FIELD_NUMBER] as u8
    }
}
