//! Entries, with their stamps: what a store holds and a REPL frame carries.

use crate::ring::key_position;
use snowpulley_sys::{SP_FLAG_ACTIVE, SP_FLAG_TOMBSTONE, SP_TIME_END};
use std::fmt;

/// The last time that is in range, in milliseconds.
pub const TIME_MAX: u64 = SP_TIME_END - 1;

/// A stamp; the order of the fields is the order of comparison.
#[derive(Clone, Copy, Debug, PartialEq, Eq, PartialOrd, Ord)]
pub struct Stamp {
    pub phys: u64,
    pub logical: u16,
    pub node: u8,
}

impl fmt::Display for Stamp {
    fn fmt(&self, f: &mut fmt::Formatter<'_>) -> fmt::Result {
        write!(f, "({}, {}, {})", self.phys, self.logical, self.node)
    }
}

/// A value, or the mark that the key was deleted.
#[derive(Clone, Copy, Debug, PartialEq, Eq)]
pub enum Content<'a> {
    Active(&'a [u8]),
    Tombstone,
}

impl<'a> Content<'a> {
    pub(crate) fn flag(self) -> u32 {
        match self {
            Content::Active(_) => SP_FLAG_ACTIVE,
            Content::Tombstone => SP_FLAG_TOMBSTONE,
        }
    }

    /// The value; empty where there is none.
    pub fn value(self) -> &'a [u8] {
        match self {
            Content::Active(value) => value,
            Content::Tombstone => &[],
        }
    }

    /// By a flag that is 0 or 1.
    pub(crate) fn returned(flag: u32, value: &'a [u8]) -> Content<'a> {
        match flag {
            SP_FLAG_ACTIVE => Content::Active(value),
            SP_FLAG_TOMBSTONE => Content::Tombstone,
            other => panic!("the header has no flag {other}"),
        }
    }
}

#[derive(Clone, Copy, Debug, PartialEq, Eq)]
pub struct Entry<'a> {
    pub key: &'a [u8],
    pub content: Content<'a>,
    pub stamp: Stamp,
}

/// Whether no call would refuse the key with `BAD_KEY`.
pub fn key_is_acceptable(key: &[u8]) -> bool {
    // The one call that looks at a key and at nothing else.
    key_position(key, 0).is_ok()
}
