//! Cutting a journal into records, as the replay program does.

use snowpulley::frame::{LEN_BYTES, LEN_RANGE};
use std::fmt;

const TIME_BYTES: usize = 6;

/// A time and a frame.
#[derive(Clone, Copy, Debug, PartialEq, Eq)]
pub struct Record<'a> {
    pub time: u64,
    pub frame: &'a [u8],
}

/// Why there is no further record.
#[derive(Clone, Copy, Debug, PartialEq, Eq)]
pub enum Broken {
    /// The journal ends inside a record, of which this many bytes are there.
    Cut(usize),
    /// LEN is out of range.
    Len(usize),
}

impl fmt::Display for Broken {
    fn fmt(&self, f: &mut fmt::Formatter<'_>) -> fmt::Result {
        match self {
            Broken::Cut(1) => write!(f, "the journal ends after 1 byte of a record"),
            Broken::Cut(bytes) => write!(f, "the journal ends after {bytes} bytes of a record"),
            Broken::Len(len) => write!(f, "LEN {len} is out of range"),
        }
    }
}

/// The records of a journal; a broken one is the last.
pub struct Records<'a> {
    rest: &'a [u8],
}

impl<'a> Records<'a> {
    pub fn of(journal: &'a [u8]) -> Records<'a> {
        Records { rest: journal }
    }
}

impl<'a> Iterator for Records<'a> {
    type Item = Result<Record<'a>, Broken>;

    fn next(&mut self) -> Option<Self::Item> {
        let journal = std::mem::take(&mut self.rest);
        if journal.is_empty() {
            return None;
        }
        Some(split(journal).map(|(record, rest)| {
            self.rest = rest;
            record
        }))
    }
}

/// The first record of a journal, and what comes after it.
fn split(journal: &[u8]) -> Result<(Record<'_>, &[u8]), Broken> {
    let cut = Broken::Cut(journal.len());
    let (time, rest) = journal.split_at_checked(TIME_BYTES).ok_or(cut)?;
    let len = rest.get(..LEN_BYTES).map(number).ok_or(cut)? as usize;
    if !LEN_RANGE.contains(&len) {
        return Err(Broken::Len(len));
    }
    let (frame, rest) = rest.split_at_checked(LEN_BYTES + len).ok_or(cut)?;
    let time = number(time);
    Ok((Record { time, frame }, rest))
}

/// A big-endian number.
fn number(bytes: &[u8]) -> u64 {
    let digit = |number, &byte: &u8| number << 8 | u64::from(byte);
    bytes.iter().fold(0, digit)
}
