//! The report on a list of deliveries: which delivery of a key is in force, and
//! why not the others. A list is REPL frames, one right after the other, in the
//! order in which they came; places in it count from 0.

use crate::entry::Entry;
use crate::frame::{self, Message, LEN_BYTES, LEN_RANGE};
use crate::raw;
use crate::refusal::{split, Refusal};
use snowpulley_sys as header;
use std::fmt;

pub use snowpulley_sys::SP_DELIVERIES_MAX as DELIVERIES_MAX;

/// The number of deliveries of a list that is readable.
pub fn deliveries(list: &[u8]) -> Result<usize, Refusal> {
    split(raw::deliveries(list)).map(usize::from)
}

/// The place of the winner among the deliveries of a key; none if the key was
/// never delivered. The winner is the entry that a fresh store holds after the
/// key's deliveries were offered to it in order. The front of `reasons` gets
/// the byte of a `Reason` for each delivery of the list; a refusal leaves it.
/// `DELIVERIES_MAX` bytes are always enough.
///
/// ```
/// use snowpulley::{explain, Content, Entry, Message, Reason, Refusal, Stamp};
///
/// let key = b"comp/scale-3";
/// let frame = |value, phys| {
///     let (content, stamp) = (Content::Active(value), Stamp { phys, logical: 0, node: 1 });
///     Message::Repl(Entry { key, content, stamp }).frame()
/// };
/// let list = [frame(b"+120 ppm", 1)?, frame(b"+95 ppm", 2)?].concat();
/// let mut reasons = [0; 2];
/// assert_eq!(explain(&list, key, &mut reasons), Ok(Some(1)));
/// assert_eq!(reasons.map(Reason::of), [Some(Reason::EarlierTime), Some(Reason::Won)]);
/// # Ok::<(), Refusal>(())
/// ```
pub fn explain(list: &[u8], key: &[u8], reasons: &mut [u8]) -> Result<Option<usize>, Refusal> {
    split(raw::explain(list, key, reasons)).map(winner)
}

const NO_DELIVERY: usize = header::SP_NO_DELIVERY as usize;

/// What an answer of `raw::explain` says.
fn winner(answer: u16) -> Option<usize> {
    match answer.into() {
        NO_DELIVERY => None,
        place if place < DELIVERIES_MAX => Some(place),
        other => panic!("the header has no place {other}"),
    }
}

/// What is said of a delivery, the winner or not.
#[derive(Clone, Copy, Debug, PartialEq, Eq)]
#[repr(u8)]
pub enum Reason {
    Won = header::SP_WON,
    EarlierTime = header::SP_EARLIER_TIME,
    LowerCount = header::SP_LOWER_COUNT,
    LowerNode = header::SP_LOWER_NODE,
    /// The winner's own entry, again.
    SameEntry = header::SP_SAME_ENTRY,
    OtherKey = header::SP_OTHER_KEY,
    /// The winner's stamp, but lower contents: a stamp was given twice.
    LowerContent = header::SP_LOWER_CONTENT,
}

impl Reason {
    /// Every reason, in the order of the bytes.
    pub const ALL: [Reason; 7] = [
        Reason::Won,
        Reason::EarlierTime,
        Reason::LowerCount,
        Reason::LowerNode,
        Reason::SameEntry,
        Reason::OtherKey,
        Reason::LowerContent,
    ];

    /// None for a byte that no reason has.
    pub fn of(byte: u8) -> Option<Reason> {
        Reason::ALL.into_iter().find(|reason| *reason as u8 == byte)
    }

    /// How the delivery compares with the winner.
    pub const fn text(self) -> &'static str {
        match self {
            Reason::Won => "won",
            Reason::EarlierTime => "earlier time",
            Reason::LowerCount => "same time, lower count",
            Reason::LowerNode => "same time and count, lower node id",
            Reason::SameEntry => "the same entry again",
            Reason::OtherKey => "another key",
            Reason::LowerContent => "same stamp, lower contents",
        }
    }
}

impl fmt::Display for Reason {
    fn fmt(&self, f: &mut fmt::Formatter<'_>) -> fmt::Result {
        f.write_str(self.text())
    }
}

/// A delivery of a list.
#[derive(Clone, Copy, Debug, PartialEq, Eq)]
pub struct Delivery<'a> {
    /// The byte of the list at which its frame begins.
    pub at: usize,
    pub entry: Entry<'a>,
}

/// The first delivery that makes a list unreadable.
#[derive(Clone, Copy, Debug, PartialEq, Eq)]
pub struct Unreadable<'a> {
    pub place: usize,
    /// The byte of the list at which its frame begins.
    pub at: usize,
    pub fault: Fault<'a>,
}

/// What is wrong with a delivery.
#[derive(Clone, Copy, Debug, PartialEq, Eq)]
pub enum Fault<'a> {
    /// The list ends inside the frame, of which this many bytes are there.
    Cut(usize),
    /// LEN is out of range.
    Len(usize),
    /// The frame reader refuses the frame.
    Refused(Refusal),
    /// The frame is of another type than REPL.
    NoRepl(Message<'a>),
    /// As many deliveries as a list may have stand before it.
    TooMany,
}

/// The deliveries of a list: its frames cut at LEN, each read by the library's
/// reader. They are there exactly where `deliveries` gives their number; where
/// it refuses, this says why.
pub fn read(list: &[u8]) -> Result<Vec<Delivery<'_>>, Unreadable<'_>> {
    let mut deliveries = Vec::new();
    let mut at = 0;
    while at < list.len() {
        let place = deliveries.len();
        let unreadable = |fault| Unreadable { place, at, fault };
        let (entry, length) = first(&list[at..]).map_err(unreadable)?;
        if place == DELIVERIES_MAX {
            return Err(unreadable(Fault::TooMany));
        }
        deliveries.push(Delivery { at, entry });
        at += length;
    }
    Ok(deliveries)
}

/// The entry of the frame that some bytes begin with, and the frame's length.
fn first(bytes: &[u8]) -> Result<(Entry<'_>, usize), Fault<'_>> {
    let cut = Fault::Cut(bytes.len());
    let len = bytes.first_chunk::<LEN_BYTES>().ok_or(cut)?;
    let len = usize::from(u16::from_be_bytes(*len));
    if !LEN_RANGE.contains(&len) {
        return Err(Fault::Len(len));
    }
    let frame = bytes.get(..LEN_BYTES + len).ok_or(cut)?;
    match frame::read(frame).map_err(Fault::Refused)? {
        Message::Repl(entry) => Ok((entry, frame.len())),
        other => Err(Fault::NoRepl(other)),
    }
}

#[cfg(test)]
mod tests {
    use super::winner;
    use std::panic::catch_unwind;

    #[test]
    fn answers_are_places_or_none() {
        for place in [0, 1, 998, 999] {
            assert_eq!(winner(place), Some(place.into()));
        }
        assert_eq!(winner(65_535), None);
    }

    /// No list has so many deliveries.
    #[test]
    fn other_answers_are_none_of_the_header() {
        for other in [1000, 1001, 32_768, 65_534] {
            assert!(catch_unwind(|| winner(other)).is_err(), "{other}");
        }
    }
}
