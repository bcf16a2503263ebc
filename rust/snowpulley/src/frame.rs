//! Reading and writing frames.

use crate::entry::Entry;
use crate::fields::Fields;
use crate::raw;
use crate::refusal::{split, Refusal};
use snowpulley_sys as header;
use std::ops::RangeInclusive;

pub use snowpulley_sys::SP_FRAME_MAX as FRAME_MAX;

/// The length of LEN, which stands first in a frame.
pub const LEN_BYTES: usize = 2;
/// What LEN may be: it counts what comes after it.
pub const LEN_RANGE: RangeInclusive<usize> = 6..=FRAME_MAX - LEN_BYTES;

/// What a frame says; keys and values are parts of the frame.
#[derive(Clone, Copy, Debug, PartialEq, Eq)]
pub enum Message<'a> {
    Put { key: &'a [u8], value: &'a [u8] },
    Get { key: &'a [u8] },
    Del { key: &'a [u8] },
    Repl(Entry<'a>),
    Ok,
    Value { value: &'a [u8] },
    NotFound,
    Err { number: u8 },
}

/// Reads exactly one frame.
pub fn read(frame: &[u8]) -> Result<Message<'_>, Refusal> {
    let mut words = [0; header::SP_FIELDS];
    split(raw::frame_read(frame, &mut words))?;
    let bytes = frame;
    Ok(message(&Fields { bytes, words }))
}

fn message<'a>(fields: &Fields<'a>) -> Message<'a> {
    let (key, value) = (fields.key(), fields.value());
    match fields.kind() {
        header::SP_TYPE_PUT => Message::Put { key, value },
        header::SP_TYPE_GET => Message::Get { key },
        header::SP_TYPE_DEL => Message::Del { key },
        header::SP_TYPE_REPL => Message::Repl(fields.entry()),
        header::SP_TYPE_OK => Message::Ok,
        header::SP_TYPE_VALUE => Message::Value { value },
        header::SP_TYPE_NOTFOUND => Message::NotFound,
        header::SP_TYPE_ERR => Message::Err {
            number: fields.number(),
        },
        other => panic!("the header has no frame type {other}"),
    }
}

impl Message<'_> {
    /// The message that tells a refusal.
    pub fn refused(refusal: Refusal) -> Message<'static> {
        Message::Err {
            number: refusal.number() as u8,
        }
    }

    /// Fills the front of `out` with the message's frame; its length.
    pub fn write(&self, out: &mut [u8]) -> Result<usize, Refusal> {
        let result = match *self {
            Message::Put { key, value } => raw::write_put(key, value, out),
            Message::Get { key } => raw::write_get(key, out),
            Message::Del { key } => raw::write_del(key, out),
            Message::Repl(entry) => write_repl(&entry, out),
            Message::Ok => raw::write_ok(out),
            Message::Value { value } => raw::write_value(value, out),
            Message::NotFound => raw::write_not_found(out),
            Message::Err { number } => raw::write_err(number.into(), out),
        };
        split(result).map(usize::from)
    }

    /// The message's frame.
    pub fn frame(&self) -> Result<Vec<u8>, Refusal> {
        let mut out = [0; FRAME_MAX];
        let length = self.write(&mut out)?;
        Ok(out[..length].to_vec())
    }
}

fn write_repl(entry: &Entry<'_>, out: &mut [u8]) -> u32 {
    let Entry {
        key,
        content,
        stamp,
    } = *entry;
    raw::write_repl(
        key,
        content.value(),
        content.flag(),
        stamp.phys,
        stamp.logical,
        stamp.node,
        out,
    )
}
