//! The request handler.

use crate::clock::Clock;
use crate::frame::{self, Message, FRAME_MAX};
use crate::refusal::Refusal;
use crate::stamp::{check_time, Stamp};
use crate::store::{self, Found};
use crate::value::{ACTIVE, TOMBSTONE};

/// The outcome of one request.
#[derive(Clone, Copy, Debug, PartialEq, Eq)]
pub struct Answer {
    /// The next clock, or after a refusal the one that came in.
    pub clock: Clock,
    /// How many bytes of the reply buffer hold the reply.
    pub length: usize,
    pub refusal: Option<Refusal>,
}

/// Answers one request frame. The reply goes to the front of `reply`; a
/// refusal is an ERR frame there, except that too short a reply buffer gets
/// nothing.
pub fn handle(clock: Clock, store: &mut [u8], now: u64, frame: &[u8], reply: &mut [u8]) -> Answer {
    if reply.len() < FRAME_MAX {
        return Answer {
            clock,
            length: 0,
            refusal: Some(Refusal::NoRoom),
        };
    }
    match serve(clock, store, now, frame) {
        Ok((next, message)) => Answer {
            clock: next,
            length: write_reply(&message, reply),
            refusal: None,
        },
        Err(refusal) => Answer {
            clock,
            length: write_reply(&error(refusal), reply),
            refusal: Some(refusal),
        },
    }
}

/// The message that tells a refusal.
pub fn error(refusal: Refusal) -> Message {
    Message::Err {
        number: refusal.number(),
    }
}

fn write_reply(message: &Message, reply: &mut [u8]) -> usize {
    message.write(reply).expect("the buffer holds any reply")
}

fn serve(
    clock: Clock,
    store: &mut [u8],
    now: u64,
    frame: &[u8],
) -> Result<(Clock, Message), Refusal> {
    if !store::is_sound(store) {
        return Err(Refusal::BadStore);
    }
    check_time(now)?;
    check_time(clock.phys)?;
    if is_reply_type(frame) {
        return Err(Refusal::BadFrame);
    }
    match frame::read(frame)? {
        Message::Put { key, value } => write_locally(clock, store, now, &key, &value, ACTIVE),
        Message::Del { key } => write_locally(clock, store, now, &key, &[], TOMBSTONE),
        Message::Get { key } => Ok((clock, get(store, &key))),
        Message::Repl {
            key,
            flag,
            stamp,
            value,
        } => replicate(clock, store, now, &key, &value, flag, stamp),
        _ => Err(Refusal::BadFrame),
    }
}

/// Seen before the frame is read: a VALUE frame with too large a value is 3
/// here, since 3 comes before 2.
fn is_reply_type(frame: &[u8]) -> bool {
    frame.get(2).is_some_and(|&kind| kind >= frame::OK)
}

/// A local write must have a greater stamp than what it is to replace, whatever
/// the two hold.
fn write_locally(
    clock: Clock,
    store: &mut [u8],
    now: u64,
    key: &[u8],
    value: &[u8],
    flag: u8,
) -> Result<(Clock, Message), Refusal> {
    let next = clock.send(now)?;
    let stamp = next.stamp();
    if store::stamp_in_sound(store, key).is_some_and(|held| held >= stamp) {
        return Err(Refusal::Overtaken);
    }
    store::offer_to_sound(store, key, value, flag, stamp)?;
    Ok((next, Message::Ok))
}

fn get(store: &[u8], key: &[u8]) -> Message {
    match store::lookup_in_sound(store, key) {
        (Found::Value, value) => Message::Value {
            value: value.to_vec(),
        },
        (Found::Deleted | Found::Never, _) => Message::NotFound,
    }
}

/// The entry keeps its own stamp, also when that is far ahead.
fn replicate(
    clock: Clock,
    store: &mut [u8],
    now: u64,
    key: &[u8],
    value: &[u8],
    flag: u8,
    stamp: Stamp,
) -> Result<(Clock, Message), Refusal> {
    let next = clock.receive(stamp.phys, stamp.logical, now)?;
    store::offer_to_sound(store, key, value, flag, stamp)?;
    Ok((next, Message::Ok))
}
