//! Writing a journal step by step, with the reply each step must get.

use reference::frame::{sealed, time_bytes, Message, FRAME_MAX};
use reference::stamp::Stamp;
use reference::value::{ACTIVE, TOMBSTONE};
use std::collections::BTreeSet;

/// One record and, where it was worked out by hand, its reply.
#[derive(Debug)]
pub struct Step {
    pub time: u64,
    pub frame: Vec<u8>,
    pub reply: Option<Message>,
}

#[derive(Debug, Default)]
pub struct Script {
    pub steps: Vec<Step>,
    /// The keys that fill a slot so far.
    pub keys: BTreeSet<Vec<u8>>,
}

pub fn framed(message: &Message) -> Vec<u8> {
    let mut out = [0; FRAME_MAX];
    let length = message.write(&mut out).expect("a sample message is right");
    out[..length].to_vec()
}

pub fn stamp(phys: u64, logical: u16, node: u8) -> Stamp {
    Stamp {
        phys,
        logical,
        node,
    }
}

pub fn value(value: &[u8]) -> Message {
    Message::Value {
        value: value.to_vec(),
    }
}

pub fn err(number: u8) -> Message {
    Message::Err { number }
}

pub fn put_message(key: &[u8], value: &[u8]) -> Message {
    Message::Put {
        key: key.to_vec(),
        value: value.to_vec(),
    }
}

pub fn repl_message(key: &[u8], stamp: Stamp, value: Option<&[u8]>) -> Message {
    Message::Repl {
        key: key.to_vec(),
        flag: if value.is_some() { ACTIVE } else { TOMBSTONE },
        stamp,
        value: value.unwrap_or_default().to_vec(),
    }
}

/// A record's bytes.
pub fn record(time: u64, frame: &[u8]) -> Vec<u8> {
    [&time_bytes(time), frame].concat()
}

impl Script {
    /// A step with a frame of any bytes.
    pub fn raw(&mut self, time: u64, frame: Vec<u8>, reply: Option<Message>) {
        self.steps.push(Step { time, frame, reply });
    }

    /// A step with any type and body in a frame with a right checksum.
    pub fn body(&mut self, time: u64, kind: u8, body: &[u8], reply: Message) {
        self.raw(time, sealed(kind, 0, body), Some(reply));
    }

    pub fn put(&mut self, time: u64, key: &[u8], value: &[u8], reply: Message) {
        self.write(time, key, &put_message(key, value), reply);
    }

    pub fn del(&mut self, time: u64, key: &[u8], reply: Message) {
        self.write(time, key, &Message::Del { key: key.to_vec() }, reply);
    }

    /// A REPL step; no value stands for a tombstone.
    pub fn repl(
        &mut self,
        time: u64,
        key: &[u8],
        stamp: Stamp,
        value: Option<&[u8]>,
        reply: Message,
    ) {
        self.write(time, key, &repl_message(key, stamp, value), reply);
    }

    pub fn get(&mut self, time: u64, key: &[u8], reply: Message) {
        let message = Message::Get { key: key.to_vec() };
        self.raw(time, framed(&message), Some(reply));
    }

    fn write(&mut self, time: u64, key: &[u8], message: &Message, reply: Message) {
        if reply == Message::Ok {
            self.keys.insert(key.to_vec());
        }
        self.raw(time, framed(message), Some(reply));
    }

    /// The journal's bytes.
    pub fn journal(&self) -> Vec<u8> {
        let records = self.steps.iter().map(|s| record(s.time, &s.frame));
        records.collect::<Vec<_>>().concat()
    }
}
