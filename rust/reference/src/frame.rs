//! Reading and writing frames.

use crate::checksum::crc32c;
use crate::key;
use crate::refusal::Refusal;
use crate::stamp::{check_time, Stamp};
use crate::value;

/// The longest whole frame.
pub const FRAME_MAX: usize = 600;
/// The range of LEN, which counts TYPE through the checksum.
pub const LEN_MIN: usize = 6;
pub const LEN_MAX: usize = 598;

pub const PUT: u8 = 1;
pub const GET: u8 = 2;
pub const DEL: u8 = 3;
pub const REPL: u8 = 4;
pub const OK: u8 = 16;
pub const VALUE: u8 = 17;
pub const NOTFOUND: u8 = 18;
pub const ERR: u8 = 20;

#[derive(Clone, Debug, PartialEq, Eq)]
pub enum Message {
    Put {
        key: Vec<u8>,
        value: Vec<u8>,
    },
    Get {
        key: Vec<u8>,
    },
    Del {
        key: Vec<u8>,
    },
    Repl {
        key: Vec<u8>,
        flag: u8,
        stamp: Stamp,
        value: Vec<u8>,
    },
    Ok,
    Value {
        value: Vec<u8>,
    },
    NotFound,
    Err {
        number: u8,
    },
}

impl Message {
    pub fn key(&self) -> Option<&[u8]> {
        match self {
            Message::Put { key, .. }
            | Message::Get { key }
            | Message::Del { key }
            | Message::Repl { key, .. } => Some(key),
            _ => None,
        }
    }

    pub fn value(&self) -> Option<&[u8]> {
        match self {
            Message::Put { value, .. } | Message::Repl { value, .. } | Message::Value { value } => {
                Some(value)
            }
            _ => None,
        }
    }

    /// Writes the message's frame to the front of `out`; the frame's length.
    pub fn write(&self, out: &mut [u8]) -> Result<usize, Refusal> {
        match self {
            Message::Put { key, value } => write_put(out, key, value),
            Message::Get { key } => write_get(out, key),
            Message::Del { key } => write_del(out, key),
            Message::Repl {
                key,
                flag,
                stamp,
                value,
            } => write_repl(out, key, *flag, *stamp, value),
            Message::Ok => write_ok(out),
            Message::Value { value } => write_value(out, value),
            Message::NotFound => write_not_found(out),
            Message::Err { number } => write_err(out, *number),
        }
    }
}

/// Reads exactly one frame. The frame's form comes first, then its key, then
/// its value.
pub fn read(frame: &[u8]) -> Result<Message, Refusal> {
    let (kind, body) = open(frame)?;
    let message = parse(kind, body)?;
    if let Some(key) = message.key() {
        key::check(key)?;
    }
    if let Some(value) = message.value() {
        value::check(value)?;
    }
    Ok(message)
}

/// The type and the body of a frame whose outer fields are right.
fn open(frame: &[u8]) -> Result<(u8, &[u8]), Refusal> {
    if frame.len() < LEN_MIN + 2 || frame.len() > FRAME_MAX {
        return Err(Refusal::BadFrame);
    }
    let (front, checksum) = frame.split_at(frame.len() - 4);
    let len = usize::from(u16::from_be_bytes([frame[0], frame[1]]));
    let flags = frame[3];
    let right = len + 2 == frame.len()
        && flags == 0
        && crc32c(&front[2..]).to_be_bytes().as_slice() == checksum;
    if right {
        Ok((frame[2], &front[4..]))
    } else {
        Err(Refusal::BadFrame)
    }
}

fn parse(kind: u8, body: &[u8]) -> Result<Message, Refusal> {
    let mut fields = Fields { rest: body };
    let message = match kind {
        PUT => Message::Put {
            key: fields.key()?,
            value: fields.value()?,
        },
        GET => Message::Get { key: fields.key()? },
        DEL => Message::Del { key: fields.key()? },
        REPL => fields.repl()?,
        OK => Message::Ok,
        VALUE => Message::Value {
            value: fields.value()?,
        },
        NOTFOUND => Message::NotFound,
        ERR => fields.err()?,
        _ => return Err(Refusal::BadFrame),
    };
    if fields.rest.is_empty() {
        Ok(message)
    } else {
        Err(Refusal::BadFrame)
    }
}

/// The part of a body not yet read.
struct Fields<'a> {
    rest: &'a [u8],
}

impl<'a> Fields<'a> {
    fn take(&mut self, length: usize) -> Result<&'a [u8], Refusal> {
        if length > self.rest.len() {
            return Err(Refusal::BadFrame);
        }
        let (taken, rest) = self.rest.split_at(length);
        self.rest = rest;
        Ok(taken)
    }

    fn number(&mut self, width: usize) -> Result<u64, Refusal> {
        Ok(number_from(self.take(width)?))
    }

    fn key(&mut self) -> Result<Vec<u8>, Refusal> {
        let length = self.number(1)? as usize;
        Ok(self.take(length)?.to_vec())
    }

    fn value(&mut self) -> Result<Vec<u8>, Refusal> {
        let length = self.number(2)? as usize;
        Ok(self.take(length)?.to_vec())
    }

    fn repl(&mut self) -> Result<Message, Refusal> {
        let key = self.key()?;
        let flag = self.number(1)? as u8;
        let stamp = Stamp {
            phys: self.number(6)?,
            logical: self.number(2)? as u16,
            node: self.number(1)? as u8,
        };
        let value = self.value()?;
        if !value::flag_fits(flag, value.len()) {
            return Err(Refusal::BadFrame);
        }
        Ok(Message::Repl {
            key,
            flag,
            stamp,
            value,
        })
    }

    fn err(&mut self) -> Result<Message, Refusal> {
        match self.number(1)? as u8 {
            0 => Err(Refusal::BadFrame),
            number => Ok(Message::Err { number }),
        }
    }
}

/// A big-endian number of at most eight bytes.
pub fn number_from(bytes: &[u8]) -> u64 {
    bytes.iter().fold(0, |n, &byte| n << 8 | u64::from(byte))
}

/// A time's six bytes; the time must be in range.
pub fn time_bytes(time: u64) -> [u8; 6] {
    let wide = time.to_be_bytes();
    [wide[2], wide[3], wide[4], wide[5], wide[6], wide[7]]
}

pub fn write_put(out: &mut [u8], key: &[u8], value: &[u8]) -> Result<usize, Refusal> {
    key::check(key)?;
    value::check(value)?;
    let mut body = Vec::new();
    push_key(&mut body, key);
    push_value(&mut body, value);
    emit(out, PUT, &body)
}

pub fn write_get(out: &mut [u8], key: &[u8]) -> Result<usize, Refusal> {
    write_key_only(out, GET, key)
}

pub fn write_del(out: &mut [u8], key: &[u8]) -> Result<usize, Refusal> {
    write_key_only(out, DEL, key)
}

fn write_key_only(out: &mut [u8], kind: u8, key: &[u8]) -> Result<usize, Refusal> {
    key::check(key)?;
    let mut body = Vec::new();
    push_key(&mut body, key);
    emit(out, kind, &body)
}

pub fn write_repl(
    out: &mut [u8],
    key: &[u8],
    flag: u8,
    stamp: Stamp,
    value: &[u8],
) -> Result<usize, Refusal> {
    check_time(stamp.phys)?;
    key::check(key)?;
    value::check(value)?;
    if !value::flag_fits(flag, value.len()) {
        return Err(Refusal::BadArgument);
    }
    let mut body = Vec::new();
    push_key(&mut body, key);
    body.push(flag);
    body.extend(time_bytes(stamp.phys));
    body.extend(stamp.logical.to_be_bytes());
    body.push(stamp.node);
    push_value(&mut body, value);
    emit(out, REPL, &body)
}

pub fn write_ok(out: &mut [u8]) -> Result<usize, Refusal> {
    emit(out, OK, &[])
}

pub fn write_value(out: &mut [u8], value: &[u8]) -> Result<usize, Refusal> {
    value::check(value)?;
    let mut body = Vec::new();
    push_value(&mut body, value);
    emit(out, VALUE, &body)
}

pub fn write_not_found(out: &mut [u8]) -> Result<usize, Refusal> {
    emit(out, NOTFOUND, &[])
}

pub fn write_err(out: &mut [u8], number: u8) -> Result<usize, Refusal> {
    if number == 0 {
        return Err(Refusal::BadArgument);
    }
    emit(out, ERR, &[number])
}

fn push_key(body: &mut Vec<u8>, key: &[u8]) {
    body.push(key.len() as u8);
    body.extend(key);
}

fn push_value(body: &mut Vec<u8>, value: &[u8]) {
    body.extend((value.len() as u16).to_be_bytes());
    body.extend(value);
}

/// Puts a frame around any type, flags and body, without judging them.
pub fn sealed(kind: u8, flags: u8, body: &[u8]) -> Vec<u8> {
    let mut frame = ((body.len() + LEN_MIN) as u16).to_be_bytes().to_vec();
    frame.push(kind);
    frame.push(flags);
    frame.extend(body);
    let checksum = crc32c(&frame[2..]);
    frame.extend(checksum.to_be_bytes());
    frame
}

fn emit(out: &mut [u8], kind: u8, body: &[u8]) -> Result<usize, Refusal> {
    let frame = sealed(kind, 0, body);
    if out.len() < frame.len() {
        return Err(Refusal::NoRoom);
    }
    out[..frame.len()].copy_from_slice(&frame);
    Ok(frame.len())
}
