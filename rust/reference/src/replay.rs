//! Replaying a journal of requests.

use crate::clock::Clock;
use crate::frame::{number_from, FRAME_MAX, LEN_MAX, LEN_MIN};
use crate::node;
use crate::refusal::Refusal;
use crate::store;

pub const SLOTS: usize = 100;
pub const NODE: u8 = 1;

/// What stands at the front of a journal.
#[derive(Clone, Copy, Debug, PartialEq, Eq)]
pub enum Next<'a> {
    /// Nothing more.
    End,
    /// The input ends inside a record.
    Cut,
    /// LEN is out of range.
    BadLen(usize),
    Record {
        time: u64,
        frame: &'a [u8],
        rest: &'a [u8],
    },
}

/// Splits the first record off a journal.
pub fn next_record(input: &[u8]) -> Next<'_> {
    if input.is_empty() {
        return Next::End;
    }
    if input.len() < 8 {
        return Next::Cut;
    }
    let (time, rest) = input.split_at(6);
    let len = number_from(&rest[..2]) as usize;
    if !(LEN_MIN..=LEN_MAX).contains(&len) {
        return Next::BadLen(len);
    }
    if rest.len() < len + 2 {
        return Next::Cut;
    }
    let (frame, rest) = rest.split_at(len + 2);
    Next::Record {
        time: number_from(time),
        frame,
        rest,
    }
}

/// The replies to a whole journal.
pub fn replay(input: &[u8]) -> Vec<u8> {
    let mut image = vec![0; store::image_length(SLOTS)];
    store::create(&mut image, SLOTS).expect("100 slots fit their image");
    let mut clock = Clock::fresh(NODE);
    let mut reply = [0; FRAME_MAX];
    let mut output = Vec::new();
    let mut input = input;
    loop {
        match next_record(input) {
            Next::End => return output,
            Next::Cut | Next::BadLen(_) => {
                let error = node::error(Refusal::BadFrame);
                let length = error.write(&mut reply).expect("an ERR frame fits");
                output.extend(&reply[..length]);
                return output;
            }
            Next::Record { time, frame, rest } => {
                let answer = node::handle(clock, &mut image, time, frame, &mut reply);
                clock = answer.clock;
                output.extend(&reply[..answer.length]);
                input = rest;
            }
        }
    }
}
