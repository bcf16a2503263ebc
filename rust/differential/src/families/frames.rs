//! The frame reader and the writers.

use super::message::{any_frame, damaged, framed, odd_frame, reply, request};
use crate::make::{any_key, any_time, any_value, flag, logical, near, wide, words};
use crate::run::{cases, Run, Tally};
use crate::same;
use reference::frame::sealed;
use support::Rng;

pub fn run(seed: u64, count: u64) -> Tally {
    cases("frames", seed, count, case)
}

fn case(run: &mut Run, rng: &mut Rng) {
    read(run, rng);
    write(run, rng);
    if rng.one_in(50) {
        every_flip(run, rng);
    }
}

fn read_one(run: &mut Run, rng: &mut Rng, frame: Vec<u8>) {
    let length = near(rng, 10);
    let fields = words(rng, length);
    same!(run, frame_read, &mut (frame, fields), |l| (&l.0, &mut l.1));
}

fn read(run: &mut Run, rng: &mut Rng) {
    let now = rng.below(30_000);
    let right = match rng.below(3) {
        0 => framed(&reply(rng)),
        _ => framed(&request(rng, now)),
    };
    let mut wrong = right.clone();
    damaged(rng, &mut wrong);
    for frame in [right, wrong, odd_frame(rng), any_frame(rng, now)] {
        read_one(run, rng, frame);
    }
    if rng.one_in(4) {
        // Bodies about the greatest length.
        let length = 590 + rng.index(6);
        let frame = sealed(1 + rng.byte() % 4, 0, &rng.bytes(length));
        read_one(run, rng, frame);
    }
}

/// Every flipped bit of one frame.
fn every_flip(run: &mut Run, rng: &mut Rng) {
    let frame = framed(&request(rng, 9));
    for bit in 0..frame.len() * 8 {
        let mut flipped = frame.clone();
        flipped[bit / 8] ^= 1 << (bit % 8);
        let fields = vec![7; 10];
        same!(run, frame_read, &mut (flipped, fields), |l| (
            &l.0, &mut l.1
        ));
    }
}

/// Every writer, with outputs about as long as its frame.
fn write(run: &mut Run, rng: &mut Rng) {
    let (key, value) = (any_key(rng), any_value(rng));
    let (flag, phys, logical, node) = (flag(rng), any_time(rng), logical(rng), rng.byte());
    let number = if rng.one_in(4) { 0 } else { rng.byte().into() };
    let number = wide(rng, number);
    let mut out = |length: usize| {
        let length = near(rng, length.min(600));
        rng.bytes(length)
    };
    let (k, v) = (key.len(), value.len());
    same!(run, write_put, &mut out(11 + k + v), |o| (&key, &value, o));
    same!(run, write_get, &mut out(9 + k), |o| (&key, o));
    same!(run, write_del, &mut out(9 + k), |o| (&key, o));
    same!(run, write_repl, &mut out(21 + k + v), |o| (
        &key, &value, flag, phys, logical, node, o
    ));
    same!(run, write_repl, &mut out(21 + k), |o| (
        &key,
        &[],
        flag,
        phys,
        logical,
        node,
        o
    ));
    same!(run, write_ok, &mut out(8), |o| (o));
    same!(run, write_value, &mut out(10 + v), |o| (&value, o));
    same!(run, write_not_found, &mut out(8), |o| (o));
    same!(run, write_err, &mut out(9), |o| (number, o));
}
