//! Whole journals of requests against a live store, and single requests to
//! anything.

use super::clock::{any_clock, count};
use super::image::{damage, empty, filled, slots, small_entry};
use super::message::{any_frame, damaged, framed, odd_frame, repl};
use super::overtaking::overtaking;
use super::reused::{again, held, tie};
use crate::make::{any_time, pick, pool_key};
use crate::run::{cases, Run, Tally};
use crate::same;
use reference::frame::Message;
use reference::stamp::{Stamp, TIME_END};
use reference::store::{line, purge, slot_count, used_count, Entry};
use reference::value::TOMBSTONE;
use support::Rng;

pub fn run(seed: u64, count: u64) -> Tally {
    cases("handler", seed, count, case)
}

fn case(run: &mut Run, rng: &mut Rng) {
    match rng.below(7) {
        0 => single(run, rng),
        1 => equal_stamps(run, rng),
        2 => about_the_line(run, rng),
        3 => equal_times(run, rng),
        4 => overtaking(run, rng),
        _ => journal(run, rng),
    }
}

/// A reply buffer with something in it; few are too short.
fn reply(rng: &mut Rng) -> Vec<u8> {
    let length = match rng.below(20) {
        0 => pick(rng, &[0, 1, 8, 9, 599]),
        1 => 601 + rng.index(50),
        _ => 600,
    };
    rng.bytes(length)
}

/// The store, the clock and the reply buffer.
pub type State = (Vec<u8>, Vec<u64>, Vec<u8>);

pub fn request(run: &mut Run, state: &mut State, now: u64, frame: &[u8]) -> u32 {
    same!(run, handle, state, |l| (
        &mut l.0, &mut l.1, now, frame, &mut l.2
    ))
}

fn journal(run: &mut Run, rng: &mut Rng) {
    let slots = slots(rng);
    let mut state = (empty(slots), start_clock(rng), vec![]);
    let mut now = state.1[0];
    for _ in 0..60 {
        now = next_time(rng, now);
        state.2 = reply(rng);
        let known = rng.one_in(6).then(|| held(rng, &state.0)).flatten();
        let frame = match known {
            Some(entry) => framed(&repl(again(rng, &entry))),
            None => any_frame(rng, now),
        };
        request(run, &mut state, now, &frame);
    }
}

/// Requests with the stamps that a store's entries have.
fn equal_stamps(run: &mut Run, rng: &mut Rng) {
    let slots = slots(rng);
    let mut state = (filled(rng, slots), vec![], vec![]);
    for _ in 0..30 {
        let Some(known) = held(rng, &state.0) else {
            return;
        };
        let entry = again(rng, &known);
        let now = known.stamp.phys;
        state.1 = clock_before(rng, known.stamp);
        state.2 = reply(rng);
        let (what, message, expected) = if rng.one_in(2) {
            ("local write at an equal stamp", local(entry.clone()), 7)
        } else {
            ("REPL at an equal stamp", repl(entry.clone()), 0)
        };
        let result = request(run, &mut state, now, &framed(&message));
        if result >> 16 == expected {
            run.count(what, tie(&known, &entry));
        }
    }
}

/// A REPL with the clock's own time, then a local write of its key at the same
/// reading.
fn equal_times(run: &mut Run, rng: &mut Rng) {
    let slots = slots(rng);
    let mut state = (filled(rng, slots), vec![], vec![]);
    for _ in 0..15 {
        let key = pool_key(rng);
        let (mut entry, own) = (small_entry(rng, key), count(rng));
        entry.stamp.logical = count(rng);
        let (now, came) = (entry.stamp.phys, entry.stamp.logical);
        state.1 = vec![now, own.into(), rng.below(4), 0];
        let answers = [repl(entry.clone()), local(entry)].map(|message| {
            state.2 = reply(rng);
            request(run, &mut state, now, &framed(&message)) >> 16
        });
        let met = match answers {
            [0, 0] => Some(u32::from(came >= own) + u32::from(came > own)),
            [8, _] if own < u16::MAX => Some(3),
            [0, 8] => Some(4),
            _ => None,
        };
        if let Some(met) = met {
            run.count("REPL at an equal time, then a write", met);
        }
    }
}

/// What is counted there: both are taken, and the count that came is below the
/// clock's own (0), equal (1) or above (2); 3: the REPL is refused since the
/// count that came is spent; 4: it is taken, and leaves the clock spent.
pub const EQUAL_TIMES: [u32; 5] = [0, 1, 2, 3, 4];

/// Requests to a purged store, with times about its line.
fn about_the_line(run: &mut Run, rng: &mut Rng) {
    let slots = slots(rng);
    let mut store = filled(rng, slots);
    // It may have a higher line.
    let _ = purge(&mut store, 1 + rng.below(5));
    let line = line(&store).expect("a sound store");
    let mut state = (store, vec![], vec![]);
    for _ in 0..30 {
        let key = pool_key(rng);
        let mut entry = small_entry(rng, key);
        let now = (line + 1).saturating_sub(rng.below(4));
        entry.stamp.phys = (line + 1).saturating_sub(rng.below(4));
        state.1 = vec![rng.below(line + 2), rng.below(3), rng.below(3), 0];
        state.2 = reply(rng);
        let message = if rng.one_in(2) {
            local(entry)
        } else {
            repl(entry)
        };
        let full = used_count(&state.0) == slot_count(&state.0);
        let result = request(run, &mut state, now, &framed(&message));
        if result >> 16 == 34 {
            let kind = u32::from(framed(&message)[2]);
            run.count("refused below the line", kind + 10 * u32::from(full));
        }
    }
}

/// What is counted there: the type, and 10 more where the store is full.
pub const BELOW: [u32; 6] = [1, 3, 4, 11, 13, 14];

/// A clock of the stamp's node whose send at the stamp's time gives the stamp,
/// but for a stamp of count 0 at time 0, which no send gives.
fn clock_before(rng: &mut Rng, stamp: Stamp) -> Vec<u64> {
    let (phys, logical) = match stamp.logical {
        0 => (rng.below(stamp.phys.max(1)), rng.below(4)),
        count => (stamp.phys, u64::from(count) - 1),
    };
    vec![phys, logical, stamp.node.into(), 0]
}

/// The local write of an entry's contents.
pub fn local(entry: Entry) -> Message {
    let Entry {
        key, value, flag, ..
    } = entry;
    match flag {
        TOMBSTONE => Message::Del { key },
        _ => Message::Put { key, value },
    }
}

/// A fresh clock, or one close to the limits.
fn start_clock(rng: &mut Rng) -> Vec<u64> {
    let node = rng.below(4);
    match rng.below(4) {
        0 => vec![TIME_END - 9000, 65_500, node, (1 << 32) - 4],
        1 => vec![rng.below(30_000), 65_520, node, 0],
        _ => vec![0, 0, node, 0],
    }
}

/// The readings go on, stand still, go back, or far ahead.
pub fn next_time(rng: &mut Rng, now: u64) -> u64 {
    match rng.below(12) {
        0 => now.saturating_sub(rng.below(4000)),
        1 => (now + 1500 + rng.below(1000)).min(TIME_END),
        2..=6 => now,
        _ => (now + rng.below(3)).min(TIME_END),
    }
}

fn single(run: &mut Run, rng: &mut Rng) {
    let slots = slots(rng);
    let mut store = filled(rng, slots);
    if rng.one_in(2) {
        damage(rng, &mut store);
    }
    let mut state = (store, vec![], vec![]);
    for _ in 0..4 {
        let now = any_time(rng);
        state.1 = any_clock(rng);
        state.2 = reply(rng);
        // Several faults at once show the order of the checks.
        let mut frame = if rng.one_in(2) {
            any_frame(rng, now.min(TIME_END))
        } else {
            odd_frame(rng)
        };
        if rng.one_in(4) {
            damaged(rng, &mut frame);
        }
        request(run, &mut state, now, &frame);
    }
}
