//! Peer events on tables that are sound and tables that are not.

use super::table::{any, id, time, WORDS};
use crate::make::{any_time, near, number32, pick, wide, words};
use crate::run::{cases, Run, Tally};
use crate::same;
use support::Rng;

pub fn run(seed: u64, count: u64) -> Tally {
    cases("peers", seed, count, case)
}

fn case(run: &mut Run, rng: &mut Rng) {
    let mut table = if rng.one_in(6) {
        fresh(run, rng)
    } else {
        any(rng)
    };
    for _ in 0..12 {
        event(run, rng, &mut table);
        same!(run, peers_is_sound, &mut table, |t| (t));
    }
}

fn fresh(run: &mut Run, rng: &mut Rng) -> Vec<u64> {
    let length = near(rng, WORDS);
    let mut table = words(rng, length);
    let (id, address, port) = (rng.byte(), rng.word() as u32, rng.word() as u16);
    let (incarnation, now) = (number32(rng), any_time(rng));
    same!(run, peers_fresh, &mut table, |t| (
        id,
        address,
        port,
        incarnation,
        now,
        t
    ));
    table
}

/// An incarnation near one of the table's, or any.
fn incarnation(rng: &mut Rng, table: &[u64]) -> u32 {
    let held = table.get(5 + 6 * rng.index(10)).copied().unwrap_or(0) as u32;
    match rng.below(4) {
        0 => number32(rng),
        1 => held.wrapping_add(1),
        2 => held.wrapping_sub(1),
        _ => held,
    }
}

fn event(run: &mut Run, rng: &mut Rng, table: &mut Vec<u64>) {
    let (id, now) = (id(rng, table), time(rng, table));
    let incarnation = incarnation(rng, table);
    match rng.below(5) {
        0 => {
            let (address, port) = (rng.word() as u32, rng.word() as u16);
            same!(run, peers_add, table, |t| (
                id,
                address,
                port,
                incarnation,
                now,
                t
            ));
        }
        1 => {
            same!(run, peers_heard, table, |t| (id, incarnation, now, t));
        }
        2 | 3 => {
            let state = pick(rng, &[0, 0, 1, 1, 2, 2, 3, 255]);
            let state = wide(rng, state);
            same!(run, peers_reported, table, |t| (
                id,
                state,
                incarnation,
                now,
                t
            ));
        }
        _ => {
            same!(run, peers_tick, table, |t| (now, t));
        }
    }
}
