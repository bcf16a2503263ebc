//! Tokens, key positions, ring building and owner walks.

use super::table;
use crate::make::{any_key, near, number32, pick, wide, words};
use crate::run::{cases, Run, Tally};
use crate::same;
use reference::ring::place;
use support::Rng;

pub fn run(seed: u64, count: u64) -> Tally {
    cases("ring", seed, count, case)
}

fn case(run: &mut Run, rng: &mut Rng) {
    positions(run, rng);
    let table = table::any(rng);
    let built = build(run, rng, &table);
    let mut rings = [built, small(rng, &table), small(rng, &table)];
    for ring in &mut rings {
        if rng.one_in(3) {
            damage(rng, ring);
        }
        same!(run, ring_is_sound, ring, |r| (r));
        for _ in 0..8 {
            walk(run, rng, ring, &table);
        }
    }
}

fn positions(run: &mut Run, rng: &mut Rng) {
    let (node, vnode, salt) = (rng.byte(), rng.byte(), number32(rng));
    same!(run, token, &mut (), |_b| (node, vnode, salt));
    let key = any_key(rng);
    let mut position = vec![9; rng.index(4)];
    same!(run, key_position, &mut position, |p| (&key, salt, p));
}

/// The ids of a table's rows, changed a little.
fn ids(rng: &mut Rng, table: &[u64]) -> Vec<u8> {
    let rows = table.iter().skip(1).step_by(6);
    let mut ids: Vec<u8> = rows.map(|&id| id as u8).collect();
    ids.truncate(rng.index(11));
    match rng.below(8) {
        0 => ids.push(rng.byte()),
        1 => {
            let more = 1 + rng.index(3);
            ids.extend(rng.bytes(more));
        }
        2 if !ids.is_empty() => ids.push(ids[rng.index(ids.len())]),
        _ => (),
    }
    ids
}

/// Builds a ring; its places, or some words if it was refused.
fn build(run: &mut Run, rng: &mut Rng, table: &[u64]) -> Vec<u64> {
    let ids = ids(rng, table);
    let vnodes = pick(rng, &[0, 1, 2, 3, 5, 8, 16, 63, 64, 64, 65, 255]);
    let salt = number32(rng);
    let length = near(rng, ids.len() * vnodes as usize);
    let mut ring = words(rng, length);
    let vnodes = wide(rng, vnodes);
    let result = same!(run, ring_build, &mut ring, |r| (&ids, vnodes, salt, r));
    if result >> 16 == 0 {
        ring.truncate(result as usize);
    }
    ring
}

/// A sound ring with few tokens, so that equal ones are met.
fn small(rng: &mut Rng, table: &[u64]) -> Vec<u64> {
    let mut ring = Vec::new();
    let count = if rng.one_in(20) { 640 } else { rng.index(24) };
    let tokens = 1 + count as u64;
    while ring.len() < count {
        let token = match rng.below(10) {
            0 => u32::MAX - rng.below(3) as u32,
            _ => rng.below(tokens) as u32,
        };
        let node = table::id(rng, table);
        let vnode = rng.below(64) as u8;
        ring.push(place(token, node, vnode));
        ring.sort_unstable();
        ring.dedup();
    }
    ring
}

fn damage(rng: &mut Rng, ring: &mut Vec<u64>) {
    let length = ring.len();
    let at = rng.index(length.max(1));
    match rng.below(7) {
        0 if length > 1 => ring.swap(at, rng.index(length)),
        1 if length > 1 => ring[at] = ring[rng.index(length)],
        2 if length > 0 => ring[at] |= 64,
        3 if length > 0 => ring[at] |= 128,
        4 if length > 0 => ring[length - 1] += 1 << 48,
        5 => {
            // One place too many, in order.
            *ring = (0..641).map(|i| place(i, 1, 0)).collect();
        }
        _ => ring.push(rng.word()),
    }
}

fn walk(run: &mut Run, rng: &mut Rng, ring: &[u64], table: &[u64]) {
    let at = rng.index(ring.len().max(1));
    let token = ring.get(at).map_or(0, |&p| (p >> 16) as u32);
    let position = match rng.below(6) {
        0 => rng.word() as u32,
        1 => token.wrapping_add(1),
        2 => token.wrapping_sub(1),
        3 => pick(rng, &[0, u32::MAX]),
        _ => token,
    };
    let admission = pick(rng, &[0, 0, 0, 1, 1, 1, 1, 2, 255]);
    let count = pick(rng, &[0, 1, 1, 2, 2, 3, 3, 3, 4, 255]);
    let length = near(rng, (count as usize).min(4));
    let mut out = rng.bytes(length);
    let (admission, count) = (wide(rng, admission), wide(rng, count));
    same!(run, owners, &mut out, |o| (
        ring, table, position, admission, count, o
    ));
}
