//! Histories of offers, merges, purges, lookups and listings over several
//! stores, and calls on damaged images.

use super::image::{self, damage, empty, filled, slots, small_entry};
use super::purge;
use super::reused::{again, held, tie};
use crate::make::{any_key, any_time, any_value, flag, logical, near, pick, pool_key, words};
use crate::run::{cases, Run, Tally};
use crate::same;
use reference::store::{entries, image_length, Entry};
use support::Rng;

pub fn run(seed: u64, count: u64) -> Tally {
    cases("store", seed, count, case)
}

fn case(run: &mut Run, rng: &mut Rng) {
    match rng.below(40) {
        0 => every_byte(run, rng),
        1..=15 => damaged(run, rng),
        16..=25 => purge::history(run, rng),
        _ => history(run, rng),
    }
}

fn create(run: &mut Run, rng: &mut Rng) -> Vec<u8> {
    let slots = slots(rng);
    let asked = match rng.below(8) {
        0 => near(rng, slots),
        1 => pick(rng, &[0, 101, 102, usize::MAX, usize::MAX / 596]),
        _ => slots,
    };
    let length = match rng.below(8) {
        0 => near(rng, image_length(slots)),
        _ => image_length(slots),
    };
    let mut image = rng.bytes(length);
    let result = same!(run, store_create, &mut image, |s| (s, asked));
    if result == 0 {
        image
    } else {
        empty(slots)
    }
}

/// An entry that is right, mostly with a small stamp.
fn offer_good(run: &mut Run, rng: &mut Rng, store: &mut Vec<u8>) {
    let key = pool_key(rng);
    let entry = small_entry(rng, key);
    offer_entry(run, store, &entry);
}

pub fn offer_entry(run: &mut Run, store: &mut Vec<u8>, entry: &Entry) -> u32 {
    let Entry {
        key,
        value,
        flag,
        stamp,
    } = entry;
    same!(run, store_offer, store, |s| (
        s,
        key,
        value,
        u32::from(*flag),
        stamp.phys,
        stamp.logical,
        stamp.node
    ))
}

/// An entry with the key and the stamp of one that a store holds.
fn offer_again(run: &mut Run, rng: &mut Rng, store: &mut Vec<u8>, other: &[u8]) {
    let Some(known) = held(rng, other) else {
        return;
    };
    let entry = again(rng, &known);
    let there = entries(store).unwrap_or_default();
    count_tie(run, "offer at an equal stamp", &there, &entry);
    offer_entry(run, store, &entry);
}

/// Counts how an entry compares with the one there that has its key and stamp,
/// if there is one.
fn count_tie(run: &mut Run, what: &'static str, there: &[Entry], entry: &Entry) {
    let is_tied = |e: &&Entry| e.key == entry.key && e.stamp == entry.stamp;
    if let Some(held) = there.iter().find(is_tied) {
        run.count(what, tie(held, entry));
    }
}

/// Any entry at all.
fn offer_any(run: &mut Run, rng: &mut Rng, store: &mut Vec<u8>) {
    let (key, value, flag) = (any_key(rng), any_value(rng), flag(rng));
    let value = if rng.one_in(2) { vec![] } else { value };
    let (phys, logical, node) = (any_time(rng), logical(rng), rng.byte());
    same!(run, store_offer, store, |s| (
        s, &key, &value, flag, phys, logical, node
    ));
}

fn lookup(run: &mut Run, rng: &mut Rng, store: &[u8]) {
    let key = if rng.one_in(4) {
        any_key(rng)
    } else {
        pool_key(rng)
    };
    let length = near(rng, 2);
    let mut lent = (store.to_vec(), words(rng, length));
    same!(run, store_lookup, &mut lent, |l| (&l.0, &key, &mut l.1));
}

/// An entry by its number, about as many as there are.
fn entry(run: &mut Run, rng: &mut Rng, store: &[u8]) {
    let i = match rng.below(10) {
        0 => pick(rng, &[100, 101, 65_535, 65_536, 1 << 32, usize::MAX]),
        1 => rng.index(101),
        _ => rng.index(6),
    };
    let length = near(rng, 10);
    let mut lent = (store.to_vec(), words(rng, length));
    same!(run, store_entry, &mut lent, |l| (&l.0, i, &mut l.1));
}

fn history(run: &mut Run, rng: &mut Rng) {
    let mut stores: Vec<Vec<u8>> = (0..3).map(|_| create(run, rng)).collect();
    for _ in 0..40 {
        let at = rng.index(stores.len());
        let other = stores[rng.index(stores.len())].clone();
        match rng.below(14) {
            0 => offer_any(run, rng, &mut stores[at]),
            1 | 2 => {
                merge(run, &mut stores[at], &other);
            }
            3 | 4 => lookup(run, rng, &stores[at]),
            5 | 6 => entry(run, rng, &stores[at]),
            7..=9 => offer_again(run, rng, &mut stores[at], &other),
            _ => offer_good(run, rng, &mut stores[at]),
        }
    }
    for store in &mut stores {
        same!(run, store_is_sound, store, |s| (s));
    }
}

pub fn merge(run: &mut Run, receiver: &mut Vec<u8>, giver: &[u8]) -> u32 {
    let there = entries(receiver).unwrap_or_default();
    let mut lent = (std::mem::take(receiver), giver.to_vec());
    let result = same!(run, store_merge, &mut lent, |l| (&mut l.0, &l.1));
    *receiver = lent.0;
    if result >> 16 == 0 {
        for entry in entries(giver).unwrap_or_default() {
            count_tie(run, "merge at an equal stamp", &there, &entry);
        }
    }
    result
}

fn damaged(run: &mut Run, rng: &mut Rng) {
    let slots = slots(rng);
    let mut store = filled(rng, slots);
    let whole = filled(rng, slots);
    damage(rng, &mut store);
    if rng.one_in(8) {
        damage_again(rng, &mut store);
    }
    same!(run, store_is_sound, &mut store, |s| (s));
    for _ in 0..4 {
        lookup(run, rng, &store);
        entry(run, rng, &store);
    }
    merge(run, &mut whole.clone(), &store);
    merge(run, &mut store.clone(), &store);
    merge(run, &mut store.clone(), &whole);
    offer_good(run, rng, &mut store);
    offer_any(run, rng, &mut store);
    purge::line(run, rng, &store);
    let line = purge::line_about(rng, &store);
    purge::purge(run, &mut store, line);
    let mut short = store[..rng.index(20).min(store.len())].to_vec();
    same!(run, store_is_sound, &mut short, |s| (s));
}

/// Soundness with every byte of a small store changed in turn.
fn every_byte(run: &mut Run, rng: &mut Rng) {
    let slots = 1 + rng.index(2);
    let store = filled(rng, slots);
    for mut changed in image::every_byte(rng, &store) {
        same!(run, store_is_sound, &mut changed, |s| (s));
    }
}

/// A second fault; it needs a header to find the slots by.
fn damage_again(rng: &mut Rng, store: &mut Vec<u8>) {
    if reference::store::is_sound(store) {
        damage(rng, store);
    }
}
