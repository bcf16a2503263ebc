//! Histories with purges: stores that merge and are purged, mostly to one line,
//! and what is offered to them and merged after that.

use super::image::{empty, small_entry};
use super::reused::held;
use super::store::{merge, offer_entry};
use crate::make::{near, pick, pool_key, words};
use crate::run::Run;
use crate::same;
use reference::stamp::TIME_END;
use reference::store::{self, entries, slot_count, Entry};
use reference::value::{ACTIVE, TOMBSTONE};
use std::collections::BTreeSet;
use support::Rng;

pub fn history(run: &mut Run, rng: &mut Rng) {
    let mut site = Site {
        stores: [(); 3].map(|()| empty(1 + rng.index(7))),
        removed: Vec::new(),
    };
    for _ in 0..20 {
        site.offer(run, rng);
    }
    if !rng.one_in(4) {
        site.merge_all(run);
    }
    site.purge_all(run, rng);
    for _ in 0..40 {
        site.step(run, rng);
    }
}

struct Site {
    stores: [Vec<u8>; 3],
    /// The tombstones that purges have removed, each with its store.
    removed: Vec<(usize, Entry)>,
}

impl Site {
    fn step(&mut self, run: &mut Run, rng: &mut Rng) {
        let at = rng.index(3);
        match rng.below(16) {
            0 => {
                let line = line_about(rng, &self.stores[at]);
                self.purge(run, at, line);
            }
            1 | 2 => self.purge_all(run, rng),
            3 => line(run, rng, &self.stores[at]),
            4..=6 => self.merge(run, at, rng.index(3)),
            7..=9 => self.offer_removed(run, rng),
            _ => self.offer(run, rng),
        }
    }

    fn offer(&mut self, run: &mut Run, rng: &mut Rng) {
        let key = pool_key(rng);
        let mut entry = small_entry(rng, key);
        if rng.one_in(3) {
            entry.flag = TOMBSTONE;
            entry.value.clear();
        }
        let store = &mut self.stores[rng.index(3)];
        count_below(run, store, &entry);
        offer_entry(run, store, &entry);
    }

    /// A removed tombstone comes again, or a value that is no newer.
    fn offer_removed(&mut self, run: &mut Run, rng: &mut Rng) {
        if self.removed.is_empty() {
            return;
        }
        let (at, mut entry) = self.removed[rng.index(self.removed.len())].clone();
        if rng.one_in(2) {
            entry.stamp.phys = rng.below(entry.stamp.phys + 1);
            entry.flag = ACTIVE;
        }
        let result = offer_entry(run, &mut self.stores[at], &entry);
        if result >> 16 == 34 {
            run.count("removed, then refused", entry.flag.into());
        }
    }

    fn merge(&mut self, run: &mut Run, at: usize, from: usize) {
        let giver = self.stores[from].clone();
        let receiver = &mut self.stores[at];
        let is_more = distinct_keys(receiver, &giver) > slot_count(receiver);
        let result = merge(run, receiver, &giver);
        if is_more && result >> 16 == 0 {
            run.count("merge that fits by what it passes over", 1);
        }
    }

    fn merge_all(&mut self, run: &mut Run) {
        for (at, from) in [(0, 1), (0, 2), (1, 0), (2, 0)] {
            self.merge(run, at, from);
        }
    }

    /// To one line, which none of them refuses.
    fn purge_all(&mut self, run: &mut Run, rng: &mut Rng) {
        let about = line_about(rng, &self.stores[0]).min(TIME_END - 1);
        let held = self.stores.each_ref().map(|s| store::line(s).unwrap_or(0));
        let line = held.into_iter().fold(about, u64::max);
        for at in 0..3 {
            self.purge(run, at, line);
        }
    }

    fn purge(&mut self, run: &mut Run, at: usize, line: u64) {
        let before = entries(&self.stores[at]).unwrap_or_default();
        if purge(run, &mut self.stores[at], line) >> 16 != 0 {
            return;
        }
        for entry in before {
            count_at(run, &entry, line);
            if entry.flag == TOMBSTONE && entry.stamp.phys < line {
                self.removed.push((at, entry));
            }
        }
    }
}

pub fn purge(run: &mut Run, store: &mut Vec<u8>, line: u64) -> u32 {
    same!(run, store_purge, store, |s| (s, line))
}

pub fn line(run: &mut Run, rng: &mut Rng, store: &[u8]) {
    let length = near(rng, 1);
    let mut lent = (store.to_vec(), words(rng, length));
    same!(run, store_line, &mut lent, |l| (&l.0, &mut l.1));
}

/// A line at the time of a held entry or at the store's own line, or by one
/// beside it; or any.
pub fn line_about(rng: &mut Rng, store: &[u8]) -> u64 {
    let own = store::line(store).unwrap_or(0);
    let entry = if rng.one_in(3) {
        None
    } else {
        held(rng, store)
    };
    let about = entry.map_or(own, |entry| entry.stamp.phys);
    match rng.below(24) {
        0 => 0,
        1 => pick(rng, &[TIME_END, TIME_END + 1, 1 << 63, u64::MAX]),
        2 if rng.one_in(4) => TIME_END - 1,
        _ => (about + rng.below(3)).saturating_sub(1),
    }
}

fn distinct_keys(one: &[u8], two: &[u8]) -> usize {
    let both = [one, two].map(|store| entries(store).unwrap_or_default());
    let keys: BTreeSet<Vec<u8>> = both.into_iter().flatten().map(|e| e.key).collect();
    keys.len()
}

/// What `count_below` counts.
pub const BELOW: [u32; 6] = [0, 1, 2, 3, 4, 5];

/// Counts an entry below the line: of a held key, of a new one, or of a new one
/// where no slot is free; 3 to 5 for a tombstone.
fn count_below(run: &mut Run, store: &[u8], entry: &Entry) {
    let held = entries(store).unwrap_or_default();
    if store::line(store).is_ok_and(|line| entry.stamp.phys < line) {
        let is_held = held.iter().any(|e| e.key == entry.key);
        let case = match (is_held, held.len() < slot_count(store)) {
            (true, _) => 0,
            (false, true) => 1,
            (false, false) => 2,
        };
        run.count("offer below the line", case + 3 * u32::from(entry.flag));
    }
}

/// Counts an entry of a purged store whose time is just below the line, at it or
/// just above it; 3 to 5 for a tombstone.
fn count_at(run: &mut Run, entry: &Entry, line: u64) {
    let place = (entry.stamp.phys + 1).checked_sub(line);
    if let Some(place @ 0..=2) = place {
        run.count(
            "purge about the line",
            place as u32 + 3 * u32::from(entry.flag),
        );
    }
}
