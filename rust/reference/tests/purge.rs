//! Clearing tombstones, and what a purge line refuses afterwards.

mod drawn;
mod stores;

use drawn::{image, random_entry, Delivered};
use reference::store::{
    entries, is_sound, line, lookup, merge, offer, purge, used_count, value, Found, Offered,
};
use reference::Refusal;
use std::collections::{BTreeMap, BTreeSet};
use stores::{fresh, stamp, LATE};
use support::Rng;

fn give(store: &mut [u8], key: &[u8], phys: u64) -> Result<Offered, Refusal> {
    offer(store, key, b"v", 0, stamp(phys, 0, 0))
}

fn delete(store: &mut [u8], key: &[u8], phys: u64) -> Result<Offered, Refusal> {
    offer(store, key, b"", 1, stamp(phys, 0, 0))
}

fn keys(store: &[u8]) -> Vec<Vec<u8>> {
    let held = entries(store).unwrap();
    held.into_iter().map(|entry| entry.key).collect()
}

/// Five slots, all used: tombstones b at 10, c at 20 and e at 30; a and d are
/// active at 5 and 25.
fn sample() -> Vec<u8> {
    let mut image = fresh(5);
    for (key, phys) in [(b"a", 5), (b"d", 25)] {
        give(&mut image, key, phys).unwrap();
    }
    for (key, phys) in [(b"b", 10), (b"c", 20), (b"e", 30)] {
        delete(&mut image, key, phys).unwrap();
    }
    image
}

/// The sample after a purge to 20: a, c, d and e are held.
fn purged() -> Vec<u8> {
    let mut image = sample();
    assert_eq!(purge(&mut image, 20), Ok(1));
    image
}

#[test]
fn tombstones_below_the_line_are_removed() {
    let cases: [(u64, &[u8]); 8] = [
        (0, b"abcde"),
        (10, b"abcde"),
        (11, b"acde"),
        (20, b"acde"),
        (21, b"ade"),
        (30, b"ade"),
        (31, b"ad"),
        (LATE - 1, b"ad"),
    ];
    for (to, left) in cases {
        let mut image = sample();
        assert_eq!(purge(&mut image, to), Ok(5 - left.len()), "{to}");
        assert_eq!(keys(&image).concat(), left);
        assert_eq!(line(&image), Ok(to));
        assert!(is_sound(&image));
    }
}

/// The rest is the image of the entries that remain.
#[test]
fn the_bytes_after_a_purge() {
    let (a, d) = (
        (b"a".to_vec(), stamp(5, 0, 0), 0, b"v".to_vec()),
        (b"d".to_vec(), stamp(25, 0, 0), 0, b"v".to_vec()),
    );
    let mut all = sample();
    assert_eq!(purge(&mut all, 0x0102_0304_0506), Ok(3));
    assert_eq!(all, image(5, 0x0102_0304_0506, &[&a, &d]));
    assert_eq!(all[8..16], [1, 2, 3, 4, 5, 6, 0, 0]);
    let mut none = fresh(2);
    assert_eq!(purge(&mut none, 258), Ok(0));
    assert_eq!(none, image(2, 258, &[]));
}

#[test]
fn a_lower_line_is_refused() {
    let mut image = purged();
    let held = image.clone();
    for lower in [0, 10, 19] {
        assert_eq!(purge(&mut image, lower), Err(Refusal::LowerLine));
    }
    assert_eq!(purge(&mut image, 20), Ok(0));
    assert_eq!(image, held);
    assert_eq!(purge(&mut image, 21), Ok(1));
    assert_eq!(purge(&mut image, 20), Err(Refusal::LowerLine));
    assert_eq!(line(&image), Ok(21));
}

#[test]
fn the_order_of_purge_refusals() {
    let mut image = purged();
    let held = image.clone();
    let mut broken = image.clone();
    broken[14] = 1;
    for to in [LATE, u64::MAX] {
        assert_eq!(purge(&mut broken, to), Err(Refusal::BadStore));
        assert_eq!(purge(&mut image, to), Err(Refusal::BadTime));
    }
    assert_eq!(purge(&mut broken, 0), Err(Refusal::BadStore));
    assert_eq!(purge(&mut image, 0), Err(Refusal::LowerLine));
    assert_eq!(image, held);
    assert_eq!(purge(&mut image, LATE - 1), Ok(2));
    assert_eq!(purge(&mut image, LATE), Err(Refusal::BadTime));
}

/// A freed slot takes a new key, from the line's time on.
#[test]
fn freed_slots_take_new_keys() {
    let mut full = sample();
    assert_eq!(give(&mut full, b"f", 40), Err(Refusal::StoreFull));
    let mut image = purged();
    assert_eq!(give(&mut image, b"f", 19), Err(Refusal::BelowLine));
    assert_eq!(give(&mut image, b"f", 20), Ok(Offered::Stored));
    assert_eq!(keys(&image).concat(), b"acdef");
    assert_eq!(give(&mut image, b"g", 20), Err(Refusal::StoreFull));
    assert_eq!(give(&mut image, b"g", 19), Err(Refusal::BelowLine));
    assert_eq!(delete(&mut image, b"g", 19), Err(Refusal::BelowLine));
}

/// The value that a removed tombstone had replaced, the tombstone itself, and
/// what was never there.
#[test]
fn what_is_below_the_line_does_not_come_back() {
    let mut image = purged();
    let held = image.clone();
    for phys in [0, 9, 10, 11, 19] {
        assert_eq!(give(&mut image, b"b", phys), Err(Refusal::BelowLine));
        assert_eq!(delete(&mut image, b"b", phys), Err(Refusal::BelowLine));
        assert_eq!(give(&mut image, b"never", phys), Err(Refusal::BelowLine));
    }
    assert_eq!(image, held);
    assert_eq!(lookup(&image, b"b"), Ok(Found::Never));
    assert_eq!(delete(&mut image, b"b", 20), Ok(Offered::Stored));
}

#[test]
fn the_line_is_nothing_to_a_held_key() {
    let mut image = purged();
    assert_eq!(give(&mut image, b"a", 4), Ok(Offered::Kept));
    assert_eq!(give(&mut image, b"a", 6), Ok(Offered::Replaced));
    assert_eq!(delete(&mut image, b"a", 7), Ok(Offered::Replaced));
    assert_eq!(lookup(&image, b"a"), Ok(Found::Deleted));
    assert!(is_sound(&image));
    assert_eq!(give(&mut image, b"c", 19), Ok(Offered::Kept));
    // The tombstone of a is below the line, and goes with the next purge.
    assert_eq!(purge(&mut image, 20), Ok(1));
    assert_eq!(keys(&image).concat(), b"cde");
}

#[test]
fn the_line_comes_after_the_entry_s_own_faults() {
    let mut image = purged();
    let below = stamp(1, 0, 0);
    let big = [0; 513];
    let cases = [
        (offer(&mut image[1..], b"x", b"", 0, below), 5),
        (offer(&mut image, b"x", b"", 0, stamp(LATE, 0, 0)), 9),
        (offer(&mut image, b"", b"", 0, below), 1),
        (offer(&mut image, b"x", &big, 0, below), 2),
        (offer(&mut image, b"x", b"", 2, below), 17),
        (offer(&mut image, b"x", b"v", 1, below), 17),
        (offer(&mut image, b"x", b"v", 0, below), 34),
    ];
    for (answer, number) in cases {
        assert_eq!(answer.map_err(Refusal::number), Err(number));
    }
}

/// A store of so many slots with this line and active entries of these keys and
/// times.
fn lined(slots: usize, to: u64, held: &[(&[u8], u64)]) -> Vec<u8> {
    let mut image = fresh(slots);
    for (key, phys) in held {
        give(&mut image, key, *phys).unwrap();
    }
    purge(&mut image, to).unwrap();
    image
}

#[test]
fn merging_passes_over_what_is_below_the_line() {
    let mut receiver = lined(3, 20, &[(b"a", 5)]);
    let giver = lined(5, 20, &[(b"a", 6), (b"b", 19), (b"c", 20), (b"d", 1)]);
    assert_eq!(merge(&mut receiver, &giver), Ok(2));
    assert_eq!(receiver, lined(3, 20, &[(b"a", 6), (b"c", 20)]));
    assert_eq!(merge(&mut receiver, &giver), Ok(2));
    let mut giver = giver;
    assert_eq!(merge(&mut giver, &receiver), Ok(0));
    assert_eq!(keys(&giver).concat(), b"abcd");
}

#[test]
fn merging_counts_only_the_keys_that_are_taken() {
    let mut receiver = lined(2, 20, &[(b"a", 5)]);
    let held = receiver.clone();
    let fits = lined(4, 20, &[(b"b", 20), (b"c", 19), (b"d", 19)]);
    let more = lined(4, 20, &[(b"b", 20), (b"c", 20), (b"d", 19)]);
    assert_eq!(merge(&mut receiver, &more), Err(Refusal::StoreFull));
    assert_eq!(receiver, held);
    assert_eq!(merge(&mut receiver, &fits), Ok(2));
    assert_eq!(receiver, lined(2, 20, &[(b"a", 5), (b"b", 20)]));
}

#[test]
fn the_order_of_merge_refusals() {
    let mut receiver = lined(1, 20, &[(b"a", 5)]);
    let held = receiver.clone();
    for unequal in [0, 19, 21] {
        // All three would also be too many.
        let giver = lined(2, unequal, &[(b"b", 30), (b"c", 30)]);
        assert_eq!(merge(&mut receiver, &giver), Err(Refusal::UnequalLines));
        let refused = merge(&mut receiver, &giver[1..]);
        assert_eq!(refused, Err(Refusal::BadStore));
        let refused = merge(&mut receiver[1..], &giver);
        assert_eq!(refused, Err(Refusal::BadStore));
    }
    let giver = lined(2, 20, &[(b"b", 30), (b"c", 30)]);
    assert_eq!(merge(&mut receiver, &giver), Err(Refusal::StoreFull));
    assert_eq!(receiver, held);
}

/// A store by the rules, as a map.
#[derive(Clone)]
struct Naive {
    slots: usize,
    line: u64,
    held: BTreeMap<Vec<u8>, Delivered>,
    /// The tombstones that purges have removed.
    removed: Vec<Delivered>,
}

impl Naive {
    fn new(slots: usize) -> Naive {
        Naive {
            slots,
            line: 0,
            held: BTreeMap::new(),
            removed: Vec::new(),
        }
    }

    /// Whether the line keeps the entry out.
    fn is_barred(&self, (key, stamp, ..): &Delivered) -> bool {
        stamp.phys < self.line && !self.held.contains_key(key)
    }

    fn offer(&mut self, entry: &Delivered) -> Result<Offered, u8> {
        let full = self.held.len() == self.slots;
        match self.held.get(&entry.0) {
            Some(held) if held >= entry => return Ok(Offered::Kept),
            None if self.is_barred(entry) => return Err(34),
            None if full => return Err(6),
            _ => {}
        }
        let old = self.held.insert(entry.0.clone(), entry.clone());
        Ok(old.map_or(Offered::Stored, |_| Offered::Replaced))
    }

    fn merge(&mut self, giver: &Naive) -> Result<usize, u8> {
        if giver.line != self.line {
            return Err(35);
        }
        let given = giver.held.values();
        let (barred, taken): (Vec<_>, Vec<_>) = given.partition(|e| self.is_barred(e));
        let keys: BTreeSet<&Vec<u8>> = taken.iter().map(|e| &e.0).chain(self.held.keys()).collect();
        if keys.len() > self.slots {
            return Err(6);
        }
        for entry in taken {
            self.offer(entry).unwrap();
        }
        Ok(barred.len())
    }

    fn purge(&mut self, line: u64) -> Result<usize, u8> {
        if line >= LATE {
            return Err(9);
        }
        if line < self.line {
            return Err(33);
        }
        let is_old = |entry: &Delivered| entry.2 == 1 && entry.1.phys < line;
        let old: Vec<Delivered> = self.held.values().filter(|e| is_old(e)).cloned().collect();
        self.held.retain(|_, entry| !is_old(entry));
        self.line = line;
        self.removed.extend(old.clone());
        Ok(old.len())
    }

    fn image(&self) -> Vec<u8> {
        let held: Vec<&Delivered> = self.held.values().collect();
        image(self.slots, self.line, &held)
    }
}

fn numbered<T>(answer: Result<T, Refusal>) -> Result<T, u8> {
    answer.map_err(Refusal::number)
}

/// Some stores twice: as images, and by the rules.
struct Pair {
    images: Vec<Vec<u8>>,
    naive: Vec<Naive>,
}

impl Pair {
    fn fresh(slots: &[usize]) -> Pair {
        Pair {
            images: slots.iter().map(|&slots| fresh(slots)).collect(),
            naive: slots.iter().map(|&slots| Naive::new(slots)).collect(),
        }
    }

    fn offer(&mut self, at: usize, entry: &Delivered) -> Result<Offered, u8> {
        let (key, stamp, flag, value) = entry;
        let answer = numbered(offer(&mut self.images[at], key, value, *flag, *stamp));
        assert_eq!(answer, self.naive[at].offer(entry));
        self.compared(at);
        answer
    }

    fn merge(&mut self, at: usize, from: usize) -> Result<usize, u8> {
        let (giver, naive) = (self.images[from].clone(), self.naive[from].clone());
        let answer = numbered(merge(&mut self.images[at], &giver));
        assert_eq!(answer, self.naive[at].merge(&naive));
        self.compared(at);
        answer
    }

    fn purge(&mut self, at: usize, line: u64) -> Result<usize, u8> {
        let answer = numbered(purge(&mut self.images[at], line));
        assert_eq!(answer, self.naive[at].purge(line));
        self.compared(at);
        answer
    }

    /// The bytes are right, and no value is below a tombstone that a purge of
    /// this store removed.
    fn compared(&self, at: usize) {
        let (image, naive) = (&self.images[at], &self.naive[at]);
        assert_eq!(*image, naive.image());
        assert!(is_sound(image));
        for (key, removed, ..) in &naive.removed {
            let is_value = lookup(image, key) == Ok(Found::Value);
            let held = naive.held.get(key).filter(|_| is_value);
            assert!(held.is_none_or(|(_, stamp, ..)| stamp > removed));
        }
    }
}

/// A line about the times that entries have, mostly one that is not refused;
/// often another store's, so that the two can merge.
fn random_line(rng: &mut Rng, held: u64, other: u64) -> u64 {
    match rng.below(12) {
        0 => LATE + rng.below(2),
        1 => held.saturating_sub(1),
        2 | 3 => held + 1 + rng.below(2),
        _ => held.max(other),
    }
}

#[test]
fn random_histories_with_purges_follow_the_rules() {
    let mut rng = Rng::new(33);
    let mut seen = BTreeMap::new();
    let mut count = |call: &'static str, answer: Result<usize, u8>| {
        let told = answer.map_or_else(usize::from, |count| 100 + count.min(3));
        *seen.entry((call, told)).or_insert(0) += 1;
    };
    for round in 0..400 {
        let mut pair = Pair::fresh(&[1 + round % 7, 3, 7]);
        for _ in 0..60 {
            let (at, other) = (rng.index(3), rng.index(3));
            match rng.below(8) {
                0 => {
                    let lines = [at, other].map(|at| pair.naive[at].line);
                    let line = random_line(&mut rng, lines[0], lines[1]);
                    count("purge", pair.purge(at, line));
                }
                1 | 2 => count("merge", pair.merge(at, other)),
                _ => {
                    let told = pair.offer(at, &random_entry(&mut rng));
                    count("offer", told.map(|offered| offered as usize));
                }
            }
        }
    }
    let reached: [(&str, &[usize]); 3] = [
        ("purge", &[9, 33, 100, 101, 102]),
        ("merge", &[35, 6, 100, 101, 102]),
        ("offer", &[34, 6, 100, 101, 102]),
    ];
    for (call, answers) in reached {
        for answer in answers {
            let times = seen.get(&(call, *answer)).copied().unwrap_or(0);
            assert!(times >= 10, "{call}: {answer} {times} times");
        }
    }
}

/// Stores that were made equal and purged to one line, and the entries that
/// have reached each since, those that it held then and refused ones included.
struct Site {
    pair: Pair,
    sets: Vec<BTreeSet<Delivered>>,
    /// The keys that were held just after the purge.
    held: BTreeSet<Vec<u8>>,
    line: u64,
}

impl Site {
    fn purged(rng: &mut Rng) -> Site {
        let mut pair = Pair::fresh(&[7, 7, 7]);
        for _ in 0..12 {
            let _ = pair.offer(rng.index(3), &random_entry(rng));
        }
        for (at, from) in [(0, 1), (0, 2), (1, 0), (2, 0)] {
            pair.merge(at, from).unwrap();
        }
        let line = rng.below(4);
        for at in 0..3 {
            pair.purge(at, line).unwrap();
        }
        let held = pair.naive[0].held.clone();
        Site {
            sets: vec![held.values().cloned().collect(); 3],
            held: held.into_keys().collect(),
            pair,
            line,
        }
    }

    /// The greatest entry of each key, but for those that the line keeps out.
    fn due(&self, at: usize) -> Vec<Delivered> {
        let mut greatest = BTreeMap::new();
        for entry in &self.sets[at] {
            greatest.insert(&entry.0, entry);
        }
        let is_due = |e: &&&Delivered| e.1.phys >= self.line || self.held.contains(&e.0);
        greatest.values().filter(is_due).copied().cloned().collect()
    }
}

#[test]
fn after_one_purge_equal_sets_have_equal_bytes() {
    let mut rng = Rng::new(34);
    let (mut barred, mut below) = (0, 0);
    for _ in 0..300 {
        let mut site = Site::purged(&mut rng);
        for _ in 0..30 {
            let (at, other) = (rng.index(3), rng.index(3));
            if rng.one_in(4) {
                barred += site.pair.merge(at, other).unwrap();
                let given = site.sets[other].clone();
                site.sets[at].extend(given);
            } else {
                let entry = random_entry(&mut rng);
                let told = site.pair.offer(at, &entry);
                below += usize::from(told == Err(34));
                site.sets[at].insert(entry);
            }
            let due = site.due(at);
            let due: Vec<&Delivered> = due.iter().collect();
            assert_eq!(site.pair.images[at], image(7, site.line, &due));
        }
    }
    // No store holds what the line keeps out, so no merge meets such an entry.
    assert!(below > 500 && barred == 0, "{below} and {barred}");
}

/// A value that was deleted elsewhere stays with the store that slept, but goes
/// no further.
#[test]
fn a_store_that_slept() {
    let (mut awake, mut asleep) = (fresh(3), fresh(3));
    for key in [b"kept", b"gone"] {
        give(&mut awake, key, 5).unwrap();
    }
    merge(&mut asleep, &awake).unwrap();
    delete(&mut awake, b"gone", 10).unwrap();
    assert_eq!(purge(&mut awake, 11), Ok(1));
    assert_eq!(merge(&mut awake, &asleep), Err(Refusal::UnequalLines));
    assert_eq!(merge(&mut asleep, &awake), Err(Refusal::UnequalLines));
    assert_eq!(give(&mut awake, b"gone", 5), Err(Refusal::BelowLine));
    // Purged by itself, it can merge and still has the value.
    assert_eq!(purge(&mut asleep, 11), Ok(0));
    assert_eq!(merge(&mut asleep, &awake), Ok(0));
    assert_eq!(value(&asleep, b"gone"), b"v");
    assert_eq!(merge(&mut awake, &asleep), Ok(1));
    assert_eq!(lookup(&awake, b"gone"), Ok(Found::Never));
    // A new store with the line takes only what is not below it.
    let mut anew = lined(3, 11, &[]);
    assert_eq!(merge(&mut anew, &awake), Ok(1));
    assert_eq!(used_count(&anew), 0);
}
