//! The entry store.

mod contents;
mod drawn;
mod stores;

use contents::ascending;
use drawn::{random_entry, Delivered};
use reference::checksum::crc32c_bits;
use reference::store::{
    create, entries, entry, image_length, is_sound, line, lookup, merge, offer, purge, used_count,
    value, Entry, Found, Offered,
};
use reference::Refusal;
use std::collections::{BTreeMap, BTreeSet};
use std::ops::Range;
use stores::{fresh, stamp, LATE};
use support::Rng;

fn give(store: &mut [u8], key: &[u8], value: &[u8], phys: u64) -> Result<Offered, Refusal> {
    offer(store, key, value, 0, stamp(phys, 0, 0))
}

/// Three slots holding the keys a (active), b (tombstone) and no third.
fn sample() -> Vec<u8> {
    let mut image = fresh(3);
    give(&mut image, b"a", b"one", 10).unwrap();
    offer(&mut image, b"b", b"", 1, stamp(20, 3, 4)).unwrap();
    image
}

#[test]
fn a_fresh_store() {
    let mut expected = vec![0x00, 0x02, 0x00, 0x00, 0x02, 0x54, 0x00, 0x10];
    expected.extend([0; 1200]);
    assert_eq!(fresh(2), expected);
    assert!(is_sound(&fresh(1)) && is_sound(&fresh(100)));
    assert_eq!(line(&fresh(1)), Ok(0));
    assert_eq!(image_length(100), 59_616);
}

#[test]
fn creating_refusals() {
    let mut buffer = vec![0xA5; image_length(2)];
    assert_eq!(create(&mut buffer, 0), Err(Refusal::BadArgument));
    assert_eq!(create(&mut buffer, 101), Err(Refusal::BadArgument));
    assert_eq!(create(&mut [], 101), Err(Refusal::BadArgument));
    assert_eq!(create(&mut buffer, 1), Err(Refusal::NoRoom));
    assert_eq!(create(&mut buffer, 3), Err(Refusal::NoRoom));
    assert_eq!(create(&mut buffer[1..], 2), Err(Refusal::NoRoom));
    assert_eq!(create(&mut [], 1), Err(Refusal::NoRoom));
    assert!(buffer.iter().all(|&b| b == 0xA5));
}

#[test]
fn the_bytes_of_a_slot() {
    let mut image = fresh(1);
    offer(&mut image, b"k1", b"on", 0, stamp(1000, 5, 2)).unwrap();
    let mut slot = vec![2, 0, 0, 2, 0, 0, 0, 0, 3, 0xE8, 0, 5, 2, 0, 0, 0];
    slot.extend(b"k1");
    slot.resize(80, 0);
    slot.extend(b"on");
    slot.resize(592, 0);
    slot.extend([0x74, 0x5C, 0x41, 0xA6]);
    assert_eq!(
        image[..16],
        [0, 1, 0, 1, 2, 0x54, 0, 0x10, 0, 0, 0, 0, 0, 0, 0, 0]
    );
    assert_eq!(image[16..], slot);
}

#[test]
fn the_three_outcomes_of_an_offer() {
    let mut image = fresh(2);
    assert_eq!(give(&mut image, b"k", b"5", 5), Ok(Offered::Stored));
    let held = image.clone();
    assert_eq!(give(&mut image, b"k", b"4", 4), Ok(Offered::Kept));
    assert_eq!(give(&mut image, b"k", b"5", 5), Ok(Offered::Kept));
    assert_eq!(give(&mut image, b"k", b"other", 4), Ok(Offered::Kept));
    assert_eq!(image, held);
    assert_eq!(give(&mut image, b"k", b"6", 6), Ok(Offered::Replaced));
    assert_eq!(value(&image, b"k"), b"6");
    assert_eq!(used_count(&image), 1);
}

#[test]
fn offers_compare_phys_first() {
    let mut image = fresh(1);
    let mut at = |phys, logical, node| offer(&mut image, b"k", b"", 0, stamp(phys, logical, node));
    assert_eq!(at(10, 0, 0), Ok(Offered::Stored));
    assert_eq!(at(9, 65_535, 255), Ok(Offered::Kept));
    assert_eq!(at(10, 0, 1), Ok(Offered::Replaced));
    assert_eq!(at(10, 0, 0), Ok(Offered::Kept));
    assert_eq!(at(10, 1, 0), Ok(Offered::Replaced));
    assert_eq!(at(10, 0, 255), Ok(Offered::Kept));
    assert_eq!(at(11, 0, 0), Ok(Offered::Replaced));
    assert_eq!(at(LATE - 1, 65_535, 255), Ok(Offered::Replaced));
}

/// A store of one slot after these offers of `k`, all with one stamp.
fn holding(offers: &[&(u8, Vec<u8>)]) -> Vec<u8> {
    let mut image = fresh(1);
    for (flag, value) in offers {
        offer(&mut image, b"k", value, *flag, stamp(5, 6, 7)).unwrap();
    }
    image
}

#[test]
fn equal_stamps_are_decided_by_the_contents() {
    let contents = ascending();
    for held in 0..contents.len() {
        for offered in 0..contents.len() {
            let mut image = holding(&[&contents[held]]);
            let (flag, value) = &contents[offered];
            let answer = offer(&mut image, b"k", value, *flag, stamp(5, 6, 7));
            let (expected, stays) = if offered > held {
                (Offered::Replaced, offered)
            } else {
                (Offered::Kept, held)
            };
            assert_eq!(answer, Ok(expected), "{offered} to {held}");
            assert_eq!(image, holding(&[&contents[stays]]));
        }
    }
}

#[test]
fn stamps_come_before_contents() {
    let mut image = holding(&[&(1, vec![])]);
    for above in [stamp(5, 6, 8), stamp(5, 7, 7), stamp(6, 6, 7)] {
        let answer = offer(&mut image, b"k", b"", 0, above);
        assert_eq!(answer, Ok(Offered::Replaced));
    }
    let held = image.clone();
    for below in [stamp(6, 6, 6), stamp(6, 5, 7), stamp(5, 6, 7)] {
        let answer = offer(&mut image, b"k", b"", 1, below);
        assert_eq!(answer, Ok(Offered::Kept));
    }
    assert_eq!(image, held);
}

#[test]
fn slots_are_in_key_order() {
    let mut image = fresh(6);
    for key in [&b"b"[..], b"ab", b"a", b"abc", &[0], &[255]] {
        assert_eq!(give(&mut image, key, key, 1), Ok(Offered::Stored));
        assert!(is_sound(&image));
    }
    let keys: Vec<Vec<u8>> = entries(&image)
        .unwrap()
        .into_iter()
        .map(|e| e.key)
        .collect();
    assert_eq!(keys, [&[0][..], b"a", b"ab", b"abc", b"b", &[255]]);
}

#[test]
fn a_full_store_takes_held_keys_only() {
    let mut image = fresh(2);
    give(&mut image, b"a", b"", 5).unwrap();
    offer(&mut image, b"b", b"", 1, stamp(5, 0, 0)).unwrap();
    let held = image.clone();
    for key in [&b"A"[..], b"aa", b"c"] {
        assert_eq!(give(&mut image, key, b"", 9), Err(Refusal::StoreFull));
    }
    assert_eq!(image, held);
    assert_eq!(give(&mut image, b"a", b"x", 6), Ok(Offered::Replaced));
    assert_eq!(give(&mut image, b"b", b"y", 6), Ok(Offered::Replaced));
    assert_eq!(give(&mut image, b"b", b"z", 1), Ok(Offered::Kept));
}

#[test]
fn lookups() {
    let mut image = sample();
    give(&mut image, b"c", b"", 1).unwrap();
    let start = image.as_ptr() as usize;
    assert_eq!(lookup(&image, b"a"), Ok(Found::Value));
    assert_eq!(value(&image, b"a"), b"one");
    assert_eq!(value(&image, b"a").as_ptr() as usize - start, 16 + 80);
    assert_eq!(lookup(&image, b"b"), Ok(Found::Deleted));
    assert_eq!(lookup(&image, b"c"), Ok(Found::Value));
    assert_eq!(lookup(&image, b"d"), Ok(Found::Never));
    for key in [&b"b"[..], b"c", b"d", b"", b"_sys:"] {
        assert_eq!(value(&image, key), b"");
    }
    assert_eq!(lookup(&image, b""), Err(Refusal::BadKey));
    assert_eq!(lookup(&image[1..], b""), Err(Refusal::BadStore));
    assert_eq!(value(&image[1..], b"a"), b"");
}

#[test]
fn entries_by_number() {
    let image = sample();
    let tombstone = Entry {
        key: b"b".to_vec(),
        value: vec![],
        flag: 1,
        stamp: stamp(20, 3, 4),
    };
    assert_eq!(entry(&image, 0).map(|e| e.value), Ok(b"one".to_vec()));
    assert_eq!(entry(&image, 1), Ok(tombstone));
    for past in [2, 3, usize::MAX] {
        assert_eq!(entry(&image, past), Err(Refusal::BadArgument));
        assert_eq!(entry(&image[1..], past), Err(Refusal::BadStore));
    }
    assert_eq!(entry(&fresh(1), 0), Err(Refusal::BadArgument));
}

#[test]
fn the_order_of_offer_refusals() {
    let mut image = fresh(1);
    give(&mut image, b"held", b"", 1).unwrap();
    let held = image.clone();
    let (late, big) = (stamp(LATE, 0, 0), [0; 513]);
    let first = stamp(1, 0, 0);
    let broken = &mut image.clone()[1..];
    assert_eq!(offer(broken, b"", &big, 2, late), Err(Refusal::BadStore));
    assert_eq!(offer(&mut image, b"", &big, 2, late), Err(Refusal::BadTime));
    assert_eq!(offer(&mut image, b"", &big, 2, first), Err(Refusal::BadKey));
    assert_eq!(
        offer(&mut image, b"k", &big, 1, first),
        Err(Refusal::ValueTooLarge)
    );
    assert_eq!(
        offer(&mut image, b"k", b"", 2, first),
        Err(Refusal::BadArgument)
    );
    assert_eq!(
        offer(&mut image, b"k", b"x", 1, first),
        Err(Refusal::BadArgument)
    );
    assert_eq!(
        offer(&mut image, b"k", b"", 1, first),
        Err(Refusal::StoreFull)
    );
    assert_eq!(image, held);
}

#[test]
fn the_largest_entry_fits() {
    let mut image = fresh(1);
    assert_eq!(give(&mut image, &[b'k'; 65], b"", 1), Err(Refusal::BadKey));
    assert_eq!(
        give(&mut image, &[b'k'; 64], &[7; 512], 1),
        Ok(Offered::Stored)
    );
    assert_eq!(value(&image, &[b'k'; 64]), [7; 512]);
    assert!(is_sound(&image));
    assert_eq!(
        give(&mut image, &[b'k'; 64], b"short", 2),
        Ok(Offered::Replaced)
    );
    assert!(is_sound(&image));
}

#[test]
fn merging_is_all_or_none() {
    let (mut receiver, mut giver) = (fresh(2), fresh(3));
    give(&mut receiver, b"a", b"old", 1).unwrap();
    for (key, phys) in [(b"a", 2), (b"b", 2), (b"c", 2)] {
        give(&mut giver, key, b"new", phys).unwrap();
    }
    let held = receiver.clone();
    assert_eq!(merge(&mut receiver, &giver), Err(Refusal::StoreFull));
    assert_eq!(receiver, held);
    assert_eq!(merge(&mut giver, &receiver), Ok(0));
    assert_eq!(value(&giver, b"a"), b"new");
    let mut larger = fresh(100);
    assert_eq!(merge(&mut larger, &giver), Ok(0));
    assert_eq!(entries(&larger), entries(&giver));
}

#[test]
fn merging_refusals_and_repeats() {
    let mut image = sample();
    let same = image.clone();
    assert_eq!(merge(&mut image, &same), Ok(0));
    assert_eq!(merge(&mut image, &fresh(100)), Ok(0));
    assert_eq!(merge(&mut image, &same[1..]), Err(Refusal::BadStore));
    assert_eq!(merge(&mut image, &[]), Err(Refusal::BadStore));
    assert_eq!(merge(&mut image[1..], &same), Err(Refusal::BadStore));
    assert_eq!(image, same);
    let mut copy = fresh(3);
    assert_eq!(merge(&mut copy, &same), Ok(0));
    assert_eq!(copy, same);
}

/// The same entries in any order, over one store or two that merge.
#[test]
fn any_order_at_one_stamp_ends_alike() {
    let contents = ascending();
    let number = contents.len();
    for sequence in 0..number.pow(3) {
        let places = [sequence, sequence / number, sequence / number.pow(2)].map(|n| n % number);
        let offers = places.map(|place| &contents[place]);
        let greatest = holding(&[&contents[*places.iter().max().unwrap()]]);
        for split in 0..=offers.len() {
            let mut one = holding(&offers[..split]);
            let mut two = holding(&offers[split..]);
            let before = one.clone();
            assert_eq!(merge(&mut one, &two), Ok(0));
            assert_eq!(merge(&mut two, &before), Ok(0));
            assert!(one == greatest && two == greatest, "{places:?}, {split}");
        }
    }
}

#[test]
fn merging_is_offering_each_entry() {
    let mut rng = Rng::new(18);
    for _ in 0..300 {
        let mut stores = [fresh(7), fresh(7)];
        for _ in 0..12 {
            let (key, stamp, flag, value) = random_entry(&mut rng);
            let store = &mut stores[rng.index(2)];
            offer(store, &key, &value, flag, stamp).unwrap();
        }
        let [mut merged, giver] = stores;
        let mut offered = merged.clone();
        for entry in entries(&giver).unwrap() {
            offer(
                &mut offered,
                &entry.key,
                &entry.value,
                entry.flag,
                entry.stamp,
            )
            .unwrap();
        }
        merge(&mut merged, &giver).unwrap();
        assert_eq!(merged, offered);
    }
}

/// Every call refuses the image with 5 and leaves it as it was.
fn assert_unsound(image: &[u8]) {
    assert!(!is_sound(image));
    let mut lent = image.to_vec();
    assert_eq!(give(&mut lent, b"a", b"", 99), Err(Refusal::BadStore));
    assert_eq!(merge(&mut lent, &fresh(1)), Err(Refusal::BadStore));
    assert_eq!(purge(&mut lent, 99), Err(Refusal::BadStore));
    assert_eq!(lent, image);
    assert_eq!(line(image), Err(Refusal::BadStore));
    assert_eq!(merge(&mut fresh(1), image), Err(Refusal::BadStore));
    assert_eq!(lookup(image, b"a"), Err(Refusal::BadStore));
    assert_eq!(value(image, b"a"), b"");
    assert_eq!(entries(image), Err(Refusal::BadStore));
}

/// Where the header's line stands: any line is sound.
const LINE: Range<usize> = 8..14;

#[test]
fn every_flipped_bit_is_found() {
    let image = sample();
    for bit in 0..image.len() * 8 {
        let mut damaged = image.clone();
        damaged[bit / 8] ^= 1 << (bit % 8);
        assert_eq!(is_sound(&damaged), LINE.contains(&(bit / 8)), "bit {bit}");
    }
    for byte in (0..image.len()).filter(|byte| !LINE.contains(byte)) {
        let mut damaged = image.clone();
        damaged[byte] ^= 0xFF;
        assert_unsound(&damaged);
    }
}

/// The held tombstone may be below the line: it may have come in the place of
/// another entry.
#[test]
fn any_line_is_sound() {
    let image = sample();
    for (at, place) in LINE.zip((0..6).rev()) {
        for byte in [1, 20, 21, 255] {
            let mut lined = image.clone();
            lined[at] = byte;
            assert_eq!(line(&lined), Ok(u64::from(byte) << (8 * place)));
            assert_eq!(entries(&lined), entries(&image));
        }
    }
    let mut lined = image;
    lined[LINE].fill(255);
    assert_eq!(line(&lined), Ok(LATE - 1));
}

#[test]
fn wrong_lengths_are_found() {
    let image = sample();
    for length in [0, 1, 15, 16, image.len() - 596, image.len() - 1] {
        assert_unsound(&image[..length]);
    }
    let mut longer = image.clone();
    longer.push(0);
    assert_unsound(&longer);
    longer.resize(image_length(4), 0);
    assert_unsound(&longer);
}

#[test]
fn header_counts_out_of_range_are_found() {
    let none = vec![0, 0, 0, 0, 2, 0x54, 0, 16, 0, 0, 0, 0, 0, 0, 0, 0];
    assert_unsound(&none);
    let mut many = none.clone();
    many[1] = 101;
    many.resize(image_length(101), 0);
    assert_unsound(&many);
    let mut over = fresh(1);
    over[3] = 2;
    assert_unsound(&over);
}

/// Changes one byte of a slot and puts its checksum right again.
fn edit(image: &mut [u8], slot: usize, at: usize, byte: u8) {
    let start = image_length(slot);
    image[start + at] = byte;
    let checksum = crc32c_bits(&image[start..start + 592]);
    image[start + 592..start + 596].copy_from_slice(&checksum.to_be_bytes());
}

#[test]
fn slots_with_right_checksums_and_wrong_fields_are_found() {
    let wrong = [
        (0, 0, 0),  // no key
        (0, 0, 65), // key length over 64
        (0, 0, 255),
        (0, 1, 1), // tombstone with a value
        (0, 1, 2), // flag out of range
        (0, 2, 2), // value length over 512
        (0, 2, 255),
        (0, 3, 2),  // byte past the value
        (0, 13, 1), // the three zeros
        (0, 14, 1),
        (0, 15, 1),
        (0, 17, 1), // bytes past the key
        (0, 79, 1),
        (0, 83, 1), // bytes past the value
        (0, 591, 1),
        (0, 16, b'b'), // equal keys
        (0, 16, b'c'), // descending keys
        (1, 1, 2),
        (1, 80, 1),
    ];
    for (slot, at, byte) in wrong {
        let mut image = sample();
        edit(&mut image, slot, at, byte);
        assert_unsound(&image);
    }
}

#[test]
fn slots_with_right_checksums_and_other_right_fields_are_sound() {
    let right = [
        (0, 0, 2), // a key that ends in a zero byte
        (0, 3, 4), // a value that ends in a zero byte
        (0, 4, 255),
        (0, 10, 255),
        (0, 12, 255),
        (1, 1, 0), // active, with an empty value
    ];
    for (slot, at, byte) in right {
        let mut image = sample();
        edit(&mut image, slot, at, byte);
        assert!(is_sound(&image));
    }
}

#[test]
fn reserved_keys_in_a_slot_are_found() {
    let mut image = fresh(1);
    give(&mut image, b"_sys.", b"", 1).unwrap();
    assert!(is_sound(&image));
    edit(&mut image, 0, 20, b':');
    assert_unsound(&image);
}

/// Says what every call must answer, from the entries delivered alone.
struct Book {
    slots: Vec<usize>,
    sets: Vec<BTreeSet<Delivered>>,
}

impl Book {
    fn new(slots: &[usize]) -> Book {
        Book {
            slots: slots.to_vec(),
            sets: vec![BTreeSet::new(); slots.len()],
        }
    }

    fn offer(&mut self, store: usize, entry: &Delivered) -> Result<Offered, Refusal> {
        first_fault(entry)?;
        let set = &mut self.sets[store];
        let mut keys: BTreeSet<&[u8]> = set.iter().map(|e| &e.0[..]).collect();
        let is_new = keys.insert(&entry.0);
        if keys.len() > self.slots[store] {
            return Err(Refusal::StoreFull);
        }
        let is_greatest = set.iter().all(|e| e.0 != entry.0 || e < entry);
        set.insert(entry.clone());
        Ok(match (is_new, is_greatest) {
            (true, _) => Offered::Stored,
            (false, true) => Offered::Replaced,
            (false, false) => Offered::Kept,
        })
    }

    /// Whether an entry with this one's key and stamp and other contents was
    /// delivered.
    fn is_tied(&self, store: usize, entry: &Delivered) -> bool {
        let mut set = self.sets[store].iter();
        set.any(|e| (&e.0, e.1) == (&entry.0, entry.1) && e != entry)
    }

    fn merge(&mut self, receiver: usize, giver: usize) -> Result<usize, Refusal> {
        let both: BTreeSet<Delivered> = &self.sets[receiver] | &self.sets[giver];
        let keys: BTreeSet<&[u8]> = both.iter().map(|e| &e.0[..]).collect();
        if keys.len() > self.slots[receiver] {
            return Err(Refusal::StoreFull);
        }
        self.sets[receiver] = both;
        Ok(0)
    }

    /// The greatest entry of each key.
    fn held(&self, store: usize) -> BTreeMap<&[u8], &Delivered> {
        let mut held: BTreeMap<&[u8], &Delivered> = BTreeMap::new();
        for entry in &self.sets[store] {
            let greatest = held.entry(&entry.0).or_insert(entry);
            if entry > *greatest {
                *greatest = entry;
            }
        }
        held
    }

    /// The image those entries must have.
    fn image(&self, store: usize) -> Vec<u8> {
        let held: Vec<&Delivered> = self.held(store).into_values().collect();
        drawn::image(self.slots[store], 0, &held)
    }
}

fn first_fault((key, stamp, flag, value): &Delivered) -> Result<(), Refusal> {
    let reserved = [&b"_sys:"[..], b"_ring:", b"_hint:", b"_gossip:"];
    if stamp.phys >= LATE {
        Err(Refusal::BadTime)
    } else if key.is_empty() || key.len() > 64 || reserved.iter().any(|r| key.starts_with(r)) {
        Err(Refusal::BadKey)
    } else if value.len() > 512 {
        Err(Refusal::ValueTooLarge)
    } else if *flag > 1 || (*flag == 1 && !value.is_empty()) {
        Err(Refusal::BadArgument)
    } else {
        Ok(())
    }
}

fn random_unacceptable(rng: &mut Rng) -> Delivered {
    let mut entry = random_entry(rng);
    while first_fault(&entry).is_ok() {
        for fault in 0..5 {
            match fault {
                0 if rng.one_in(3) => entry.1.phys = LATE + rng.below(2),
                1 if rng.one_in(3) => entry.0 = vec![b'k'; 65 * rng.index(2)],
                2 if rng.one_in(3) => entry.0 = b"_hint:x".to_vec(),
                3 if rng.one_in(3) => entry.3 = vec![1; 513],
                4 if rng.one_in(3) => entry.2 = 1 + rng.below(3) as u8,
                _ => {}
            }
        }
    }
    entry
}

/// Runs one random history and compares every answer and, after each call, the
/// image with the book. Given are the answers to offers, with whether another
/// entry of that key and stamp was there before.
fn run_history(rng: &mut Rng, slots: &[usize]) -> Vec<(Result<Offered, Refusal>, bool)> {
    let mut book = Book::new(slots);
    let mut stores: Vec<Vec<u8>> = slots.iter().map(|&c| fresh(c)).collect();
    let mut answers = Vec::new();
    for _ in 0..60 {
        let (at, other) = (rng.index(slots.len()), rng.index(slots.len()));
        if rng.one_in(4) {
            let giver = stores[other].clone();
            let answer = merge(&mut stores[at], &giver);
            assert_eq!(answer, book.merge(at, other));
        } else {
            let bad = rng.one_in(8);
            let entry = if bad {
                random_unacceptable(rng)
            } else {
                random_entry(rng)
            };
            let (key, stamp, flag, value) = &entry;
            let tied = book.is_tied(at, &entry);
            let answer = offer(&mut stores[at], key, value, *flag, *stamp);
            assert_eq!(answer, book.offer(at, &entry));
            answers.push((answer, tied));
        }
        assert_eq!(stores[at], book.image(at));
        assert!(is_sound(&stores[at]));
    }
    answers
}

#[test]
fn random_histories_agree_with_the_delivery_book() {
    let mut rng = Rng::new(10);
    let mut seen = Vec::new();
    for slots in [[1, 1, 1], [3, 3, 3], [5, 5, 5], [7, 7, 7], [8, 8, 8]] {
        for _ in 0..20 {
            seen.extend(run_history(&mut rng, &slots));
        }
    }
    for (offered, tied) in [
        (Offered::Stored, false),
        (Offered::Replaced, false),
        (Offered::Kept, false),
        (Offered::Replaced, true),
        (Offered::Kept, true),
    ] {
        let times = seen.iter().filter(|s| **s == (Ok(offered), tied)).count();
        assert!(times > 50, "{offered:?} {tied} {times}");
    }
    for number in [1, 2, 6, 9, 17] {
        let refusal = Refusal::from_number(number).unwrap();
        assert!(seen.contains(&(Err(refusal), false)), "{number}");
    }
}

#[test]
fn random_histories_with_unequal_slot_counts() {
    let mut rng = Rng::new(11);
    for slots in [[1, 4, 7], [2, 9, 3]] {
        for _ in 0..20 {
            run_history(&mut rng, &slots);
        }
    }
}

#[test]
fn equal_sets_have_equal_bytes() {
    let mut rng = Rng::new(13);
    for _ in 0..100 {
        let mut deliveries: Vec<Delivered> = (0..40).map(|_| random_entry(&mut rng)).collect();
        let mut images = Vec::new();
        for _ in 0..3 {
            for i in (1..deliveries.len()).rev() {
                deliveries.swap(i, rng.index(i + 1));
            }
            images.push(deliver_in_halves(&deliveries));
        }
        assert!(images.iter().all(|image| *image == images[0]));
    }
}

/// The first half goes to one store and the second half to another, which
/// then merge.
fn deliver_in_halves(deliveries: &[Delivered]) -> Vec<u8> {
    let mut stores = [fresh(7), fresh(7)];
    for (i, (key, stamp, flag, value)) in deliveries.iter().enumerate() {
        let half = usize::from(i * 2 >= deliveries.len());
        offer(&mut stores[half], key, value, *flag, *stamp).unwrap();
    }
    let [mut receiver, giver] = stores;
    merge(&mut receiver, &giver).unwrap();
    receiver
}

#[test]
fn a_hundred_slots() {
    let mut rng = Rng::new(14);
    let mut image = fresh(100);
    let mut keys: Vec<u8> = (0..100).collect();
    for i in (1..keys.len()).rev() {
        keys.swap(i, rng.index(i + 1));
    }
    for &key in &keys {
        assert_eq!(give(&mut image, &[key], &[key], 1), Ok(Offered::Stored));
    }
    assert_eq!(give(&mut image, &[100], b"", 1), Err(Refusal::StoreFull));
    let expected: Vec<Entry> = (0..100)
        .map(|key| Entry {
            key: vec![key],
            value: vec![key],
            flag: 0,
            stamp: stamp(1, 0, 0),
        })
        .collect();
    assert_eq!(entries(&image), Ok(expected));
}
