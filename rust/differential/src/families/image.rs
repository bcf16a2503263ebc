//! Random store images: sound ones by the reference, and damaged ones.

use crate::make::{good_value, pick, pool_key};
use reference::checksum::crc32c;
use reference::key::RESERVED;
use reference::stamp::Stamp;
use reference::store::{
    create, image_length, offer, purge, slot_count, used_count, Entry, HEADER, WIDTH,
};
use support::Rng;

pub fn slots(rng: &mut Rng) -> usize {
    match rng.below(60) {
        0 => 100,
        1 => 40,
        _ => 1 + rng.index(6),
    }
}

pub fn empty(slots: usize) -> Vec<u8> {
    let mut image = vec![0; image_length(slots)];
    create(&mut image, slots).expect("a right length");
    image
}

/// A stamp that often equals another one in part or whole.
pub fn small_stamp(rng: &mut Rng) -> Stamp {
    Stamp {
        phys: rng.below(4),
        logical: rng.below(3) as u16,
        node: rng.below(3) as u8,
    }
}

/// An entry of a key, with a small stamp.
pub fn small_entry(rng: &mut Rng, key: Vec<u8>) -> Entry {
    let flag = u8::from(rng.one_in(4));
    let value = if flag == 1 { vec![] } else { good_value(rng) };
    Entry {
        key,
        value,
        flag,
        stamp: small_stamp(rng),
    }
}

/// A sound store with some entries; some were purged.
pub fn filled(rng: &mut Rng, slots: usize) -> Vec<u8> {
    let mut image = empty(slots);
    for _ in 0..rng.index(2 * slots + 1) {
        let key = if slots > 10 {
            format!("key-{}", rng.below(150)).into_bytes()
        } else {
            pool_key(rng)
        };
        let entry = small_entry(rng, key);
        // A full store takes no more; the rest are not needed.
        let _ = offer(
            &mut image,
            &entry.key,
            &entry.value,
            entry.flag,
            entry.stamp,
        );
    }
    if rng.one_in(4) {
        purge(&mut image, rng.below(5)).expect("a line in range");
    }
    image
}

/// Makes a slot's checksum right again.
fn seal(image: &mut [u8], index: usize) {
    let start = image_length(index);
    let checksum = crc32c(&image[start..start + WIDTH - 4]);
    image[start + WIDTH - 4..start + WIDTH].copy_from_slice(&checksum.to_be_bytes());
}

/// Damages a sound image in one way; some ways leave it sound.
pub fn damage(rng: &mut Rng, image: &mut Vec<u8>) {
    let length = image.len();
    match rng.below(9) {
        0 => image[rng.index(length)] ^= 1 << rng.below(8),
        1 => image[rng.index(HEADER)] ^= 1 << rng.below(8),
        2 => image.truncate(rng.index(length)),
        3 => {
            let more = pick(rng, &[1, WIDTH - 1, WIDTH, WIDTH + 1]);
            image.extend(rng.bytes(more));
        }
        4 => counts(rng, image),
        5 => free_slot(rng, image),
        _ => held_slot(rng, image),
    }
}

/// Other numbers of slots or used slots in the header.
fn counts(rng: &mut Rng, image: &mut [u8]) {
    let (slots, used) = (slot_count(image) as u16, used_count(image) as u16);
    if rng.one_in(3) {
        let other = pick(rng, &[0, 101, 65_535, slots - 1, slots + 1]);
        image[..2].copy_from_slice(&other.to_be_bytes());
    } else {
        let other = pick(
            rng,
            &[0, slots, slots + 1, 65_535, used + 1, used.max(1) - 1],
        );
        image[2..4].copy_from_slice(&other.to_be_bytes());
    }
}

/// A byte in an unused slot, often the first or the last one.
fn free_slot(rng: &mut Rng, image: &mut [u8]) {
    let start = image_length(used_count(image));
    if start < image.len() {
        let at = match rng.below(4) {
            0 => start,
            1 => image.len() - 1,
            _ => start + rng.index(image.len() - start),
        };
        image[at] = rng.byte();
    }
}

/// The image with each byte changed in turn; some also with the checksum of
/// the byte's slot made right again.
pub fn every_byte(rng: &mut Rng, image: &[u8]) -> Vec<Vec<u8>> {
    let mut images = Vec::new();
    for at in 0..image.len() {
        let mut changed = image.to_vec();
        changed[at] ^= 1 << rng.below(8);
        images.push(changed.clone());
        if at >= HEADER && rng.one_in(2) {
            seal(&mut changed, (at - HEADER) / WIDTH);
            images.push(changed);
        }
    }
    images
}

/// A change in a used slot, with a right checksum after it.
fn held_slot(rng: &mut Rng, image: &mut [u8]) {
    let used = used_count(image);
    if used == 0 {
        return;
    }
    let index = rng.index(used);
    let start = image_length(index);
    match rng.below(8) {
        0 => image[start] = pick(rng, &[0, 1, 2, 63, 64, 65, 255]),
        1 => image[start + 1] = pick(rng, &[0, 1, 2, 255]),
        2 => {
            let length = pick(rng, &[0, 1, 2, 511, 512, 513, 65_535u16]);
            image[start + 2..start + 4].copy_from_slice(&length.to_be_bytes());
        }
        3 => image[start + 4 + rng.index(12)] = rng.byte(),
        4 => image[start + pick(rng, &[13, 15, 16, 79, 80, 591, 595])] ^= 1 << rng.below(8),
        5 => image[start + 16 + rng.index(576)] ^= 1 << rng.below(8),
        6 => reserved_key(rng, &mut image[start..start + WIDTH]),
        _ => {
            // Two slots change places, or one stands twice.
            let other = image_length(rng.index(used));
            let slot = image[start..start + WIDTH].to_vec();
            if rng.one_in(2) {
                image.copy_within(other..other + WIDTH, start);
            }
            image[other..other + WIDTH].copy_from_slice(&slot);
        }
    }
    if !rng.one_in(6) {
        seal(image, index);
    }
}

fn reserved_key(rng: &mut Rng, slot: &mut [u8]) {
    let key = pick(rng, &RESERVED);
    // One byte less is acceptable.
    let length = key.len() - rng.index(2);
    slot[0] = length as u8;
    slot[16..80].fill(0);
    slot[16..16 + length].copy_from_slice(&key[..length]);
}
