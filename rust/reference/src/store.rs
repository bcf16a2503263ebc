//! The entry store, kept as one image of bytes.

use crate::checksum::crc32c;
use crate::frame::{number_from, time_bytes};
use crate::key::{self, KEY_MAX};
use crate::refusal::Refusal;
use crate::stamp::{check_time, Stamp};
use crate::value::{self, TOMBSTONE, VALUE_MAX};
use std::collections::BTreeMap;
use std::ops::Range;

pub const SLOTS_MAX: usize = 100;
/// The header's length, which is also the offset of the first slot.
pub const HEADER: usize = 16;
pub const WIDTH: usize = 596;

// The header behind its four counts.
const LINE: Range<usize> = 8..14;
const HEADER_ZEROS: Range<usize> = 14..HEADER;

// Where a slot's fields begin.
const KEY_AT: usize = 16;
const VALUE_AT: usize = KEY_AT + KEY_MAX;
const CHECKSUM_AT: usize = VALUE_AT + VALUE_MAX;

#[derive(Clone, Debug, PartialEq, Eq)]
pub struct Entry {
    pub key: Vec<u8>,
    pub value: Vec<u8>,
    pub flag: u8,
    pub stamp: Stamp,
}

impl Entry {
    /// Of two entries of a key the one with the greater rank is in force: the
    /// stamp decides, then the flag, which is greater of a tombstone, then the
    /// value, byte by byte and then by length.
    pub fn rank(&self) -> (Stamp, u8, &[u8]) {
        (self.stamp, self.flag, &self.value)
    }
}

/// What became of an offered entry.
#[derive(Clone, Copy, Debug, PartialEq, Eq)]
pub enum Offered {
    Stored,
    Replaced,
    Kept,
}

/// What a store knows of a key.
#[derive(Clone, Copy, Debug, PartialEq, Eq)]
pub enum Found {
    Value,
    Deleted,
    Never,
}

/// The length of the image of a store with this many slots.
pub fn image_length(slots: usize) -> usize {
    HEADER + WIDTH * slots
}

/// Makes the whole buffer an empty store.
pub fn create(buffer: &mut [u8], slots: usize) -> Result<(), Refusal> {
    if !(1..=SLOTS_MAX).contains(&slots) {
        return Err(Refusal::BadArgument);
    }
    if buffer.len() != image_length(slots) {
        return Err(Refusal::NoRoom);
    }
    buffer.fill(0);
    buffer[..8].copy_from_slice(&header(slots, 0));
    Ok(())
}

fn header(slots: usize, used: usize) -> [u8; 8] {
    let mut bytes = [0; 8];
    for (i, number) in [slots, used, WIDTH, HEADER].into_iter().enumerate() {
        bytes[2 * i..2 * i + 2].copy_from_slice(&(number as u16).to_be_bytes());
    }
    bytes
}

pub fn is_sound(store: &[u8]) -> bool {
    if !header_is_sound(store) {
        return false;
    }
    let slots: Vec<&[u8]> = store[HEADER..].chunks_exact(WIDTH).collect();
    let (held, free) = slots.split_at(used_count(store));
    held.iter().all(|slot| slot_is_sound(slot))
        && held.windows(2).all(|p| slot_key(p[0]) < slot_key(p[1]))
        && free.iter().all(|slot| is_zero(slot))
}

fn header_is_sound(store: &[u8]) -> bool {
    if store.len() < HEADER {
        return false;
    }
    let (slots, used) = (slot_count(store), used_count(store));
    (1..=SLOTS_MAX).contains(&slots)
        && used <= slots
        && store[..8] == header(slots, used)
        && is_zero(&store[HEADER_ZEROS])
        && store.len() == image_length(slots)
}

fn slot_is_sound(slot: &[u8]) -> bool {
    let (key_length, value_length) = (key_length(slot), value_length(slot));
    key_length <= KEY_MAX
        && value_length <= VALUE_MAX
        && key::is_acceptable(slot_key(slot))
        && value::flag_fits(slot_flag(slot), value_length)
        && is_zero(&slot[13..KEY_AT])
        && is_zero(&slot[KEY_AT + key_length..VALUE_AT])
        && is_zero(&slot[VALUE_AT + value_length..CHECKSUM_AT])
        && slot[CHECKSUM_AT..] == crc32c(&slot[..CHECKSUM_AT]).to_be_bytes()
}

fn is_zero(bytes: &[u8]) -> bool {
    bytes.iter().all(|&byte| byte == 0)
}

/// The header's number of slots; the image must have a header.
pub fn slot_count(store: &[u8]) -> usize {
    number_from(&store[0..2]) as usize
}

/// The header's number of used slots; the image must have a header.
pub fn used_count(store: &[u8]) -> usize {
    number_from(&store[2..4]) as usize
}

/// The header's purge line.
fn line_of(store: &[u8]) -> u64 {
    number_from(&store[LINE])
}

fn slot_at(store: &[u8], index: usize) -> &[u8] {
    let start = image_length(index);
    &store[start..start + WIDTH]
}

fn key_length(slot: &[u8]) -> usize {
    usize::from(slot[0])
}

fn slot_flag(slot: &[u8]) -> u8 {
    slot[1]
}

fn value_length(slot: &[u8]) -> usize {
    number_from(&slot[2..4]) as usize
}

fn slot_stamp(slot: &[u8]) -> Stamp {
    Stamp {
        phys: number_from(&slot[4..10]),
        logical: number_from(&slot[10..12]) as u16,
        node: slot[12],
    }
}

fn slot_key(slot: &[u8]) -> &[u8] {
    &slot[KEY_AT..KEY_AT + key_length(slot)]
}

fn slot_value(slot: &[u8]) -> &[u8] {
    &slot[VALUE_AT..VALUE_AT + value_length(slot)]
}

/// Where the key is, or else where it would go.
fn find(store: &[u8], key: &[u8]) -> Result<usize, usize> {
    for index in 0..used_count(store) {
        let held = slot_key(slot_at(store, index));
        if held == key {
            return Ok(index);
        }
        if held > key {
            return Err(index);
        }
    }
    Err(used_count(store))
}

/// What the store knows of a key.
pub fn lookup(store: &[u8], key: &[u8]) -> Result<Found, Refusal> {
    if !is_sound(store) {
        return Err(Refusal::BadStore);
    }
    key::check(key)?;
    Ok(lookup_in_sound(store, key).0)
}

/// The key's value as a part of the store; empty where there is none.
pub fn value<'a>(store: &'a [u8], key: &[u8]) -> &'a [u8] {
    match lookup(store, key) {
        Ok(_) => lookup_in_sound(store, key).1,
        Err(_) => &[],
    }
}

pub(crate) fn lookup_in_sound<'a>(store: &'a [u8], key: &[u8]) -> (Found, &'a [u8]) {
    match find(store, key) {
        Err(_) => (Found::Never, &[]),
        Ok(index) => {
            let slot = slot_at(store, index);
            if slot_flag(slot) == TOMBSTONE {
                (Found::Deleted, &[])
            } else {
                (Found::Value, slot_value(slot))
            }
        }
    }
}

/// The stamp of the key's entry, if one is held.
pub(crate) fn stamp_in_sound(store: &[u8], key: &[u8]) -> Option<Stamp> {
    let index = find(store, key).ok()?;
    Some(slot_stamp(slot_at(store, index)))
}

/// Every held entry in key order.
pub fn entries(store: &[u8]) -> Result<Vec<Entry>, Refusal> {
    if !is_sound(store) {
        return Err(Refusal::BadStore);
    }
    let slots = (0..used_count(store)).map(|index| slot_at(store, index));
    Ok(slots.map(entry_of).collect())
}

/// The held entry with this number, counted from 0 in key order.
pub fn entry(store: &[u8], i: usize) -> Result<Entry, Refusal> {
    let mut held = entries(store)?.into_iter();
    held.nth(i).ok_or(Refusal::BadArgument)
}

fn entry_of(slot: &[u8]) -> Entry {
    Entry {
        key: slot_key(slot).to_vec(),
        value: slot_value(slot).to_vec(),
        flag: slot_flag(slot),
        stamp: slot_stamp(slot),
    }
}

/// Offers one entry; the one with the greater rank stays.
pub fn offer(
    store: &mut [u8],
    key: &[u8],
    value: &[u8],
    flag: u8,
    stamp: Stamp,
) -> Result<Offered, Refusal> {
    if !is_sound(store) {
        return Err(Refusal::BadStore);
    }
    check_time(stamp.phys)?;
    key::check(key)?;
    value::check(value)?;
    if !value::flag_fits(flag, value.len()) {
        return Err(Refusal::BadArgument);
    }
    offer_to_sound(store, key, value, flag, stamp)
}

/// As `offer`, for a sound store and an acceptable entry.
pub(crate) fn offer_to_sound(
    store: &mut [u8],
    key: &[u8],
    value: &[u8],
    flag: u8,
    stamp: Stamp,
) -> Result<Offered, Refusal> {
    let entry = Entry {
        key: key.to_vec(),
        value: value.to_vec(),
        flag,
        stamp,
    };
    match find(store, key) {
        Ok(index) if entry_of(slot_at(store, index)).rank() >= entry.rank() => Ok(Offered::Kept),
        Ok(index) => {
            write_slot(store, index, &entry);
            Ok(Offered::Replaced)
        }
        Err(_) if stamp.phys < line_of(store) => Err(Refusal::BelowLine),
        Err(index) => {
            insert(store, index, &entry)?;
            Ok(Offered::Stored)
        }
    }
}

/// Moves the later slots up by one and writes the entry in the gap.
fn insert(store: &mut [u8], index: usize, entry: &Entry) -> Result<(), Refusal> {
    let (slots, used) = (slot_count(store), used_count(store));
    if used == slots {
        return Err(Refusal::StoreFull);
    }
    let start = image_length(index);
    store.copy_within(start..image_length(used), start + WIDTH);
    write_slot(store, index, entry);
    store[..8].copy_from_slice(&header(slots, used + 1));
    Ok(())
}

fn write_slot(store: &mut [u8], index: usize, entry: &Entry) {
    let start = image_length(index);
    store[start..start + WIDTH].copy_from_slice(&slot_of(entry));
}

fn slot_of(entry: &Entry) -> Vec<u8> {
    let mut slot = vec![entry.key.len() as u8, entry.flag];
    slot.extend((entry.value.len() as u16).to_be_bytes());
    slot.extend(time_bytes(entry.stamp.phys));
    slot.extend(entry.stamp.logical.to_be_bytes());
    slot.push(entry.stamp.node);
    slot.resize(KEY_AT, 0);
    slot.extend(&entry.key);
    slot.resize(VALUE_AT, 0);
    slot.extend(&entry.value);
    slot.resize(CHECKSUM_AT, 0);
    let checksum = crc32c(&slot);
    slot.extend(checksum.to_be_bytes());
    slot
}

/// Makes the entries, which are in key order, those of a store that has slots
/// enough; the line stays.
fn write_entries<'a>(store: &mut [u8], entries: impl ExactSizeIterator<Item = &'a Entry>) {
    let (slots, used) = (slot_count(store), entries.len());
    store[..8].copy_from_slice(&header(slots, used));
    for (index, entry) in entries.enumerate() {
        write_slot(store, index, entry);
    }
    store[image_length(used)..].fill(0);
}

/// Offers every entry of the giver to the receiver: all of them or none. Those
/// below the line whose key the receiver does not hold are passed over; how many
/// they are.
pub fn merge(receiver: &mut [u8], giver: &[u8]) -> Result<usize, Refusal> {
    let mut held = BTreeMap::new();
    for entry in entries(receiver)? {
        held.insert(entry.key.clone(), entry);
    }
    let given = entries(giver)?;
    let line = line_of(receiver);
    if line_of(giver) != line {
        return Err(Refusal::UnequalLines);
    }
    let mut passed_over = 0;
    for entry in given {
        match held.get(&entry.key) {
            Some(h) if h.rank() >= entry.rank() => {}
            None if entry.stamp.phys < line => passed_over += 1,
            _ => {
                held.insert(entry.key.clone(), entry);
            }
        }
    }
    if held.len() > slot_count(receiver) {
        return Err(Refusal::StoreFull);
    }
    write_entries(receiver, held.values());
    Ok(passed_over)
}

/// The purge line, 0 in a new store.
pub fn line(store: &[u8]) -> Result<u64, Refusal> {
    if !is_sound(store) {
        return Err(Refusal::BadStore);
    }
    Ok(line_of(store))
}

/// Removes the tombstones whose time is below the line, and sets the store's
/// line to it; how many were removed.
pub fn purge(store: &mut [u8], line: u64) -> Result<usize, Refusal> {
    let mut kept = entries(store)?;
    check_time(line)?;
    if line < line_of(store) {
        return Err(Refusal::LowerLine);
    }
    let before = kept.len();
    kept.retain(|entry| entry.flag != TOMBSTONE || entry.stamp.phys >= line);
    write_entries(store, kept.iter());
    store[LINE].copy_from_slice(&time_bytes(line));
    Ok(before - kept.len())
}
