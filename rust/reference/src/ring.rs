//! The ring of places and the owner walk.

use crate::checksum::{crc32c, fmix32};
use crate::key;
use crate::peers::{Admission, PeerTable};
use crate::refusal::Refusal;

pub const IDS_MAX: usize = 10;
pub const VNODES_MAX: usize = 64;
pub const PLACES_MAX: usize = IDS_MAX * VNODES_MAX;
pub const OWNERS_MAX: usize = 3;

pub fn token(node: u8, vnode: u8, salt: u32) -> u32 {
    let pair = 256 * u32::from(node) + u32::from(vnode);
    fmix32(crc32c(&[node, vnode]) ^ fmix32(pair) ^ salt)
}

pub fn key_position(key: &[u8], salt: u32) -> Result<u32, Refusal> {
    key::check(key)?;
    Ok(fmix32(crc32c(key) ^ salt))
}

pub fn place(token: u32, node: u8, vnode: u8) -> u64 {
    u64::from(token) * 65536 + u64::from(node) * 256 + u64::from(vnode)
}

pub fn place_token(place: u64) -> u32 {
    (place / 65536) as u32
}

pub fn place_node(place: u64) -> u8 {
    (place / 256 % 256) as u8
}

pub fn place_vnode(place: u64) -> u8 {
    (place % 256) as u8
}

/// Fills the front of `out` with the ring; the number of its places.
pub fn build(ids: &[u8], vnodes: usize, salt: u32, out: &mut [u64]) -> Result<usize, Refusal> {
    let twice = (1..ids.len()).any(|i| ids[..i].contains(&ids[i]));
    if ids.len() > IDS_MAX || !(1..=VNODES_MAX).contains(&vnodes) || twice {
        return Err(Refusal::BadArgument);
    }
    let mut places = Vec::new();
    for &node in ids {
        for vnode in 0..vnodes as u8 {
            places.push(place(token(node, vnode, salt), node, vnode));
        }
    }
    places.sort_unstable();
    if out.len() < places.len() {
        return Err(Refusal::NoRoom);
    }
    out[..places.len()].copy_from_slice(&places);
    Ok(places.len())
}

pub fn is_sound(ring: &[u64]) -> bool {
    ring.len() <= PLACES_MAX
        && ring.windows(2).all(|pair| pair[0] < pair[1])
        && ring
            .iter()
            .all(|&p| p < 1 << 48 && usize::from(place_vnode(p)) < VNODES_MAX)
}

/// Writes the first `count` owners of a position to the front of `out`.
pub fn owners(
    ring: &[u64],
    table: &PeerTable,
    admission: Admission,
    position: u32,
    count: usize,
    out: &mut [u8],
) -> Result<(), Refusal> {
    if !(1..=OWNERS_MAX).contains(&count) || !table.is_sound() {
        return Err(Refusal::BadArgument);
    }
    if !is_sound(ring) {
        return Err(Refusal::BadRing);
    }
    let taken = walk(ring, table, admission, position, count);
    if taken.len() < count {
        return Err(Refusal::TooFew);
    }
    if out.len() < count {
        return Err(Refusal::NoRoom);
    }
    out[..count].copy_from_slice(&taken);
    Ok(())
}

fn walk(
    ring: &[u64],
    table: &PeerTable,
    admission: Admission,
    position: u32,
    count: usize,
) -> Vec<u8> {
    let at_or_above = ring.iter().position(|&p| place_token(p) >= position);
    let (before, from) = ring.split_at(at_or_above.unwrap_or(0));
    let mut taken = Vec::new();
    for &place in from.iter().chain(before) {
        let node = place_node(place);
        if taken.len() < count && !taken.contains(&node) && table.admits(admission, node) {
            taken.push(node);
        }
    }
    taken
}
