//! The ring and the owner walk.

use crate::peers::PeerTable;
use crate::raw;
use crate::refusal::{split, Refusal};
use snowpulley_sys::{SP_HOME, SP_STANDING};

pub use crate::raw::token;
pub use snowpulley_sys::SP_OWNERS_MAX as OWNERS_MAX;
pub use snowpulley_sys::SP_RING_MAX as PLACES_MAX;
pub use snowpulley_sys::SP_VNODES_MAX as VNODES_MAX;

/// Who is admitted to an owner list.
#[derive(Clone, Copy, Debug, PartialEq, Eq)]
#[repr(u32)]
pub enum Admission {
    /// Every peer with a row.
    Home = SP_HOME,
    /// Every peer with a row that is not DOWN.
    Standing = SP_STANDING,
}

/// Where one of a module's vnodes stands on the ring.
#[derive(Clone, Copy, Debug, PartialEq, Eq, PartialOrd, Ord)]
pub struct Place {
    pub token: u32,
    pub node: u8,
    pub vnode: u8,
}

impl Place {
    /// The place that a word of a sound ring stands for.
    pub fn of(word: u64) -> Place {
        Place {
            token: (word >> 16) as u32,
            node: (word >> 8) as u8,
            vnode: word as u8,
        }
    }
}

/// A key's ring position.
pub fn key_position(key: &[u8], salt: u32) -> Result<u32, Refusal> {
    let mut position = [0];
    split(raw::key_position(key, salt, &mut position))?;
    Ok(position[0])
}

/// Fills the front of `ring`; the number of places.
pub fn build(ids: &[u8], vnodes: u32, salt: u32, ring: &mut [u64]) -> Result<usize, Refusal> {
    split(raw::ring_build(ids, vnodes, salt, ring)).map(usize::from)
}

/// The ring of some ids.
pub fn built(ids: &[u8], vnodes: u32, salt: u32) -> Result<Vec<u64>, Refusal> {
    let mut ring = vec![0; PLACES_MAX];
    let count = build(ids, vnodes, salt, &mut ring)?;
    ring.truncate(count);
    Ok(ring)
}

pub fn is_sound(ring: &[u64]) -> bool {
    raw::ring_is_sound(ring) == 1
}

/// Writes the `count` owners of a position to the front of `out`.
pub fn owners(
    ring: &[u64],
    table: &PeerTable,
    position: u32,
    admission: Admission,
    count: u32,
    out: &mut [u8],
) -> Result<(), Refusal> {
    let words = table.words();
    split(raw::owners(
        ring,
        &words,
        position,
        admission as u32,
        count,
        out,
    ))?;
    Ok(())
}
