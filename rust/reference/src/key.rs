//! Which keys are acceptable.

use crate::refusal::Refusal;

pub const KEY_MAX: usize = 64;

/// Beginnings kept for the system's own keys.
pub const RESERVED: [&[u8]; 4] = [b"_sys:", b"_ring:", b"_hint:", b"_gossip:"];

pub fn is_acceptable(key: &[u8]) -> bool {
    !key.is_empty() && key.len() <= KEY_MAX && !RESERVED.iter().any(|begin| key.starts_with(begin))
}

pub fn check(key: &[u8]) -> Result<(), Refusal> {
    if is_acceptable(key) {
        Ok(())
    } else {
        Err(Refusal::BadKey)
    }
}
