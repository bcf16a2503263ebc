//! Values and the flag that tells an active entry from a tombstone.

use crate::refusal::Refusal;

pub const VALUE_MAX: usize = 512;

pub const ACTIVE: u8 = 0;
pub const TOMBSTONE: u8 = 1;

pub fn check(value: &[u8]) -> Result<(), Refusal> {
    if value.len() <= VALUE_MAX {
        Ok(())
    } else {
        Err(Refusal::ValueTooLarge)
    }
}

/// Whether the flag is one of the two and, if a tombstone, has no value.
pub fn flag_fits(flag: u8, value_length: usize) -> bool {
    flag == ACTIVE || (flag == TOMBSTONE && value_length == 0)
}
