//! Stamps, and the range of times.

use crate::refusal::Refusal;

/// Times are below this number.
pub const TIME_END: u64 = 1 << 48;

/// A stamp; the order of the fields is the order of comparison.
#[derive(Clone, Copy, Debug, PartialEq, Eq, PartialOrd, Ord)]
pub struct Stamp {
    pub phys: u64,
    pub logical: u16,
    pub node: u8,
}

impl Stamp {
    pub const LEAST: Stamp = Stamp {
        phys: 0,
        logical: 0,
        node: 0,
    };
}

pub fn check_time(time: u64) -> Result<(), Refusal> {
    if time < TIME_END {
        Ok(())
    } else {
        Err(Refusal::BadTime)
    }
}
