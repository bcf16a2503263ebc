//! Which delivery of a key is in force, and why each other one lost.

use crate::deliveries::{self, Delivery};
use crate::key;
use crate::refusal::Refusal;

/// What is said of each delivery.
pub const WINNER: u8 = 0;
pub const EARLIER_TIME: u8 = 1;
pub const LOWER_COUNT: u8 = 2;
pub const LOWER_NODE: u8 = 3;
pub const SAME_ENTRY: u8 = 4;
pub const OTHER_KEY: u8 = 5;
pub const LOWER_CONTENT: u8 = 6;

/// The place of the delivery that is in force, or None where the key was never
/// delivered; places count from 0. The front of `reasons` gets one byte for
/// each delivery of the list.
pub fn explain(list: &[u8], key: &[u8], reasons: &mut [u8]) -> Result<Option<usize>, Refusal> {
    let deliveries = deliveries::read(list)?;
    key::check(key)?;
    if reasons.len() < deliveries.len() {
        return Err(Refusal::NoRoom);
    }
    let Some(winner) = winner(&deliveries, key) else {
        reasons[..deliveries.len()].fill(OTHER_KEY);
        return Ok(None);
    };
    for place in 0..deliveries.len() {
        reasons[place] = if place == winner {
            WINNER
        } else {
            reason(&deliveries[place], &deliveries[winner])
        };
    }
    Ok(Some(winner))
}

/// The first delivery of the key that has no other of the key above it.
fn winner(deliveries: &[Delivery], key: &[u8]) -> Option<usize> {
    let of_key = (0..deliveries.len()).filter(|&place| deliveries[place].entry.key == key);
    // Of equal ones `max_by_key` takes the last; from the end, that is the first.
    of_key
        .rev()
        .max_by_key(|&place| deliveries[place].entry.rank())
}

/// Why a delivery is not in force and the winner is.
fn reason(lost: &Delivery, winner: &Delivery) -> u8 {
    let (lost, won) = (&lost.entry, &winner.entry);
    if lost.key != won.key {
        OTHER_KEY
    } else if lost.stamp.phys < won.stamp.phys {
        EARLIER_TIME
    } else if lost.stamp.logical < won.stamp.logical {
        LOWER_COUNT
    } else if lost.stamp.node < won.stamp.node {
        LOWER_NODE
    } else if lost.rank() < won.rank() {
        LOWER_CONTENT
    } else {
        SAME_ENTRY
    }
}
