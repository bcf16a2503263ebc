//! Lists of deliveries: REPL frames, one right after the other, as they came.

use crate::frame::{self, number_from, Message};
use crate::refusal::Refusal;
use crate::store::Entry;
use std::ops::Range;

pub const DELIVERIES_MAX: usize = 1000;

#[derive(Clone, Debug, PartialEq, Eq)]
pub struct Delivery {
    pub entry: Entry,
    /// Where the delivery's frame stands in the list.
    pub frame: Range<usize>,
}

/// The deliveries of a list, none of them where the list is empty. Whatever
/// is wrong with a list is 17, also what the frame reader has other numbers
/// for.
pub fn read(list: &[u8]) -> Result<Vec<Delivery>, Refusal> {
    let mut deliveries = Vec::new();
    let mut start = 0;
    while start < list.len() {
        let delivery = read_at(list, start).ok_or(Refusal::BadArgument)?;
        start = delivery.frame.end;
        deliveries.push(delivery);
    }
    if deliveries.len() > DELIVERIES_MAX {
        return Err(Refusal::BadArgument);
    }
    Ok(deliveries)
}

/// The delivery whose frame begins here, as long as its LEN says.
fn read_at(list: &[u8], start: usize) -> Option<Delivery> {
    let len = number_from(list.get(start..start + 2)?) as usize;
    let frame = start..start + 2 + len;
    match frame::read(list.get(frame.clone())?) {
        Ok(Message::Repl {
            key,
            flag,
            stamp,
            value,
        }) => Some(Delivery {
            entry: Entry {
                key,
                value,
                flag,
                stamp,
            },
            frame,
        }),
        _ => None,
    }
}
