//! What is said of a list that is not readable.

use crate::journal::Records;
use crate::text::message::name;
use snowpulley::audit::{Fault, Unreadable, DELIVERIES_MAX};
use snowpulley::checksum::crc32c;
use snowpulley::frame::{self, LEN_BYTES, LEN_RANGE};
use snowpulley::Refusal;

/// Why the list is not readable, how much of it is, and what may help; a line
/// each.
pub fn told(list: &[u8], unreadable: &Unreadable<'_>) -> String {
    let Unreadable { place, at, fault } = unreadable;
    let fault = fault_text(&list[*at..], fault);
    let mut text = format!("delivery {place}, {at} bytes into the list, {fault}.");
    match place {
        0 => {}
        1 => text += &format!("\nThe first delivery can be read, and is the first {at} bytes."),
        _ => {
            text += &format!(
                "\nThe first {place} deliveries can be read, and stand in the first {at} bytes."
            );
        }
    }
    if let Some(hint) = hint(list, unreadable) {
        text += &format!("\n{hint}");
    }
    text
}

/// What is wrong with the delivery that some bytes begin with.
fn fault_text(bytes: &[u8], fault: &Fault<'_>) -> String {
    let fault = match fault {
        Fault::TooMany => return format!("is one too many: audit takes at most {DELIVERIES_MAX}"),
        Fault::Cut(1) => "the list ends after 1 byte of its frame".to_string(),
        Fault::Cut(bytes) => format!("the list ends after {bytes} bytes of its frame"),
        Fault::Len(len) => {
            let (low, high) = (LEN_RANGE.start(), LEN_RANGE.end());
            format!("its LEN is {len}, and may be {low} to {high}")
        }
        Fault::Refused(Refusal::BadFrame) if !is_sealed(bytes) => {
            "its checksum does not match its bytes".to_string()
        }
        Fault::Refused(refusal) => format!("its frame is refused with {refusal}"),
        Fault::NoRepl(message) => {
            format!("it is a frame of type {}, not REPL", name(message))
        }
    };
    format!("cannot be read: {fault}")
}

/// Whether the frame that some bytes begin with has at its end the checksum of
/// what stands between LEN and that end.
fn is_sealed(bytes: &[u8]) -> bool {
    let after_len = bytes.split_first_chunk::<LEN_BYTES>();
    let counted = after_len.and_then(|(len, rest)| {
        let len = usize::from(u16::from_be_bytes(*len));
        rest.get(..len)
    });
    let parts = counted.and_then(<[u8]>::split_last_chunk);
    parts.is_some_and(|(covered, sum)| crc32c(covered) == u32::from_be_bytes(*sum))
}

fn hint(list: &[u8], unreadable: &Unreadable<'_>) -> Option<&'static str> {
    let Unreadable { place, fault, .. } = unreadable;
    if *fault == Fault::TooMany {
        return Some("See snowpulley replay --key, which writes the deliveries of one key.");
    }
    let is_len = matches!(fault, Fault::Len(_));
    let may_be_journal = *place == 0 && (is_len || begins_as_journal(list));
    may_be_journal.then_some("Is this a journal? See snowpulley replay --deliveries.")
}

/// A time may begin as a LEN in range does, so the first record is looked at.
fn begins_as_journal(list: &[u8]) -> bool {
    let first = Records::of(list).next().and_then(Result::ok);
    first.is_some_and(|record| frame::read(record.frame).is_ok())
}
