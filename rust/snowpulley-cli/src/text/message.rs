//! Messages in words.

use super::bytes::{hex, shown};
use snowpulley::{frame, Content, Entry, Message, Refusal};

/// What a frame says, or why it says nothing; of each run of bytes at most
/// `limit` are shown.
pub fn of_frame(frame: &[u8], limit: usize) -> String {
    match frame::read(frame) {
        Ok(message) => of_message(&message, limit),
        Err(refusal) => format!("unreadable ({}): {}", refusal.name(), hex(frame, limit)),
    }
}

pub fn of_message(message: &Message<'_>, limit: usize) -> String {
    let (name, text) = (name(message), |bytes| shown(bytes, limit));
    match *message {
        Message::Put { key, value } => format!("{name} {} = {}", text(key), text(value)),
        Message::Get { key } | Message::Del { key } => format!("{name} {}", text(key)),
        Message::Repl(entry) => format!("{name} {}", of_entry(&entry, limit)),
        Message::Value { value } => format!("{name} {}", text(value)),
        Message::Err { number } => format!("{name} {number} {}", refusal_name(number)),
        Message::Ok | Message::NotFound => name.to_string(),
    }
}

/// The name of a message's type.
pub fn name(message: &Message<'_>) -> &'static str {
    match message {
        Message::Put { .. } => "PUT",
        Message::Get { .. } => "GET",
        Message::Del { .. } => "DEL",
        Message::Repl(_) => "REPL",
        Message::Ok => "OK",
        Message::Value { .. } => "VALUE",
        Message::NotFound => "NOTFOUND",
        Message::Err { .. } => "ERR",
    }
}

/// The name of the refusal with a number; an ERR frame may have another one.
fn refusal_name(number: u8) -> &'static str {
    let refusal = Refusal::from_number(number.into());
    refusal.map_or("unnamed", Refusal::name)
}

pub fn of_entry(entry: &Entry<'_>, limit: usize) -> String {
    let content = match entry.content {
        Content::Active(value) => format!("= {}", shown(value, limit)),
        Content::Tombstone => "deleted".to_string(),
    };
    format!("{} {content} at {}", shown(entry.key, limit), entry.stamp)
}
