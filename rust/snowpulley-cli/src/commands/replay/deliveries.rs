//! The list of a journal's deliveries, and what is not in it.

use crate::text::bytes::shown;
use snowpulley::audit::DELIVERIES_MAX;
use snowpulley::{frame, Message};

#[derive(Default)]
pub struct Deliveries {
    /// The REPL frames that were answered OK, one right after the other.
    pub list: Vec<u8>,
    /// The key of those that are written, if not all are.
    key: Option<Vec<u8>>,
    written: usize,
    /// REPL frames that were not answered OK.
    refused: usize,
    /// PUT and DEL that were answered OK.
    own: usize,
    /// REPL frames of other keys than the one asked for.
    others: usize,
    /// Frames of which nobody can say what they were.
    unreadable: usize,
}

impl Deliveries {
    pub fn of(key: Option<Vec<u8>>) -> Deliveries {
        Deliveries {
            key,
            ..Deliveries::default()
        }
    }

    /// Takes a request, and whether it was answered OK.
    pub fn add(&mut self, request: &[u8], is_ok: bool) {
        match frame::read(request) {
            Ok(Message::Repl(entry)) if !self.is_asked(entry.key) => self.others += 1,
            Ok(Message::Repl(_)) if is_ok => {
                self.list.extend(request);
                self.written += 1;
            }
            Ok(Message::Repl(_)) => self.refused += 1,
            Ok(Message::Put { key, .. } | Message::Del { key }) if is_ok && self.is_asked(key) => {
                self.own += 1;
            }
            Ok(_) => {}
            Err(_) => self.unreadable += 1,
        }
    }

    fn is_asked(&self, key: &[u8]) -> bool {
        self.key.as_ref().is_none_or(|asked| asked == key)
    }

    /// What is in the list, and what is not.
    pub fn note(&self) -> String {
        let of = self.key.as_ref().map(|key| shown(key, usize::MAX));
        let of = of.map_or(String::new(), |key| format!(" of {key}"));
        let Deliveries {
            written,
            refused,
            own,
            others,
            unreadable,
            ..
        } = self;
        let mut text = format!(
            "deliveries written: {written}, the REPL frames{of} that were answered OK\n\
             not in the list:\n  \
             REPL frames{of} that were refused: {refused}\n  \
             PUT and DEL{of} that were answered OK: {own}\n  \
             frames that cannot be read: {unreadable}\n"
        );
        if self.key.is_some() {
            text += &format!("  REPL frames of other keys: {others}\n");
        }
        text + "  what came in a merged store: no journal has it\n" + &self.too_many()
    }

    fn too_many(&self) -> String {
        let more = match self.key {
            Some(_) => "",
            None => "; --key KEY writes those of one key",
        };
        if self.written > DELIVERIES_MAX {
            format!("snowpulley audit takes at most {DELIVERIES_MAX} deliveries{more}\n")
        } else {
            String::new()
        }
    }
}
