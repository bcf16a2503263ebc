//! What the library says of a list and a key, in words.

use super::checked::{self, Checked};
use super::unreadable;
use crate::cli::{failure, Failure};
use crate::text::bytes::{fitting, shown};
use crate::text::table::{Column, Side};
use crate::text::time::utc;
use snowpulley::audit::{explain, read, Reason, Unreadable, DELIVERIES_MAX};
use snowpulley::checksum::crc32c;
use snowpulley::{Content, Entry, Refusal};

pub const COLUMNS: [Column; 6] = [
    (Side::Right, "delivery"),
    (Side::Left, "time (UTC)"),
    (Side::Right, "count"),
    (Side::Right, "module id"),
    (Side::Left, "value"),
    (Side::Left, "outcome"),
];
pub const KEY_COLUMN: Column = (Side::Left, "key");

/// The key stands after the delivery's number.
pub fn with_key<T>(key: T, cells: [T; 6]) -> [T; 7] {
    let [delivery, time, count, module, value, outcome] = cells;
    [delivery, key, time, count, module, value, outcome]
}

pub const NOTE: &str = "Each delivery is a REPL frame of the list: the message by which a module \
    sends an entry to another one. Deliveries are counted from 0, in the order of the list. Time, \
    count and module id are the stamp that the writing module gave; they decide in this order, and \
    where all three are equal the contents decide (the value, or that it is a deletion). Times are \
    shown as counted from 1970-01-01 00:00 UTC, which is the site's convention and not a rule of \
    the store.";

/// Above what it means that a stamp was reused.
pub const REUSED_TITLE: &str = "The reused stamp";

pub const REUSED: &str = "A delivery with the outcome \"same stamp, lower contents\" has the \
    stamp of the one in force, but another value, or one of the two is a deletion. So more than \
    one entry was written under one stamp, which should not happen. It can happen when a module is \
    restored from an old copy, when its clock is set anew, or when two modules have the same id. \
    Nothing here tells which entry was written last, or which was meant. Modules that all of them \
    reached keep the same one, by a fixed rule: a deletion rather than a value; of two values the \
    one with the greater byte where they first differ, or the longer one if it begins with the \
    other. Values are not read as amounts: \"+95\" is kept rather than \"+120\". What to do: ask \
    who made these entries, and what was done to the module with this id; then have the right \
    value written anew (docs/AUDIT.md, \"A reused stamp\").";

/// How many columns a value may take, unless all of it is asked for: in the
/// answer, and in a table, whose lines so have at most 120.
const IN_ANSWER: usize = 60;
const IN_TABLE: usize = 28;
const ALL: usize = usize::MAX;

/// What is found, and what it is about.
pub struct Findings<'a> {
    /// The name of the list.
    name: String,
    list: &'a [u8],
    key: &'a [u8],
    /// None where the list cannot be read.
    deliveries: Vec<Judged<'a>>,
    answer: Answer<'a>,
}

/// A delivery, and what the library says of it.
struct Judged<'a> {
    entry: Entry<'a>,
    reason: Reason,
}

enum Answer<'a> {
    /// The winner's place.
    Winner(usize),
    NoDelivery,
    Unreadable(Unreadable<'a>),
}

/// A delivery's row.
pub struct Row {
    pub cells: [String; 6],
    pub key: String,
    /// Whether the delivery is in force.
    pub is_winner: bool,
}

impl<'a> Findings<'a> {
    pub fn of(name: String, list: &'a [u8], key: &'a [u8]) -> Result<Findings<'a>, Failure> {
        let mut reasons = [0; DELIVERIES_MAX];
        let (deliveries, answer) = match (explain(list, key, &mut reasons), read(list)) {
            (Err(Refusal::BadArgument), Err(unreadable)) => {
                (Vec::new(), Answer::Unreadable(unreadable))
            }
            (Err(refusal), _) => {
                let key = shown(key, ALL);
                return Err(failure(format!("key {key}: refused with {refusal}")));
            }
            (_, Err(_)) => return Err(failure("the library reads the list, and the tool cannot")),
            (Ok(winner), Ok(deliveries)) => {
                let entries = deliveries.iter().map(|delivery| delivery.entry);
                let deliveries: Result<_, _> = entries.zip(reasons).map(judged).collect();
                (
                    deliveries?,
                    winner.map_or(Answer::NoDelivery, Answer::Winner),
                )
            }
        };
        Ok(Findings {
            name,
            list,
            key,
            deliveries,
            answer,
        })
    }

    /// Whether a delivery is in force.
    pub fn is_good(&self) -> bool {
        matches!(self.answer, Answer::Winner(_))
    }

    pub fn key(&self) -> String {
        shown(self.key, ALL)
    }

    /// The list's length and checksum.
    pub fn size(&self) -> String {
        let (bytes, checksum) = (self.list.len(), crc32c(self.list));
        format!("{bytes} bytes, checksum CRC32C {checksum:#010x}")
    }

    /// The answer, in a few lines.
    pub fn answer(&self, full: bool) -> String {
        let key = self.key();
        match &self.answer {
            Answer::Winner(place) => self.in_force(*place, if full { ALL } else { IN_ANSWER }),
            Answer::NoDelivery => format!("The list has no delivery of {key}."),
            Answer::Unreadable(fault) => {
                let told = unreadable::told(self.list, fault);
                format!("No delivery of {key} can be named:\n{told}")
            }
        }
    }

    fn in_force(&self, place: usize, width: usize) -> String {
        let (key, stamp) = (self.key(), self.deliveries[place].entry.stamp);
        let (content, time, node) = (self.content(place, width), utc(stamp.phys), stamp.node);
        let mut text = format!(
            "Of the deliveries in this list, delivery {place} is in force for {key}:\n\
             {content}, stamped {time} UTC by module {node}."
        );
        if self.has_reused_stamp() {
            text += &format!(
                "\nThis stamp was given to more than one entry, which should not happen:\n\
                 see \"{REUSED_TITLE}\" below."
            );
        }
        text
    }

    /// Whether a delivery has the winner's stamp and other contents.
    pub fn has_reused_stamp(&self) -> bool {
        let mut deliveries = self.deliveries.iter();
        deliveries.any(|delivery| delivery.reason == Reason::LowerContent)
    }

    fn content(&self, place: usize, width: usize) -> String {
        match self.deliveries[place].entry.content {
            Content::Active(value) => fitting(value, width),
            Content::Tombstone => "deleted".to_string(),
        }
    }

    /// What the answer is about, each with its name.
    pub fn facts(&self, all: bool) -> Vec<(&'static str, String)> {
        let mut facts = vec![
            ("key", self.key()),
            ("list", format!("{}, {}", self.name, self.size())),
        ];
        if !matches!(self.answer, Answer::Unreadable(_)) {
            facts.push(("deliveries", self.counted(all)));
        }
        facts
    }

    fn counted(&self, all: bool) -> String {
        let count = self.deliveries.len();
        let own = (0..count).filter(|&place| self.is_of_key(place)).count();
        let others = count - own;
        let listed = if all || others == 0 {
            ""
        } else {
            " (not listed)"
        };
        format!("{count}; of this key: {own}; of other keys: {others}{listed}")
    }

    fn is_of_key(&self, place: usize) -> bool {
        self.deliveries[place].reason != Reason::OtherKey
    }

    /// A row for each delivery of the key, or for all.
    pub fn rows(&self, all: bool, full: bool) -> Vec<Row> {
        let places = 0..self.deliveries.len();
        let listed = places.filter(|&place| all || self.is_of_key(place));
        let width = if full { ALL } else { IN_TABLE };
        listed.map(|place| self.row(place, width)).collect()
    }

    fn row(&self, place: usize, width: usize) -> Row {
        let Judged { entry, reason } = self.deliveries[place];
        let cells = [
            place.to_string(),
            utc(entry.stamp.phys),
            entry.stamp.logical.to_string(),
            entry.stamp.node.to_string(),
            self.content(place, width),
            compared(reason).to_string(),
        ];
        Row {
            cells,
            key: fitting(entry.key, width),
            is_winner: reason == Reason::Won,
        }
    }

    /// What was checked of the answer.
    pub fn checked(&self) -> Checked {
        match self.answer {
            Answer::Winner(_) => checked::WINNER,
            Answer::NoDelivery => checked::NO_DELIVERY,
            Answer::Unreadable(_) => checked::UNREADABLE,
        }
    }
}

/// A delivery by its entry and the byte of its reason.
fn judged((entry, byte): (Entry<'_>, u8)) -> Result<Judged<'_>, Failure> {
    let unknown = || failure("the library gives a reason that the tool does not know");
    let reason = Reason::of(byte).ok_or_else(unknown)?;
    Ok(Judged { entry, reason })
}

/// A reason in the words of a report: there a node is a module.
fn compared(reason: Reason) -> &'static str {
    match reason {
        Reason::Won => "WON",
        Reason::LowerNode => "same time and count, lower module id",
        other => other.text(),
    }
}
