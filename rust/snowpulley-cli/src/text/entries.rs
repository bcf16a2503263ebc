//! Entries as a table.

use super::bytes::shown;
use super::table::{Column, Side, Table};
use super::time::utc;
use snowpulley::{Content, Entry, Stamp};

pub const COLUMNS: [Column; 8] = [
    (Side::Right, "slot"),
    (Side::Left, "state"),
    (Side::Left, "key"),
    (Side::Left, "time (UTC)"),
    (Side::Right, "phys"),
    (Side::Right, "logical"),
    (Side::Right, "node"),
    (Side::Left, "value"),
];

/// The cells of a slot's row.
pub struct Row {
    pub slot: usize,
    pub state: String,
    pub key: String,
    pub stamp: Stamp,
    pub value: String,
}

impl Row {
    pub fn cells(self) -> [String; 8] {
        let Stamp {
            phys,
            logical,
            node,
        } = self.stamp;
        [
            self.slot.to_string(),
            self.state,
            self.key,
            utc(phys),
            phys.to_string(),
            logical.to_string(),
            node.to_string(),
            self.value,
        ]
    }
}

/// The row of an entry of a sound store.
pub fn row(slot: usize, entry: &Entry<'_>, limit: usize) -> Row {
    let (state, value) = match entry.content {
        Content::Active(value) => ("active", shown(value, limit)),
        Content::Tombstone => ("tombstone", String::new()),
    };
    Row {
        slot,
        state: state.to_string(),
        key: shown(entry.key, limit),
        stamp: entry.stamp,
        value,
    }
}

/// One row for each entry of a sound store.
pub fn table(entries: &[Entry<'_>], limit: usize) -> Table<8> {
    let mut table = Table::new(COLUMNS);
    for (slot, entry) in entries.iter().enumerate() {
        table.push(row(slot, entry, limit).cells());
    }
    table
}

/// The cells of a row, or the columns, with one more after the slot's number.
pub fn with_note<T>(note: T, cells: [T; 8]) -> [T; 9] {
    let [slot, state, key, utc, phys, logical, node, value] = cells;
    [slot, note, state, key, utc, phys, logical, node, value]
}
