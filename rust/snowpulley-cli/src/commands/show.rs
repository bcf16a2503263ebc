//! `snowpulley show`: a store image, readably.

use crate::args::Args;
use crate::cli::{Command, Outcome, Report};
use crate::faults::{self, Fault};
use crate::files;
use crate::text::bytes::{limit, shown};
use crate::text::entries::{self, with_note, Row, COLUMNS};
use crate::text::table::{Side, Table};
use crate::text::time::line_shown;
use snowpulley::image::{self, Header, Slot};
use snowpulley::{store, Entry};
use std::fmt::Write;

pub const COMMAND: Command = Command {
    name: "show",
    usage: "STORE [--full]",
    summary: "show a store image: its header, entries and free slots",
    help: &["\
Shows the header with the purge line, a row for each used slot and the free
slots. STORE is a file, or - for standard input. Long keys and values are cut
unless --full is given.
Bytes that are not printable ASCII are in hexadecimal after an x.

For an image that is not sound, a negative answer, it names the first fault and
its slot, and shows what the bytes say all the same.
"],
    run,
};

fn run(mut args: Args) -> Outcome {
    let limit = limit(args.flag("--full"));
    let image = files::read(&args.operand("STORE")?)?;
    Ok(match store::entries(&image) {
        Ok(entries) => Report::good(sound(&image, &entries, limit)),
        Err(_) => Report::negative(unsound(&image, limit)),
    })
}

fn sound(image: &[u8], entries: &[Entry<'_>], limit: usize) -> String {
    let mut text = format!("{} bytes: a sound store\n", image.len());
    text += &header(image);
    if !entries.is_empty() {
        let _ = write!(text, "\n{}", entries::table(entries, limit));
    }
    let _ = writeln!(text, "\nfree: {}", free_slots(image, entries.len()));
    text
}

/// The slots after the used ones.
fn free_slots(image: &[u8], used: usize) -> String {
    match image::slots(image).count() - used {
        0 => "none".to_string(),
        1 => format!("slot {used}"),
        free => format!("slots {used} to {}", used + free - 1),
    }
}

/// The header's numbers, as they stand.
fn header(image: &[u8]) -> String {
    match Header::read(image) {
        None => "no header\n".to_string(),
        Some(header) => format!(
            "header: slots {}, used {}, slot width {}, first slot at byte {}\n\
             purge line: {}\n",
            header.slots,
            header.used,
            header.slot_width,
            header.first_slot,
            line_shown(header.line)
        ),
    }
}

fn unsound(image: &[u8], limit: usize) -> String {
    let mut text = format!("{} bytes: NOT a sound store\n", image.len());
    if let Some((slot, fault)) = faults::first(image) {
        let place = slot.map_or("header".to_string(), |slot| format!("slot {slot}"));
        let Fault { name, meaning } = fault;
        let _ = writeln!(text, "first fault: {place}: {name}: {meaning}");
    }
    text += &header(image);
    let slots: Vec<_> = image::slots(image).zip(faults::of_slots(image)).collect();
    let zero = slots.iter().filter(|(slot, _)| slot.is_zero()).count();
    if zero < slots.len() {
        text +=
            "\nThe slots that are not all zero, as their bytes read. Nothing vouches for them.\n";
        let _ = write!(text, "\n{}", read_all_the_same(&slots, limit));
    }
    let _ = writeln!(text, "\nslots: {}, of which all zero: {zero}", slots.len());
    text
}

/// The columns of a sound store's table, and each slot's own fault.
fn read_all_the_same(slots: &[(Slot<'_>, Option<Fault>)], limit: usize) -> Table<9> {
    let mut table = Table::new(with_note((Side::Left, "fault"), COLUMNS));
    for (index, (slot, fault)) in slots.iter().enumerate() {
        if !slot.is_zero() {
            let fault = fault.map_or("none", |fault| fault.name).to_string();
            table.push(with_note(fault, row(index, *slot, limit).cells()));
        }
    }
    table
}

fn row(slot: usize, bytes: Slot<'_>, limit: usize) -> Row {
    let (key, value) = (bytes.key().0, bytes.value().0);
    Row {
        slot,
        state: match bytes.flag() {
            0 => "active".to_string(),
            1 => "tombstone".to_string(),
            flag => format!("flag {flag}"),
        },
        key: shown(key, limit),
        stamp: bytes.stamp(),
        value: match bytes.flag() {
            1 if value.is_empty() => String::new(),
            _ => shown(value, limit),
        },
    }
}
