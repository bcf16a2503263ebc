//! Single calls.

use crate::inputs::{
    deleted, deliveries, different_deliveries, greater, key, last_greater, peers, store, value,
    DELIVERED, HELD, LINE, NEW, OLD, SALT,
};
use crate::measure::{by, medians, on_copies, steady, timer_cost, Subject, ROUNDS};
use crate::table::{self, nanoseconds, Row};
use reference::checksum::{crc32c_cpu, crc32c_table, crc32c_wide, Way};
use reference::clock::Clock;
use reference::frame::{Message, FRAME_MAX};
use reference::peers::Admission;
use reference::ring::PLACES_MAX;
use reference::stamp::Stamp;
use reference::{explain, node, ring, store as reference_store};
use samples::script::{framed, put_message, repl_message};
use snowpulley::audit::DELIVERIES_MAX;
use snowpulley::store::Found;
use std::hint::black_box;

const WAYS: [Way; 3] = [Way::Table, Way::Wide, Way::Cpu];

/// The times of all calls, as Markdown.
pub fn tables() -> String {
    let rows = fastest(|| [handler_rows(), store_rows(), ring_rows(), explain_rows()].concat());
    let times = table::markdown("ns", &rows, |_, time| nanoseconds(time));
    format!(
        "Medians of {ROUNDS} rounds in which the subjects take short turns. Each row is from the\n\
         fastest of {PASSES} passes over its table. A ratio is the proved library's time over the\n\
         reference's.\n\n{}\n{times}\n\
         Handler, offer, merge and purge run on a fresh copy of the store each time. The copy is\n\
         outside the timed part; the timer itself adds about {} ns to each such call.\n",
        checksums(),
        nanoseconds(timer_cost())
    )
}

/// Other work on the machine slows all subjects of a row for some seconds, so the
/// rows are measured in several passes.
const PASSES: usize = 5;

/// Each row as it was in the pass that took the least time over all its subjects.
fn fastest(pass: impl Fn() -> Vec<Row>) -> Vec<Row> {
    let mut rows = pass();
    for _ in 1..PASSES {
        for (row, again) in rows.iter_mut().zip(pass()) {
            if again.total() < row.total() {
                *row = again;
            }
        }
    }
    rows
}

/// The row of a call that both sides make; the reference's by each way.
fn row<'a>(name: String, proved: Subject<'a>, reference: impl Fn() -> Subject<'a>) -> Row {
    let mut subjects = vec![proved];
    subjects.extend(WAYS.map(|way| by(way, reference())));
    let times = medians(&mut subjects);
    Row {
        name,
        proved: times[0],
        reference: [Some(times[1]), Some(times[2]), Some(times[3])],
    }
}

fn checksums() -> String {
    let bytes = value(59_616);
    let lengths = [592, 59_616];
    let row = |length: usize| checksum_row(&bytes[..length]);
    let rows = fastest(|| lengths.map(row).to_vec());
    table::markdown("GB/s", &rows, |index, time| {
        format!("{:.2}", lengths[index] as f64 / time)
    })
}

fn checksum_row(bytes: &[u8]) -> Row {
    let mut subjects = vec![
        steady(|| snowpulley::checksum::crc32c(black_box(bytes))),
        steady(|| crc32c_table(black_box(bytes))),
        steady(|| crc32c_wide(black_box(bytes))),
    ];
    let has_cpu = crc32c_cpu(bytes).is_some();
    if has_cpu {
        subjects.push(steady(|| crc32c_cpu(black_box(bytes))));
    }
    let times = medians(&mut subjects);
    Row {
        name: format!("crc32c of {} bytes", bytes.len()),
        proved: times[0],
        reference: [Some(times[1]), Some(times[2]), times.get(3).copied()],
    }
}

fn handler_rows() -> Vec<Row> {
    let mut rows = Vec::new();
    for length in [33, 512] {
        for used in [1, 10, 100] {
            let held = key(used / 2 * 2);
            let value = value(length);
            let image = store(0, used, length, HELD);
            // A new key needs a free slot.
            let free = store(0, used.min(99), length, HELD);
            let repl = repl_message(&held, OLD, Some(&value));
            let requests = [
                ("GET", &image, Message::Get { key: held.clone() }),
                (
                    "PUT new",
                    &free,
                    put_message(&key(used / 2 * 2 + 1), &value),
                ),
                ("PUT over", &image, put_message(&held, &value)),
                ("DEL", &image, Message::Del { key: held.clone() }),
                ("REPL kept", &image, repl),
            ];
            for (what, image, message) in requests {
                let used = reference_store::used_count(image);
                let name = format!("{what}, {used} used, {length} bytes");
                rows.push(handler_row(name, image, &framed(&message)));
            }
        }
    }
    rows
}

fn handler_row(name: String, image: &[u8], frame: &[u8]) -> Row {
    let mut clock = Clock::fresh(1);
    clock.phys = 2000;
    let proved = |store: &mut [u8], reply: &mut [u8]| {
        let mut own = snowpulley::Clock::fresh(1);
        own.phys = 2000;
        snowpulley::handler::handle(store, &mut own, 3000, frame, reply).length
    };
    let reference =
        |store: &mut [u8], reply: &mut [u8]| node::handle(clock, store, 3000, frame, reply).length;
    let outcome = |call: &dyn Fn(&mut [u8], &mut [u8]) -> usize| {
        let (mut store, mut reply) = (image.to_vec(), [0; FRAME_MAX]);
        let length = call(&mut store, &mut reply);
        (store, reply[..length].to_vec())
    };
    assert_eq!(outcome(&proved), outcome(&reference), "{name}");
    let (mut first, proved) = ([0; FRAME_MAX], &proved);
    row(
        name,
        on_copies(image, move |store| proved(store, &mut first)),
        || {
            let mut reply = [0; FRAME_MAX];
            on_copies(image, move |store| reference(store, &mut reply))
        },
    )
}

fn store_rows() -> Vec<Row> {
    let rows = |length| [offer_rows(length), merge_rows(length)].concat();
    let rows = [33, 512].into_iter().flat_map(rows);
    rows.chain(purge_rows()).collect()
}

/// Lookups and offers. At an equal stamp the values differ at the last byte.
fn offer_rows(length: usize) -> Vec<Row> {
    let (full, free) = (store(0, 100, length, HELD), store(0, 99, length, HELD));
    let name = |what: &str| format!("{what}, {length} bytes");
    let (value, new, held) = (value(length), key(99), key(100));
    let greater = greater(value.clone());
    let equal = name("offer over at an equal stamp, 100 used");
    vec![
        lookup_row(name("lookup, 100 used"), &full),
        offer_row(name("offer new, 99 used"), &free, &new, &value, NEW),
        offer_row(name("offer over, 100 used"), &full, &held, &value, NEW),
        offer_row(equal, &full, &held, &greater, HELD),
    ]
}

fn merge_rows(length: usize) -> Vec<Row> {
    let full = store(0, 100, length, HELD);
    let (newer, older) = (store(0, 100, length, NEW), store(0, 100, length, OLD));
    let (even, odd) = (store(0, 50, length, HELD), store(1, 50, length, HELD));
    let stores = [
        ("100 into 100, all newer", &full, &newer),
        ("100 into 100, all older", &full, &older),
        ("100 into 100, all the same", &full, &full),
        ("50 into 50, no common key", &even, &odd),
    ];
    let row = |(what, image, giver): (&str, &Vec<u8>, &Vec<u8>)| {
        merge_row(format!("merge {what}, {length} bytes"), image, giver)
    };
    stores.map(row).to_vec()
}

fn lookup_row(name: String, image: &[u8]) -> Row {
    let key = &key(100);
    let held = Ok(Found::Value(reference_store::value(image, key)));
    assert_eq!(snowpulley::store::lookup(image, key), held, "{name}");
    let proved = steady(move || snowpulley::store::lookup(black_box(image), key).is_ok());
    row(name, proved, || {
        steady(move || reference_store::value(black_box(image), key).len())
    })
}

fn offer_row(name: String, image: &[u8], key: &[u8], value: &[u8], stamp: Stamp) -> Row {
    let entry = snowpulley::Entry {
        key,
        content: snowpulley::Content::Active(value),
        stamp: snowpulley::Stamp {
            phys: stamp.phys,
            logical: stamp.logical,
            node: stamp.node,
        },
    };
    let proved = move |store: &mut [u8]| snowpulley::store::offer(store, &entry).is_ok();
    let reference =
        move |store: &mut [u8]| reference_store::offer(store, key, value, 0, stamp).is_ok();
    same_store(&name, image, &proved, &reference);
    row(name, on_copies(image, proved), || {
        on_copies(image, reference)
    })
}

fn merge_row(name: String, image: &[u8], giver: &[u8]) -> Row {
    let proved = move |store: &mut [u8]| snowpulley::store::merge(store, giver).is_ok();
    let reference = move |store: &mut [u8]| reference_store::merge(store, giver).is_ok();
    same_store(&name, image, &proved, &reference);
    row(name, on_copies(image, proved), || {
        on_copies(image, reference)
    })
}

/// The entries that remain have values of 512 bytes.
fn purge_rows() -> Vec<Row> {
    let row = |count| purge_row(format!("purge {count} of 100"), &deleted(count));
    [1, 50, 100].map(row).to_vec()
}

fn purge_row(name: String, image: &[u8]) -> Row {
    let proved = |store: &mut [u8]| snowpulley::store::purge(store, LINE).is_ok();
    let reference = |store: &mut [u8]| reference_store::purge(store, LINE).is_ok();
    same_store(&name, image, &proved, &reference);
    row(name, on_copies(image, proved), || {
        on_copies(image, reference)
    })
}

/// Both calls must succeed and leave the same store.
fn same_store(
    name: &str,
    image: &[u8],
    proved: &dyn Fn(&mut [u8]) -> bool,
    reference: &dyn Fn(&mut [u8]) -> bool,
) {
    let (mut one, mut two) = (image.to_vec(), image.to_vec());
    assert!(proved(&mut one) && reference(&mut two), "{name}");
    assert!(one == two, "{name}: the stores differ");
}

fn ring_rows() -> Vec<Row> {
    vec![owners_row(), build_row()]
}

fn build_row() -> Row {
    let (ids, _, _) = &peers();
    let (mut places, mut other) = ([0; PLACES_MAX], [0; PLACES_MAX]);
    snowpulley::ring::build(ids, 64, SALT, &mut places).expect("a right ring");
    ring::build(ids, 64, SALT, &mut other).expect("a right ring");
    assert!(places == other, "the rings differ");
    let proved = steady(move || snowpulley::ring::build(ids, 64, black_box(SALT), &mut places));
    let name = "ring build, 10 ids, 64 vnodes".to_string();
    row(name, proved, || {
        let mut places = [0; PLACES_MAX];
        steady(move || ring::build(ids, 64, black_box(SALT), &mut places))
    })
}

/// The walk takes no checksum, so the reference has one time only.
fn owners_row() -> Row {
    let (ids, table, proved_table) = peers();
    let mut places = [0; PLACES_MAX];
    ring::build(&ids, 64, SALT, &mut places).expect("a right ring");
    // Positions all round the ring.
    let mut position = 0u32;
    let mut other = 0u32;
    let (mut out, mut other_out) = ([0; 3], [0; 3]);
    let mut subjects = vec![
        steady(|| {
            position = position.wrapping_add(0x1234_5677);
            let standing = snowpulley::ring::Admission::Standing;
            snowpulley::ring::owners(&places, &proved_table, position, standing, 3, &mut out)
        }),
        steady(|| {
            other = other.wrapping_add(0x1234_5677);
            ring::owners(
                &places,
                &table,
                Admission::Standing,
                other,
                3,
                &mut other_out,
            )
        }),
    ];
    let times = medians(&mut subjects);
    Row {
        name: "owner walk, 640 places, 3 owners".to_string(),
        proved: times[0],
        reference: [Some(times[1]), None, None],
    }
}

fn explain_rows() -> Vec<Row> {
    vec![
        explain_row("stamps differ", &different_deliveries()),
        explain_row("one entry", &deliveries(|_| HELD)),
        explain_row("one stamp, the last greater", &last_greater()),
    ]
}

fn explain_row(what: &str, list: &[u8]) -> Row {
    let bytes = list.len() / DELIVERIES_MAX;
    let name = format!("explain, {DELIVERIES_MAX} deliveries of {bytes} bytes, {what}");
    let (mut reasons, mut others) = ([0; DELIVERIES_MAX], [0; DELIVERIES_MAX]);
    snowpulley::audit::explain(list, &DELIVERED, &mut reasons).expect("a report");
    explain::explain(list, &DELIVERED, &mut others).expect("a report");
    assert!(reasons == others, "{name}: the reasons differ");
    let proved =
        steady(move || snowpulley::audit::explain(black_box(list), &DELIVERED, &mut reasons));
    row(name, proved, || {
        let mut reasons = [0; DELIVERIES_MAX];
        steady(move || explain::explain(black_box(list), &DELIVERED, &mut reasons))
    })
}
