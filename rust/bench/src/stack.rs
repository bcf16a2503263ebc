//! How much stack each call of the proved library takes, on the largest inputs:
//! a call runs on a stack of its own that was filled with one byte, and what
//! has changed there was used.

#![allow(unsafe_code)]

use crate::inputs::{
    deleted, deliveries, different_deliveries, greater, key, last_greater, peers, store, value,
    DELIVERED, HELD, LINE, NEW, OLD, SALT, SLOTS,
};
use reference::frame::{Message, FRAME_MAX};
use samples::script::{framed, put_message, repl_message};
use snowpulley::audit::DELIVERIES_MAX;
use snowpulley::raw;
use snowpulley::ring::PLACES_MAX;
use std::arch::asm;
use std::fmt::Write;

/// The words of the stack that a call is given, of sixteen bytes each.
const ROOM: usize = 1 << 14;
/// A byte that is written may be the one that is there, so two are tried.
const FILLS: [u8; 2] = [0x55, 0xAA];

/// What each call takes, as Markdown.
pub fn table() -> String {
    let mut text = "| call | stack, bytes |\n|---|---:|\n".to_string();
    for (name, bytes) in measured() {
        let _ = writeln!(text, "| `{name}` | {bytes} |");
    }
    text
}

/// Every function of the header, and the most bytes that one of its calls took.
fn measured() -> Vec<(&'static str, usize)> {
    let mut most = Most::default();
    checksums(&mut most);
    clocks(&mut most);
    tables(&mut most);
    rings(&mut most);
    frames(&mut most);
    stores(&mut most);
    purges(&mut most);
    requests(&mut most);
    reports(&mut most);
    most.0
}

#[derive(Default)]
struct Most(Vec<(&'static str, usize)>);

impl Most {
    /// Measures a call that is lent a copy of some words or bytes.
    fn of<T: Clone>(&mut self, name: &'static str, lent: &[T], call: impl Fn(&mut [T]) -> u32) {
        let caller = used(&[0u8], |_| 0);
        let bytes = used(lent, call).saturating_sub(caller);
        match self.0.iter_mut().find(|(known, _)| *known == name) {
            Some((_, most)) => *most = bytes.max(*most),
            None => self.0.push((name, bytes)),
        }
    }
}

/// How many bytes of stack a call takes, with those of its caller here.
fn used<T: Clone>(lent: &[T], call: impl Fn(&mut [T]) -> u32) -> usize {
    let used = FILLS.map(|fill| {
        let fill = u128::from_ne_bytes([fill; 16]);
        let (mut stack, mut copy) = (vec![fill; ROOM], lent.to_vec());
        run_on(&mut stack, &mut || call(&mut copy));
        let untouched = stack.iter().take_while(|word| **word == fill).count();
        (ROOM - untouched) * 16
    });
    used[0].max(used[1])
}

type Call<'a> = &'a mut dyn FnMut() -> u32;

/// Makes a call on this stack.
fn run_on(stack: &mut [u128], mut call: Call<'_>) {
    let top = stack.as_mut_ptr_range().end;
    // SAFETY: nothing else uses the buffer, it has far more room than any call
    // takes, and its end is aligned as a call needs it. A callee keeps r12, so
    // the stack pointer comes back from there. No panic leaves `enter`.
    unsafe {
        asm!(
            "xchg rsp, r12",
            "call {enter}",
            "mov rsp, r12",
            enter = sym enter,
            inout("r12") top => _,
            in("rdi") &raw mut call,
            clobber_abi("C"),
        );
    }
}

extern "C" fn enter(call: *mut Call<'_>) {
    // SAFETY: `run_on` lends the call for as long as this runs.
    unsafe {
        (*call)();
    }
}

fn checksums(most: &mut Most) {
    most.of("sp_crc32c", &value(59_616), |bytes| raw::crc32c(bytes));
    most.of("sp_fmix32", &[SALT], |words| raw::fmix32(words[0]));
}

fn clocks(most: &mut Most) {
    let clock = [2000, 7, 1, 0];
    most.of("sp_clock_fresh", &clock, |clock| raw::clock_fresh(1, clock));
    for now in [1000, 3000] {
        most.of("sp_clock_send", &clock, |clock| raw::clock_send(now, clock));
        for phys in [500, 2500, 900_000] {
            most.of("sp_clock_receive", &clock, |clock| {
                raw::clock_receive(phys, 0, now, clock)
            });
        }
    }
}

fn tables(most: &mut Most) {
    let (ids, _, table) = peers();
    let (full, last) = (table.words(), ids[9]);
    // The same without its last row.
    let mut free = full;
    free[0] = 9;
    most.of("sp_peers_fresh", &full, |table| {
        raw::peers_fresh(last, 2, 3, 4, 5, table)
    });
    most.of("sp_peers_add", &free, |table| {
        raw::peers_add(last, 2, 3, 4, 5, table)
    });
    most.of("sp_peers_heard", &full, |table| {
        raw::peers_heard(last, 2, 1000, table)
    });
    for incarnation in [1, 2] {
        most.of("sp_peers_reported", &full, |table| {
            raw::peers_reported(last, 1, incarnation, 1000, table)
        });
    }
    most.of("sp_peers_tick", &full, |table| {
        raw::peers_tick(20_000, table)
    });
    most.of("sp_peers_is_sound", &full, |table| {
        raw::peers_is_sound(table)
    });
}

fn rings(most: &mut Most) {
    let (ids, _, table) = peers();
    let mut ring = [0; PLACES_MAX];
    snowpulley::ring::build(&ids, 64, SALT, &mut ring).expect("a right ring");
    let (table, key) = (table.words(), value(64));
    most.of("sp_token", &[0u8], |_| raw::token(1, 2, SALT));
    most.of("sp_key_position", &[0], |position| {
        raw::key_position(&key, SALT, position)
    });
    most.of("sp_ring_build", &ring, |ring| {
        raw::ring_build(&ids, 64, SALT, ring)
    });
    most.of("sp_ring_is_sound", &ring, |ring| raw::ring_is_sound(ring));
    most.of("sp_owners", &[0; 3], |out| {
        raw::owners(&ring, &table, 5, 1, 3, out)
    });
}

/// The longest message of each type.
fn messages() -> Vec<Message> {
    let (key, value) = (vec![b'k'; 64], value(512));
    vec![
        put_message(&key, &value),
        Message::Get { key: key.clone() },
        Message::Del { key: key.clone() },
        repl_message(&key, NEW, Some(&value)),
        Message::Ok,
        Message::Value { value },
        Message::NotFound,
        Message::Err { number: 3 },
    ]
}

fn frames(most: &mut Most) {
    let (key, value, out) = ([b'k'; 64], value(512), [0; FRAME_MAX]);
    for message in messages() {
        let frame = framed(&message);
        most.of("sp_frame_read", &[0; 10], |fields| {
            raw::frame_read(&frame, fields)
        });
    }
    most.of("sp_write_put", &out, |out| {
        raw::write_put(&key, &value, out)
    });
    most.of("sp_write_get", &out, |out| raw::write_get(&key, out));
    most.of("sp_write_del", &out, |out| raw::write_del(&key, out));
    most.of("sp_write_repl", &out, |out| {
        raw::write_repl(&key, &value, 0, 1000, 0, 1, out)
    });
    most.of("sp_write_ok", &out, raw::write_ok);
    most.of("sp_write_value", &out, |out| raw::write_value(&value, out));
    most.of("sp_write_not_found", &out, raw::write_not_found);
    most.of("sp_write_err", &out, |out| raw::write_err(3, out));
}

/// A store with one free slot, and one with none.
fn images() -> [Vec<u8>; 2] {
    [SLOTS - 1, SLOTS].map(|used| store(0, used, 512, HELD))
}

fn stores(most: &mut Most) {
    let value = greater(value(512));
    for image in images() {
        most.of("sp_store_create", &image, |store| {
            raw::store_create(store, SLOTS)
        });
        most.of("sp_store_is_sound", &image, |store| {
            raw::store_is_sound(store)
        });
        for i in [0, SLOTS - 1] {
            most.of("sp_store_entry", &[0; 10], |fields| {
                raw::store_entry(&image, i, fields)
            });
        }
        for number in [100, 101] {
            let key = key(number);
            most.of("sp_store_lookup", &[0; 2], |place| {
                raw::store_lookup(&image, &key, place)
            });
            for stamp in [HELD, NEW] {
                most.of("sp_store_offer", &image, |store| {
                    raw::store_offer(store, &key, &value, 0, stamp.phys, 0, 2)
                });
            }
        }
        for stamp in [OLD, HELD, NEW] {
            let giver = store(0, SLOTS, 512, stamp);
            most.of("sp_store_merge", &image, |store| {
                raw::store_merge(store, &giver)
            });
        }
    }
}

/// Purges that remove nothing, one entry or all, and merges that pass over what
/// the purged store has removed.
fn purges(most: &mut Most) {
    for count in [0, 1, SLOTS] {
        let image = deleted(count);
        most.of("sp_store_purge", &image, |store| {
            raw::store_purge(store, LINE)
        });
        let (purged, giver) = (purged(image), purged(deleted(0)));
        most.of("sp_store_line", &[0], |line| raw::store_line(&purged, line));
        most.of("sp_store_merge", &purged, |store| {
            raw::store_merge(store, &giver)
        });
    }
}

fn purged(mut image: Vec<u8>) -> Vec<u8> {
    snowpulley::store::purge(&mut image, LINE).expect("a right line");
    image
}

fn requests(most: &mut Most) {
    for image in images() {
        let lent = [image, vec![0; FRAME_MAX]].concat();
        for message in requests_about(&key(100)).into_iter().chain(messages()) {
            let frame = framed(&message);
            most.of("sp_handle", &lent, |lent| {
                let (store, reply) = lent.split_at_mut(lent.len() - FRAME_MAX);
                raw::handle(store, &mut [2000, 7, 1, 0], 3000, &frame, reply)
            });
        }
    }
}

/// Requests about a key that is held.
fn requests_about(key: &[u8]) -> Vec<Message> {
    let value = value(512);
    vec![
        Message::Get { key: key.to_vec() },
        put_message(key, &value),
        Message::Del { key: key.to_vec() },
        repl_message(key, OLD, Some(&value)),
        repl_message(key, HELD, Some(&greater(value.clone()))),
        repl_message(key, NEW, Some(&value)),
    ]
}

/// Lists with a stamp for each delivery, of one entry again and again, and with
/// one stamp and a last delivery that wins by its contents.
fn reports(most: &mut Most) {
    for list in [different_deliveries(), deliveries(|_| HELD), last_greater()] {
        most.of("sp_deliveries", &[0u8], |_| raw::deliveries(&list));
        for key in [&DELIVERED[..], b"another", b""] {
            most.of("sp_explain", &[0; DELIVERIES_MAX], |reasons| {
                raw::explain(&list, key, reasons)
            });
        }
    }
}

#[cfg(test)]
mod tests {
    use super::*;
    use std::fs;
    use std::path::Path;

    /// What the documents and the header say of every call, in KiB.
    const MOST: usize = 18;

    fn text(below_root: &str) -> String {
        let package = Path::new(env!("CARGO_MANIFEST_DIR"));
        fs::read_to_string(package.join("../..").join(below_root)).expect(below_root)
    }

    #[test]
    fn no_call_takes_more_than_is_said() {
        let calls = measured();
        let (name, bytes) = calls
            .iter()
            .max_by_key(|(_, bytes)| *bytes)
            .expect("a call");
        assert!(*bytes <= MOST * 1024, "{name}: {bytes} bytes");
        assert!(*bytes > (MOST - 1) * 1024, "{name}: {bytes} bytes");
        let said = format!("{MOST} KiB of stack");
        let files = [
            "README.md",
            "docs/AUDIT.md",
            "docs/PERFORMANCE.md",
            "include/snowpulley.h",
        ];
        for file in files {
            let text = text(file);
            let words: Vec<&str> = text.split_whitespace().filter(|w| *w != "*").collect();
            assert!(words.join(" ").contains(&said), "{file}: '{said}'");
        }
    }

    #[test]
    fn every_function_is_measured() {
        let measured = measured();
        let declarations = text("rust/snowpulley-sys/src/lib.rs");
        let declared = declarations.split("pub fn ").skip(1);
        for name in declared.filter_map(|rest| rest.split('(').next()) {
            assert!(measured.iter().any(|(known, _)| *known == name), "{name}");
        }
        assert_eq!(measured.len(), declarations.matches("pub fn sp_").count());
    }
}
