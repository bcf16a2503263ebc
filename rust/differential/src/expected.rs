//! The header's functions by the reference: the same words and bytes go in, and
//! the same must come out. The names and parameters are those of `snowpulley::raw`.

use reference::clock::Clock;
use reference::frame::{self, Message};
use reference::peers::{Admission, PeerTable, Row, ROWS_MAX};
use reference::stamp::{check_time, Stamp};
use reference::store::{self, Found, Offered};
use reference::{checksum, deliveries, explain, key, node, ring, Refusal};

const CLOCK_WORDS: usize = 4;
const ROW_WORDS: usize = 6;
const PEERS_WORDS: usize = 1 + ROWS_MAX * ROW_WORDS;
const FIELDS: usize = 10;
const NO_DELIVERY: usize = 65_535;

fn refused(refusal: Refusal) -> u32 {
    u32::from(refusal.number()) << 16
}

/// A result with a count or an answer where there is no refusal.
fn counted(outcome: Result<usize, Refusal>) -> u32 {
    match outcome {
        Ok(count) => u32::from(u16::try_from(count).expect("a count of 16 bits")),
        Err(refusal) => refused(refusal),
    }
}

fn plain(outcome: Result<(), Refusal>) -> u32 {
    counted(outcome.map(|()| 0))
}

/// A flag, state or admission. None that is in range needs more than a byte.
fn narrow(number: u32) -> u8 {
    number.try_into().unwrap_or(u8::MAX)
}

/// Writes words to the front of an output, if they fit there.
fn put_front<T: Copy>(out: &mut [T], words: &[T]) -> Result<(), Refusal> {
    if out.len() < words.len() {
        return Err(Refusal::NoRoom);
    }
    out[..words.len()].copy_from_slice(words);
    Ok(())
}

pub fn crc32c(bytes: &[u8]) -> u32 {
    checksum::crc32c(bytes)
}

pub fn fmix32(h: u32) -> u32 {
    checksum::fmix32(h)
}

fn clock_words(clock: Clock) -> [u64; CLOCK_WORDS] {
    let Clock {
        phys,
        logical,
        node,
        skew,
    } = clock;
    [phys, logical.into(), node.into(), skew.into()]
}

fn clock_from(words: &[u64]) -> Option<Clock> {
    let &[phys, logical, node, skew] = words else {
        return None;
    };
    Some(Clock {
        phys,
        logical: logical.try_into().ok()?,
        node: node.try_into().ok()?,
        skew: skew.try_into().ok()?,
    })
}

fn clock_step(words: &mut [u64], step: impl FnOnce(Clock) -> Result<Clock, Refusal>) -> u32 {
    let next = clock_from(words).ok_or(Refusal::BadArgument).and_then(step);
    plain(next.map(|clock| words.copy_from_slice(&clock_words(clock))))
}

pub fn clock_fresh(node: u8, clock: &mut [u64]) -> u32 {
    plain(put_front(clock, &clock_words(Clock::fresh(node))))
}

pub fn clock_send(now: u64, clock: &mut [u64]) -> u32 {
    clock_step(clock, |clock| clock.send(now))
}

pub fn clock_receive(phys: u64, logical: u16, now: u64, clock: &mut [u64]) -> u32 {
    clock_step(clock, |clock| clock.receive(phys, logical, now))
}

fn table_words(table: &PeerTable) -> Vec<u64> {
    let mut words = vec![table.count as u64];
    for row in &table.rows {
        words.extend([
            u64::from(row.id),
            u64::from(u32::from_be_bytes(row.address)),
            u64::from(row.port),
            u64::from(row.state),
            u64::from(row.incarnation),
            row.seen,
        ]);
    }
    words
}

fn row_from(words: &[u64]) -> Option<Row> {
    Some(Row {
        id: words[0].try_into().ok()?,
        address: u32::try_from(words[1]).ok()?.to_be_bytes(),
        port: words[2].try_into().ok()?,
        state: words[3].try_into().ok()?,
        incarnation: words[4].try_into().ok()?,
        seen: words[5],
    })
}

/// Every row must fit its fields, also those past the last one.
fn table_from(words: &[u64]) -> Option<PeerTable> {
    if words.len() != PEERS_WORDS {
        return None;
    }
    let mut rows = [Row::EMPTY; ROWS_MAX];
    for (row, words) in rows.iter_mut().zip(words[1..].chunks_exact(ROW_WORDS)) {
        *row = row_from(words)?;
    }
    let count = u8::try_from(words[0]).ok()?;
    Some(PeerTable {
        rows,
        count: count.into(),
    })
}

/// An event; the time comes before the table's form.
fn event(
    now: u64,
    words: &mut [u64],
    step: impl FnOnce(PeerTable) -> Result<PeerTable, Refusal>,
) -> u32 {
    let next = check_time(now)
        .and_then(|()| table_from(words).ok_or(Refusal::BadArgument))
        .and_then(step);
    plain(next.map(|table| words.copy_from_slice(&table_words(&table))))
}

pub fn peers_fresh(
    id: u8,
    address: u32,
    port: u16,
    incarnation: u32,
    now: u64,
    table: &mut [u64],
) -> u32 {
    let fresh = PeerTable::fresh(id, address.to_be_bytes(), port, incarnation, now);
    plain(fresh.and_then(|fresh| put_front(table, &table_words(&fresh))))
}

pub fn peers_add(
    id: u8,
    address: u32,
    port: u16,
    incarnation: u32,
    now: u64,
    table: &mut [u64],
) -> u32 {
    event(now, table, |t| {
        t.add(id, address.to_be_bytes(), port, incarnation, now)
    })
}

pub fn peers_heard(id: u8, incarnation: u32, now: u64, table: &mut [u64]) -> u32 {
    event(now, table, |t| t.heard(id, incarnation, now))
}

pub fn peers_reported(id: u8, state: u32, incarnation: u32, now: u64, table: &mut [u64]) -> u32 {
    event(now, table, |t| {
        t.reported(id, narrow(state), incarnation, now)
    })
}

pub fn peers_tick(now: u64, table: &mut [u64]) -> u32 {
    event(now, table, |t| t.tick(now))
}

pub fn peers_is_sound(table: &[u64]) -> u32 {
    table_from(table).is_some_and(|t| t.is_sound()).into()
}

pub fn token(node: u8, vnode: u8, salt: u32) -> u32 {
    ring::token(node, vnode, salt)
}

pub fn key_position(key: &[u8], salt: u32, position: &mut [u32]) -> u32 {
    let found = ring::key_position(key, salt);
    plain(found.and_then(|found| put_front(position, &[found])))
}

pub fn ring_build(ids: &[u8], vnodes: u32, salt: u32, ring: &mut [u64]) -> u32 {
    counted(ring::build(ids, vnodes as usize, salt, ring))
}

pub fn ring_is_sound(ring: &[u64]) -> u32 {
    ring::is_sound(ring).into()
}

pub fn owners(
    ring: &[u64],
    table: &[u64],
    position: u32,
    admission: u32,
    count: u32,
    out: &mut [u8],
) -> u32 {
    let admission = match admission {
        0 => Admission::Home,
        1 => Admission::Standing,
        _ => return refused(Refusal::BadArgument),
    };
    let Some(table) = table_from(table) else {
        return refused(Refusal::BadArgument);
    };
    let count = count as usize;
    plain(ring::owners(ring, &table, admission, position, count, out))
}

/// Where the key of a message stands in its frame, and how long it is.
fn key_place(message: &Message) -> [u64; 2] {
    message.key().map_or([0, 0], |key| [5, key.len() as u64])
}

/// The same for its value, which also has a place where it is empty.
fn value_place(message: &Message) -> [u64; 2] {
    let at = match message {
        Message::Put { key, .. } => 4 + 1 + key.len() + 2,
        Message::Repl { key, .. } => 4 + 1 + key.len() + 10 + 2,
        Message::Value { .. } => 4 + 2,
        _ => 0,
    };
    [at as u64, message.value().map_or(0, <[u8]>::len) as u64]
}

fn message_kind(message: &Message) -> u8 {
    match message {
        Message::Put { .. } => frame::PUT,
        Message::Get { .. } => frame::GET,
        Message::Del { .. } => frame::DEL,
        Message::Repl { .. } => frame::REPL,
        Message::Ok => frame::OK,
        Message::Value { .. } => frame::VALUE,
        Message::NotFound => frame::NOTFOUND,
        Message::Err { .. } => frame::ERR,
    }
}

fn field_words(message: &Message) -> [u64; FIELDS] {
    let mut words = [0; FIELDS];
    words[0] = message_kind(message).into();
    words[1..3].copy_from_slice(&key_place(message));
    words[3..5].copy_from_slice(&value_place(message));
    if let Message::Repl { flag, stamp, .. } = message {
        words[5] = u64::from(*flag);
        words[6] = stamp.phys;
        words[7] = stamp.logical.into();
        words[8] = stamp.node.into();
    }
    if let Message::Err { number } = message {
        words[9] = u64::from(*number);
    }
    words
}

pub fn frame_read(frame: &[u8], fields: &mut [u64]) -> u32 {
    let message = frame::read(frame);
    plain(message.and_then(|message| put_front(fields, &field_words(&message))))
}

pub fn write_put(key: &[u8], value: &[u8], out: &mut [u8]) -> u32 {
    counted(frame::write_put(out, key, value))
}

pub fn write_get(key: &[u8], out: &mut [u8]) -> u32 {
    counted(frame::write_get(out, key))
}

pub fn write_del(key: &[u8], out: &mut [u8]) -> u32 {
    counted(frame::write_del(out, key))
}

fn stamp(phys: u64, logical: u16, node: u8) -> Stamp {
    Stamp {
        phys,
        logical,
        node,
    }
}

pub fn write_repl(
    key: &[u8],
    value: &[u8],
    flag: u32,
    phys: u64,
    logical: u16,
    node: u8,
    out: &mut [u8],
) -> u32 {
    let stamp = stamp(phys, logical, node);
    counted(frame::write_repl(out, key, narrow(flag), stamp, value))
}

pub fn write_ok(out: &mut [u8]) -> u32 {
    counted(frame::write_ok(out))
}

pub fn write_value(value: &[u8], out: &mut [u8]) -> u32 {
    counted(frame::write_value(out, value))
}

pub fn write_not_found(out: &mut [u8]) -> u32 {
    counted(frame::write_not_found(out))
}

/// 0 is out of range, as a number is that needs more than its byte.
pub fn write_err(number: u32, out: &mut [u8]) -> u32 {
    let number = number.try_into().unwrap_or(0);
    counted(frame::write_err(out, number))
}

pub fn store_create(store: &mut [u8], slots: usize) -> u32 {
    plain(store::create(store, slots))
}

pub fn store_is_sound(store: &[u8]) -> u32 {
    store::is_sound(store).into()
}

/// Where the key and the value of a slot stand; an empty value has a place too.
fn places_in_slot(index: usize) -> [u64; 2] {
    let key_at = store::image_length(index) + 16;
    [key_at, key_at + key::KEY_MAX].map(|at| at as u64)
}

fn place_in_store(store: &[u8], key: &[u8]) -> Result<[u64; 2], Refusal> {
    let entries = store::entries(store)?;
    let index = entries.iter().position(|e| e.key == key);
    let index = index.expect("a found key has an entry");
    let [_, at] = places_in_slot(index);
    Ok([at, entries[index].value.len() as u64])
}

pub fn store_lookup(store: &[u8], key: &[u8], place: &mut [u64]) -> u32 {
    let outcome = store::lookup(store, key).and_then(|found| {
        let (answer, words) = match found {
            Found::Value => (0, place_in_store(store, key)?),
            Found::Deleted => (1, [0, 0]),
            Found::Never => (2, [0, 0]),
        };
        put_front(place, &words)?;
        Ok(answer)
    });
    counted(outcome)
}

pub fn store_entry(store: &[u8], i: usize, fields: &mut [u64]) -> u32 {
    let outcome = store::entry(store, i).and_then(|entry| {
        let [key_at, value_at] = places_in_slot(i);
        let words: [u64; FIELDS] = [
            frame::REPL.into(),
            key_at,
            entry.key.len() as u64,
            value_at,
            entry.value.len() as u64,
            entry.flag.into(),
            entry.stamp.phys,
            entry.stamp.logical.into(),
            entry.stamp.node.into(),
            0,
        ];
        put_front(fields, &words)
    });
    plain(outcome)
}

pub fn store_offer(
    store: &mut [u8],
    key: &[u8],
    value: &[u8],
    flag: u32,
    phys: u64,
    logical: u16,
    node: u8,
) -> u32 {
    let offered = store::offer(store, key, value, narrow(flag), stamp(phys, logical, node));
    counted(offered.map(|offered| match offered {
        Offered::Stored => 0,
        Offered::Replaced => 1,
        Offered::Kept => 2,
    }))
}

pub fn store_merge(receiver: &mut [u8], giver: &[u8]) -> u32 {
    counted(store::merge(receiver, giver))
}

pub fn store_line(store: &[u8], line: &mut [u64]) -> u32 {
    let held = store::line(store);
    plain(held.and_then(|held| put_front(line, &[held])))
}

pub fn store_purge(store: &mut [u8], line: u64) -> u32 {
    counted(store::purge(store, line))
}

pub fn handle(
    store: &mut [u8],
    clock: &mut [u64],
    now: u64,
    frame: &[u8],
    reply: &mut [u8],
) -> u32 {
    let Some(before) = clock_from(clock) else {
        return refused(Refusal::BadArgument);
    };
    let answer = node::handle(before, store, now, frame, reply);
    clock.copy_from_slice(&clock_words(answer.clock));
    counted(Ok(answer.length)) | answer.refusal.map_or(0, refused)
}

pub fn deliveries(list: &[u8]) -> u32 {
    counted(deliveries::read(list).map(|deliveries| deliveries.len()))
}

pub fn explain(list: &[u8], key: &[u8], reasons: &mut [u8]) -> u32 {
    let explained = explain::explain(list, key, reasons);
    counted(explained.map(|winner| winner.unwrap_or(NO_DELIVERY)))
}
