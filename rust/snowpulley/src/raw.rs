//! The header's functions over slices: words and bytes as they are, results
//! not taken apart. For callers that also try what the types of this crate
//! cannot hold.
//!
//! SAFETY, for every call below: a slice's pointer is never null and points to
//! as many elements as its length says; a mutable slice overlaps no other
//! one; the library keeps no pointer after the call.

#![allow(unsafe_code)]

use snowpulley_sys as ffi;

pub fn crc32c(bytes: &[u8]) -> u32 {
    unsafe { ffi::sp_crc32c(bytes.as_ptr(), bytes.len()) }
}

pub fn fmix32(h: u32) -> u32 {
    unsafe { ffi::sp_fmix32(h) }
}

pub fn clock_fresh(node: u8, clock: &mut [u64]) -> u32 {
    unsafe { ffi::sp_clock_fresh(node, clock.as_mut_ptr(), clock.len()) }
}

pub fn clock_send(now: u64, clock: &mut [u64]) -> u32 {
    unsafe { ffi::sp_clock_send(now, clock.as_mut_ptr(), clock.len()) }
}

pub fn clock_receive(phys: u64, logical: u16, now: u64, clock: &mut [u64]) -> u32 {
    unsafe { ffi::sp_clock_receive(phys, logical, now, clock.as_mut_ptr(), clock.len()) }
}

pub fn peers_fresh(
    id: u8,
    address: u32,
    port: u16,
    incarnation: u32,
    now: u64,
    table: &mut [u64],
) -> u32 {
    let (words, len) = (table.as_mut_ptr(), table.len());
    unsafe { ffi::sp_peers_fresh(id, address, port, incarnation, now, words, len) }
}

pub fn peers_add(
    id: u8,
    address: u32,
    port: u16,
    incarnation: u32,
    now: u64,
    table: &mut [u64],
) -> u32 {
    let (words, len) = (table.as_mut_ptr(), table.len());
    unsafe { ffi::sp_peers_add(id, address, port, incarnation, now, words, len) }
}

pub fn peers_heard(id: u8, incarnation: u32, now: u64, table: &mut [u64]) -> u32 {
    unsafe { ffi::sp_peers_heard(id, incarnation, now, table.as_mut_ptr(), table.len()) }
}

pub fn peers_reported(id: u8, state: u32, incarnation: u32, now: u64, table: &mut [u64]) -> u32 {
    let (words, len) = (table.as_mut_ptr(), table.len());
    unsafe { ffi::sp_peers_reported(id, state, incarnation, now, words, len) }
}

pub fn peers_tick(now: u64, table: &mut [u64]) -> u32 {
    unsafe { ffi::sp_peers_tick(now, table.as_mut_ptr(), table.len()) }
}

pub fn peers_is_sound(table: &[u64]) -> u32 {
    unsafe { ffi::sp_peers_is_sound(table.as_ptr(), table.len()) }
}

pub fn token(node: u8, vnode: u8, salt: u32) -> u32 {
    unsafe { ffi::sp_token(node, vnode, salt) }
}

pub fn key_position(key: &[u8], salt: u32, position: &mut [u32]) -> u32 {
    let (words, len) = (position.as_mut_ptr(), position.len());
    unsafe { ffi::sp_key_position(key.as_ptr(), key.len(), salt, words, len) }
}

pub fn ring_build(ids: &[u8], vnodes: u32, salt: u32, ring: &mut [u64]) -> u32 {
    let (places, len) = (ring.as_mut_ptr(), ring.len());
    unsafe { ffi::sp_ring_build(ids.as_ptr(), ids.len(), vnodes, salt, places, len) }
}

pub fn ring_is_sound(ring: &[u64]) -> u32 {
    unsafe { ffi::sp_ring_is_sound(ring.as_ptr(), ring.len()) }
}

pub fn owners(
    ring: &[u64],
    table: &[u64],
    position: u32,
    admission: u32,
    count: u32,
    out: &mut [u8],
) -> u32 {
    unsafe {
        ffi::sp_owners(
            ring.as_ptr(),
            ring.len(),
            table.as_ptr(),
            table.len(),
            position,
            admission,
            count,
            out.as_mut_ptr(),
            out.len(),
        )
    }
}

pub fn frame_read(frame: &[u8], fields: &mut [u64]) -> u32 {
    let (words, len) = (fields.as_mut_ptr(), fields.len());
    unsafe { ffi::sp_frame_read(frame.as_ptr(), frame.len(), words, len) }
}

pub fn write_put(key: &[u8], value: &[u8], out: &mut [u8]) -> u32 {
    unsafe {
        ffi::sp_write_put(
            key.as_ptr(),
            key.len(),
            value.as_ptr(),
            value.len(),
            out.as_mut_ptr(),
            out.len(),
        )
    }
}

pub fn write_get(key: &[u8], out: &mut [u8]) -> u32 {
    unsafe { ffi::sp_write_get(key.as_ptr(), key.len(), out.as_mut_ptr(), out.len()) }
}

pub fn write_del(key: &[u8], out: &mut [u8]) -> u32 {
    unsafe { ffi::sp_write_del(key.as_ptr(), key.len(), out.as_mut_ptr(), out.len()) }
}

pub fn write_repl(
    key: &[u8],
    value: &[u8],
    flag: u32,
    phys: u64,
    logical: u16,
    node: u8,
    out: &mut [u8],
) -> u32 {
    unsafe {
        ffi::sp_write_repl(
            key.as_ptr(),
            key.len(),
            value.as_ptr(),
            value.len(),
            flag,
            phys,
            logical,
            node,
            out.as_mut_ptr(),
            out.len(),
        )
    }
}

pub fn write_ok(out: &mut [u8]) -> u32 {
    unsafe { ffi::sp_write_ok(out.as_mut_ptr(), out.len()) }
}

pub fn write_value(value: &[u8], out: &mut [u8]) -> u32 {
    unsafe { ffi::sp_write_value(value.as_ptr(), value.len(), out.as_mut_ptr(), out.len()) }
}

pub fn write_not_found(out: &mut [u8]) -> u32 {
    unsafe { ffi::sp_write_not_found(out.as_mut_ptr(), out.len()) }
}

pub fn write_err(number: u32, out: &mut [u8]) -> u32 {
    unsafe { ffi::sp_write_err(number, out.as_mut_ptr(), out.len()) }
}

pub fn store_create(store: &mut [u8], slots: usize) -> u32 {
    unsafe { ffi::sp_store_create(store.as_mut_ptr(), store.len(), slots) }
}

pub fn store_is_sound(store: &[u8]) -> u32 {
    unsafe { ffi::sp_store_is_sound(store.as_ptr(), store.len()) }
}

pub fn store_lookup(store: &[u8], key: &[u8], place: &mut [u64]) -> u32 {
    unsafe {
        ffi::sp_store_lookup(
            store.as_ptr(),
            store.len(),
            key.as_ptr(),
            key.len(),
            place.as_mut_ptr(),
            place.len(),
        )
    }
}

pub fn store_entry(store: &[u8], i: usize, fields: &mut [u64]) -> u32 {
    let (words, len) = (fields.as_mut_ptr(), fields.len());
    unsafe { ffi::sp_store_entry(store.as_ptr(), store.len(), i, words, len) }
}

pub fn store_offer(
    store: &mut [u8],
    key: &[u8],
    value: &[u8],
    flag: u32,
    phys: u64,
    logical: u16,
    node: u8,
) -> u32 {
    unsafe {
        ffi::sp_store_offer(
            store.as_mut_ptr(),
            store.len(),
            key.as_ptr(),
            key.len(),
            value.as_ptr(),
            value.len(),
            flag,
            phys,
            logical,
            node,
        )
    }
}

pub fn store_merge(receiver: &mut [u8], giver: &[u8]) -> u32 {
    let (bytes, len) = (receiver.as_mut_ptr(), receiver.len());
    unsafe { ffi::sp_store_merge(bytes, len, giver.as_ptr(), giver.len()) }
}

pub fn store_line(store: &[u8], line: &mut [u64]) -> u32 {
    let (words, len) = (line.as_mut_ptr(), line.len());
    unsafe { ffi::sp_store_line(store.as_ptr(), store.len(), words, len) }
}

pub fn store_purge(store: &mut [u8], line: u64) -> u32 {
    unsafe { ffi::sp_store_purge(store.as_mut_ptr(), store.len(), line) }
}

pub fn handle(
    store: &mut [u8],
    clock: &mut [u64],
    now: u64,
    frame: &[u8],
    reply: &mut [u8],
) -> u32 {
    unsafe {
        ffi::sp_handle(
            store.as_mut_ptr(),
            store.len(),
            clock.as_mut_ptr(),
            clock.len(),
            now,
            frame.as_ptr(),
            frame.len(),
            reply.as_mut_ptr(),
            reply.len(),
        )
    }
}

pub fn deliveries(list: &[u8]) -> u32 {
    unsafe { ffi::sp_deliveries(list.as_ptr(), list.len()) }
}

pub fn explain(list: &[u8], key: &[u8], reasons: &mut [u8]) -> u32 {
    unsafe {
        ffi::sp_explain(
            list.as_ptr(),
            list.len(),
            key.as_ptr(),
            key.len(),
            reasons.as_mut_ptr(),
            reasons.len(),
        )
    }
}
