//! The functions and numbers of `snowpulley.h`, in its order and under its
//! names. A test compares the two files.

pub const SP_BAD_KEY: u16 = 1;
pub const SP_VALUE_TOO_LARGE: u16 = 2;
pub const SP_BAD_FRAME: u16 = 3;
pub const SP_NO_ROOM: u16 = 4;
pub const SP_BAD_STORE: u16 = 5;
pub const SP_STORE_FULL: u16 = 6;
pub const SP_OVERTAKEN: u16 = 7;
pub const SP_CLOCK_SPENT: u16 = 8;
pub const SP_BAD_TIME: u16 = 9;
pub const SP_TOO_FEW: u16 = 10;
pub const SP_UNKNOWN_PEER: u16 = 11;
pub const SP_STALE: u16 = 12;
pub const SP_TABLE_FULL: u16 = 13;
pub const SP_PEER_KNOWN: u16 = 14;
pub const SP_SELF: u16 = 15;
pub const SP_BAD_RING: u16 = 16;
pub const SP_BAD_ARGUMENT: u16 = 17;
pub const SP_LOWER_LINE: u16 = 33;
pub const SP_BELOW_LINE: u16 = 34;
pub const SP_UNEQUAL_LINES: u16 = 35;

pub const SP_KEY_MAX: usize = 64;
pub const SP_VALUE_MAX: usize = 512;
pub const SP_FRAME_MAX: usize = 600;
pub const SP_SLOTS_MAX: usize = 100;
pub const SP_PEERS_MAX: usize = 10;
pub const SP_VNODES_MAX: u32 = 64;
pub const SP_RING_MAX: usize = 640;
pub const SP_OWNERS_MAX: u32 = 3;
pub const SP_DELIVERIES_MAX: usize = 1000;
pub const SP_TIME_END: u64 = 281474976710656;

pub const SP_CLOCK_WORDS: usize = 4;
pub const SP_CLOCK_PHYS: usize = 0;
pub const SP_CLOCK_LOGICAL: usize = 1;
pub const SP_CLOCK_NODE: usize = 2;
pub const SP_CLOCK_SKEW_COUNT: usize = 3;

pub const SP_PEERS_WORDS: usize = 61;
pub const SP_PEERS_COUNT: usize = 0;
pub const SP_ROW_WORDS: usize = 6;
pub const SP_ROW_ID: usize = 0;
pub const SP_ROW_ADDRESS: usize = 1;
pub const SP_ROW_PORT: usize = 2;
pub const SP_ROW_STATE: usize = 3;
pub const SP_ROW_INCARNATION: usize = 4;
pub const SP_ROW_SEEN: usize = 5;

pub const SP_STATE_ALIVE: u32 = 0;
pub const SP_STATE_SUSPECT: u32 = 1;
pub const SP_STATE_DOWN: u32 = 2;

pub const SP_HOME: u32 = 0;
pub const SP_STANDING: u32 = 1;

pub const SP_TYPE_PUT: u64 = 1;
pub const SP_TYPE_GET: u64 = 2;
pub const SP_TYPE_DEL: u64 = 3;
pub const SP_TYPE_REPL: u64 = 4;
pub const SP_TYPE_OK: u64 = 16;
pub const SP_TYPE_VALUE: u64 = 17;
pub const SP_TYPE_NOTFOUND: u64 = 18;
pub const SP_TYPE_ERR: u64 = 20;

pub const SP_FIELDS: usize = 10;
pub const SP_FIELD_TYPE: usize = 0;
pub const SP_FIELD_KEY_AT: usize = 1;
pub const SP_FIELD_KEY_LEN: usize = 2;
pub const SP_FIELD_VALUE_AT: usize = 3;
pub const SP_FIELD_VALUE_LEN: usize = 4;
pub const SP_FIELD_FLAG: usize = 5;
pub const SP_FIELD_PHYS: usize = 6;
pub const SP_FIELD_LOGICAL: usize = 7;
pub const SP_FIELD_NODE: usize = 8;
pub const SP_FIELD_NUMBER: usize = 9;

pub const SP_FLAG_ACTIVE: u32 = 0;
pub const SP_FLAG_TOMBSTONE: u32 = 1;

pub const SP_LOOKED_VALUE: u16 = 0;
pub const SP_LOOKED_DELETED: u16 = 1;
pub const SP_LOOKED_NEVER: u16 = 2;

pub const SP_PLACE_WORDS: usize = 2;
pub const SP_PLACE_AT: usize = 0;
pub const SP_PLACE_LEN: usize = 1;

pub const SP_OFFER_STORED: u16 = 0;
pub const SP_OFFER_REPLACED: u16 = 1;
pub const SP_OFFER_KEPT: u16 = 2;

pub const SP_NO_DELIVERY: u16 = 65535;

pub const SP_WON: u8 = 0;
pub const SP_EARLIER_TIME: u8 = 1;
pub const SP_LOWER_COUNT: u8 = 2;
pub const SP_LOWER_NODE: u8 = 3;
pub const SP_SAME_ENTRY: u8 = 4;
pub const SP_OTHER_KEY: u8 = 5;
pub const SP_LOWER_CONTENT: u8 = 6;

extern "C" {
    pub fn sp_crc32c(bytes: *const u8, bytes_len: usize) -> u32;
    pub fn sp_fmix32(h: u32) -> u32;

    pub fn sp_clock_fresh(node: u8, clock: *mut u64, clock_len: usize) -> u32;
    pub fn sp_clock_send(now: u64, clock: *mut u64, clock_len: usize) -> u32;
    pub fn sp_clock_receive(
        phys: u64,
        logical: u16,
        now: u64,
        clock: *mut u64,
        clock_len: usize,
    ) -> u32;

    pub fn sp_peers_fresh(
        id: u8,
        address: u32,
        port: u16,
        incarnation: u32,
        now: u64,
        table: *mut u64,
        table_len: usize,
    ) -> u32;
    pub fn sp_peers_add(
        id: u8,
        address: u32,
        port: u16,
        incarnation: u32,
        now: u64,
        table: *mut u64,
        table_len: usize,
    ) -> u32;
    pub fn sp_peers_heard(
        id: u8,
        incarnation: u32,
        now: u64,
        table: *mut u64,
        table_len: usize,
    ) -> u32;
    pub fn sp_peers_reported(
        id: u8,
        state: u32,
        incarnation: u32,
        now: u64,
        table: *mut u64,
        table_len: usize,
    ) -> u32;
    pub fn sp_peers_tick(now: u64, table: *mut u64, table_len: usize) -> u32;
    pub fn sp_peers_is_sound(table: *const u64, table_len: usize) -> u32;

    pub fn sp_token(node: u8, vnode: u8, salt: u32) -> u32;
    pub fn sp_key_position(
        key: *const u8,
        key_len: usize,
        salt: u32,
        position: *mut u32,
        position_len: usize,
    ) -> u32;
    pub fn sp_ring_build(
        ids: *const u8,
        ids_len: usize,
        vnodes: u32,
        salt: u32,
        ring: *mut u64,
        ring_len: usize,
    ) -> u32;
    pub fn sp_ring_is_sound(ring: *const u64, ring_len: usize) -> u32;
    pub fn sp_owners(
        ring: *const u64,
        ring_len: usize,
        table: *const u64,
        table_len: usize,
        position: u32,
        admission: u32,
        count: u32,
        out: *mut u8,
        out_len: usize,
    ) -> u32;

    pub fn sp_frame_read(
        frame: *const u8,
        frame_len: usize,
        fields: *mut u64,
        fields_len: usize,
    ) -> u32;
    pub fn sp_write_put(
        key: *const u8,
        key_len: usize,
        value: *const u8,
        value_len: usize,
        out: *mut u8,
        out_len: usize,
    ) -> u32;
    pub fn sp_write_get(key: *const u8, key_len: usize, out: *mut u8, out_len: usize) -> u32;
    pub fn sp_write_del(key: *const u8, key_len: usize, out: *mut u8, out_len: usize) -> u32;
    pub fn sp_write_repl(
        key: *const u8,
        key_len: usize,
        value: *const u8,
        value_len: usize,
        flag: u32,
        phys: u64,
        logical: u16,
        node: u8,
        out: *mut u8,
        out_len: usize,
    ) -> u32;
    pub fn sp_write_ok(out: *mut u8, out_len: usize) -> u32;
    pub fn sp_write_value(value: *const u8, value_len: usize, out: *mut u8, out_len: usize) -> u32;
    pub fn sp_write_not_found(out: *mut u8, out_len: usize) -> u32;
    pub fn sp_write_err(number: u32, out: *mut u8, out_len: usize) -> u32;

    pub fn sp_store_create(store: *mut u8, store_len: usize, slots: usize) -> u32;
    pub fn sp_store_is_sound(store: *const u8, store_len: usize) -> u32;
    pub fn sp_store_lookup(
        store: *const u8,
        store_len: usize,
        key: *const u8,
        key_len: usize,
        place: *mut u64,
        place_len: usize,
    ) -> u32;
    pub fn sp_store_entry(
        store: *const u8,
        store_len: usize,
        i: usize,
        fields: *mut u64,
        fields_len: usize,
    ) -> u32;
    pub fn sp_store_offer(
        store: *mut u8,
        store_len: usize,
        key: *const u8,
        key_len: usize,
        value: *const u8,
        value_len: usize,
        flag: u32,
        phys: u64,
        logical: u16,
        node: u8,
    ) -> u32;
    pub fn sp_store_merge(
        receiver: *mut u8,
        receiver_len: usize,
        giver: *const u8,
        giver_len: usize,
    ) -> u32;
    pub fn sp_store_line(
        store: *const u8,
        store_len: usize,
        line: *mut u64,
        line_len: usize,
    ) -> u32;
    pub fn sp_store_purge(store: *mut u8, store_len: usize, line: u64) -> u32;

    pub fn sp_handle(
        store: *mut u8,
        store_len: usize,
        clock: *mut u64,
        clock_len: usize,
        now: u64,
        frame: *const u8,
        frame_len: usize,
        reply: *mut u8,
        reply_len: usize,
    ) -> u32;

    pub fn sp_deliveries(list: *const u8, list_len: usize) -> u32;
    pub fn sp_explain(
        list: *const u8,
        list_len: usize,
        key: *const u8,
        key_len: usize,
        reasons: *mut u8,
        reasons_len: usize,
    ) -> u32;
}
