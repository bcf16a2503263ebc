/* Snowpulley: a settings store in which every function is proved to meet its contract.
 *
 * Link with libsnowpulley.a. It is for x86-64 Linux, the one target of the toolchain, and needs
 * memcpy, memmove and memset. It has no heap and no data of its own that changes. A call takes up
 * to 18 KiB of stack: a checksum makes its table of 16 KiB there, so every call that takes a
 * checksum takes 12 KiB or more. The calls of the clock and of the peer table, sp_owners,
 * sp_fmix32, sp_ring_is_sound and sp_store_create take less than 2 KiB. This is measured, not
 * proved (docs/PERFORMANCE.md). A port to another processor rests on a back end of the toolchain
 * for it.
 *
 * Every function may be given any numbers and any bytes: it ends with an answer or a numbered
 * refusal, and a refusal changes nothing that was lent, except that sp_handle writes an ERR frame
 * for every refusal but SP_NO_ROOM and SP_BAD_ARGUMENT.
 *
 * A pointer and the length after it are a slice: the pointer is not NULL, also where the length
 * is 0, and points to as many elements as the length says (bytes of uint8_t, words of uint32_t or
 * uint64_t). A slice that is written does not overlap another one of the same call. An output is
 * written at its front, and its later elements stay. Nothing is kept from one call to the next;
 * calls on one store, clock or table must not overlap in time.
 *
 * A time is in milliseconds, from 0 to SP_TIME_END - 1, and counts from a moment that is the same
 * for all modules. `now` is the caller's own reading of the time; it may stand still or go back.
 *
 * A key that was deleted keeps its slot, as a tombstone, until sp_store_purge removes it. A purge
 * is done on all modules of a site; what it asks of them is said there.
 */
#ifndef SNOWPULLEY_H
#define SNOWPULLEY_H

#include <stddef.h>
#include <stdint.h>

#ifdef __cplusplus
extern "C" {
#endif

/* ---- Results --------------------------------------------------------------------------- */

/* A refusal in the upper 16 bits (0: none) and an answer in the lower 16 bits: a length or a
 * number as the function says, and 0 where it says none. A refusal has the answer 0, except that
 * sp_handle's is the length of the ERR frame that it wrote. */
typedef uint32_t sp_result;
#define SP_IS_REFUSED(r) (SP_REFUSAL(r) != 0)
#define SP_REFUSAL(r) ((r) >> 16)
#define SP_ANSWER(r) ((r) & 0xFFFFu)

/* Refusals. */
#define SP_BAD_KEY 1         /* a key that is not acceptable: see SP_KEY_MAX */
#define SP_VALUE_TOO_LARGE 2 /* a value of more than SP_VALUE_MAX bytes */
#define SP_BAD_FRAME 3       /* bytes that are not exactly one frame, or a reply as a request */
#define SP_NO_ROOM 4         /* an output that is too short, or a new store's of a wrong length */
#define SP_BAD_STORE 5       /* a store that is not sound: damaged, or never created */
#define SP_STORE_FULL 6      /* more keys would be held than there are slots */
#define SP_OVERTAKEN 7       /* a PUT or DEL whose stamp is not above the one held for its key */
#define SP_CLOCK_SPENT 8     /* a logical count that has to rise stands at 65535 */
#define SP_BAD_TIME 9        /* a time of SP_TIME_END or more */
#define SP_TOO_FEW 10        /* fewer admitted peers have a place than owners are asked for */
#define SP_UNKNOWN_PEER 11   /* an id that has no row */
#define SP_STALE 12          /* an incarnation below the held one */
#define SP_TABLE_FULL 13     /* an eleventh row */
#define SP_PEER_KNOWN 14     /* an id to be added that has a row */
#define SP_SELF 15           /* an event about the own id, other than adding it */
#define SP_BAD_RING 16       /* a ring that is not sound */
#define SP_BAD_ARGUMENT 17   /* a number out of its range, an id twice, a tombstone with a value,
                              * words that are no clock or no sound table, or a list of
                              * deliveries that is not readable */
#define SP_LOWER_LINE 33     /* a purge to a line below the one that the store holds */
#define SP_BELOW_LINE 34     /* an entry below the store's purge line, for a key not held */
#define SP_UNEQUAL_LINES 35  /* a merge of stores with different purge lines */

/* The name of a refusal's number, as "BAD_KEY": for SP_REFUSAL(r), or the number of an ERR frame.
 * "none" for 0, and "unknown" for a number that this header does not have. */
static inline const char *sp_refusal_name(uint32_t number) {
    switch (number) {
    case 0: return "none";
    case SP_BAD_KEY: return "BAD_KEY";
    case SP_VALUE_TOO_LARGE: return "VALUE_TOO_LARGE";
    case SP_BAD_FRAME: return "BAD_FRAME";
    case SP_NO_ROOM: return "NO_ROOM";
    case SP_BAD_STORE: return "BAD_STORE";
    case SP_STORE_FULL: return "STORE_FULL";
    case SP_OVERTAKEN: return "OVERTAKEN";
    case SP_CLOCK_SPENT: return "CLOCK_SPENT";
    case SP_BAD_TIME: return "BAD_TIME";
    case SP_TOO_FEW: return "TOO_FEW";
    case SP_UNKNOWN_PEER: return "UNKNOWN_PEER";
    case SP_STALE: return "STALE";
    case SP_TABLE_FULL: return "TABLE_FULL";
    case SP_PEER_KNOWN: return "PEER_KNOWN";
    case SP_SELF: return "SELF";
    case SP_BAD_RING: return "BAD_RING";
    case SP_BAD_ARGUMENT: return "BAD_ARGUMENT";
    case SP_LOWER_LINE: return "LOWER_LINE";
    case SP_BELOW_LINE: return "BELOW_LINE";
    case SP_UNEQUAL_LINES: return "UNEQUAL_LINES";
    default: return "unknown";
    }
}

/* Below, the refusals of a function stand in the order of its checks. The first that applies is
 * given, and a function gives none that it does not list. */

/* ---- Limits ---------------------------------------------------------------------------- */

/* A key is any 1 to 64 bytes that do not begin with _sys:, _ring:, _hint: or _gossip:. */
#define SP_KEY_MAX 64     /* bytes */
#define SP_VALUE_MAX 512  /* bytes; a value may be empty */
#define SP_FRAME_MAX 600  /* bytes */
#define SP_SLOTS_MAX 100  /* slots of a store, at least 1 */
#define SP_PEERS_MAX 10   /* rows of a peer table, and ids of a ring */
#define SP_VNODES_MAX 64  /* vnodes of each id of a ring, at least 1 */
#define SP_RING_MAX 640   /* places of a ring: words */
#define SP_OWNERS_MAX 3   /* owners of a position, at least 1 */
#define SP_DELIVERIES_MAX 1000 /* deliveries of a list */
#define SP_TIME_END UINT64_C(281474976710656) /* 2^48: the first time that is out of range */

/* ---- Checksums ------------------------------------------------------------------------- */

/* CRC32C (Castagnoli) of some bytes. */
uint32_t sp_crc32c(const uint8_t *bytes, size_t bytes_len);

/* MurmurHash3's 32-bit finaliser. */
uint32_t sp_fmix32(uint32_t h);

/* ---- The clock ------------------------------------------------------------------------- */

/* A hybrid logical clock is four words. Its phys, logical and node are a stamp; stamps go by phys,
 * then logical, then node (what decides at equal stamps is said below, with the store). Words are
 * no clock if there are more or fewer than four, or if logical, node or the skew count is out of
 * its range. A module keeps its clock over a restart: one that starts anew may give a stamp
 * twice. */
#define SP_CLOCK_WORDS 4
#define SP_CLOCK_PHYS 0       /* a time, milliseconds */
#define SP_CLOCK_LOGICAL 1    /* 0 to 65535, counts steps within one phys */
#define SP_CLOCK_NODE 2       /* the module's id, 0 to 255 */
#define SP_CLOCK_SKEW_COUNT 3 /* received stamps that were far ahead; stops at 2^32 - 1 */

/* A new clock of a module: phys 0, logical 0, skew count 0.
 *   SP_NO_ROOM          fewer than SP_CLOCK_WORDS words */
sp_result sp_clock_fresh(uint8_t node, uint64_t *clock, size_t clock_len);

/* Moves the clock on for a local write at the reading `now`; the clock's stamp is then the
 * write's. sp_handle does this itself.
 *   SP_BAD_ARGUMENT     the words are no clock
 *   SP_BAD_TIME         `now` or the clock's phys is out of range
 *   SP_CLOCK_SPENT      `now` is not above the clock's phys, and its logical is 65535 */
sp_result sp_clock_send(uint64_t now, uint64_t *clock, size_t clock_len);

/* Moves the clock on for a received stamp's phys and logical at the reading `now`. A phys that is
 * more than 2000 ms above `now` is far ahead, also if it is the clock's own: it raises the skew
 * count, and the clock goes to the later of its own phys and `now`, and its logical rises. Any
 * other phys above the clock's own is taken over, with a logical one above the received one. With
 * a phys that is the clock's own, the clock's logical becomes one above the greater of the two.
 * Else the clock's own logical rises. So the clock's stamp, and that of every later write, is above
 * the received one, whichever its node, unless that is far ahead.
 *   SP_BAD_ARGUMENT     the words are no clock
 *   SP_BAD_TIME         `now`, `phys` or the clock's phys is out of range
 *   SP_CLOCK_SPENT      the count that has to rise is 65535: the received logical where its phys
 *                       is taken over, the greater of the two where the phys is the clock's own
 *                       and not far ahead, else the clock's own */
sp_result sp_clock_receive(uint64_t phys, uint16_t logical, uint64_t now, uint64_t *clock,
                           size_t clock_len);

/* ---- The peer table -------------------------------------------------------------------- */

/* A peer table is 61 words: the number of rows, then ten rows of six words, the own one first.
 * Words are a sound table if there are exactly 61 and each fits its bits; if there are 1 to 10
 * rows, no two with the same id, each with one of the three states and a time in range; and if
 * the own row is ALIVE. Rows past the last one are kept as they are. */
#define SP_PEERS_WORDS 61
#define SP_PEERS_COUNT 0     /* the number of rows: 8 bits */
#define SP_ROW_WORDS 6
#define SP_ROW_ID 0          /* table[SP_ROW(i) + SP_ROW_ID]: 8 bits */
#define SP_ROW_ADDRESS 1     /* four bytes as one big-endian number: 32 bits */
#define SP_ROW_PORT 2        /* 16 bits */
#define SP_ROW_STATE 3       /* one of the states below: 8 bits */
#define SP_ROW_INCARNATION 4 /* 32 bits */
#define SP_ROW_SEEN 5        /* when last seen, a time in milliseconds: 64 bits */
#define SP_ROW(i) (1 + SP_ROW_WORDS * (i)) /* the first word of row i, counted from 0 */

/* States; a greater one is worse. */
#define SP_STATE_ALIVE 0
#define SP_STATE_SUSPECT 1
#define SP_STATE_DOWN 2

/* A table with the own row alone: ALIVE, last seen `now`; the nine other rows are zero.
 *   SP_BAD_TIME         `now` is out of range
 *   SP_NO_ROOM          fewer than SP_PEERS_WORDS words */
sp_result sp_peers_fresh(uint8_t id, uint32_t address, uint16_t port, uint32_t incarnation,
                         uint64_t now, uint64_t *table, size_t table_len);

/* Adds a peer, after the others: ALIVE, last seen `now`.
 *   SP_BAD_TIME         `now` is out of range
 *   SP_BAD_ARGUMENT     the words are no sound table
 *   SP_PEER_KNOWN       the id has a row, the own one included
 *   SP_TABLE_FULL       there are ten rows */
sp_result sp_peers_add(uint8_t id, uint32_t address, uint16_t port, uint32_t incarnation,
                       uint64_t now, uint64_t *table, size_t table_len);

/* A peer was heard directly: it becomes ALIVE with that incarnation, and last seen moves up to
 * `now`.
 *   SP_BAD_TIME         `now` is out of range
 *   SP_BAD_ARGUMENT     the words are no sound table
 *   SP_SELF             the id is the own one
 *   SP_UNKNOWN_PEER     the id has no row
 *   SP_STALE            the incarnation is below the held one */
sp_result sp_peers_heard(uint8_t id, uint32_t incarnation, uint64_t now, uint64_t *table,
                         size_t table_len);

/* Another peer told a peer's state. An incarnation above the held one sets both, and ALIVE then
 * moves last seen up to `now`; with the held one the worse of the two states stays.
 *   SP_BAD_TIME         `now` is out of range
 *   SP_BAD_ARGUMENT     the state is none of the three, or the words are no sound table
 *   SP_SELF             the id is the own one
 *   SP_UNKNOWN_PEER     the id has no row
 *   SP_STALE            the incarnation is below the held one */
sp_result sp_peers_reported(uint8_t id, uint32_t state, uint32_t incarnation, uint64_t now,
                            uint64_t *table, size_t table_len);

/* Time has passed: a peer last seen 5000 ms ago or more becomes SUSPECT, and 15000 ms ago or more
 * DOWN. The own row stays, and no state gets better.
 *   SP_BAD_TIME         `now` is out of range
 *   SP_BAD_ARGUMENT     the words are no sound table */
sp_result sp_peers_tick(uint64_t now, uint64_t *table, size_t table_len);

/* 1 if the words are a sound table, else 0. */
uint32_t sp_peers_is_sound(const uint64_t *table, size_t table_len);

/* ---- The ring -------------------------------------------------------------------------- */

/* A ring is its places in ascending order, a word each: 65536 * token + 256 * node + vnode. It is
 * sound if they are no more than SP_RING_MAX, ascend strictly, and have tokens of 32 bits and
 * vnodes below SP_VNODES_MAX. Tokens, positions and salts are any 32 bits; a cluster has one
 * salt. */
#define SP_RING_TOKEN(place) ((uint32_t)((place) >> 16))
#define SP_RING_NODE(place) ((uint8_t)((place) >> 8))
#define SP_RING_VNODE(place) ((uint8_t)(place))

/* The token of a module's vnode. */
uint32_t sp_token(uint8_t node, uint8_t vnode, uint32_t salt);

/* Writes a key's position on the ring to position[0].
 *   SP_BAD_KEY          the key is not acceptable
 *   SP_NO_ROOM          no word */
sp_result sp_key_position(const uint8_t *key, size_t key_len, uint32_t salt, uint32_t *position,
                          size_t position_len);

/* Writes the ring of some ids with `vnodes` places each; the answer is the number of places.
 *   SP_BAD_ARGUMENT     more than ten ids, one of them twice, or `vnodes` not from 1 to 64
 *   SP_NO_ROOM          fewer than ids_len * vnodes words */
sp_result sp_ring_build(const uint8_t *ids, size_t ids_len, uint32_t vnodes, uint32_t salt,
                        uint64_t *ring, size_t ring_len);

/* 1 if the words are a sound ring, else 0. */
uint32_t sp_ring_is_sound(const uint64_t *ring, size_t ring_len);

/* Which peers may be owners. */
#define SP_HOME 0     /* those that have a row */
#define SP_STANDING 1 /* those that have a row and are not DOWN */

/* Writes the ids of the `count` owners of a position: the first admitted peers from the place at
 * or above the position on, and round the ring, each once.
 *   SP_BAD_ARGUMENT     `admission` is neither of the two, `count` is not from 1 to 3, or the words
 *                       of `table` are no sound table
 *   SP_BAD_RING         the ring is not sound
 *   SP_TOO_FEW          fewer than `count` admitted peers have a place
 *   SP_NO_ROOM          fewer than `count` bytes in `out` */
sp_result sp_owners(const uint64_t *ring, size_t ring_len, const uint64_t *table,
                    size_t table_len, uint32_t position, uint32_t admission, uint32_t count,
                    uint8_t *out, size_t out_len);

/* ---- Frames ---------------------------------------------------------------------------- */

/* Types of requests and of replies, with the fields that they use. */
#define SP_TYPE_PUT 1       /* key, value */
#define SP_TYPE_GET 2       /* key */
#define SP_TYPE_DEL 3       /* key */
#define SP_TYPE_REPL 4      /* key, value, flag, phys, logical, node */
#define SP_TYPE_OK 16       /* none */
#define SP_TYPE_VALUE 17    /* value */
#define SP_TYPE_NOTFOUND 18 /* none */
#define SP_TYPE_ERR 20      /* number */

/* What a frame says, or an entry of a store, in ten words. A field that is not used is 0; an
 * empty value has a place, and the length 0. */
#define SP_FIELDS 10
#define SP_FIELD_TYPE 0
#define SP_FIELD_KEY_AT 1    /* where the key begins in the frame or the store, bytes */
#define SP_FIELD_KEY_LEN 2   /* bytes */
#define SP_FIELD_VALUE_AT 3  /* where the value begins, bytes */
#define SP_FIELD_VALUE_LEN 4 /* bytes */
#define SP_FIELD_FLAG 5
#define SP_FIELD_PHYS 6      /* a time, milliseconds */
#define SP_FIELD_LOGICAL 7   /* 0 to 65535 */
#define SP_FIELD_NODE 8      /* 0 to 255 */
#define SP_FIELD_NUMBER 9    /* a refusal's number, 1 to 255 */

/* Flags. A tombstone says that its key was deleted, and has no value. */
#define SP_FLAG_ACTIVE 0
#define SP_FLAG_TOMBSTONE 1

/* Reads the fields of a frame. A byte more than the frame, or one less, makes it no frame.
 *   SP_BAD_FRAME        a length, the checksum, the type, the flags or the body is wrong
 *   SP_BAD_KEY          the key is not acceptable
 *   SP_VALUE_TOO_LARGE  the value has more than SP_VALUE_MAX bytes
 *   SP_NO_ROOM          fewer than SP_FIELDS words */
sp_result sp_frame_read(const uint8_t *frame, size_t frame_len, uint64_t *fields,
                        size_t fields_len);

/* Each writer writes a frame of its type; the answer is the frame's length in bytes. It gives
 * those of the refusals that are about its own arguments.
 *   SP_BAD_TIME         `phys` is out of range
 *   SP_BAD_KEY          the key is not acceptable
 *   SP_VALUE_TOO_LARGE  the value has more than SP_VALUE_MAX bytes
 *   SP_BAD_ARGUMENT     `flag` is neither of the two, a tombstone has a value, or `number` is not
 *                       from 1 to 255
 *   SP_NO_ROOM          `out` is shorter than the frame; SP_FRAME_MAX bytes are always enough */
sp_result sp_write_put(const uint8_t *key, size_t key_len, const uint8_t *value,
                       size_t value_len, uint8_t *out, size_t out_len);
sp_result sp_write_get(const uint8_t *key, size_t key_len, uint8_t *out, size_t out_len);
sp_result sp_write_del(const uint8_t *key, size_t key_len, uint8_t *out, size_t out_len);
sp_result sp_write_repl(const uint8_t *key, size_t key_len, const uint8_t *value,
                        size_t value_len, uint32_t flag, uint64_t phys, uint16_t logical,
                        uint8_t node, uint8_t *out, size_t out_len);
sp_result sp_write_ok(uint8_t *out, size_t out_len);
sp_result sp_write_value(const uint8_t *value, size_t value_len, uint8_t *out, size_t out_len);
sp_result sp_write_not_found(uint8_t *out, size_t out_len);
sp_result sp_write_err(uint32_t number, uint8_t *out, size_t out_len);

/* ---- The store ------------------------------------------------------------------------- */

/* A store of 1 to 100 slots is a buffer of exactly so many bytes: 16, and 596 for each slot. It
 * holds, in the order of the keys, at most one entry of each: the one above all others that were
 * offered and not refused, unless it was a tombstone that a purge removed. docs/FORMAT.md draws
 * the bytes.
 *
 * A store also has a purge line, a time: 0 in a new store, and then that of its last purge, which
 * removed the tombstones below it. An entry is below the line if its phys is. Such an entry is
 * refused if its key is not held: it may be older than a tombstone that was removed. For a held
 * key the line says nothing.
 *
 * Entries of a key go by their stamps, and those with one stamp by their contents: a tombstone is
 * above every value; of two values the one with the greater byte where they first differ is above,
 * or the longer one if it begins with the other. */
#define SP_STORE_BYTES(slots) (16 + 596 * (size_t)(slots))

/* Makes the buffer a store that holds nothing; its purge line is 0. On a site that was purged a new
 * module's store is no such one, but a copy of a neighbour's bytes: see sp_store_purge.
 *   SP_BAD_ARGUMENT     `slots` is not from 1 to 100
 *   SP_NO_ROOM          the buffer has not exactly SP_STORE_BYTES(slots) bytes */
sp_result sp_store_create(uint8_t *store, size_t store_len, size_t slots);

/* 1 if the buffer is a sound store, else 0. */
uint32_t sp_store_is_sound(const uint8_t *store, size_t store_len);

/* Answers of sp_store_lookup. */
#define SP_LOOKED_VALUE 0   /* the key has a value */
#define SP_LOOKED_DELETED 1 /* a tombstone is held */
#define SP_LOOKED_NEVER 2   /* nothing is held */

/* The words that it writes: 0 and 0 where there is no value; an empty value has a place. */
#define SP_PLACE_WORDS 2
#define SP_PLACE_AT 0  /* where the value begins in the store, bytes */
#define SP_PLACE_LEN 1 /* bytes */

/* What the store says of a key, and where its value stands.
 *   SP_BAD_STORE        the store is not sound
 *   SP_BAD_KEY          the key is not acceptable
 *   SP_NO_ROOM          fewer than SP_PLACE_WORDS words */
sp_result sp_store_lookup(const uint8_t *store, size_t store_len, const uint8_t *key,
                          size_t key_len, uint64_t *place, size_t place_len);

/* Writes the fields of entry i, counted from 0 in the order of the keys, as those of a REPL; the
 * places are in the store. To list a store, call it with 0, 1 .. until SP_BAD_ARGUMENT.
 *   SP_BAD_STORE        the store is not sound
 *   SP_BAD_ARGUMENT     the store holds i entries or fewer
 *   SP_NO_ROOM          fewer than SP_FIELDS words */
sp_result sp_store_entry(const uint8_t *store, size_t store_len, size_t i, uint64_t *fields,
                         size_t fields_len);

/* Answers of sp_store_offer. */
#define SP_OFFER_STORED 0   /* its key was not held */
#define SP_OFFER_REPLACED 1 /* the held entry was below it */
#define SP_OFFER_KEPT 2     /* the held entry was not below it: the store is as before */

/* Offers an entry to the store; `phys`, `logical` and `node` are its stamp.
 *   SP_BAD_STORE        the store is not sound
 *   SP_BAD_TIME         `phys` is out of range
 *   SP_BAD_KEY          the key is not acceptable
 *   SP_VALUE_TOO_LARGE  the value has more than SP_VALUE_MAX bytes
 *   SP_BAD_ARGUMENT     `flag` is neither of the two, or a tombstone has a value
 *   SP_BELOW_LINE       the key is not held, and `phys` is below the store's purge line
 *   SP_STORE_FULL       the key is not held, and no slot is free */
sp_result sp_store_offer(uint8_t *store, size_t store_len, const uint8_t *key, size_t key_len,
                         const uint8_t *value, size_t value_len, uint32_t flag, uint64_t phys,
                         uint16_t logical, uint8_t node);

/* Offers each entry of the giver to the receiver, all or none, but passes over those that are
 * below the purge line and of a key that the receiver does not hold; the answer is how many it
 * passed over. The two may have different numbers of slots.
 *   SP_BAD_STORE        one of the two is not sound
 *   SP_UNEQUAL_LINES    their purge lines differ
 *   SP_STORE_FULL       the receiver's keys, with those that it would take, are more than it has
 *                       slots */
sp_result sp_store_merge(uint8_t *receiver, size_t receiver_len, const uint8_t *giver,
                         size_t giver_len);

/* Writes the store's purge line, a time in milliseconds, to line[0].
 *   SP_BAD_STORE        the store is not sound
 *   SP_NO_ROOM          no word */
sp_result sp_store_line(const uint8_t *store, size_t store_len, uint64_t *line, size_t line_len);

/* Removes every tombstone whose phys is below `line`, and sets the store's purge line to it; the
 * answer is how many it removed. Their slots take new keys; no value is removed.
 *
 * Purge all modules of a site to one line, after they have merged with each other and before
 * anything else is written: then every tombstone that is removed has reached every module. Choose
 * a line in the past, since a write below it is refused where its key is not held.
 *
 * A module that slept through a purge may still hold what was deleted elsewhere. If the line rose,
 * merges with it are refused; if not, only the number that another module passes over when it
 * merges this one's store tells. Do not purge it by itself, since it would keep such values. Offer
 * all its entries to a neighbour and look at what that refuses with SP_BELOW_LINE: such an entry
 * was deleted, or never came, and is lost unless it is written anew. Then make its store anew, as
 * a copy of the neighbour's bytes. Do the same with a store from a copy that is older than the
 * purge. A new store is made as such a copy too: created and purged to the line, it would pass
 * over what is older than the line and still in force.
 *
 * No checksum covers the line, and a store with any line is sound: where a line may be damaged,
 * compare it with that of other modules. A library from before this function finds a store with a
 * line unsound.
 *   SP_BAD_STORE        the store is not sound
 *   SP_BAD_TIME         `line` is out of range
 *   SP_LOWER_LINE       `line` is below the store's purge line; it may be equal to it */
sp_result sp_store_purge(uint8_t *store, size_t store_len, uint64_t line);

/* ---- The request handler --------------------------------------------------------------- */

/* Answers one request frame at the reading `now`; the answer is the reply's length in bytes.
 * PUT and DEL move the clock as sp_clock_send and offer an entry with its stamp; REPL moves it as
 * sp_clock_receive and offers its entry as it came. The reply is OK, for REPL also where the held
 * entry is kept. GET is answered with VALUE or NOTFOUND and moves no clock. Of the refusals the
 * first two write nothing, and each of the others an ERR frame with its number:
 *   SP_BAD_ARGUMENT     the words are no clock
 *   SP_NO_ROOM          `reply` has fewer than SP_FRAME_MAX bytes
 *   SP_BAD_STORE        the store is not sound
 *   SP_BAD_TIME         `now` or the clock's phys is out of range
 *   SP_BAD_FRAME        the bytes are no frame, or one of a reply
 *   SP_BAD_KEY          the key is not acceptable
 *   SP_VALUE_TOO_LARGE  the value has more than SP_VALUE_MAX bytes
 *   SP_CLOCK_SPENT      as sp_clock_send for PUT and DEL, and sp_clock_receive for REPL
 *   SP_OVERTAKEN        the stamp of a PUT or DEL is not above the one held for its key, whatever
 *                       it writes. The held entry came in a REPL and was far ahead each time
 *                       that it was taken; or this clock, as it now stands, has not received it,
 *                       as where it came in an offer or a merge, or was held before the clock
 *                       began. Not given where `now` is above the held phys
 *   SP_BELOW_LINE       the key of a PUT, DEL or REPL is not held, and the phys of its stamp is
 *                       below the store's purge line
 *   SP_STORE_FULL       the key is not held, and no slot is free */
sp_result sp_handle(uint8_t *store, size_t store_len, uint64_t *clock, size_t clock_len,
                    uint64_t now, const uint8_t *frame, size_t frame_len, uint8_t *reply,
                    size_t reply_len);

/* ---- The report ------------------------------------------------------------------------ */

/* Which delivery of a key is in force, and why not the others. A list of deliveries is REPL
 * frames, one right after the other, in the order in which they came. It is readable if it has no
 * more than SP_DELIVERIES_MAX frames, sp_frame_read reads each of them, each is a REPL, and no
 * byte is left over; so the empty list is readable. The place of a delivery is its number in the
 * list, counted from 0. A REPL has up to 597 bytes, so a readable list up to 597000.
 *
 * Of what a module is sent, keep the REPL frames that sp_handle answered with OK. A module's own
 * PUT and DEL, and what came by sp_store_offer or sp_store_merge, are in no such list: the report
 * is on the list alone. The module may hold an entry above the winner, or, after a purge, none: a
 * tombstone, in the list or not, may have been removed. */

/* The answer is the number of deliveries in the list, 0 to SP_DELIVERIES_MAX.
 *   SP_BAD_ARGUMENT     the list is not readable */
sp_result sp_deliveries(const uint8_t *list, size_t list_len);

/* What sp_explain answers where no delivery is of the key. */
#define SP_NO_DELIVERY 65535

/* The bytes that it writes, one for each delivery. SP_WON is the winner's byte, and SP_OTHER_KEY
 * that of every delivery of another key, so of all where there is no winner. The others say why a
 * delivery of the key lost: by the first field in which its stamp and the winner's differ, by its
 * contents, or as the same entry. */
#define SP_WON 0
#define SP_EARLIER_TIME 1  /* a lower phys */
#define SP_LOWER_COUNT 2   /* the same phys, a lower logical */
#define SP_LOWER_NODE 3    /* the same phys and logical, a lower node */
#define SP_SAME_ENTRY 4    /* the winner's own entry, again */
#define SP_OTHER_KEY 5     /* a delivery of another key */
#define SP_LOWER_CONTENT 6 /* the winner's stamp, but lower contents: a stamp was given twice */

/* Names the winner among the deliveries of a key, and writes to `reasons` why each other one lost;
 * the answer is the winner's place, or SP_NO_DELIVERY. The winner is the delivery whose entry
 * is above all others of the key, the first one if it came again: the entry that a new store holds
 * after the key's deliveries were offered to it in their order.
 *   SP_BAD_ARGUMENT     the list is not readable
 *   SP_BAD_KEY          the key is not acceptable
 *   SP_NO_ROOM          `reasons` has fewer bytes than the list has deliveries */
sp_result sp_explain(const uint8_t *list, size_t list_len, const uint8_t *key, size_t key_len,
                     uint8_t *reasons, size_t reasons_len);

#ifdef __cplusplus
}
#endif

#endif
