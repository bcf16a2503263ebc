/* Modules of a site: settings are written on module 1, the owners of one are named, the entries
 * are listed and sent to module 2, its store is merged into a spare one, and of what was sent to it
 * a report says which delivery of a key is in force. Then module 1 gives a stamp twice, and modules
 * 2 and 3 still come to hold the same. At last a deletion is cleared; what module 4, which slept,
 * holds of it is refused, and its store is made anew. C99, and C++11. */
#include <stdio.h>
#include <string.h>

#include "snowpulley.h"

#define SLOTS 8
#define LIST_BYTES 4096 /* for the frames that a module keeps for a report */
#define VNODES 16
#define SALT 0xA5A5A5A5u                /* one for the whole site */
#define MORNING UINT64_C(1736836800000) /* in ms since 1970: 14 January 2025, 06:40 UTC */

typedef struct {
    uint8_t id;
    uint64_t clock[SP_CLOCK_WORDS];
    uint8_t store[SP_STORE_BYTES(SLOTS)];
    uint8_t list[LIST_BYTES]; /* the REPL frames that it answered with OK */
    size_t list_len;
} module;

static module one, two, three;
static module card; /* a copy of module 1 */
static module four; /* sleeps from the first deletion on */
static uint8_t spare[SP_STORE_BYTES(SLOTS)];

static const uint8_t *bytes(const char *text) { return (const uint8_t *)text; }

/* Tells a refusal, if there is one. */
static int refused(const char *call, sp_result r) {
    if (SP_IS_REFUSED(r)) {
        printf("%s: refused with %s\n", call, sp_refusal_name(SP_REFUSAL(r)));
    }
    return SP_IS_REFUSED(r);
}

static void create(module *m, uint8_t id) {
    m->id = id;
    m->list_len = 0;
    refused("sp_clock_fresh", sp_clock_fresh(id, m->clock, SP_CLOCK_WORDS));
    refused("sp_store_create", sp_store_create(m->store, sizeof m->store, SLOTS));
}

/* ---- Requests and their replies */

static void print_reply(const uint8_t *reply, size_t reply_len) {
    uint64_t fields[SP_FIELDS];
    if (refused("sp_frame_read", sp_frame_read(reply, reply_len, fields, SP_FIELDS))) {
        return;
    }
    switch (fields[SP_FIELD_TYPE]) {
    case SP_TYPE_OK:
        printf("OK\n");
        break;
    case SP_TYPE_VALUE:
        printf("VALUE %.*s\n", (int)fields[SP_FIELD_VALUE_LEN],
               (const char *)reply + fields[SP_FIELD_VALUE_AT]);
        break;
    case SP_TYPE_NOTFOUND:
        printf("NOTFOUND\n");
        break;
    case SP_TYPE_ERR:
        printf("ERR %s\n", sp_refusal_name((uint32_t)fields[SP_FIELD_NUMBER]));
        break;
    }
}

/* Hands a module a frame, with what its writer answered, and prints the reply. 1 if the request
 * was served, else 0. */
static int request(module *to, uint64_t now, const uint8_t *frame, sp_result written) {
    uint8_t reply[SP_FRAME_MAX];
    sp_result r;
    if (refused("no frame", written)) {
        return 0;
    }
    r = sp_handle(to->store, sizeof to->store, to->clock, SP_CLOCK_WORDS, now, frame,
                  SP_ANSWER(written), reply, sizeof reply);
    /* A refusal is an ERR frame in the reply; of SP_NO_ROOM and SP_BAD_ARGUMENT there is none. */
    if (SP_ANSWER(r) == 0) {
        refused("sp_handle", r);
    } else {
        print_reply(reply, SP_ANSWER(r));
    }
    return !SP_IS_REFUSED(r);
}

static void put(module *to, uint64_t now, const char *key, const char *value) {
    uint8_t frame[SP_FRAME_MAX];
    printf("module %u, PUT %s = %s: ", to->id, key, value);
    request(to, now, frame, sp_write_put(bytes(key), strlen(key), bytes(value), strlen(value),
                                         frame, sizeof frame));
}

static void del(module *to, uint64_t now, const char *key) {
    uint8_t frame[SP_FRAME_MAX];
    printf("module %u, DEL %s: ", to->id, key);
    request(to, now, frame, sp_write_del(bytes(key), strlen(key), frame, sizeof frame));
}

static void get(module *to, uint64_t now, const char *key) {
    uint8_t frame[SP_FRAME_MAX];
    printf("module %u, GET %s: ", to->id, key);
    request(to, now, frame, sp_write_get(bytes(key), strlen(key), frame, sizeof frame));
}

/* ---- Owners */

/* Which two of the modules 1 to 4 should hold a key, while module 3 is DOWN? */
static void print_owners(uint64_t now, const char *key) {
    static const uint8_t ids[] = {1, 2, 3, 4};
    static uint64_t peers[SP_PEERS_WORDS], ring[sizeof ids * VNODES];
    uint32_t position = 0;
    uint8_t owners[2];
    sp_result places, r;
    size_t i;

    refused("sp_peers_fresh",
            sp_peers_fresh(ids[0], 0x0A000001, 7000, 0, now, peers, SP_PEERS_WORDS));
    for (i = 1; i < sizeof ids; i++) {
        refused("sp_peers_add", sp_peers_add(ids[i], 0x0A000001 + (uint32_t)i, 7000, 0, now,
                                             peers, SP_PEERS_WORDS));
    }
    refused("sp_peers_reported",
            sp_peers_reported(3, SP_STATE_DOWN, 0, now, peers, SP_PEERS_WORDS));

    places = sp_ring_build(ids, sizeof ids, VNODES, SALT, ring, sizeof ids * VNODES);
    refused("sp_ring_build", places);
    refused("sp_key_position", sp_key_position(bytes(key), strlen(key), SALT, &position, 1));
    r = sp_owners(ring, SP_ANSWER(places), peers, SP_PEERS_WORDS, position, SP_STANDING, 2,
                  owners, sizeof owners);
    if (!refused("sp_owners", r)) {
        printf("owners of %s: modules %u and %u\n", key, owners[0], owners[1]);
    }
}

/* ---- Listing a store */

/* Puts a frame at the end of a module's list. */
static void keep(module *m, const uint8_t *frame, size_t frame_len) {
    if (frame_len > sizeof m->list - m->list_len) {
        printf("module %u: the list is full\n", m->id);
        return;
    }
    memcpy(m->list + m->list_len, frame, frame_len);
    m->list_len += frame_len;
}

/* Sends the entry with these fields to a module, as a REPL frame. The module keeps the frame if it
 * answers with OK. */
static void send_entry(module *to, uint64_t now, const uint8_t *store, const uint64_t *fields) {
    const uint8_t *key = store + fields[SP_FIELD_KEY_AT];
    const uint8_t *value = store + fields[SP_FIELD_VALUE_AT];
    size_t key_len = (size_t)fields[SP_FIELD_KEY_LEN];
    size_t value_len = (size_t)fields[SP_FIELD_VALUE_LEN];
    uint8_t frame[SP_FRAME_MAX];
    sp_result written;
    printf("module %u, REPL %.*s ", to->id, (int)key_len, (const char *)key);
    if (fields[SP_FIELD_FLAG] == SP_FLAG_TOMBSTONE) {
        printf("deleted");
    } else {
        printf("= %.*s", (int)value_len, (const char *)value);
    }
    printf(" at (%llu, %u, %u): ", (unsigned long long)fields[SP_FIELD_PHYS],
           (unsigned)fields[SP_FIELD_LOGICAL], (unsigned)fields[SP_FIELD_NODE]);
    written = sp_write_repl(key, key_len, value, value_len, (uint32_t)fields[SP_FIELD_FLAG],
                            fields[SP_FIELD_PHYS], (uint16_t)fields[SP_FIELD_LOGICAL],
                            (uint8_t)fields[SP_FIELD_NODE], frame, sizeof frame);
    if (request(to, now, frame, written)) {
        keep(to, frame, SP_ANSWER(written));
    }
}

static void send_all(const module *from, module *to, uint64_t now) {
    uint64_t fields[SP_FIELDS];
    size_t i;
    for (i = 0;; i++) {
        sp_result r = sp_store_entry(from->store, sizeof from->store, i, fields, SP_FIELDS);
        if (SP_REFUSAL(r) == SP_BAD_ARGUMENT) {
            return; /* the store holds no more */
        }
        if (refused("sp_store_entry", r)) {
            return;
        }
        send_entry(to, now, from->store, fields);
    }
}

/* ---- The spare store */

static void print_lookup(const char *key) {
    uint64_t place[SP_PLACE_WORDS];
    sp_result r = sp_store_lookup(spare, sizeof spare, bytes(key), strlen(key), place,
                                  SP_PLACE_WORDS);
    if (refused("sp_store_lookup", r)) {
        return;
    }
    switch (SP_ANSWER(r)) {
    case SP_LOOKED_VALUE:
        printf("spare store: %s = %.*s\n", key, (int)place[SP_PLACE_LEN],
               (const char *)spare + place[SP_PLACE_AT]);
        break;
    case SP_LOOKED_DELETED:
        printf("spare store: %s was deleted\n", key);
        break;
    case SP_LOOKED_NEVER:
        printf("spare store: %s was never seen\n", key);
        break;
    }
}

/* ---- The report */

static const char *reason_text(uint8_t reason) {
    switch (reason) {
    case SP_WON: return "won";
    case SP_EARLIER_TIME: return "earlier time";
    case SP_LOWER_COUNT: return "same time, lower count";
    case SP_LOWER_NODE: return "same time and count, lower node id";
    case SP_SAME_ENTRY: return "the same entry again";
    case SP_OTHER_KEY: return "another key";
    case SP_LOWER_CONTENT: return "same stamp, lower contents";
    default: return "unknown";
    }
}

/* Which delivery of a key in a module's list is in force, and why not the others? */
static void print_report(const module *m, const char *key) {
    static uint8_t reasons[SP_DELIVERIES_MAX];
    sp_result count = sp_deliveries(m->list, m->list_len);
    sp_result r = sp_explain(m->list, m->list_len, bytes(key), strlen(key), reasons,
                             sizeof reasons);
    uint32_t i;
    if (refused("sp_explain", r)) {
        return;
    }
    printf("module %u, report on %s: ", m->id, key);
    if (SP_ANSWER(r) == SP_NO_DELIVERY) {
        printf("never delivered\n");
        return;
    }
    printf("delivery %u is in force\n", SP_ANSWER(r));
    for (i = 0; i < SP_ANSWER(count); i++) {
        printf("  delivery %u: %s\n", i, reason_text(reasons[i]));
    }
}

/* ---- A stamp that is given twice */

/* Module 1 is restored from its card and its time set back, so its clock gives another value a
 * stamp that it gave before. The two values reach modules 2 and 3 in different orders, and both
 * modules hold the one that is greater by its bytes. */
static void give_a_stamp_twice(void) {
    printf("module 1 is restored from its card\n");
    one = card;
    put(&one, MORNING + 8, "comp/scale-3", "+130 ppm");
    send_all(&one, &two, MORNING + 10);
    send_all(&one, &three, MORNING + 10);
    send_all(&two, &three, MORNING + 11);
    get(&two, MORNING + 12, "comp/scale-3");
    get(&three, MORNING + 12, "comp/scale-3");
    print_report(&two, "comp/scale-3");
    print_report(&three, "comp/scale-3");
}

/* ---- A purge */

static void purge(module *m, uint64_t line) {
    uint64_t before = 0, now = 0;
    sp_result r;
    refused("sp_store_line", sp_store_line(m->store, sizeof m->store, &before, 1));
    r = sp_store_purge(m->store, sizeof m->store, line);
    refused("sp_store_purge", r);
    refused("sp_store_line", sp_store_line(m->store, sizeof m->store, &now, 1));
    printf("module %u, purge line from %llu to %llu: tombstones removed: %u\n", m->id,
           (unsigned long long)before, (unsigned long long)now, SP_ANSWER(r));
}

static void merge(module *receiver, const module *giver) {
    sp_result r = sp_store_merge(receiver->store, sizeof receiver->store, giver->store,
                                 sizeof giver->store);
    if (!refused("sp_store_merge", r)) {
        printf("module %u merges the store of module %u: passed over: %u\n", receiver->id,
               giver->id, SP_ANSWER(r));
    }
}

/* Modules 1 to 3 hold the same once module 1 has merged, and are purged to one line: the test
 * load's slot is free again. Its value, which module 4 still has, is older than the line. Module 4
 * offers what it holds, and then its store is made anew, as a copy. */
static void clear_a_deletion(void) {
    merge(&one, &two);
    purge(&one, MORNING + 20);
    purge(&two, MORNING + 20);
    purge(&three, MORNING + 20);
    merge(&two, &four);
    send_all(&four, &two, MORNING + 21);
    get(&two, MORNING + 22, "test-load");
    memcpy(four.store, two.store, sizeof four.store);
    merge(&two, &four);
}

int main(void) {
    create(&one, 1);
    create(&two, 2);
    create(&three, 3);
    create(&four, 4);

    put(&one, MORNING, "comp/scale-3", "+120 ppm");
    put(&one, MORNING + 1, "test-load", "50 kg");
    refused("sp_store_merge",
            sp_store_merge(four.store, sizeof four.store, one.store, sizeof one.store));
    put(&one, MORNING + 2, "_sys:boot", "1");
    del(&one, MORNING + 3, "test-load");
    print_owners(MORNING + 4, "comp/scale-3");

    card = one;
    send_all(&one, &two, MORNING + 5);
    get(&two, MORNING + 6, "comp/scale-3");
    get(&two, MORNING + 7, "test-load");
    put(&one, MORNING + 8, "comp/scale-3", "+95 ppm");
    send_all(&one, &two, MORNING + 9);

    refused("sp_store_create", sp_store_create(spare, sizeof spare, SLOTS));
    refused("sp_store_merge", sp_store_merge(spare, sizeof spare, two.store, sizeof two.store));
    print_lookup("comp/scale-3");
    print_lookup("test-load");
    print_lookup("comp/scale-9");
    /* The same entries make the same bytes. */
    if (memcmp(one.store, spare, sizeof spare) != 0) {
        return 1;
    }

    spare[100] ^= 1; /* as worn flash may do */
    print_lookup("comp/scale-3");
    print_report(&two, "comp/scale-3");
    print_report(&two, "test-load");
    print_report(&two, "comp/scale-9");

    give_a_stamp_twice();
    clear_a_deletion();
    return memcmp(one.store, two.store, sizeof two.store) != 0 ||
           memcmp(two.store, three.store, sizeof two.store) != 0;
}
