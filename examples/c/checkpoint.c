/* A checkpoint, as a simulator takes one: drain, flush, the memory's image, and a new cache over it that goes on. Beside it a cache that
 * is never stopped is asked for the same accesses: each load gets the same bytes from both, which are those last stored, and so has the
 * memory of both at the end. No call is polled for: jv_next tells which one moves a bank on. Status 1 where something is otherwise. */
#include "jinavoke.h"
#include <stdio.h>

enum { CLIENTS = 4, BANKS = 2, BLOCK_BYTES = 16, BLOCKS = 32, BYTES = BLOCK_BYTES * BLOCKS, WORD = 8 };
static const jv_numbers numbers = {1, CLIENTS, BANKS, BLOCK_BYTES, 2, 2, 2, 16, BLOCKS};

static uint64_t state;
static uint32_t below(uint32_t n) { state ^= state << 13; state ^= state >> 7; state ^= state << 17; return (uint32_t)(state % n); }
static long wrong;
static void expect(int holds, const char *what) { if (!holds && ++wrong < 10) printf("not so: %s\n", what); }

static uint64_t events(const jv_cache *c) {
    uint32_t bank; uint64_t sum = 0;
    for (bank = 0; bank < BANKS; bank++) sum += jv_events(c, bank).serial;
    return sum;
}
/* Takes what is under way in a bank, call after call. */
static void settle(jv_cache *c, uint32_t bank) {
    jv_request r; uint32_t status;
    while ((status = jv_next(c, bank, &r)) == JV_OK)
        if (jv_call(c, &r).status) { expect(0, "the next call is done"); return; }
    expect(status == JV_NOTHING_THERE && jv_is_quiet(c, bank).serial == 1, "no call is next just where the bank is quiet");
}
/* A load, or a store of `bytes`, of a client that first gets the copy that it needs. */
static jv_accessed access_to(jv_cache *c, uint32_t client, uint32_t address, const uint8_t *bytes) {
    uint32_t block = address / BLOCK_BYTES, bank = (uint32_t)jv_bank_of(c, block).serial;
    uint64_t perm;
    settle(c, bank);
    perm = jv_perm(c, client, block).serial;
    if (bytes && perm != JV_TIP) (void)jv_acquire(c, client, block, perm == JV_BRANCH ? JV_BTOT : JV_NTOT);
    if (!bytes && perm == JV_NONE) (void)jv_acquire(c, client, block, JV_NTOB);
    settle(c, bank);
    return bytes ? jv_store(c, client, address, bytes, WORD, 0) : jv_load(c, client, address, WORD, 0);
}
/* The same access of both, and of the bytes that were stored last. */
static void both(jv_cache *stopped, jv_cache *goes_on, uint8_t *last) {
    uint32_t client = below(CLIENTS), address = below(BYTES / WORD) * WORD; uint8_t bytes[WORD]; int i, stores = below(2) == 0;
    jv_accessed a, b;
    for (i = 0; i < WORD; i++) bytes[i] = (uint8_t)below(256);
    a = access_to(stopped, client, address, stores ? bytes : NULL);
    b = access_to(goes_on, client, address, stores ? bytes : NULL);
    expect(a.status == JV_OK && b.status == JV_OK, "the access is done");
    if (stores) memcpy(last + address, bytes, WORD);
    else expect(!memcmp(a.bytes, last + address, WORD) && !memcmp(b.bytes, last + address, WORD), "a load gets the bytes last stored");
}
/* Something is under way in each bank. */
static void start_some(jv_cache *c) {
    uint32_t block, client;
    for (block = 0; block < BLOCKS; block++) {
        client = below(CLIENTS);
        if (jv_perm(c, client, block).serial == JV_NONE) (void)jv_acquire(c, client, block, JV_NTOT);
    }
}
/* Nothing is under way, nobody has a copy, and each event that came is counted. */
static void is_away(const jv_cache *c) {
    uint32_t bank, block, kind; uint64_t all = 0; jv_event_counts counts;
    for (bank = 0; bank < BANKS; bank++)
        expect(jv_is_quiet(c, bank).serial == 1 && !jv_held(c, bank).serial && !jv_recorded(c, bank).serial, "a bank is flushed");
    for (block = 0; block < BLOCKS; block++) expect(jv_home_copy(c, block).serial == JV_HOME_NONE, "home has no copy");
    expect(jv_counts(c, &counts) == JV_OK, "the events are counted");
    for (kind = 0; kind < JV_EVENT_KINDS; kind++) all += counts.of[kind];
    expect(all == events(c), "each event is of a kind");
    expect(counts.of[JV_EVENT_SEND_GRANT] == counts.of[JV_EVENT_TAKE_GRANT_ACK], "each Grant was acknowledged");
}
/* Brings a cache to rest and tells its memory's bytes. */
static void save(jv_cache *c, uint8_t *image) {
    uint64_t before = events(c); jv_answer a = jv_drain(c);
    expect(a.status == JV_OK && a.what == JV_TELLS_NUMBER && a.serial == events(c) - before, "a drain tells how many events came");
    before = events(c);
    a = jv_flush(c);
    expect(a.status == JV_OK && a.serial == events(c) - before, "and so does a flush");
    is_away(c);
    expect(jv_image(c, image, BYTES) == BYTES, "the image has the whole memory");
}
int main(int argc, char **argv) {
    uint8_t last[BYTES] = {0}, image[BYTES], other[BYTES]; uint32_t why; long i, steps = argc > 2 ? atol(argv[2]) : 20000;
    jv_cache *goes_on = jv_new(&numbers, NULL, 0, &why), *stopped = jv_new(&numbers, NULL, 0, &why);
    state = argc > 1 ? (uint64_t)atol(argv[1]) * 2654435761u + 1 : 1;
    if (!goes_on || !stopped) { printf("jv_new: %s\n", jv_status_name(why)); return 1; }
    for (i = 0; i < steps; i++) {
        if (i % (steps / 4 + 1) == steps / 8) { /* a checkpoint, with something under way */
            start_some(stopped);
            save(stopped, image);
            expect(!memcmp(image, last, BYTES), "the memory has the bytes last stored");
            jv_free(stopped);
            stopped = jv_new(&numbers, image, BYTES, &why);
            if (!stopped) { printf("jv_new: %s\n", jv_status_name(why)); return 1; }
        }
        both(stopped, goes_on, last);
    }
    save(stopped, image);
    save(goes_on, other);
    expect(!memcmp(image, last, BYTES) && !memcmp(other, last, BYTES), "both end with the bytes last stored");
    printf("seed %s: %ld accesses, %llu events without a stop: %ld wrong\n", argc > 1 ? argv[1] : "1", steps,
        (unsigned long long)events(goes_on), wrong);
    jv_free(stopped); jv_free(goes_on);
    return wrong != 0;
}
