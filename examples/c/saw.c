/* saw [SEED [STEPS [stores]]]: a device drives one cache at random, and each message that its clients send is handed to a second cache as
 * one that was seen (jv_saw), beside wrong ones: with a flipped byte, another param, without its bytes, of a client or block that is not
 * there. Each right one has to be done as the device did it; each wrong one has to be told, and to change nothing. With `stores` nobody
 * tells the second cache what the device stores (JV_STORES): it has to make the stores that lead to the bytes, and no more. The status is 1
 * where something was otherwise. */
#include "jinavoke.h"
#include <stdio.h>

enum { CLIENTS = 3, BANKS = 2, BLOCKS = 8, BYTES = 16 };
static jv_cache *device, *model;
static uint64_t state;
static long wrong, right, made, told[32];
static int infers;

static uint32_t below(uint32_t n) {
    state = state * 6364136223846793005u + 1442695040888963407u;
    return (uint32_t)(state >> 33) % n;
}
static void otherwise(const char *what, const jv_answer *a) {
    if (++wrong <= 20) printf("otherwise: %s: %s\n", what, jv_status_name(a->status));
}
static uint64_t events(const jv_cache *c) { uint64_t n = 0; uint32_t bank; for (bank = 0; bank < BANKS; bank++) n += jv_events(c, bank).serial; return n; }
static int same_message(const jv_answer *a, const jv_answer *b) {
    return a->what == JV_TELLS_MESSAGE && b->what == JV_TELLS_MESSAGE && a->bank == b->bank && a->client == b->client
        && a->channel == b->channel && a->opcode == b->opcode && a->param == b->param && a->place == b->place && a->len == b->len
        && !memcmp(a->bytes, b->bytes, sizeof a->bytes);
}
static jv_seen seen_of(const jv_answer *a) {
    jv_seen s; memset(&s, 0, sizeof s);
    s.channel = a->channel; s.opcode = a->opcode; s.param = a->param; s.client = a->client; s.block = a->place; s.len = a->len;
    memcpy(s.bytes, a->bytes, sizeof s.bytes);
    if (infers) { s.options = JV_STORES; s.index = 7; }
    return s;
}
/* How many stores lead from the second cache's copy to the bytes that were seen. */
static uint32_t wanted(const jv_seen *s) {
    jv_answer copy = jv_copy(model, s->client, s->block); uint32_t n = 0, at;
    if (!infers || !s->len) return 0;
    for (at = 0; at < BYTES; at += 8) n += memcmp(copy.bytes + at, s->bytes + at, 8) != 0;
    return n ? n : copy.serial == JV_COPY_CLEAN_TIP;
}
/* The stores stand before the message in the log, each of eight bytes that were seen. */
static void read_stores(const jv_seen *s, const jv_answer *b) {
    jv_answer e[BYTES / 8]; uint64_t at = jv_events(model, b->bank).serial - 1 - b->stores; uint32_t i, last = 0;
    memset(e, 0, sizeof e);
    if (jv_read_events(model, b->bank, &at, e, b->stores) != b->stores) otherwise("the events of stores", b);
    for (i = 0; i < b->stores; i++) {
        uint32_t from = e[i].address - s->block * BYTES;
        if (e[i].opcode != JV_EVENT_STORE || e[i].client != s->client || e[i].len != 8 || e[i].index != s->index || from % 8
            || from >= BYTES || (i && from <= last) || memcmp(e[i].bytes, s->bytes + from, 8)) otherwise("a store", b);
        last = from;
    }
}
/* A wrong message in the place of the device's: it has to be told, and to change nothing. */
static void see_wrong(const jv_answer *a) {
    jv_seen s = seen_of(a); jv_answer b; uint64_t before = events(model);
    uint32_t how = below(7), wants = 0;
    if (infers && how < 2) return; /* any bytes of a Tip, and none of a clean one, are lawful */
    if (how == 0 && s.len) { s.bytes[below(s.len)] ^= (uint8_t)(1u << below(8)); wants = JV_DIFFERS; }
    else if (how == 1 && s.channel == JV_C && s.len) { s.opcode--; s.len = 0; wants = JV_DIFFERS; }
    else if (how == 2) { s.client = CLIENTS + below(3); wants = JV_OUT_OF_RANGE; }
    else if (how == 3) { s.block = BLOCKS + below(3); wants = JV_OUT_OF_RANGE; }
    else if (how == 4) { s.opcode = 3; wants = JV_OUTSIDE; }
    else if (how == 5) { s.len = BYTES - 1; wants = JV_BAD_ARGUMENT; }
    else if (how == 6 && s.channel == JV_C && s.opcode == JV_OP_PROBE_ACK_DATA) { s.param ^= 1; wants = JV_DIFFERS; }
    else return;
    b = jv_saw(model, &s);
    told[b.status & 31]++;
    if (b.status != wants) otherwise("a wrong message", &b);
    if (b.stores) otherwise("stores before a wrong message", &b);
    if (wants == JV_DIFFERS && !infers && !same_message(a, &b)) otherwise("the expected message", &b);
    if (events(model) != before) otherwise("a refused message logged an event", &b);
    if (jv_sent(&b).channel <= JV_E) otherwise("a refused message has a ticket", &b);
}
/* The device sent this: the model has to send it as well. */
static void sent(jv_answer a) {
    jv_seen s; jv_answer b; uint64_t before = events(model); uint32_t stores;
    if (a.status) return;
    if (below(4) == 0) see_wrong(&a);
    s = seen_of(&a);
    stores = wanted(&s);
    b = jv_saw(model, &s);
    right++;
    made += stores;
    if (b.status || !same_message(&a, &b) || a.serial != b.serial) otherwise("a message of the device", &b);
    if (b.stores != stores || events(model) != before + 1 + stores) otherwise("the events of a message", &b);
    if (stores) read_stores(&s, &b);
}
/* Home does the same in both. */
static void both(jv_answer a, jv_answer b) {
    if (a.status != b.status) otherwise("home", &b);
    if (a.status == 0 && a.what == JV_TELLS_MEMORY && (a.channel < JV_MEMORY_A || a.address != a.place * BYTES || b.place != a.place))
        otherwise("the memory's link", &a);
}
static void access_one(uint32_t client, uint32_t address) {
    uint8_t bytes[8]; uint32_t i, len = 1 + below(8); jv_accessed a, b;
    if (address % BYTES + len > BYTES) return;
    for (i = 0; i < 8; i++) bytes[i] = (uint8_t)below(256);
    if (below(4) == 0) for (i = 0; i < len; i++) bytes[i] = (uint8_t)jv_peek(device, client, address + i).serial; /* as it was */
    a = jv_store(device, client, address, bytes, len, 0);
    if (infers) return;
    b = jv_store(model, client, address, bytes, len, 0);
    if (a.status != b.status) wrong++;
}
static void client_step(uint32_t client, uint32_t block) {
    uint32_t perm = (uint32_t)jv_perm(device, client, block).serial;
    if (below(2) && perm == JV_TIP) access_one(client, block * BYTES + below(BYTES));
    else if (below(3)) sent(jv_acquire(device, client, block, perm == JV_NONE ? (below(2) ? JV_NTOB : JV_NTOT) : JV_BTOT));
    else sent(jv_release(device, client, block, perm == JV_BRANCH ? JV_BTON : below(2) ? JV_TTOB : JV_TTON));
}
static void take_d(uint32_t bank, uint32_t client) {
    jv_answer d = jv_waiting(device, bank, client, JV_D, 0);
    if (d.status) return;
    if (d.opcode == JV_OP_RELEASE_ACK) both(jv_take_release_ack(device, jv_sent(&d)), jv_take_release_ack(model, jv_sent(&d)));
    else sent(jv_take_grant(device, jv_sent(&d)));
}
static void home_step(uint32_t bank, uint32_t client) {
    jv_answer a = jv_waiting(device, bank, client, JV_A, 0), c = jv_waiting(device, bank, client, JV_C, 0);
    jv_answer e = jv_waiting(device, bank, client, JV_E, 0), own = jv_open_block(device, bank, below(2));
    if (!a.status && below(2)) both(jv_accept(device, jv_sent(&a)), jv_accept(model, jv_sent(&a)));
    if (!c.status && below(2)) both(jv_take_c(device, jv_sent(&c)), jv_take_c(model, jv_sent(&c)));
    if (!e.status && below(2)) both(jv_take_grant_ack(device, jv_sent(&e)), jv_take_grant_ack(model, jv_sent(&e)));
    if (!own.status && below(2)) both(jv_advance(device, (uint32_t)own.serial), jv_advance(model, (uint32_t)own.serial));
}
static void memory_step(uint32_t block) {
    both(jv_serve_memory(device, block), jv_serve_memory(model, block));
    both(jv_take_memory(device, block), jv_take_memory(model, block));
}
int main(int argc, char **argv) {
    uint64_t seed = argc > 1 ? strtoull(argv[1], NULL, 10) : 1; long steps = argc > 2 ? strtol(argv[2], NULL, 10) : 100000, i;
    jv_numbers n = {1, CLIENTS, BANKS, BYTES, 1, 2, 2, 4, BLOCKS}; uint32_t why;
    infers = argc > 3;
    state = seed;
    device = jv_new(&n, NULL, 0, &why);
    model = jv_new(&n, NULL, 0, &why);
    if (!device || !model) { printf("jv_new: %s\n", jv_status_name(why)); return 1; }
    for (i = 0; i < steps; i++) {
        uint32_t client = below(CLIENTS), block = below(BLOCKS), bank = below(BANKS); jv_answer b;
        client_step(client, block);
        b = jv_waiting(device, bank, client, JV_B, 0);
        if (!b.status && below(2)) sent(jv_answer_probe(device, jv_sent(&b)));
        if (below(2)) take_d(bank, client);
        home_step(bank, client);
        memory_step(block);
    }
    printf("seed %llu: %ld messages seen, %ld stores made, %ld told as different, %ld otherwise\n", (unsigned long long)seed, right, made,
        told[JV_DIFFERS], wrong);
    jv_free(device);
    jv_free(model);
    return wrong != 0;
}
