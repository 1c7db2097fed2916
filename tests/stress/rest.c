/* Banks come to rest: random walks of hostile calls, at the full size and at small ones (linked with --wrap of malloc and realloc). Each
 * walk ends with jv_drain and jv_flush, in which requests for memory are refused at random, and which then are asked again. Every bank is
 * quiet then, each event that came is told and counted, nobody has a copy, and the memory and its image have the bytes last stored. On
 * the way each call that jv_next names is done, and there is none just where the bank is quiet.
 *   rest SEED CALLS     status 1 where something is otherwise */
#include "jinavoke.h"
#include <stdio.h>

/* ---- malloc and realloc, which may refuse */

void *__real_malloc(size_t n);
void *__real_realloc(void *p, size_t n);
static int refusing; /* one request in so many is refused, none where it is 0 */
static long refused, wrong;

static uint64_t state;
static uint64_t next(void) { state ^= state << 13; state ^= state >> 7; state ^= state << 17; return state; }
static uint32_t below(uint64_t n) { return (uint32_t)(next() % n); }
static int is_refused(void) { if (!refusing || below((uint64_t)refusing)) return 0; refused++; return 1; }
void *__wrap_malloc(size_t n) { return is_refused() ? NULL : __real_malloc(n); }
void *__wrap_realloc(void *p, size_t n) { return is_refused() ? NULL : __real_realloc(p, n); }

/* ---- one cache, and what was stored last */

enum { MOST_BYTES = JV_MOST_MEMORY_BLOCKS * JV_MOST_BLOCK_BYTES };
static uint8_t last[MOST_BYTES], image[MOST_BYTES];
typedef struct { jv_cache *c; jv_numbers n; jv_ticket ticket; } walk;
static long calls, done, drained, nexts, by_status[32];

static void expect(const walk *w, int holds, const char *what) {
    if (!holds && ++wrong < 20)
        printf("%lld clients, %lld banks, %lld blocks of %lld: not so: %s\n", (long long)w->n.clients, (long long)w->n.banks,
            (long long)w->n.memory_blocks, (long long)w->n.block_bytes, what);
}
static uint64_t events(const walk *w) {
    uint32_t bank; uint64_t sum = 0;
    for (bank = 0; bank < w->n.banks; bank++) sum += jv_events(w->c, bank).serial;
    return sum;
}
static uint64_t kept(const walk *w) {
    uint32_t bank; uint64_t sum = 0;
    for (bank = 0; bank < w->n.banks; bank++) sum += jv_events(w->c, bank).serial - jv_forgotten(w->c, bank).serial;
    return sum;
}

/* ---- calls */

/* Carries out a request, and keeps what was stored and the ticket that was told. */
static uint32_t ask(walk *w, const jv_request *r) {
    jv_answer a = jv_call(w->c, r);
    calls++; by_status[a.status & 31]++;
    if (a.status == JV_OK) {
        done++;
        if (r->call == JV_CALL_STORE) memcpy(last + r->place, r->bytes, r->len);
        if (r->call == JV_CALL_LOAD) expect(w, !memcmp(a.bytes, last + r->place, a.len), "a load gets the bytes last stored");
        if (a.what == JV_TELLS_MESSAGE && r->call < JV_VIEW_PERM) w->ticket = jv_sent(&a);
    }
    return a.status;
}
/* A number of a cache, or now and then any other. */
static uint32_t some(int64_t small) {
    static const uint32_t edges[] = {0, 1, 7, 8, 15, 16, 64, 65535, 65536, 0x7fffffff, 0xffffffff};
    return below(64) ? below((uint64_t)small) : edges[below(sizeof edges / sizeof *edges)];
}
static jv_request any(const walk *w) {
    jv_request r = jv_asks_(1 + below(16)); int i;
    if (r.call == JV_CALL_RESERVE) r.call = JV_CALL_ACQUIRE;
    r.index = below(9); r.client = some(w->n.clients); r.param = some(3); r.bank = some(w->n.banks); r.channel = some(5); r.len = some(9);
    r.serial = below(4);
    r.place = r.call <= JV_CALL_STORE ? some(w->n.memory_blocks * w->n.block_bytes) : some(w->n.memory_blocks);
    for (i = 0; i < 8; i++) r.bytes[i] = (uint8_t)next();
    if (below(2)) { r.bank = w->ticket.bank; r.client = w->ticket.client; r.channel = w->ticket.channel; r.serial = w->ticket.serial; }
    return r;
}
/* Takes a message that waits, not always the first. */
static void take_some(walk *w) {
    static const uint32_t by_channel[] = {JV_CALL_ACCEPT, JV_CALL_ANSWER_PROBE, JV_CALL_TAKE_C, JV_CALL_TAKE_GRANT, JV_CALL_TAKE_GRANT_ACK};
    uint32_t channel = below(5);
    jv_answer m = jv_waiting(w->c, below((uint64_t)w->n.banks), below((uint64_t)w->n.clients), channel, below(8) ? 0 : 1);
    jv_request r = jv_asks_(by_channel[channel]);
    if (m.status) return;
    if (channel == JV_D && m.opcode == JV_OP_RELEASE_ACK) r.call = JV_CALL_TAKE_RELEASE_ACK;
    r.bank = m.bank; r.client = m.client; r.channel = m.channel; r.serial = m.serial;
    (void)ask(w, &r);
}
/* Home and the memory go on with an open register. */
static void advance_some(walk *w) {
    jv_answer open = jv_open_block(w->c, below((uint64_t)w->n.banks), below(3)); jv_request r = jv_asks_(JV_CALL_ADVANCE);
    if (open.status) return;
    r.place = (uint32_t)open.serial;
    if (below(2)) r.call = below(2) ? JV_CALL_SERVE_MEMORY : JV_CALL_TAKE_MEMORY;
    (void)ask(w, &r);
}
/* The call that the bank names is done; where it names none the bank is quiet. */
static void ask_next(walk *w) {
    uint32_t bank = below((uint64_t)w->n.banks), status; jv_request r;
    status = jv_next(w->c, bank, &r);
    expect(w, (status == JV_NOTHING_THERE) == (jv_is_quiet(w->c, bank).serial == 1), "no call is next just where the bank is quiet");
    if (status == JV_OK) { nexts++; expect(w, ask(w, &r) == JV_OK, "the call that is next is done"); }
}
static void go(walk *w, long steps) {
    long i; jv_request r;
    for (i = 0; i < steps; i++) {
        switch (below(8)) {
        case 0: case 1: r = any(w); (void)ask(w, &r); break;
        case 2: case 3: r = any(w); r.call = below(2) ? JV_CALL_ACQUIRE : JV_CALL_STORE; (void)ask(w, &r); break;
        case 4: take_some(w); break;
        case 5: advance_some(w); break;
        default: ask_next(w);
        }
    }
}

/* ---- rest */

/* Drains or flushes, and asks again where there was no memory; how many events came in all. */
static void rest(walk *w, uint32_t call) {
    uint64_t before = events(w), mid; jv_request r = jv_asks_(call); jv_answer a; int i;
    uint32_t bank;
    refusing = below(2) ? 2 : 0;
    for (i = 0; i < 100; i++) {
        mid = events(w);
        a = jv_call(w->c, &r);
        calls++;
        if (a.status != JV_NO_MEMORY) break;
        expect(w, a.what == JV_TELLS_NOTHING && !a.serial, "want of memory tells nothing");
        for (bank = 0; bank < w->n.banks && jv_is_quiet(w->c, bank).serial == 1; bank++) {}
        expect(w, bank < w->n.banks || call == JV_CALL_FLUSH, "a bank that found no memory is not quiet");
        if (i > 3) refusing = 0;
    }
    refusing = 0;
    expect(w, a.status == JV_OK && a.what == JV_TELLS_NUMBER && a.serial == events(w) - mid, "how many events came is told");
    drained += (long)(events(w) - before);
    for (bank = 0; bank < w->n.banks; bank++) expect(w, jv_is_quiet(w->c, bank).serial == 1, "each bank is quiet");
    r = jv_asks_(call);
    a = jv_call(w->c, &r);
    expect(w, a.status == JV_OK && a.serial == 0, "at rest nothing comes");
}
/* A part of the image, from a block on, and what is behind it stays. */
static void part(const walk *w, size_t bytes) {
    jv_request r = jv_asks_(JV_VIEW_MEMORY); jv_number n; size_t at, room = below(bytes + 1), made, i; int same = 1;
    r.place = some(w->n.memory_blocks);
    at = r.place < w->n.memory_blocks ? (size_t)r.place * (size_t)w->n.block_bytes : bytes;
    made = bytes - at < room ? bytes - at : room;
    memset(image, 0x5a, sizeof image);
    n = jv_memory(w->c, &r, image, room);
    for (i = made; i < bytes; i++) same &= image[i] == 0x5a;
    expect(w, n.status == JV_OK && n.serial == made && !memcmp(image, last + at, made) && same, "a part of the image is told");
}
static void compare(const walk *w) {
    uint32_t bank, block, client, kind; uint64_t counted = 0; jv_event_counts counts; jv_answer m;
    size_t bytes = (size_t)(w->n.memory_blocks * w->n.block_bytes);
    for (bank = 0; bank < w->n.banks; bank++)
        expect(w, !jv_held(w->c, bank).serial && !jv_recorded(w->c, bank).serial, "nobody has a copy, and home records nobody");
    for (block = 0; block < w->n.memory_blocks; block++) {
        expect(w, jv_home_copy(w->c, block).serial == JV_HOME_NONE, "home has no copy");
        m = jv_memory_block(w->c, block);
        expect(w, !memcmp(m.bytes, last + (size_t)block * (size_t)w->n.block_bytes, m.len), "the memory has the bytes last stored");
    }
    for (client = 0; client < w->n.clients; client++)
        for (bank = 0; bank < w->n.banks; bank++) expect(w, !jv_copies(w->c, bank, client).serial, "no client has a copy");
    expect(w, jv_image(w->c, image, bytes) == bytes && !memcmp(image, last, bytes), "and so has its image");
    part(w, bytes);
    expect(w, jv_counts(w->c, &counts) == JV_OK, "the events are counted");
    for (kind = 0; kind < JV_EVENT_KINDS; kind++) counted += counts.of[kind];
    expect(w, counted == kept(w), "each event that is kept is of a kind");
}
static void one(long steps, int full) {
    static const int64_t sizes[] = {8, 16, 32, 64}; walk w; uint32_t why; long left = steps;
    jv_numbers all = {2, 16, 8, 64, 4, 4, 8, 64, 256};
    w.n = all;
    if (!full) {
        w.n.clients = 1 + below(16); w.n.banks = (int64_t)1 << below(4); w.n.block_bytes = sizes[below(4)]; w.n.sets = 1 + below(2);
        w.n.ways = 1 + below(3); w.n.registers = 1 + below(4); w.n.copies = 1 + below(8); w.n.memory_blocks = w.n.banks * (1 + below(8));
    }
    memset(last, 0, sizeof last);
    memset(&w.ticket, 0, sizeof w.ticket);
    w.c = jv_new(&w.n, NULL, 0, &why);
    if (!w.c) { printf("jv_new: %s\n", jv_status_name(why)); wrong++; return; }
    while (left > 0) { /* it comes to rest twice on the way, and goes on */
        long part = left < steps / 3 + 1 ? left : steps / 3 + 1;
        go(&w, part);
        rest(&w, below(3) ? JV_CALL_DRAIN : JV_CALL_FLUSH);
        left -= part;
    }
    rest(&w, JV_CALL_DRAIN);
    rest(&w, JV_CALL_FLUSH);
    compare(&w);
    jv_free(w.c);
}
int main(int argc, char **argv) {
    long most = argc > 2 ? atol(argv[2]) : 1200000, walks = 0; int i;
    state = argc > 1 ? (uint64_t)atol(argv[1]) * 2654435761u + 1 : 1;
    while (calls < most) { one(walks % 2 ? 4000 : 20000, walks % 2 == 0); walks++; }
    printf("seed %s: %ld walks, %ld calls, %ld done, %ld named by jv_next, %ld events to come to rest, %ld requests for memory refused: "
        "%ld wrong; by status", argc > 1 ? argv[1] : "1", walks, calls, done, nexts, drained, refused, wrong);
    for (i = 0; i < 32; i++) if (by_status[i]) printf(" %d:%ld", i, by_status[i]);
    printf("\n");
    return wrong != 0;
}
