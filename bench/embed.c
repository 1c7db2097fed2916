/* embed CALLS: what so many calls of each kind take from C: lines WORK NANOSECONDS_A_CALL CALLS for bench/embed.sh.
 * The work is that of crates/bench_bank: 16 clients, blocks of 64 bytes; two clients where a block goes from one to
 * the other. What a cache logs before it is timed is forgotten, so that its log has room whose pages were touched.
 * Built with COUNTED, for a run under callgrind, it also dumps the instructions of each kind of work under its name.
 * */
#define _POSIX_C_SOURCE 199309L
#include "jinavoke.h"
#include <stdio.h>
#include <time.h>
#ifdef COUNTED
#include <valgrind/callgrind.h>
#define BEGIN() CALLGRIND_ZERO_STATS
#define END(work) CALLGRIND_DUMP_STATS_AT(work)
#else
#define BEGIN() ((void)0)
#define END(work) ((void)(work))
#endif

static long wrong;
static uint64_t sum;

static jv_ticket done(jv_answer a) { wrong += a.status != JV_OK; return jv_sent(&a); }
static void accessed(jv_accessed a) { wrong += a.status != JV_OK; sum += a.bytes[0]; }
static void told(const jv_answer *a, uint32_t what) {
    wrong += a->status != JV_OK || a->what != what;
    sum += a->bytes[0] + a->serial;
}
static double now(void) {
    struct timespec t;
    clock_gettime(CLOCK_MONOTONIC, &t);
    return (double)t.tv_sec * 1e9 + (double)t.tv_nsec;
}
static double start(void) { BEGIN(); return now(); }
static void show(const char *work, double from, double calls) {
    double nanos = now() - from;
    END(work);
    printf("%s %.2f %.0f\n", work, nanos / calls, calls);
}

/* Times a statement, `calls` cycles of `each` calls. */
#define TIMED(work, each, statement) do { \
    double from = start(); \
    for (i = 0; i < calls; i++) { statement; } \
    show(work, from, (double)calls * (each)); \
} while (0)

static jv_cache *fresh(int64_t clients, uint64_t events) {
    jv_numbers n; uint32_t why; jv_cache *c;
    n.version = 2; n.clients = clients; n.banks = 1; n.block_bytes = 64; n.sets = 16; n.ways = 4; n.registers = 8;
    n.copies = 64; n.memory_blocks = 4096;
    c = jv_new(&n, NULL, 0, &why);
    if (!c) { fprintf(stderr, "jv_new: %s\n", jv_status_name(why)); exit(1); }
    done(jv_reserve(c, 0, events));
    return c;
}
/* A client gets a block at Tip that nobody has. */
static void begin(jv_cache *c, uint32_t client, uint32_t block) {
    done(jv_accept(c, done(jv_acquire(c, client, block, JV_NTOT))));
    done(jv_advance(c, block)); done(jv_serve_memory(c, block)); done(jv_take_memory(c, block));
    done(jv_take_grant_ack(c, done(jv_take_grant(c, done(jv_advance(c, block))))));
}
/* One of two clients takes block 0 from the other, and stores: nine calls. */
static void take(jv_cache *c, uint32_t client, const uint8_t *bytes) {
    done(jv_accept(c, done(jv_acquire(c, client, 0, JV_NTOT))));
    done(jv_take_c(c, done(jv_answer_probe(c, done(jv_advance(c, 0))))));
    done(jv_take_grant_ack(c, done(jv_take_grant(c, done(jv_advance(c, 0))))));
    accessed(jv_store(c, client, 0, bytes, 4, 0));
}
/* The same, with each message of a client handed in as one that was seen. */
static jv_ticket seen(jv_cache *c, uint32_t client, uint32_t channel, uint32_t opcode, uint32_t param,
                      const uint8_t *bytes) {
    jv_seen s;
    memset(&s, 0, sizeof s);
    s.channel = channel; s.opcode = opcode; s.param = param; s.client = client;
    if (bytes) { s.len = 64; memcpy(s.bytes, bytes, 4); }
    return done(jv_saw(c, &s));
}
static void take_seen(jv_cache *c, uint32_t client, const uint8_t *bytes) {
    done(jv_accept(c, seen(c, client, JV_A, JV_OP_ACQUIRE_BLOCK, JV_NTOT, NULL)));
    done(jv_advance(c, 0));
    done(jv_take_c(c, seen(c, !client, JV_C, JV_OP_PROBE_ACK_DATA, JV_REPORT_TTON, bytes)));
    done(jv_advance(c, 0));
    done(jv_take_grant_ack(c, seen(c, client, JV_E, JV_OP_GRANT_ACK, 0, NULL)));
    accessed(jv_store(c, client, 0, bytes, 4, 0));
}

/* Loads 64 at once, and the events from a place on 32 at once. */
static void at_once(jv_cache *c, uint32_t calls, uint64_t cursor) {
    static jv_request many[64];
    static jv_answer answers[64];
    uint32_t i; size_t n; double from;
    for (i = 0; i < 64; i++) { many[i] = jv_asks_(JV_CALL_LOAD); many[i].len = 4; }
    from = start();
    for (i = 0; i + 64 <= calls; i += 64) {
        wrong += jv_calls(c, many, 64, answers, 64) != 64;
        sum += answers[63].bytes[0];
    }
    show("many", from, i);
    from = start();
    for (i = 0; i < calls && (n = jv_read_events(c, 0, &cursor, answers, 32)) != 0; i += (uint32_t)n) {
        sum += answers[0].serial;
    }
    show("events", from, i);
}
/* Accesses and views. Client 0 has block 0, and a Release of block 1 by client 1 waits with its bytes. */
static void one_bank(uint32_t calls) {
    uint8_t bytes[8] = {0};
    uint64_t cursor; uint32_t i; jv_ticket release; jv_answer a;
    jv_cache *c = fresh(16, (uint64_t)calls * 3 + 200);
    begin(c, 0, 0);
    begin(c, 1, 1);
    accessed(jv_store(c, 1, 64, bytes, 4, 0));
    release = done(jv_release(c, 1, 1, JV_TTON));
    for (i = 0; i < calls * 3; i++) accessed(jv_load(c, 0, 0, 4, i));
    done(jv_forget(c, 0));
    cursor = jv_forgotten(c, 0).serial;
    TIMED("loads", 1, accessed(jv_load(c, 0, 0, 4, i)));
    TIMED("stores", 1, memcpy(bytes, &i, 4); accessed(jv_store(c, 0, 0, bytes, 4, i)));
    TIMED("refused", 1, wrong += jv_advance(c, 0).status != JV_NOT_YET);
    TIMED("views", 1, wrong += jv_perm(c, 0, 0).serial != JV_TIP);
    TIMED("copy", 1, a = jv_copy(c, 0, 0); told(&a, JV_TELLS_NUMBER));
    TIMED("home", 1, a = jv_home_copy(c, 0); told(&a, JV_TELLS_NUMBER));
    TIMED("memory", 1, a = jv_memory_block(c, 0); told(&a, JV_TELLS_BYTES));
    TIMED("event", 1, a = jv_event(c, 0, cursor + i); told(&a, JV_TELLS_EVENT));
    TIMED("waiting", 1, a = jv_waiting(c, 0, 1, JV_C, 0); told(&a, JV_TELLS_MESSAGE));
    TIMED("message", 1, a = jv_message(c, release); told(&a, JV_TELLS_MESSAGE));
    TIMED("reserve", 1, wrong += jv_reserve(c, 0, 1).status != JV_OK);
    at_once(c, calls, cursor);
    jv_free(c);
}
/* A block that goes from one client to the other. */
static void two_clients(uint32_t calls) {
    const uint8_t bytes[4] = {1, 2, 3, 4};
    uint32_t i;
    jv_cache *c = fresh(2, (uint64_t)calls * 9 + 100);
    begin(c, 1, 0);
    accessed(jv_store(c, 1, 0, bytes, 4, 0));
    for (i = 0; i < calls; i++) take(c, i & 1, bytes);
    done(jv_forget(c, 0));
    TIMED("ping-pong", 9, take(c, i & 1, bytes));
    done(jv_forget(c, 0));
    TIMED("seen", 9, take_seen(c, i & 1, bytes));
    jv_free(c);
}

/* A bank whose log nobody reads, with room for one event: it is forgotten before each step that logs one. */
static jv_cache *unread;
static jv_cache *lean(void) { wrong += jv_forget(unread, 0).status != JV_OK; return unread; }
static void take_lean(uint32_t client, const uint8_t *bytes) {
    jv_ticket t;
    t = done(jv_acquire(lean(), client, 0, JV_NTOT)); done(jv_accept(lean(), t));
    t = done(jv_advance(lean(), 0)); t = done(jv_answer_probe(lean(), t)); done(jv_take_c(lean(), t));
    t = done(jv_advance(lean(), 0)); t = done(jv_take_grant(lean(), t)); done(jv_take_grant_ack(lean(), t));
    accessed(jv_store(lean(), client, 0, bytes, 4, 0));
}
static void nobody_reads(uint32_t calls) {
    const uint8_t bytes[4] = {1, 2, 3, 4};
    uint32_t i;
    unread = fresh(2, 1);
    begin(unread, 1, 0);
    accessed(jv_store(unread, 1, 0, bytes, 4, 0));
    for (i = 0; i < calls; i++) take_lean(i & 1, bytes);
    TIMED("unread-ping-pong", 9, take_lean(i & 1, bytes));
    TIMED("unread-loads", 1, accessed(jv_load(lean(), 1, 0, 4, i)));
    TIMED("forget", 1, lean());
    jv_free(unread);
}

#if JV_VERSION >= 6 && !defined COUNTED
/* Each of 16 clients asks to write the block that its neighbour has, and the bank drains: an event of the drain. */
static void comes_to_rest(uint32_t calls) {
    uint32_t i, k; uint64_t events = 0; double nanos = 0;
    jv_cache *c = fresh(16, 200);
    for (i = 0; events < calls; i++) {
        jv_answer a; double from;
        for (k = 0; k < 16; k++) done(jv_acquire(c, k, (k + i) % 16, JV_NTOT));
        from = now();
        a = jv_drain(c);
        if (i) { nanos += now() - from; events += a.serial; } /* the first one touches what was never used */
        told(&a, JV_TELLS_NUMBER);
        done(jv_forget(c, 0));
    }
    printf("drain %.2f %.0f\n", nanos / (double)events, (double)events);
    jv_free(c);
}
#endif

int main(int argc, char **argv) {
    uint32_t calls = argc > 1 ? (uint32_t)strtoul(argv[1], NULL, 10) : 200000;
    if (calls < 64 || calls % 2) { fprintf(stderr, "usage: embed CALLS, an even number from 64 on\n"); return 2; }
    one_bank(calls);
    two_clients(calls);
    nobody_reads(calls);
#if JV_VERSION >= 6 && !defined COUNTED
    comes_to_rest(calls);
#endif
    if (wrong) fprintf(stderr, "%ld answers were otherwise (%llu)\n", wrong, (unsigned long long)sum);
    return wrong != 0;
}
