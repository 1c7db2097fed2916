/* Each growth of a bank's log refused once, in two races asked call by call, and all requests for memory refused after a reservation, by
 * malloc and realloc of this file's own (linked with --wrap). A call that is answered with 14 tells nothing and changed nothing, and gives
 * the race's answer when it is asked again; after `jv_reserve` of two steps two steps are done without memory. Status 1 where one is not. */
#include "jinavoke.h"
#include <stdio.h>

enum refusing { NOTHING, THE_NEXT, ALL };
void *__real_malloc(size_t n);
void *__real_realloc(void *p, size_t n);
static enum refusing refusing;
static long refused, wrong;
static int is_refused(void) {
    if (refusing == NOTHING) return 0;
    if (refusing == THE_NEXT) refusing = NOTHING;
    refused++;
    return 1;
}
void *__wrap_malloc(size_t n) { return is_refused() ? NULL : __real_malloc(n); }
void *__wrap_realloc(void *p, size_t n) { return is_refused() ? NULL : __real_realloc(p, n); }

/* A call of a race: what it names, and its answer: the status, and the channel, opcode and param of what is sent (NONE where nothing is). */
enum { NONE = 9, MEMORY = 8 };
typedef struct {
    uint32_t call, client, place, param; /* `place` is a block or an address */
    uint32_t channel;                    /* of the ticket, whose client is `client` */
    uint32_t status, sent, opcode, param_sent;
} step;

#define BY_CLIENT(call, client, place, param) JV_CALL_##call, client, place, param, 0
#define BY_TICKET(call, client, channel) JV_CALL_##call, client, 0, 0, channel
#define BY_BLOCK(call, block) JV_CALL_##call, 0, block, 0, 0
#define SENDS(channel, opcode, param) JV_OK, channel, opcode, param
#define DONE JV_OK, NONE, 0, 0
#define IS_REFUSED(status) status, NONE, 0, 0

/* Client 0 gets block 0 and writes it. Each channel has one message, of serial 0. */
#define WRITTEN \
    {BY_CLIENT(ACQUIRE, 0, 0, JV_NTOT), SENDS(JV_A, JV_OP_ACQUIRE_BLOCK, JV_NTOT)}, \
    {BY_TICKET(ACCEPT, 0, JV_A), DONE}, \
    {BY_BLOCK(ADVANCE, 0), SENDS(MEMORY, JV_OP_GET, 0)}, \
    {BY_BLOCK(SERVE_MEMORY, 0), SENDS(MEMORY, JV_OP_ACCESS_ACK_DATA, 0)}, \
    {BY_BLOCK(TAKE_MEMORY, 0), DONE}, \
    {BY_BLOCK(ADVANCE, 0), SENDS(JV_D, JV_OP_GRANT_DATA, JV_TO_T)}, \
    {BY_TICKET(TAKE_GRANT, 0, JV_D), SENDS(JV_E, JV_OP_GRANT_ACK, 0)}, \
    {BY_TICKET(TAKE_GRANT_ACK, 0, JV_E), DONE}, \
    {BY_CLIENT(STORE, 0, 0, 0), DONE}

/* Client 1 reads beside it. */
static const step reader[] = {
    WRITTEN,
    {BY_CLIENT(ACQUIRE, 1, 0, JV_NTOB), SENDS(JV_A, JV_OP_ACQUIRE_BLOCK, JV_NTOB)},
    {BY_TICKET(ACCEPT, 1, JV_A), DONE},
    {BY_BLOCK(ADVANCE, 0), SENDS(JV_B, JV_OP_PROBE_BLOCK, JV_TO_B)},
    {BY_TICKET(ANSWER_PROBE, 0, JV_B), SENDS(JV_C, JV_OP_PROBE_ACK_DATA, JV_REPORT_TTOB)},
    {BY_TICKET(TAKE_C, 0, JV_C), DONE},
    {BY_BLOCK(ADVANCE, 0), SENDS(JV_D, JV_OP_GRANT_DATA, JV_TO_B)},
    {BY_TICKET(TAKE_GRANT, 1, JV_D), SENDS(JV_E, JV_OP_GRANT_ACK, 0)},
    {BY_TICKET(TAKE_GRANT_ACK, 1, JV_E), DONE},
    {BY_CLIENT(LOAD, 1, 0, 0), DONE},
    {BY_CLIENT(STORE, 0, 0, 0), IS_REFUSED(JV_NO_PERMISSION)},
};
/* Client 1 wants another block, and there is one way: home probes client 0 and writes back. */
static const step writeback[] = {
    WRITTEN,
    {BY_CLIENT(ACQUIRE, 1, 1, JV_NTOT), SENDS(JV_A, JV_OP_ACQUIRE_BLOCK, JV_NTOT)},
    {BY_TICKET(ACCEPT, 1, JV_A), DONE},
    {BY_BLOCK(ADVANCE, 1), SENDS(JV_B, JV_OP_PROBE_BLOCK, JV_TO_N)},
    {BY_TICKET(ANSWER_PROBE, 0, JV_B), SENDS(JV_C, JV_OP_PROBE_ACK_DATA, JV_REPORT_TTON)},
    {BY_TICKET(TAKE_C, 0, JV_C), DONE},
    {BY_BLOCK(ADVANCE, 1), SENDS(MEMORY, JV_OP_PUT_FULL_DATA, 0)},
    {BY_BLOCK(ADVANCE, 1), IS_REFUSED(JV_NOT_YET)},
    {BY_BLOCK(SERVE_MEMORY, 0), SENDS(MEMORY, JV_OP_ACCESS_ACK, 0)},
    {BY_BLOCK(TAKE_MEMORY, 0), DONE},
    {BY_BLOCK(ADVANCE, 1), SENDS(MEMORY, JV_OP_GET, 0)},
    {BY_BLOCK(SERVE_MEMORY, 1), SENDS(MEMORY, JV_OP_ACCESS_ACK_DATA, 0)},
    {BY_BLOCK(TAKE_MEMORY, 1), DONE},
    {BY_BLOCK(ADVANCE, 1), SENDS(JV_D, JV_OP_GRANT_DATA, JV_TO_T)},
    {BY_TICKET(TAKE_GRANT, 1, JV_D), SENDS(JV_E, JV_OP_GRANT_ACK, 0)},
    {BY_TICKET(TAKE_GRANT_ACK, 1, JV_E), DONE},
};

static const char *race;
static size_t at;
static void expect(int holds, const char *what) {
    if (!holds && ++wrong < 20) printf("%s, step %lu: %s\n", race, (unsigned long)at, what);
}

static jv_answer call(jv_cache *c, const step *s) {
    jv_request r;
    memset(&r, 0, sizeof r);
    r.call = s->call; r.client = s->client; r.place = s->place; r.param = s->param; r.channel = s->channel; r.len = 1; r.bytes[0] = 0xaa;
    return jv_call(c, &r);
}

static int is_answer(const step *s, const jv_answer *a) {
    uint32_t what = s->sent == MEMORY ? (uint32_t)JV_TELLS_MEMORY : (uint32_t)JV_TELLS_MESSAGE;
    if (a->status != s->status) return 0;
    if (s->call == JV_CALL_LOAD) return a->len == 1 && a->bytes[0] == 0xaa;
    if (s->sent == NONE) return a->what != JV_TELLS_MESSAGE && a->what != JV_TELLS_MEMORY && a->what != JV_TELLS_DROPPED;
    return a->what == what && a->opcode == s->opcode && (s->sent == MEMORY || (a->channel == s->sent && a->param == s->param_sent && a->serial == 0));
}

typedef struct { uint64_t events, held, recorded, is_quiet, copies[2], perms[8], records[8], outward[4], home[4], waiting[10]; uint8_t bytes[4][64]; } look;
static look look_at(const jv_cache *c) { /* all that the bank shows of its blocks, clients and channels, and what its clients count */
    look l; uint32_t b, k, n;
    memset(&l, 0, sizeof l);
    l.events = jv_events(c, 0).serial; l.held = jv_held(c, 0).serial; l.recorded = jv_recorded(c, 0).serial; l.is_quiet = jv_is_quiet(c, 0).serial;
    for (k = 0; k < 2; k++) l.copies[k] = jv_copies(c, 0, k).serial;
    for (b = 0; b < 4; b++) {
        jv_answer a = jv_home_copy(c, b);
        l.home[b] = a.serial; memcpy(l.bytes[b], a.bytes, sizeof a.bytes);
        l.outward[b] = jv_outward_of(c, b).serial;
        for (k = 0; k < 2; k++) { l.perms[2 * b + k] = jv_perm(c, k, b).serial; l.records[2 * b + k] = jv_directory(c, k, b).serial; }
    }
    for (k = 0; k < 2; k++) for (n = 0; n < 5; n++) while (jv_waiting(c, 0, k, n, l.waiting[5 * k + n]).status == 0) l.waiting[5 * k + n]++;
    return l;
}

/* Asks while memory is refused: where it is wanted nothing is told and nothing changed. */
static jv_answer ask(jv_cache *c, const step *s, enum refusing how) {
    look before = look_at(c), after;
    jv_answer a, nothing;
    refusing = how;
    a = call(c, s);
    refusing = NOTHING;
    if (a.status == JV_NO_MEMORY) {
        memset(&nothing, 0, sizeof nothing); nothing.status = JV_NO_MEMORY;
        after = look_at(c);
        expect(!memcmp(&a, &nothing, sizeof a), "more than the status is told");
        expect(!memcmp(&before, &after, sizeof after), "something changed");
    }
    return a;
}

static jv_cache *opened(int64_t ways, int64_t registers) {
    const jv_numbers numbers = {1, 2, 1, 8, 1, 0, 0, 2, 4};
    jv_numbers these = numbers;
    jv_cache *c;
    these.ways = ways; these.registers = registers;
    c = jv_new(&these, NULL, 0, NULL);
    expect(c != NULL, "not opened");
    return c;
}

/* Each growth refused once: the call is asked again and gives the race's answer. */
static void each_growth(const char *name, const step *steps, size_t count, int64_t ways, int64_t registers) {
    jv_cache *c = opened(ways, registers);
    long grown = 0;
    race = name;
    for (at = 0; c && at < count; at++) {
        jv_answer a = ask(c, &steps[at], THE_NEXT);
        if (a.status == JV_NO_MEMORY) { grown++; a = call(c, &steps[at]); }
        expect(is_answer(&steps[at], &a), "another answer");
    }
    expect(grown > 0, "the log never grew");
    printf("%s: %lu calls, %ld growths refused\n", name, (unsigned long)count, grown);
    jv_free(c);
}

/* Two steps reserved, and no memory from then on: at least these two are done, and the first that is not done changes nothing. */
static void after_a_reservation(void) {
    jv_cache *c = opened(2, 2);
    size_t done = 0;
    race = "reserved";
    at = 0;
    expect(c && jv_reserve(c, 0, 2).status == JV_OK, "not reserved");
    for (at = 0; c && at < sizeof reader / sizeof *reader; at++, done++) {
        jv_answer a = ask(c, &reader[at], ALL);
        if (a.status == JV_NO_MEMORY) break;
        expect(is_answer(&reader[at], &a), "another answer");
    }
    expect(done >= 2, "a reserved step was refused");
    expect(at < sizeof reader / sizeof *reader, "no step wanted memory");
    printf("reserved: two steps, then no memory: %lu calls are done, and the next is refused\n", (unsigned long)done);
    jv_free(c);
}

int main(void) {
    each_growth("a reader beside the writer", reader, sizeof reader / sizeof *reader, 2, 2);
    each_growth("a miss needs the only way", writeback, sizeof writeback / sizeof *writeback, 1, 1);
    after_a_reservation();
    printf("%ld requests refused, %ld wrong\n", refused, wrong);
    return wrong != 0;
}
