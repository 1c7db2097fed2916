/* judge [SEED [STEPS [AT]]]: drives a cache at random and hands each event of its log to a judge at once, with the message that was seen to
 * be sent. Before the event AT one is damaged in its place: another param or byte of what was seen, a message that waits behind another, an
 * event out of its turn. The judge has to stop there, with the rule, and to answer that again whatever it is handed; before, each is
 * permitted, and numbers that are no entry are told as such and change nothing. The record goes to standard output, and the judge's
 * verdict to standard error, as `tlcheck` writes it: `lawful: N entries`, or `entry N: RULE`. The status is 1 where something was
 * otherwise. `judge time EVENTS` says instead what an entry costs. */
#include "jinavoke.h"
#include <stdio.h>
#include <time.h>

enum { CLIENTS = 3, BLOCKS = 4, BYTES = 8, MOST = 1 << 20 };
static uint64_t state;
static long wrong, seen;
static int quiet;

static uint32_t below(uint32_t n) {
    state = state * 6364136223846793005u + 1442695040888963407u;
    return (uint32_t)(state >> 33) % n;
}
static void otherwise(const char *what) {
    if (++wrong <= 20) fprintf(stderr, "otherwise: %s, entry %ld\n", what, seen);
}
static void print_hex(const uint8_t *bytes, uint32_t len) { uint32_t i; for (i = 0; i < len; i++) printf("%02x", bytes[i]); }
static void print_shown(const jj_entry *e) {
    static const char *const reports[] = {"TtoB", "TtoN", "BtoN", "?", "BtoB", "NtoN"}, *const caps[] = {"toT", "toB", "toN"};
    static const char *const prunes[] = {"TtoB", "TtoN", "BtoN"}, *const grows[] = {"NtoB", "NtoT", "BtoT"};
    uint32_t p = e->shown_param;
    switch (e->channel * 8 + e->opcode) {
    case JV_A * 8 + JV_OP_ACQUIRE_BLOCK: printf(" AcquireBlock %s", grows[p]); break;
    case JV_B * 8 + JV_OP_PROBE_BLOCK: printf(" ProbeBlock %s", caps[p]); break;
    case JV_C * 8 + JV_OP_PROBE_ACK: printf(" ProbeAck %s", reports[p]); break;
    case JV_C * 8 + JV_OP_PROBE_ACK_DATA: printf(" ProbeAckData %s ", reports[p]); break;
    case JV_C * 8 + JV_OP_RELEASE: printf(" Release %s", prunes[p]); break;
    case JV_C * 8 + JV_OP_RELEASE_DATA: printf(" ReleaseData %s ", prunes[p]); break;
    case JV_D * 8 + JV_OP_GRANT: printf(" Grant %s", caps[p]); break;
    case JV_D * 8 + JV_OP_GRANT_DATA: printf(" GrantData %s ", caps[p]); break;
    case JV_D * 8 + JV_OP_RELEASE_ACK: printf(" ReleaseAck"); break;
    default: printf(" GrantAck");
    }
    if (e->len) print_hex(e->bytes, e->len);
}
static void print_entry(const jj_entry *e) {
    static const char *const words[] = {"load", "store", "acquire", "release", "answer_probe", "take_grant", "take_release_ack", "accept",
        "probe", "take_c", "grant", "take_grant_ack", "get", "serve", "take_data", "drop", "put", "take_put_ack"};
    static const char *const grows[] = {"NtoB", "NtoT", "BtoT"}, *const prunes[] = {"TtoB", "TtoN", "BtoN"};
    static const char *const caps[] = {"?", "toB", "toN"};
    printf("%s", words[e->event]);
    if (e->event < JV_EVENT_SEND_GET) printf(" %u", (unsigned)e->client);
    if (e->event <= JV_EVENT_STORE) { printf(" 0x%08x ", (unsigned)e->place); print_hex(e->bytes, e->len); }
    else printf(" %u", (unsigned)e->place);
    if (e->event == JV_EVENT_SEND_ACQUIRE) printf(" %s", grows[e->param]);
    if (e->event == JV_EVENT_SEND_RELEASE) printf(" %s", prunes[e->param]);
    if (e->event == JV_EVENT_SEND_PROBE) printf(" %s", caps[e->param]);
    if (e->shown) print_shown(e);
    printf("\n");
}
/* Numbers that are no entry are told as such. */
static void see_none(jj_judge *j, const jj_entry *like) {
    jj_entry e = *like; jj_verdict v;
    switch (below(6)) {
    case 0: e.event = 18 + below(200); break;
    case 1: e = jj_event(JV_EVENT_SEND_ACQUIRE, 0, 0, 3 + below(9)); break;
    case 2: e = jj_event(JV_EVENT_SEND_PROBE, 0, 0, JV_TO_T); break;
    case 3: e = jj_event(JV_EVENT_LOAD, 0, 0, 0); e.len = 9 + below(60); break;
    case 4: e = jj_event(JV_EVENT_SERVE, 0, 0, 0); e.shown = 1; break;
    default: e = jj_event(JV_EVENT_TAKE_GRANT, 0, 0, 0); e.shown = 1; e.channel = 5 + below(9);
    }
    v = jj_see(j, &e);
    if (v.status != JV_BAD_ARGUMENT || v.rule) otherwise("numbers that are no entry");
}
/* The entry is not permitted, or else another is made of it. */
static jj_entry damaged(jj_entry e) {
    switch (below(4)) {
    case 0: if (e.shown && e.len) { e.bytes[below(e.len)] ^= 1; return e; } break;
    case 1: if (e.event == JV_EVENT_LOAD) { e.bytes[0] ^= 0x80; return e; } break;
    case 2: if (e.shown && e.channel == JV_D && e.opcode != JV_OP_RELEASE_ACK) { e.shown_param ^= 1; return e; } break;
    default: break;
    }
    return jj_event(below(2) ? JV_EVENT_TAKE_PUT_ACK : JV_EVENT_TAKE_RELEASE_ACK, CLIENTS, below(BLOCKS), 0);
}
/* Hands an entry in; 0 where the judge stops. */
static int see(jj_judge *j, jj_entry e, int damage) {
    jj_verdict v, again; int k;
    if (below(50) == 0) see_none(j, &e);
    if (damage) e = damaged(e);
    seen++;
    if (!quiet) print_entry(&e);
    v = jj_see(j, &e);
    if (!damage && v.status) otherwise(jj_rule_name(v.rule));
    if (damage && (v.status != JV_NOT_PERMITTED || !v.rule)) otherwise("what was damaged is permitted");
    if (!v.status) return 1;
    fprintf(stderr, "entry %ld: %s\n", seen, jj_rule_name(v.rule));
    for (k = 0; k < 5; k++) {
        e = jj_event(below(20), below(4), below(5), below(4));
        again = jj_see(j, &e);
        if (memcmp(&v, &again, sizeof v)) otherwise("the fault is not told again");
    }
    return 0;
}
/* The entry of the last event of the log, with the message that the call's answer tells. */
static jj_entry last_event(const jv_cache *c, const jv_answer *a) {
    jv_answer told = jv_event(c, 0, jv_events(c, 0).serial - 1); jj_entry e = jj_of_event(&told);
    if (a && a->what == JV_TELLS_MESSAGE && a->channel <= JV_E) e = jj_showing(e, a);
    return e;
}
/* A step of the cache at random, that is done; its answer. */
static jv_answer step(jv_cache *c, uint32_t index) {
    static const uint32_t by_client[] = {JV_CALL_ANSWER_PROBE, JV_CALL_TAKE_GRANT, JV_CALL_TAKE_RELEASE_ACK, JV_CALL_ACCEPT, JV_CALL_TAKE_C,
        JV_CALL_TAKE_GRANT_ACK}, on[] = {JV_B, JV_D, JV_D, JV_A, JV_C, JV_E};
    jv_answer a; jv_request r; uint32_t k = below(14), client = below(CLIENTS), block = below(BLOCKS);
    memset(&r, 0, sizeof r); r.client = client; r.place = block; r.index = index;
    if (k < 6) {
        jv_answer first = jv_waiting(c, 0, client, on[k], 0);
        if (first.status) return first;
        return jv_by_ticket_(c, by_client[k], jv_sent(&first));
    }
    if (k < 8) {
        r.call = k == 6 ? JV_CALL_LOAD : JV_CALL_STORE;
        r.place = block * BYTES; r.len = 8; r.bytes[below(8)] = (uint8_t)below(256);
    } else if (k == 8) { r.call = JV_CALL_ACQUIRE; r.param = below(3); }
    else if (k == 9) { r.call = JV_CALL_RELEASE; r.param = below(3); }
    else if (k == 10) r.call = JV_CALL_ADVANCE;
    else if (k == 11) r.call = JV_CALL_SERVE_MEMORY;
    else if (k == 12) r.call = JV_CALL_TAKE_MEMORY;
    else r.call = below(8) ? JV_CALL_ADVANCE : JV_CALL_EVICT;
    a = jv_call(c, &r);
    return a;
}
static int open_both(jv_cache **c, jj_judge **j) {
    jv_numbers n = {1, CLIENTS, 1, BYTES, 2, 1, 2, 4, BLOCKS}; jj_numbers m = {CLIENTS, BYTES, BLOCKS, JJ_WHOLE_CHANNEL}; uint32_t why;
    *c = jv_new(&n, NULL, 0, &why);
    *j = jj_new(&m, NULL, 0, &why);
    return *c && *j;
}
/* A judge that is closed, or never opened, says why. */
static void closed_ones(void) {
    jj_numbers m = {CLIENTS, BYTES, BLOCKS, JJ_WHOLE_CHANNEL}; uint8_t image[BYTES * BLOCKS + 1]; uint32_t why;
    jj_judge *j; jj_entry e = jj_event(0, 0, 0, 0);
    memset(image, 0, sizeof image);
    if (jj_new(&m, image, sizeof image, &why) || why != JV_OUT_OF_RANGE) otherwise("an image that is too long");
    m.clients = 65; if (jj_new(&m, NULL, 0, &why) || why != 20) otherwise("65 clients");
    m.clients = 64; m.block_bytes = 24; if (jj_new(&m, NULL, 0, &why) || why != 22) otherwise("blocks of 24 bytes");
    m.block_bytes = 64; m.memory_blocks = 65537; if (jj_new(&m, NULL, 0, &why) || why != 27) otherwise("65537 blocks");
    m.memory_blocks = 1; m.order = 2; if (jj_new(&m, NULL, 0, &why) || why != JV_BAD_ARGUMENT) otherwise("order 2");
    m.order = JJ_EACH_BLOCK; j = jj_new(&m, NULL, 0, &why);
    if (!j || why) otherwise("lawful numbers");
    else {
        jj_verdict v;
        jj_close(j); v = jj_see(j, &e);
        if (v.status != JV_CLOSED || v.why != JV_CLOSED) otherwise("a closed judge");
        jj_free(j);
    }
}
/* Home accepts the second of two Acquires first: one order permits that, the other does not. */
static void both_orders(void) {
    jj_numbers m = {CLIENTS, BYTES, BLOCKS, JJ_WHOLE_CHANNEL}; uint32_t order;
    for (order = JJ_WHOLE_CHANNEL; order <= JJ_EACH_BLOCK; order++) {
        jj_judge *j; jj_entry e; uint32_t block, rule = order == JJ_EACH_BLOCK ? JJ_NO_RULE : JJ_OUT_OF_ORDER;
        m.order = order; j = jj_new(&m, NULL, 0, NULL);
        if (!j) { otherwise("no judge of an order"); return; }
        for (block = 0; block < 2; block++) {
            e = jj_event(JV_EVENT_SEND_ACQUIRE, 0, block, JV_NTOB);
            if (jj_see(j, &e).status) otherwise("an Acquire of each of two blocks");
        }
        e = jj_event(JV_EVENT_ACCEPT_ACQUIRE, 0, 1, 0);
        if (jj_see(j, &e).rule != rule) otherwise("the second Acquire is accepted first");
        e = jj_event(JV_EVENT_ACCEPT_ACQUIRE, 0, 0, 0);
        if (jj_see(j, &e).rule != rule) otherwise("and the first behind it");
        jj_free(j);
    }
}
static int measure(long events) {
    jv_cache *c; jj_judge *j; jj_entry *all = (jj_entry *)malloc(MOST * sizeof *all); long n = 0, i, rounds; clock_t begin; double ns;
    if (!all || !open_both(&c, &j)) return 1;
    quiet = 1;
    while (n < MOST) {
        uint64_t before = jv_events(c, 0).serial; jv_answer a = step(c, 0);
        if (jv_events(c, 0).serial > before) all[n++] = last_event(c, &a);
        if (before > 60000) jv_forget(c, 0);
    }
    begin = clock();
    for (rounds = 0; rounds * MOST < events; rounds++) {
        if (rounds) { jj_numbers m = {CLIENTS, BYTES, BLOCKS, JJ_WHOLE_CHANNEL}; jj_free(j); j = jj_new(&m, NULL, 0, NULL); if (!j) return 1; }
        for (i = 0; i < MOST; i++) if (jj_see(j, &all[i]).status) { otherwise("a lawful entry"); break; }
    }
    ns = 1e9 * (double)(clock() - begin) / CLOCKS_PER_SEC / (double)(rounds * MOST);
    printf("%ld entries judged, %.1f ns of processor time an entry\n", rounds * (long)MOST, ns);
    jj_free(j); jv_free(c); free(all);
    return wrong != 0;
}
int main(int argc, char **argv) {
    jv_cache *c; jj_judge *j; long steps, at, n; int goes_on = 1;
    if (argc > 1 && !strcmp(argv[1], "time")) return measure(argc > 2 ? strtol(argv[2], NULL, 10) : 10000000);
    state = argc > 1 ? strtoul(argv[1], NULL, 10) : 1;
    steps = argc > 2 ? strtol(argv[2], NULL, 10) : 100000;
    at = argc > 3 ? strtol(argv[3], NULL, 10) : -1;
    closed_ones();
    both_orders();
    if (!open_both(&c, &j)) return 1;
    printf("clients %d block_bytes %d memory_blocks %d\n", CLIENTS, BYTES, BLOCKS);
    for (n = 0; n < steps && goes_on; n++) {
        uint64_t before = jv_events(c, 0).serial; jv_answer a = step(c, (uint32_t)n);
        if (jv_events(c, 0).serial > before) goes_on = see(j, last_event(c, &a), seen + 1 == at);
        if (before % 1000 == 0) jv_forget(c, 0);
    }
    if (goes_on) fprintf(stderr, "lawful: %ld entries\n", seen);
    if (at > 0 && goes_on) otherwise("no fault was found");
    jj_free(j);
    jv_free(c);
    return wrong != 0;
}
