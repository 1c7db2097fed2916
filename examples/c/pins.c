/* pins [SEED [STEPS]]: a judge of messages at a client's pins. First an exchange that is lawful, and the same with one line wrong: the judge
 * stops at that line, with the rule, and answers that again whatever it is handed. Then a cache is driven at random, and what is seen on
 * its links and at its cores goes to two judges for each client, one that is told the client's loads and stores and one that is not: each
 * line may be seen, the judge has the permission that the cache shows, and numbers that are no line change nothing. At the end each judge is
 * handed a line that is surely wrong, and the others go on. Prints what the two exchanges were told; the status is 1 where something was
 * otherwise. `pins time LINES` says instead what a line costs. */
#include "jinavoke.h"
#include <stdio.h>
#include <time.h>

enum { CLIENTS = 3, BLOCKS = 4, BYTES = 8, JUDGES = 2 * CLIENTS, MOST = 1 << 20 };
static uint64_t state;
static long wrong, seen;

static uint32_t below(uint32_t n) {
    state = state * 6364136223846793005u + 1442695040888963407u;
    return (uint32_t)(state >> 33) % n;
}
static void otherwise(const char *what) {
    if (++wrong <= 20) fprintf(stderr, "otherwise: %s, line %ld\n", what, seen);
}
static jp_judge *judge_at(uint32_t client, uint32_t cores_unseen) {
    jp_numbers n; uint32_t why; jp_judge *j;
    n.of.clients = CLIENTS; n.of.block_bytes = BYTES; n.of.memory_blocks = BLOCKS;
    n.client = client; n.cores_unseen = cores_unseen;
    j = jp_new(&n, &why);
    if (!j) { fprintf(stderr, "no judge: %s\n", jv_status_name(why)); exit(1); }
    return j;
}
static uint32_t client_of(int judge) { return (uint32_t)judge / 2; }
static uint32_t is_unseen(int judge) { return (uint32_t)judge % 2; }

/* ---- an exchange at the pins of client 0 */

/* It takes block 1, stores to it, and gives it up to a Probe toN; `wrong_byte` is what the answer's first byte has in place of 1. */
static void exchange(uint8_t wrong_byte) {
    uint8_t zeros[8] = {0}, one[8] = {1}, given[8] = {1};
    jp_line lines[6]; jp_judge *j = judge_at(0, 0); jp_verdict v, again; int k;
    given[0] = wrong_byte;
    lines[0] = jp_message(0, 1, JV_A, JV_OP_ACQUIRE_BLOCK, JV_NTOT, NULL, 0);
    lines[1] = jp_message(0, 1, JV_D, JV_OP_GRANT_DATA, JV_TO_T, zeros, 8);
    lines[2] = jp_access(JP_STORE, 0, 8, one, 8);
    lines[3] = jp_access(JP_LOAD, 0, 8, one, 1);
    lines[4] = jp_message(0, 1, JV_B, JV_OP_PROBE_BLOCK, JV_TO_N, NULL, 0); /* on B: nothing is asked of it */
    lines[5] = jp_message(0, 1, JV_C, JV_OP_PROBE_ACK_DATA, JV_REPORT_TTON, given, 8);
    for (k = 0; k < 6; k++) {
        v = jp_see(j, &lines[k]);
        if (v.status) break;
    }
    if (k == 6) printf("lawful: %d lines; the client has %s\n", k, v.perm == JV_NONE ? "nothing" : "a copy");
    else {
        printf("line %d: %s: %02x\n", k + 1, jj_rule_name(v.rule), (unsigned)v.bytes[0]);
        again = jp_see(j, &lines[0]);
        if (memcmp(&v, &again, sizeof v)) otherwise("the fault is not told again");
    }
    if ((k == 6) != (wrong_byte == 1)) otherwise("the exchange");
    if (k < 6 && (k != 5 || v.status != JV_NOT_PERMITTED || v.rule != JJ_OTHER_BYTES || v.perm != JV_TIP)) otherwise("its fault");
    jp_free(j);
}
/* A judge that is closed, or never opened, says why. */
static void closed_ones(void) {
    jp_numbers n = {{65, 24, 0, 9}, 0, 2}; uint32_t why; jp_judge *j; jp_line l = jp_access(JP_LOAD, 0, 0, NULL, 0); jp_verdict v;
    if (jp_new(&n, &why) || why != 20) otherwise("65 clients");
    n.of.clients = 2; if (jp_new(&n, &why) || why != 22) otherwise("blocks of 24 bytes");
    n.of.block_bytes = 64; if (jp_new(&n, &why) || why != 27) otherwise("no block");
    n.of.memory_blocks = 1; n.client = 2; if (jp_new(&n, &why) || why != JV_OUT_OF_RANGE) otherwise("client 2 of 2");
    n.client = 1; if (jp_new(&n, &why) || why != JV_BAD_ARGUMENT) otherwise("cores watched in no way");
    n.cores_unseen = 1; j = jp_new(&n, &why);
    if (!j || why) { otherwise("lawful numbers"); return; }
    jp_close(j); v = jp_see(j, &l);
    if (v.status != JV_CLOSED || v.why != JV_CLOSED) otherwise("a closed judge");
    jp_free(j);
}

/* ---- a cache at random, and what is seen of it */

static jp_line shown(uint32_t client, const jv_answer *m) {
    return jp_message(client, m->place, m->channel, m->opcode, m->param, m->bytes, m->len);
}
/* A step of the cache; how many lines are seen of it, of which `lines` has room for two: a message on D as it is taken, and on A, B, C or
   E as it is sent. */
static int step(jv_cache *c, uint32_t index, jp_line *lines) {
    static const uint32_t by_client[] = {JV_CALL_ANSWER_PROBE, JV_CALL_TAKE_GRANT, JV_CALL_TAKE_RELEASE_ACK, JV_CALL_ACCEPT, JV_CALL_TAKE_C,
        JV_CALL_TAKE_GRANT_ACK}, on[] = {JV_B, JV_D, JV_D, JV_A, JV_C, JV_E};
    jv_answer a, first; jv_request r; uint32_t k = below(14), client = below(CLIENTS), block = below(BLOCKS); int count = 0;
    memset(&r, 0, sizeof r); r.client = client; r.place = block; r.index = index;
    if (k < 6) {
        first = jv_waiting(c, 0, client, on[k], 0);
        if (first.status) return 0;
        a = jv_by_ticket_(c, by_client[k], jv_sent(&first));
        if (a.status) return 0;
        if (on[k] == JV_D) lines[count++] = shown(client, &first);
    } else {
        if (k < 8) {
            r.call = k == 6 ? JV_CALL_LOAD : JV_CALL_STORE;
            r.place = block * BYTES; r.len = 8; r.bytes[below(8)] = (uint8_t)below(256);
        } else if (k == 8) { r.call = JV_CALL_ACQUIRE; r.param = below(3); }
        else if (k == 9) { r.call = JV_CALL_RELEASE; r.param = below(3); }
        else if (k == 11) r.call = JV_CALL_SERVE_MEMORY;
        else if (k == 12) r.call = JV_CALL_TAKE_MEMORY;
        else r.call = k == 10 || below(8) ? JV_CALL_ADVANCE : JV_CALL_EVICT;
        a = jv_call(c, &r);
        if (a.status) return 0;
        if (k == 6) lines[count++] = jp_access(JP_LOAD, client, r.place, a.bytes, a.len);
        if (k == 7) lines[count++] = jp_access(JP_STORE, client, r.place, r.bytes, r.len);
    }
    if (a.what == JV_TELLS_MESSAGE && a.channel <= JV_E && a.channel != JV_D) lines[count++] = shown(a.client, &a);
    return count;
}
/* Numbers that are no line are told as such. */
static void see_none(jp_judge *j) {
    uint8_t bytes[64] = {0}; jp_line l; jp_verdict v;
    switch (below(8)) {
    case 0: l = jp_access(3 + below(200), 0, 0, bytes, 1); break;
    case 1: l = jp_access(JP_LOAD, 0, 0, bytes, 9 + below(55)); break;
    case 2: l = jp_access(JP_STORE, 0, BYTES * BLOCKS + below(9), bytes, 1); break;
    case 3: l = jp_message(CLIENTS, 0, JV_A, JV_OP_ACQUIRE_BLOCK, JV_NTOT, NULL, 0); break;
    case 4: l = jp_message(0, BLOCKS, JV_A, JV_OP_ACQUIRE_BLOCK, JV_NTOT, NULL, 0); break;
    case 5: l = jp_message(0, 0, JV_A, JV_OP_ACQUIRE_BLOCK, 3 + below(9), NULL, 0); break;
    case 6: l = jp_message(0, 0, JV_D, JV_OP_GRANT_DATA, JV_TO_T, bytes, below(2) ? BYTES + 1 : 0); break;
    default: l = jp_message(0, 0, JV_MEMORY_A, JV_OP_ACQUIRE_BLOCK, JV_NTOT, NULL, 0);
    }
    v = jp_see(j, &l);
    if (v.status != JV_BAD_ARGUMENT || v.rule) otherwise("numbers that are no line");
}
static void see(jv_cache *c, jp_judge **judges, const jp_line *line, int is_last) {
    uint32_t block = line->what == JP_MESSAGE ? line->place : line->place / BYTES; int k; jp_verdict v;
    seen++;
    for (k = 0; k < JUDGES; k++) {
        int is_told = line->what == JP_MESSAGE || !is_unseen(k);
        if (below(50) == 0) see_none(judges[k]);
        v = jp_see(judges[k], line);
        if (v.status != (is_told ? JV_OK : JV_BAD_ARGUMENT)) otherwise(v.rule ? jj_rule_name(v.rule) : "a line that is seen");
        if (is_told && is_last && v.perm != jv_perm(c, client_of(k), block).serial) otherwise("the permission");
    }
}
/* A line that is surely wrong: an answer to a Probe from a copy that the client does not have. */
static void faults(jv_cache *c, jp_judge **judges) {
    uint32_t client, block = below(BLOCKS); int k, n; jp_verdict v, again; jp_line l;
    for (client = 0; client < CLIENTS; client++) {
        int has_none = jv_perm(c, client, block).serial == JV_NONE;
        l = jp_message(client, block, JV_C, JV_OP_PROBE_ACK, has_none ? JV_REPORT_BTON : JV_REPORT_NTON, NULL, 0);
        for (k = 0; k < JUDGES; k++) {
            int is_own = client_of(k) == client;
            v = jp_see(judges[k], &l);
            if (client_of(k) < client) { if (v.status != JV_NOT_PERMITTED) otherwise("a fault is not told again"); continue; }
            if (v.status != (is_own ? JV_NOT_PERMITTED : JV_OK)) otherwise("a line that is surely wrong");
            for (n = 0; is_own && n < 5; n++) {
                jp_line any = jp_message(below(CLIENTS), below(BLOCKS), below(5), 4 + below(4), below(3), NULL, 0);
                again = jp_see(judges[k], &any);
                if (memcmp(&v, &again, sizeof v)) otherwise("the fault is not told again");
            }
        }
    }
}
static jv_cache *cache(void) {
    jv_numbers n = {1, CLIENTS, 1, BYTES, 2, 1, 2, 4, BLOCKS};
    return jv_new(&n, NULL, 0, NULL);
}
static int measure(long lines) {
    jv_cache *c = cache(); jp_judge *j = NULL; jp_line *all = (jp_line *)malloc((MOST + 1) * sizeof *all); long n = 0, i, rounds; clock_t begin;
    if (!all || !c) return 1;
    while (n < MOST) { n += step(c, 0, &all[n]); if (jv_events(c, 0).serial > 60000) jv_forget(c, 0); }
    begin = clock();
    for (rounds = 0; rounds * MOST < lines; rounds++) {
        jp_free(j); j = judge_at(0, 0);
        for (i = 0; i < MOST; i++) if (jp_see(j, &all[i]).status) { otherwise("a lawful line"); break; }
    }
    printf("%ld lines judged, %.1f ns of processor time a line\n", rounds * (long)MOST,
        1e9 * (double)(clock() - begin) / CLOCKS_PER_SEC / (double)(rounds * MOST));
    jp_free(j); jv_free(c); free(all);
    return wrong != 0;
}
int main(int argc, char **argv) {
    jv_cache *c = cache(); jp_judge *judges[JUDGES]; jp_line lines[2]; long steps, n; int k, count, i;
    if (argc > 1 && !strcmp(argv[1], "time")) { jv_free(c); return measure(argc > 2 ? strtol(argv[2], NULL, 10) : 10000000); }
    state = argc > 1 ? strtoul(argv[1], NULL, 10) : 1;
    steps = argc > 2 ? strtol(argv[2], NULL, 10) : 100000;
    exchange(1);
    exchange(0);
    closed_ones();
    if (!c) return 1;
    for (k = 0; k < JUDGES; k++) judges[k] = judge_at(client_of(k), is_unseen(k));
    for (n = 0; n < steps; n++) {
        count = step(c, (uint32_t)n, lines);
        for (i = 0; i < count; i++) see(c, judges, &lines[i], i + 1 == count);
        if (n % 1000 == 0) jv_forget(c, 0);
    }
    faults(c, judges);
    fprintf(stderr, "%ld lines\n", seen);
    for (k = 0; k < JUDGES; k++) jp_free(judges[k]);
    jv_free(c);
    return wrong != 0;
}
