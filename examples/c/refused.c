/* Each request for memory refused in turn, by malloc and realloc of this file's own (linked with --wrap): opening answers 14 and leaves
 * nothing behind; a step or jv_reserve that is answered with 14 changed nothing, and is done when it is asked again; a judge of events, or at
 * a client's pins, that answered 14 does so from then on; and at the end all memory was given back. Status 1 where one does not. */
#include "jinavoke.h"
#include <stdio.h>

void *__real_malloc(size_t n);
void *__real_realloc(void *p, size_t n);
void __real_free(void *p);
static long asked, refuse_at, live, refused;
static int is_refused(void) { if (++asked != refuse_at) return 0; refused++; return 1; }
void *__wrap_malloc(size_t n) { void *p = is_refused() ? NULL : __real_malloc(n); live += p != NULL; return p; }
void *__wrap_realloc(void *p, size_t n) {
    void *q = is_refused() ? NULL : __real_realloc(p, n);
    live += !p && q;
    return q;
}
void __wrap_free(void *p) { live -= p != NULL; __real_free(p); }

static const jv_numbers numbers = {1, 2, 2, 8, 1, 2, 2, 4, 8};
static long wrong;
static void expect(int holds, const char *what) { if (!holds && ++wrong < 20) printf("request %ld refused: %s\n", refuse_at, what); }

typedef struct { uint64_t events[2], perms, recorded, waiting, outward; uint8_t bytes[8][24]; } look;
static look look_at(const jv_cache *c) { /* what the banks show of each block, client and channel */
    look l; uint32_t b, k, n; jv_answer a;
    memset(&l, 0, sizeof l);
    for (b = 0; b < 2; b++) l.events[b] = jv_events(c, b).serial;
    for (b = 0; b < 8; b++) {
        for (k = 0; k < 2; k++) {
            l.perms = l.perms * 3 + jv_perm(c, k, b).serial;
            l.recorded = l.recorded * 3 + jv_directory(c, k, b).serial;
        }
        a = jv_outward_of(c, b); l.outward = l.outward * 5 + a.serial; memcpy(l.bytes[b], a.bytes, 8);
        a = jv_home_copy(c, b); l.bytes[b][8] = (uint8_t)a.serial; memcpy(l.bytes[b] + 9, a.bytes, 8);
        a = jv_memory_block(c, b); memcpy(l.bytes[b] + 16, a.bytes, 8);
    }
    for (b = 0; b < 2; b++) for (k = 0; k < 2; k++) for (n = 0; n < 5; n++) {
        uint64_t place = 0;
        while (jv_waiting(c, b, k, n, place).status == 0) place++;
        l.waiting = l.waiting * 3 + place;
    }
    return l;
}
/* A request by the call that tells least. */
static jv_answer call(jv_cache *c, const jv_request *r) {
    jv_accessed x;
    if (r->call != JV_CALL_LOAD && r->call != JV_CALL_STORE) return jv_call(c, r);
    x = jv_access(c, r);
    return jv_accessed_wide(&x);
}
/* Asks, and where there was no memory asks again: it was as if it had not been asked. */
static jv_answer ask(jv_cache *c, const jv_request *r) {
    look before = look_at(c), after;
    jv_answer a = call(c, r), zero;
    if (a.status == JV_NO_MEMORY) {
        memset(&zero, 0, sizeof zero); zero.status = JV_NO_MEMORY;
        after = look_at(c);
        expect(!memcmp(&a, &zero, sizeof a), "more than the status is told");
        expect(!memcmp(&before, &after, sizeof after), "something changed");
        a = call(c, r);
    }
    expect(a.status == 0, "not done");
    return a;
}
static jv_answer by_block(jv_cache *c, uint32_t call, uint32_t block) { jv_request r = jv_asks_(call); r.place = block; return ask(c, &r); }
static jv_answer by_answer(jv_cache *c, uint32_t call, const jv_answer *m) {
    jv_request r = jv_asks_(call); r.bank = m->bank; r.client = m->client; r.channel = m->channel; r.serial = m->serial; return ask(c, &r);
}
static jv_answer of_client(jv_cache *c, uint32_t call, uint32_t client, uint32_t place, uint32_t param, uint32_t len) {
    jv_request r = jv_asks_(call); r.client = client; r.place = place; r.param = param; r.len = len; r.bytes[0] = 0xaa; return ask(c, &r);
}
static jv_answer reserve(jv_cache *c, uint32_t bank, uint64_t events) {
    jv_request r = jv_asks_(JV_CALL_RESERVE); r.bank = bank; r.serial = events; return ask(c, &r);
}
/* A client writes and reads a block, so many times, in calls of many: one that ends for want of memory changed nothing at its last
   request, which is asked again with those behind it. */
enum { MOST_ROUNDS = 100 };
static void at_once(jv_cache *c, uint32_t client, uint32_t block, uint32_t rounds) {
    static jv_request requests[2 * MOST_ROUNDS]; static jv_answer answers[2 * MOST_ROUNDS];
    size_t n = 2 * (size_t)rounds, at = 0, made; uint32_t i, bank = (uint32_t)jv_bank_of(c, block).serial;
    for (i = 0; i < n; i++) {
        requests[i] = jv_asks_(i % 2 ? JV_CALL_LOAD : JV_CALL_STORE);
        requests[i].client = client; requests[i].place = block * 8; requests[i].len = i % 2 ? 8 : 1; requests[i].bytes[0] = 0xaa;
    }
    while (at < n) {
        look before = look_at(c), after;
        made = jv_calls(c, requests + at, n - at, answers + at, n - at);
        expect(made >= 1 && made <= n - at, "so many calls were not asked for");
        after = look_at(c);
        if (answers[at + made - 1].status == JV_NO_MEMORY) made--;
        else expect(at + made == n && answers[n - 1].status == 0, "not done");
        expect(after.events[bank] == before.events[bank] + made, "other events than calls that were done");
        at += made;
    }
    for (i = 0; i < n; i++) {
        uint8_t first = i % 2 ? 0xaa : 0;
        expect(answers[i].status == 0 && answers[i].len == (i % 2 ? 8u : 0u) && answers[i].bytes[0] == first, "a load of other bytes");
    }
}
/* A Release was seen with bytes that no store told: the store that leads there is made with it, or nothing is. */
static jv_answer seen_release(jv_cache *c, uint32_t client, uint32_t block) {
    jv_seen s; jv_answer a, zero; look before = look_at(c), after;
    memset(&s, 0, sizeof s);
    s.channel = JV_C; s.opcode = JV_OP_RELEASE_DATA; s.param = JV_TTON; s.client = client; s.block = block; s.len = 8; s.options = JV_STORES;
    s.bytes[0] = 0xaa; s.bytes[7] = (uint8_t)(jv_copy(c, client, block).bytes[7] + 1);
    a = jv_saw(c, &s);
    if (a.status == JV_NO_MEMORY) {
        memset(&zero, 0, sizeof zero); zero.status = JV_NO_MEMORY;
        after = look_at(c);
        expect(!memcmp(&a, &zero, sizeof a), "more than the status is told");
        expect(!memcmp(&before, &after, sizeof after), "something changed");
        a = jv_saw(c, &s);
    }
    expect(a.status == 0 && a.stores == 1 && jv_events(c, a.bank).serial == before.events[a.bank] + 2, "a store and a Release");
    return a;
}
/* A client gets a block, writes and reads it, and gives it up; then home sends it to the memory. */
static void play(jv_cache *c, uint32_t client, uint32_t block, uint32_t rounds) {
    jv_answer a; uint32_t i;
    a = of_client(c, JV_CALL_ACQUIRE, client, block, JV_NTOT, 0); by_answer(c, JV_CALL_ACCEPT, &a);
    by_block(c, JV_CALL_ADVANCE, block); by_block(c, JV_CALL_SERVE_MEMORY, block); by_block(c, JV_CALL_TAKE_MEMORY, block);
    a = by_block(c, JV_CALL_ADVANCE, block); a = by_answer(c, JV_CALL_TAKE_GRANT, &a); by_answer(c, JV_CALL_TAKE_GRANT_ACK, &a);
    if (client == 1) at_once(c, client, block, rounds);
    else for (i = 0; i < rounds; i++) {
        of_client(c, JV_CALL_STORE, client, block * 8, 0, 1);
        a = of_client(c, JV_CALL_LOAD, client, block * 8, 0, 8);
        expect(a.len == 8 && a.bytes[0] == 0xaa, "a load of other bytes");
    }
    a = client == 1 ? seen_release(c, client, block) : of_client(c, JV_CALL_RELEASE, client, block, JV_TTON, 0); a = by_answer(c, JV_CALL_TAKE_C, &a);
    by_answer(c, JV_CALL_TAKE_RELEASE_ACK, &a);
    by_block(c, JV_CALL_EVICT, block); by_block(c, JV_CALL_ADVANCE, block); by_block(c, JV_CALL_SERVE_MEMORY, block);
    by_block(c, JV_CALL_TAKE_MEMORY, block);
    expect(jv_memory_block(c, block).bytes[0] == 0xaa, "the memory has other bytes");
}
static void scenario(void) {
    uint8_t image[64] = {1, 2, 3};
    uint32_t why, b;
    long before;
    jv_cache *c = jv_new(&numbers, image, sizeof image, &why);
    if (!c) {
        expect(why == JV_NO_MEMORY, "opening tells another reason");
        expect(live == 0, "opening kept memory");
        c = jv_new(&numbers, image, sizeof image, &why);
        if (!c) { expect(0, "not opened"); return; }
    }
    for (b = 0; b < 4; b++) play(c, b % 2, b, 20);
    reserve(c, 0, 500);
    expect(jv_room(c, 0).serial >= 500, "less room than was asked for");
    before = asked;
    play(c, 1, 0, 100); /* of bank 0 */
    expect(asked == before, "a step that had room asked for memory");
    for (b = 0; b < 2; b++) expect(jv_is_quiet(c, b).serial == 1, "not quiet");
    jv_free(c);
}
/* A judge sees a client get each block: it is opened and takes each entry; or 14 is told, and from then on by each call. */
static void judged(void) {
    static const uint32_t kinds[] = {JV_EVENT_SEND_ACQUIRE, JV_EVENT_ACCEPT_ACQUIRE, JV_EVENT_SEND_GET, JV_EVENT_SERVE, JV_EVENT_TAKE_DATA,
        JV_EVENT_SEND_GRANT, JV_EVENT_TAKE_GRANT, JV_EVENT_TAKE_GRANT_ACK};
    jj_numbers n = {2, 8, 8, JJ_WHOLE_CHANNEL};
    uint32_t why, block, k;
    jj_verdict v, zero;
    jj_judge *j = jj_new(&n, NULL, 0, &why);
    memset(&zero, 0, sizeof zero); zero.status = JV_NO_MEMORY;
    if (!j) {
        expect(why == JV_NO_MEMORY, "opening a judge tells another reason");
        expect(live == 0, "opening a judge kept memory");
        return;
    }
    for (block = 0; block < 8; block++) for (k = 0; k < 8; k++) {
        jj_entry e = jj_event(kinds[k], block % 2, block, JV_NTOT);
        v = jj_see(j, &e);
        if (v.status == JV_OK) continue;
        expect(!memcmp(&v, &zero, sizeof v), "an entry is told as other than want of memory");
        e = jj_event(JV_EVENT_LOAD, 0, 0, 0);
        v = jj_see(j, &e);
        expect(!memcmp(&v, &zero, sizeof v), "want of memory is not told again");
        block = 8; break;
    }
    jj_free(j);
}
/* A judge at a client's pins sees it get each block: it is opened and takes each line; or 14 is told, and from then on by each call. */
static void judged_at_pins(void) {
    jp_numbers n = {{2, 8, 1024, JJ_WHOLE_CHANNEL}, 1, 0};
    uint8_t bytes[8] = {0};
    uint32_t why, block, k;
    jp_verdict v, zero;
    jp_judge *j = jp_new(&n, &why);
    memset(&zero, 0, sizeof zero); zero.status = JV_NO_MEMORY;
    if (!j) {
        expect(why == JV_NO_MEMORY, "opening a judge tells another reason");
        expect(live == 0, "opening a judge kept memory");
        return;
    }
    for (block = 0; block < 1024; block++) for (k = 0; k < 2; k++) {
        jp_line asks = jp_message(1, block, JV_A, JV_OP_ACQUIRE_BLOCK, JV_NTOT, NULL, 0);
        jp_line gets = jp_message(1, block, JV_D, JV_OP_GRANT_DATA, JV_TO_T, bytes, 8);
        v = jp_see(j, k ? &gets : &asks);
        if (v.status == JV_OK) continue;
        expect(!memcmp(&v, &zero, sizeof v), "a line is told as other than want of memory");
        v = jp_see(j, &asks);
        expect(!memcmp(&v, &zero, sizeof v), "want of memory is not told again");
        block = 1024; break;
    }
    jp_free(j);
}
static void each_refused(void (*one)(void), const char *what) {
    long all, i;
    asked = refuse_at = refused = 0;
    one();
    all = asked;
    expect(live == 0, "memory was kept");
    for (i = 1; i <= all; i++) { asked = 0; refuse_at = i; one(); expect(live == 0, "memory was kept"); }
    expect(refused == all, "not each request was refused");
    printf("%s: %ld requests, each refused in turn, %ld refused, %ld wrong\n", what, all, refused, wrong);
}
int main(void) {
    each_refused(scenario, "a cache");
    each_refused(judged, "a judge");
    each_refused(judged_at_pins, "a judge at a client's pins");
    return wrong != 0;
}
