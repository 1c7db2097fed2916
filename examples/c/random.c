/* Requests of random numbers, and numbers and images at the edges of what opens: each answer has a status of the table, tells
 * nothing where it is refused, and a view or a refused call leaves the counts of the banks as they were. A second cache is asked the
 * same by the calls that tell less (jv_access, jv_look), a third by calls of many (jv_calls), and they answer the same; and many events
 * (jv_read) are those that are told one by one. Status 1 where something is otherwise. */
#include "jinavoke.h"
#include <stdio.h>

static uint64_t state;
static uint64_t next(void) { state ^= state << 13; state ^= state >> 7; state ^= state << 17; return state; }
/* a small number, mostly; or one of all 64 bits */
static uint64_t some(uint32_t small) {
    static const uint64_t edges[] = {0, 1, 7, 8, 9, 0x7fffffff, 0x80000000u, 0xffffffffu, 0x100000000u, 0x7fffffffffffffffu, ~(uint64_t)0};
    switch (next() % 8) {
    case 0: return edges[next() % (sizeof edges / sizeof *edges)];
    case 1: return next();
    default: return next() % small;
    }
}
static int is_zero(const jv_answer *a) {
    int i;
    for (i = 0; i < 64; i++) if (a->bytes[i]) return 0;
    return !a->what && !a->bank && !a->client && !a->channel && !a->opcode && !a->param && !a->place && !a->address && !a->size
        && !a->index && !a->len && !a->stores && !a->reserved;
}
static uint64_t events(const jv_cache *c) {
    uint32_t bank; uint64_t sum = 0;
    for (bank = 0; bank < 8; bank++) sum += jv_events(c, bank).serial;
    return sum;
}
static long wrong, by_status[32];
static void judge(const jv_request *r, const jv_answer *a, uint64_t before, uint64_t after) {
    int ok = a->status <= 19 && (a->status != JV_FORGOTTEN || r->call == JV_VIEW_EVENT) && a->len <= 64;
    by_status[a->status & 31]++;
    if (a->status) ok = ok && is_zero(a) && (a->serial == 0 || a->status == JV_CLOSED) && after == before;
    if (a->status == 0 && (r->call == JV_CALL_DRAIN || r->call == JV_CALL_FLUSH)) ok = ok && after == before + a->serial;
    else if (a->status == 0 && r->call >= 15) ok = ok && after == before;
    if (a->status == 0 && r->call >= 1 && r->call <= 14) ok = ok && after == before + (r->call != JV_CALL_EVICT);
    if (r->call == JV_CALL_RESERVE) ok = ok && (a->status == 0 || a->status == JV_OUT_OF_RANGE || a->status == JV_NO_MEMORY);
    if (r->call == JV_CALL_FORGET) ok = ok && (a->status == 0 || a->status == JV_OUT_OF_RANGE);
    if (r->call == JV_CALL_DRAIN || r->call == JV_CALL_FLUSH) ok = ok && a->status == 0 && a->what == JV_TELLS_NUMBER;
    if (r->call > 18 && (r->call < 20 || r->call > 41)) ok = ok && a->status == JV_NO_CALL;
    if (!ok && ++wrong < 10) printf("call %u: status %u what %u, %llu events, then %llu\n", r->call, a->status, a->what,
        (unsigned long long)before, (unsigned long long)after);
}
/* The same request by the call that tells least, as jv_call tells it. The others of these calls know no such request. */
static jv_answer short_call(jv_cache *c, const jv_request *r) {
    static const uint32_t numbers[] = {JV_VIEW_PERM, JV_VIEW_DIRECTORY, JV_VIEW_PEEK, JV_VIEW_HELD, JV_VIEW_RECORDED, JV_VIEW_EVENTS,
        JV_VIEW_ROOM, JV_VIEW_COPIES, JV_VIEW_FORGOTTEN, JV_VIEW_WAITS_FOR, JV_VIEW_BANK, JV_VIEW_COUNT};
    int is_access = r->call == JV_CALL_LOAD || r->call == JV_CALL_STORE, is_number = 0;
    size_t i; jv_answer a; jv_accessed x; jv_number n;
    for (i = 0; i < sizeof numbers / sizeof *numbers; i++) is_number |= r->call == numbers[i];
    x = jv_access(c, r);
    n = jv_look(c, r);
    if (!is_access && (x.status != JV_NO_CALL || x.what || x.serial || x.len)) wrong++;
    if (!is_number && (n.status != JV_NO_CALL || n.what || n.serial)) wrong++;
    if (is_access) return jv_accessed_wide(&x);
    if (!is_number) return jv_call(c, r);
    memset(&a, 0, sizeof a); a.status = n.status; a.what = n.what; a.serial = n.serial;
    return a;
}
/* The same requests by calls of many, each of which ends at the first that is refused. */
enum { MANY = 16 };
static jv_request asked[MANY]; static jv_answer told[MANY];
static int is_filled(const jv_answer *a, size_t n) {
    const uint8_t *p = (const uint8_t *)a; size_t i;
    for (i = 0; i < n * sizeof *a; i++) if (p[i] != 0x5a) return 0;
    return 1;
}
static void by_many(jv_cache *c, size_t n) {
    size_t at = 0, i;
    while (at < n) {
        jv_answer out[MANY]; size_t places = 1 + next() % (n - at), made; int ok;
        memset(out, 0x5a, sizeof out);
        made = jv_calls(c, asked + at, n - at, out, places);
        ok = made >= 1 && made <= places && (made == places || out[made - 1].status) && is_filled(out + made, MANY - made);
        for (i = 0; ok && i < made; i++) ok = !memcmp(out + i, told + at + i, sizeof *out) && (i + 1 == made || !out[i].status);
        if (!ok && ++wrong < 10) printf("%u of %u calls at once, in %u places\n", (uint32_t)made, (uint32_t)(n - at), (uint32_t)places);
        at += made ? made : n;
    }
}
/* Many events at once, from a place on. */
static void read_some(jv_cache *c) {
    jv_answer out[MANY], one; jv_request r = jv_asks_(JV_VIEW_EVENT); jv_number n; size_t most = next() % (MANY + 1), i; int ok = 1;
    uint64_t events, forgotten;
    r.bank = (uint32_t)some(3);
    events = jv_events(c, r.bank).serial; forgotten = jv_forgotten(c, r.bank).serial;
    r.serial = next() % 4 ? events - next() % (MANY + 4) : some(64);
    memset(out, 0x5a, sizeof out);
    n = jv_read(c, &r, out, most);
    if (r.bank >= 2) ok = n.status == JV_OUT_OF_RANGE;
    else if (r.serial < forgotten) ok = n.status == JV_FORGOTTEN;
    else {
        uint64_t left = r.serial < events ? events - r.serial : 0;
        ok = n.status == 0 && n.what == JV_TELLS_NUMBER && n.serial == (left < most ? left : most);
        for (i = 0; ok && i < n.serial; i++) {
            one = jv_event(c, r.bank, r.serial + i);
            ok = !memcmp(&one, out + i, sizeof one) && !one.status;
        }
    }
    if (n.status && (n.what || n.serial)) ok = 0;
    if (!is_filled(out + (n.status ? 0 : n.serial), MANY - (n.status ? 0 : n.serial))) ok = 0;
    if (!ok && ++wrong < 10) printf("events of bank %u from %llu: status %u, %llu\n", r.bank, (unsigned long long)r.serial, n.status,
        (unsigned long long)n.serial);
}
static void feed(jv_cache *c, jv_cache *twin, jv_cache *third, long steps) {
    jv_ticket last = {0, 0, 5, 0};
    long i; int k; size_t n = 0;
    for (i = 0; i < steps; i++) {
        jv_request r; jv_answer a, b; uint64_t before = events(c);
        r.call = 1 + (uint32_t)some(42); r.index = (uint32_t)some(9); r.client = (uint32_t)some(4); r.place = (uint32_t)some(64);
        r.param = (uint32_t)some(3); r.bank = (uint32_t)some(2); r.channel = (uint32_t)some(5); r.len = (uint32_t)some(9);
        r.serial = some(8);
        if (r.call == 0) r.call = 1;                         /* not the one that closes */
        if (r.call == JV_CALL_RESERVE && r.serial > 9999 && r.serial >> 58 == 0) r.serial %= 10000; /* or more than any memory has */
        for (k = 0; k < 8; k++) r.bytes[k] = (uint8_t)next();
        if (next() % 2) { r.bank = last.bank; r.client = last.client; r.channel = last.channel; r.serial = last.serial; }
        a = jv_call(c, &r);
        judge(&r, &a, before, events(c));
        b = short_call(twin, &r);
        if (memcmp(&a, &b, sizeof a) && ++wrong < 10) printf("call %u: status %u, and %u told shortly\n", r.call, a.status, b.status);
        if (a.status == 0 && a.what == JV_TELLS_MESSAGE) last = jv_sent(&a);
        asked[n] = r; told[n] = a;
        if (++n == MANY || i + 1 == steps) { by_many(third, n); read_some(third); n = 0; }
    }
}
static void edges(void) { /* numbers and images that do not open */
    static const int64_t odd[] = {-1, 0, 3, 65, 65537, INT64_MIN, INT64_MAX};
    const jv_numbers good = {1, 4, 2, 8, 1, 2, 2, 4, 8};
    static const uint32_t wants[] = {28, 20, 21, 22, 23, 24, 25, 26, 27};
    uint8_t image[65] = {0};
    uint32_t why, i, k;
    for (i = 0; i < 9; i++) for (k = 0; k < 7; k++) {
        jv_numbers n = good;
        int64_t *field = &n.version + i;
        if (i == 4 && odd[k] == 3) continue;
        if (i == 5 && odd[k] == 3) continue;
        *field = odd[k];
        if ((i == 1 || i == 6 || i == 7 || i == 8) && odd[k] == 3) continue;
        if (i == 8 && odd[k] == 65) continue;
        if (jv_new(&n, image, 64, &why) || why != wants[i]) { printf("field %u is %lld: %u\n", i, (long long)odd[k], why); wrong++; }
    }
    if (jv_new(&good, image, 65, &why) || why != JV_OUT_OF_RANGE) { printf("long image: %u\n", why); wrong++; }
    if (jv_new(&good, image, (size_t)1 << 62, &why) || why != JV_OUT_OF_RANGE) { printf("longer image: %u\n", why); wrong++; }
}
int main(int argc, char **argv) {
    const jv_numbers n = {1, 4, 2, 8, 1, 2, 2, 4, 8};
    uint32_t why; jv_cache *c, *twin, *third; jv_request r; jv_answer a; jv_ticket t; jv_event_counts counts; int i;
    state = argc > 1 ? (uint64_t)atol(argv[1]) * 2654435761u + 1 : 1;
    if (!jv_fits()) { printf("the header is not the archive's\n"); return 1; }
    edges();
    c = jv_new(&n, NULL, 0, &why);
    twin = jv_new(&n, NULL, 0, &why);
    third = jv_new(&n, NULL, 0, &why);
    if (!c || !twin || !third) { printf("jv_new: %u\n", why); return 1; }
    feed(c, twin, third, argc > 2 ? atol(argv[2]) : 100000);
    jv_free(twin);
    jv_close(third);
    memset(told, 0, sizeof told);
    asked[0] = jv_asks_(JV_CALL_LOAD); told[0].status = JV_CLOSED; told[0].serial = JV_CLOSED;
    by_many(third, 1);
    if (jv_read(third, asked, told, 1).status != JV_CLOSED) { printf("events of a closed cache\n"); wrong++; }
    if (jv_memory(third, asked, told[0].bytes, 64).status != JV_CLOSED) { printf("memory of a closed cache\n"); wrong++; }
    if (jv_next(third, 0, asked) != JV_CLOSED || jv_counts(third, &counts) != JV_CLOSED || jv_image(third, told[0].bytes, 64)) {
        printf("what a closed cache tells\n"); wrong++;
    }
    jv_free(third);
    memset(&a, 0, sizeof a); a.status = 3; t = jv_sent(&a);
    if (jv_accept(c, t).status != JV_BAD_ARGUMENT || jv_store(c, 0, 0, NULL, 0, 0).status != JV_OUT_OF_RANGE) { printf("a bad ticket is taken\n"); wrong++; }
    jv_close(c); jv_close(c);
    for (r = jv_asks_(0); r.call < 42; r.call++) {
        a = jv_call(c, &r);
        if (r.call == JV_CALL_LOAD || r.call == JV_VIEW_PERM) { jv_answer b = short_call(c, &r); if (memcmp(&a, &b, sizeof a)) wrong++; }
        if (a.status != JV_CLOSED || a.serial != JV_CLOSED || !is_zero(&a)) { printf("call %u of a closed cache: %u\n", r.call, a.status); wrong++; }
    }
    jv_free(c); jv_free(NULL); jv_close(NULL);
    printf("seed %s: %ld wrong; by status", argc > 1 ? argv[1] : "1", wrong);
    for (i = 0; i < 32; i++) if (by_status[i]) printf(" %d:%ld", i, by_status[i]);
    printf("\n");
    return wrong != 0;
}
