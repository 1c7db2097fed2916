// A bench in miniature: several clients and banks, random calls, and a scoreboard of its own; then nanoseconds a call.
//   bench SEED STEPS     the random driver: status 1 where a load or the copies are not what the scoreboard says
//   bench time ROUNDS    what a call costs
//   bench record STEPS   the log of a random run's first bank, as `tlcheck` reads it
#include "jinavoke.h"
#include <chrono>
#include <cinttypes>
#include <cstdio>
#include <cstring>
#include <map>
#include <random>
#include <vector>

static const uint32_t clients = 4, banks = 2, blocks = 8, block_bytes = 8;

struct Board { // what was stored last, by address
    std::vector<uint8_t> bytes;
    long wrong, loads, done;
    std::map<uint32_t, long> refused;
};

template <class Answer> static void count(Board &board, const Answer &a) { if (a.status) board.refused[a.status]++; else board.done++; }

// Takes the first message that waits on a channel, if one does.
static bool take(jv_cache *c, Board &board, uint32_t bank, uint32_t client, uint32_t channel) {
    jv_answer m = jv_waiting(c, bank, client, channel, 0), a;
    if (m.status) return false;
    jv_ticket t = jv_sent(&m);
    switch (channel) {
    case JV_A: a = jv_accept(c, t); break;
    case JV_B: a = jv_answer_probe(c, t); break;
    case JV_C: a = jv_take_c(c, t); break;
    case JV_D: a = jv_take_d(c, &m); break;
    default: a = jv_take_grant_ack(c, t);
    }
    count(board, a);
    return a.status == 0;
}
// One writer and no reader, or readers alone; and each copy has the bytes that were stored last.
static void compare(const jv_cache *c, Board &board) {
    for (uint32_t b = 0; b < blocks; b++) {
        int tips = 0, branches = 0;
        for (uint32_t k = 0; k < clients; k++) {
            uint64_t perm = jv_perm(c, k, b).serial;
            tips += perm == JV_TIP; branches += perm == JV_BRANCH;
            if (perm > jv_directory(c, k, b).serial) board.wrong++;
            for (uint32_t i = 0; i < block_bytes; i++) {
                jv_number a = jv_peek(c, k, b * block_bytes + i);
                if ((a.status == 0) != (perm != JV_NONE)) board.wrong++;
                if (a.status == 0 && a.serial != board.bytes[b * block_bytes + i]) board.wrong++;
            }
        }
        if (tips > 1 || (tips && branches)) board.wrong++;
    }
}
static void step(jv_cache *c, Board &board, std::mt19937 &rng, uint32_t index) {
    auto r = [&](uint32_t below) { return uint32_t(rng() % below); };
    uint32_t client = r(clients), block = r(blocks), address = r(blocks * block_bytes), len = 1 + r(8 - address % 8);
    uint8_t bytes[8];
    jv_answer a;
    jv_accessed x;
    switch (r(10)) {
    case 0: count(board, jv_acquire(c, client, block, jv_grow(r(3)))); return;
    case 1: if (r(4) == 0) count(board, jv_release(c, client, block, jv_prune(r(3)))); return;
    case 2:
        x = jv_load(c, client, address, len, index);
        count(board, x);
        if (x.status == 0) { board.loads++; board.wrong += x.len != len || memcmp(x.bytes, &board.bytes[address], len) != 0; }
        return;
    case 3:
        for (auto &byte : bytes) byte = uint8_t(rng());
        x = jv_store(c, client, address, bytes, len, index);
        count(board, x);
        if (x.status == 0) memcpy(&board.bytes[address], bytes, len);
        return;
    case 4: if (r(16) == 0) count(board, jv_evict(c, block)); return;
    case 5: if (jv_outward_of(c, block).serial % 2) count(board, jv_serve_memory(c, block)); else if (jv_outward_of(c, block).serial) count(board, jv_take_memory(c, block)); return;
    case 6: case 7: a = jv_open_block(c, r(banks), r(2)); if (a.status == 0) count(board, jv_advance(c, uint32_t(a.serial))); return;
    default: take(c, board, r(banks), client, r(5));
    }
}
static jv_cache *fresh(const std::vector<uint8_t> &image) {
    jv_numbers n;
    n.version = 1; n.clients = clients; n.banks = banks; n.block_bytes = block_bytes; n.sets = 1; n.ways = 2;
    n.registers = 2; n.copies = 4; n.memory_blocks = blocks;
    uint32_t why;
    jv_cache *c = jv_new(&n, image.data(), image.size(), &why);
    if (!c) { std::fprintf(stderr, "jv_new: %u\n", why); std::exit(1); }
    return c;
}
// Goes on with all that is under way, until each bank is quiet.
static void drain(jv_cache *c, Board &board) {
    for (bool busy = true; busy;) {
        busy = false;
        for (uint32_t bank = 0; bank < banks; bank++) {
            for (uint32_t k = 0; k < clients; k++) for (uint32_t channel = 0; channel < 5; channel++) busy |= take(c, board, bank, k, channel);
            jv_answer open = jv_open_block(c, bank, 0);
            if (open.status == 0) busy |= jv_advance(c, uint32_t(open.serial)).status == 0;
        }
        for (uint32_t b = 0; b < blocks; b++) {
            uint64_t way = jv_outward_of(c, b).serial;
            if (way % 2) busy |= jv_serve_memory(c, b).status == 0; else if (way) busy |= jv_take_memory(c, b).status == 0;
        }
    }
    for (uint32_t bank = 0; bank < banks; bank++) board.wrong += jv_is_quiet(c, bank).serial != 1;
}
// Of quiet banks, where no client has a copy: home's bytes, or where home has none the memory's, are those that were stored last.
// Where home's copy is clean, the memory has its bytes.
static void compare_home(const jv_cache *c, Board &board) {
    for (uint32_t b = 0; b < blocks; b++) {
        jv_answer home = jv_home_copy(c, b), memory = jv_memory_block(c, b);
        const uint8_t *last = &board.bytes[b * block_bytes];
        bool copied = false;
        for (uint32_t k = 0; k < clients; k++) copied |= jv_perm(c, k, b).serial != JV_NONE;
        board.wrong += memory.len != block_bytes || home.len != (home.serial == JV_HOME_NONE ? 0 : block_bytes);
        if (home.serial == JV_HOME_CLEAN) board.wrong += memcmp(home.bytes, memory.bytes, block_bytes) != 0;
        if (!copied) board.wrong += memcmp(home.serial == JV_HOME_NONE ? memory.bytes : home.bytes, last, block_bytes) != 0;
    }
}
// The log of a bank by itself: each load in it got what was stored last before it, the stamps rise, and there are as many events as
// the bank says.
static void compare_log(const jv_cache *c, Board &board, std::vector<uint8_t> bytes, uint32_t bank) {
    jv_answer out[7] = {};
    uint64_t cursor = 0, stamp = 0;
    for (size_t n; (n = jv_read_events(c, bank, &cursor, out, 7)) != 0;) for (size_t i = 0; i < n; i++) {
        const jv_answer &e = out[i];
        board.wrong += e.what != JV_TELLS_EVENT || e.opcode > JV_EVENT_TAKE_PUT_ACK || e.place >= blocks;
        if (e.opcode > JV_EVENT_STORE) { board.wrong += e.len != 0 || e.serial != 0; continue; }
        board.wrong += e.serial <= stamp || e.address / block_bytes != e.place || e.len == 0 || e.len > 8;
        stamp = e.serial;
        if (e.opcode == JV_EVENT_STORE) memcpy(&bytes[e.address], e.bytes, e.len);
        else board.wrong += memcmp(&bytes[e.address], e.bytes, e.len) != 0;
    }
    board.wrong += cursor != jv_events(c, bank).serial;
}
static int drive(uint32_t seed, long steps) {
    std::mt19937 rng(seed);
    Board board = {};
    board.bytes.resize(blocks * block_bytes);
    for (auto &b : board.bytes) b = uint8_t(rng());
    const std::vector<uint8_t> image = board.bytes;
    jv_cache *c = fresh(image);
    for (long i = 0; i < steps; i++) {
        step(c, board, rng, uint32_t(i));
        if (i % 64 == 0) compare(c, board);
        if (i % 512 == 0) { drain(c, board); compare_home(c, board); }
    }
    drain(c, board);
    compare(c, board);
    compare_home(c, board);
    uint64_t events = 0;
    for (uint32_t bank = 0; bank < banks; bank++) { compare_log(c, board, image, bank); events += jv_events(c, bank).serial; }
    std::printf("seed %u: %ld calls done, %" PRIu64 " events, %ld loads, %ld wrong; refused", seed, board.done, events, board.loads, board.wrong);
    for (auto &x : board.refused) std::printf(" %u:%ld", x.first, x.second);
    std::printf("\n");
    jv_free(c);
    return board.wrong != 0;
}

// The log of bank 0 of a random run, as `tlcheck` reads it (docs/RECORD.md).
static void print_event(const jv_answer &e) {
    static const char *names[] = {"load", "store", "acquire", "release", "answer_probe", "take_grant", "take_release_ack", "accept",
        "probe", "take_c", "grant", "take_grant_ack", "get", "serve", "take_data", "drop", "put", "take_put_ack"};
    static const char *grow[] = {"NtoB", "NtoT", "BtoT"}, *prune[] = {"TtoB", "TtoN", "BtoN"}, *cap[] = {"toT", "toB", "toN"};
    std::printf("%s", names[e.opcode]);
    if (e.opcode <= JV_EVENT_STORE) {
        std::printf(" %u 0x%08x ", e.client, e.address);
        for (uint32_t i = 0; i < e.len; i++) std::printf("%02x", e.bytes[i]);
    } else if (e.opcode < JV_EVENT_SEND_GET) std::printf(" %u %u", e.client, e.place);
    else std::printf(" %u", e.place);
    if (e.opcode == JV_EVENT_SEND_ACQUIRE) std::printf(" %s", grow[e.param]);
    if (e.opcode == JV_EVENT_SEND_RELEASE) std::printf(" %s", prune[e.param]);
    if (e.opcode == JV_EVENT_SEND_PROBE) std::printf(" %s", cap[e.param]);
    std::printf("\n");
}
static int record(uint32_t seed, long steps) {
    std::mt19937 rng(seed);
    Board board = {};
    board.bytes.resize(blocks * block_bytes);
    jv_cache *c = fresh(board.bytes);
    for (long i = 0; i < steps; i++) { step(c, board, rng, uint32_t(i)); if (i % 64 == 0) drain(c, board); }
    std::printf("clients %u block_bytes %u memory_blocks %u\n", clients, block_bytes, blocks);
    jv_answer e;
    for (uint64_t i = 0; (e = jv_event(c, 0, i)).status == 0; i++) print_event(e);
    jv_free(c);
    return board.wrong != 0;
}

typedef std::chrono::steady_clock Clock;
static double ns_since(Clock::time_point from, double calls) {
    return std::chrono::duration<double, std::nano>(Clock::now() - from).count() / calls;
}
static int time_calls(long rounds) { // client 0 and client 1 take block 0 from one another
    jv_cache *c = fresh({});
    long calls = 0, refused = 0;
    uint8_t byte = 1;
    auto hit = [&](const jv_accessed &a) { calls++; refused += a.status != 0; };
    auto ask = [&](jv_answer a) { calls++; refused += a.status != 0; return jv_sent(&a); };
    auto from = Clock::now();
    for (long i = 0; i < rounds; i++) {
        uint32_t me = uint32_t(i & 1);
        ask(jv_accept(c, ask(jv_acquire(c, me, 0, JV_NTOT))));
        if (i == 0) { ask(jv_advance(c, 0)); ask(jv_serve_memory(c, 0)); ask(jv_take_memory(c, 0)); }
        else ask(jv_take_c(c, ask(jv_answer_probe(c, ask(jv_advance(c, 0))))));
        ask(jv_take_grant_ack(c, ask(jv_take_grant(c, ask(jv_advance(c, 0))))));
        hit(jv_store(c, me, 0, &byte, 1, uint32_t(i)));
        hit(jv_load(c, me, 0, 8, uint32_t(i)));
    }
    std::printf("steps: %ld calls, %ld refused, %.1f ns a call\n", calls, refused, ns_since(from, double(calls)));
    uint32_t me = uint32_t((rounds - 1) & 1);
    from = Clock::now();
    for (long i = 0; i < rounds; i++) hit(jv_load(c, me, 0, 8, uint32_t(i)));
    std::printf("load: %.1f ns\n", ns_since(from, double(rounds)));
    from = Clock::now();
    for (long i = 0; i < rounds; i++) ask(jv_advance(c, 0));
    std::printf("refused advance: %.1f ns\n", ns_since(from, double(rounds)));
    uint64_t sum = 0;
    from = Clock::now();
    for (long i = 0; i < rounds; i++) sum += jv_perm(c, me, 0).serial;
    std::printf("view of a permission: %.1f ns (%" PRIu64 ")\n", ns_since(from, double(rounds)), sum);
    jv_free(c);
    return 0;
}
int main(int argc, char **argv) {
    if (argc != 3) { std::fprintf(stderr, "usage: bench SEED STEPS, bench time ROUNDS, or bench record STEPS\n"); return 2; }
    if (!strcmp(argv[1], "time")) return time_calls(atol(argv[2]));
    if (!strcmp(argv[1], "record")) return record(1, atol(argv[2]));
    return drive(uint32_t(atol(argv[1])), atol(argv[2]));
}
