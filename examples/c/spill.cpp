// A log that spills: its events are read, written to standard output as a record for `tlcheck -`, and then forgotten, so a run has
// no end but its caller's, in memory that does not grow.
//   spill EVENTS | tlcheck -     at least so many events; figures on standard error
//   spill EVENTS quiet           the same with nothing written: what the banks and the reading of the log cost alone
//   spill EVENTS unread          a log that nobody reads, forgotten behind each step: the bank keeps room for one event
#include "jinavoke.h"
#include <cinttypes>
#include <cstdio>
#include <cstdlib>
#include <cstring>
#include <string>
#include <sys/resource.h>
#include <vector>

static const uint32_t clients = 4, block_bytes = 8, blocks = 64;
static const uint64_t room = 65536; // events that are kept until they are read

static jv_cache *cache;
static long refused;
static bool is_unread;
static void forget() { refused += jv_forget(cache, 0).status != 0; }
// A step is done.
static jv_ticket done(const jv_answer &a) { refused += a.status != 0; if (is_unread) forget(); return jv_sent(&a); }
static void done(const jv_accessed &a) { refused += a.status != 0; if (is_unread) forget(); }

// The events of the log so far as lines of a record, in a buffer that is written whole.
class Record {
    std::string text;
    bool quiet;
    void number(uint32_t n) { char digits[10]; int i = 0; do digits[i++] = char('0' + n % 10); while (n /= 10); text += ' '; while (i) text += digits[--i]; }
    void hex(uint32_t n, int digits) { for (int i = digits; i--;) text += "0123456789abcdef"[n >> 4 * i & 15]; }
public:
    uint64_t cursor = 0;
    explicit Record(bool is_quiet) : quiet(is_quiet) {
        if (!quiet) std::printf("clients %u block_bytes %u memory_blocks %u\n", clients, block_bytes, blocks);
    }
    void add(const jv_answer &e) {
        static const char *names[] = {"load", "store", "acquire", "release", "answer_probe", "take_grant", "take_release_ack", "accept",
            "probe", "take_c", "grant", "take_grant_ack", "get", "serve", "take_data", "drop", "put", "take_put_ack"};
        static const char *grow[] = {" NtoB", " NtoT", " BtoT"}, *prune[] = {" TtoB", " TtoN", " BtoN"}, *cap[] = {" toT", " toB", " toN"};
        text += names[e.opcode];
        if (e.opcode < JV_EVENT_SEND_GET) number(e.client);
        if (e.opcode <= JV_EVENT_STORE) {
            text += " 0x"; hex(e.address, 8); text += ' ';
            for (uint32_t i = 0; i < e.len; i++) hex(e.bytes[i], 2);
        } else number(e.place);
        if (e.opcode == JV_EVENT_SEND_ACQUIRE) text += grow[e.param];
        if (e.opcode == JV_EVENT_SEND_RELEASE) text += prune[e.param];
        if (e.opcode == JV_EVENT_SEND_PROBE) text += cap[e.param];
        text += '\n';
    }
    // Reads what there is, writes it, and lets the bank forget it.
    void spill() {
        static std::vector<jv_answer> out(1024);
        for (size_t n; (n = jv_read_events(cache, 0, &cursor, out.data(), out.size())) != 0;)
            if (!quiet) for (size_t i = 0; i < n; i++) add(out[i]);
        std::fwrite(text.data(), 1, text.size(), stdout);
        text.clear();
        forget();
    }
};

// A client takes a block from whoever has it, and stores and loads there.
static void turn(uint32_t client, uint32_t block, uint32_t hits, uint32_t &index) {
    done(jv_accept(cache, done(jv_acquire(cache, client, block, JV_NTOT))));
    for (;;) { // what home does until the Grant: Probes, a write-back or a drop of a victim, the fetch
        jv_answer a = jv_advance(cache, block);
        jv_ticket sent = done(a);
        if (a.status) return;
        if (a.what == JV_TELLS_MEMORY) {
            uint32_t of = a.address / block_bytes;
            done(jv_serve_memory(cache, of)); done(jv_take_memory(cache, of));
        } else if (a.what == JV_TELLS_MESSAGE && a.channel == JV_B) {
            done(jv_take_c(cache, done(jv_answer_probe(cache, sent))));
        } else if (a.what == JV_TELLS_MESSAGE) {
            done(jv_take_grant_ack(cache, done(jv_take_grant(cache, sent))));
            break;
        }
    }
    for (uint32_t i = 0; i < hits; i++, index++) {
        uint8_t bytes[8] = {uint8_t(index), uint8_t(index >> 8), uint8_t(client)};
        if (i & 1) done(jv_load(cache, client, block * block_bytes, 8, index));
        else done(jv_store(cache, client, block * block_bytes, bytes, 8, index));
    }
    jv_answer a = jv_release(cache, client, block, JV_TTON); // with the bytes; the next client finds the copy at home
    a = jv_take_c(cache, done(a));
    done(jv_take_release_ack(cache, done(a)));
}
static void any_turn() {
    static uint32_t index = 0, seed = 1;
    seed = seed * 1664525 + 1013904223;
    turn(seed >> 8 & 3, seed >> 16 & 63, seed >> 24 & 31, index);
}
int main(int argc, char **argv) {
    std::string how = argc > 2 ? argv[2] : "";
    if (argc < 2 || argc > 3 || (argc == 3 && how != "quiet" && how != "unread")) {
        std::fprintf(stderr, "usage: spill EVENTS [quiet|unread]\n");
        return 2;
    }
    uint64_t wanted = std::strtoull(argv[1], nullptr, 10);
    is_unread = how == "unread";
    Record record(!how.empty());
    jv_numbers n = {1, clients, 1, block_bytes, 4, 4, 4, 16, blocks};
    uint32_t why;
    cache = jv_new(&n, nullptr, 0, &why);
    if (!cache) { std::fprintf(stderr, "jv_new: %u\n", why); return 1; }
    refused += jv_reserve(cache, 0, is_unread ? 1 : room).status != 0;
    while (record.cursor < wanted && !refused) {
        if (is_unread) {
            any_turn();
            record.cursor = jv_events(cache, 0).serial;
            continue;
        }
        while (jv_room(cache, 0).serial >= 256 && !refused) any_turn();
        record.spill();
    }
    rusage use;
    getrusage(RUSAGE_SELF, &use);
    double ns = (double(use.ru_utime.tv_sec + use.ru_stime.tv_sec) * 1e6 + double(use.ru_utime.tv_usec + use.ru_stime.tv_usec)) * 1e3;
    std::fprintf(stderr, "%" PRIu64 " events, %ld refused, %.1f ns of processor time an event, %ld KB at most\n", record.cursor, refused,
        ns / double(record.cursor), use.ru_maxrss);
    jv_free(cache);
    return refused != 0;
}
