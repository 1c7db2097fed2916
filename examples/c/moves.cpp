// A cache that moves: opened by one thread, used by four in turns, closed by another. Each call is of the thread that has the lock.
//   moves [ROUNDS]     status 1 where a step is refused, or a count is lost
#include "jinavoke.h"
#include <cstdio>
#include <cstdlib>
#include <cstring>
#include <mutex>
#include <thread>
#include <vector>

static const uint32_t clients = 4;
static long refused;
static jv_ticket done(const jv_answer &a) { refused += a.status != JV_OK; return jv_sent(&a); }

// The client gets the block from whoever has it.
static void take(jv_cache *c, uint32_t client, uint32_t block) {
    done(jv_accept(c, done(jv_acquire(c, client, block, JV_NTOT))));
    for (;;) {
        jv_answer a = jv_advance(c, block);
        jv_ticket sent = done(a);
        if (a.status) return;
        if (a.what == JV_TELLS_MEMORY) {
            done(jv_serve_memory(c, block)); done(jv_take_memory(c, block));
        } else if (a.channel == JV_B) {
            done(jv_take_c(c, done(jv_answer_probe(c, sent))));
        } else {
            done(jv_take_grant_ack(c, done(jv_take_grant(c, sent))));
            return;
        }
    }
}
// One more than the block's first bytes said.
static void count(jv_cache *c, uint32_t client, uint32_t block) {
    uint64_t n;
    jv_accessed a;
    if (jv_perm(c, client, block).serial != JV_TIP) take(c, client, block);
    a = jv_load(c, client, block * 8, 8, 0);
    memcpy(&n, a.bytes, 8);
    n++;
    refused += a.status != JV_OK || jv_store(c, client, block * 8, reinterpret_cast<const uint8_t *>(&n), 8, 0).status != JV_OK;
}
int main(int argc, char **argv) {
    uint32_t rounds = argc > 1 ? uint32_t(std::strtoul(argv[1], nullptr, 10)) : 2000;
    jv_cache *cache = nullptr;
    std::mutex one_at_a_time;
    std::thread([&] {
        jv_numbers n = {1, clients, 1, 8, 1, 2, 2, 4, 8};
        cache = jv_new(&n, nullptr, 0, nullptr);
    }).join();
    if (!cache) return 1;
    std::vector<std::thread> threads;
    for (uint32_t client = 0; client < clients; client++) threads.emplace_back([&, client] {
        for (uint32_t i = 0; i < rounds; i++) {
            std::lock_guard<std::mutex> mine(one_at_a_time);
            count(cache, client, i % 2);
            if (i % 64 == 0) done(jv_forget(cache, 0));
        }
    });
    for (std::thread &it : threads) it.join();
    uint64_t sum = 0;
    for (uint32_t block = 0; block < 2; block++) for (uint32_t client = 0; client < clients; client++) {
        jv_answer copy = jv_copy(cache, client, block);
        uint64_t n;
        memcpy(&n, copy.bytes, 8);
        sum += copy.serial == JV_COPY_DIRTY_TIP ? n : 0;
    }
    std::thread([&] { jv_free(cache); }).join();
    std::printf("%u threads, %llu of %llu counted, %ld refused\n", clients, static_cast<unsigned long long>(sum),
        static_cast<unsigned long long>(clients) * rounds, refused);
    return refused != 0 || sum != uint64_t(clients) * rounds;
}
