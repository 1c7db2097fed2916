// memory: a home whose bank is refused memory for a while, by realloc and malloc of this file's own (linked with
// --wrap). Each Acquire is granted once there is memory again, each message that waited is done, and nothing is told as
// the device's fault; with clients that store and answer Probes with data, and with clients that drop what they were
// granted. Status 1 where it is otherwise.
#include "jinavoke.hpp"
#include <iostream>

extern "C" {
void *__real_malloc(size_t n);
void *__real_realloc(void *p, size_t n);
static bool is_refused = false;
static long refused = 0;
void *__wrap_malloc(size_t n) { return is_refused && ++refused ? nullptr : __real_malloc(n); }
void *__wrap_realloc(void *p, size_t n) { return is_refused && ++refused ? nullptr : __real_realloc(p, n); }
}

// A client that takes each block to Tip, stores, and answers each Probe, as soon as it may; or, with `drops`, drops
// what it was granted at once, and says so when it is probed.
class Client {
  public:
    Client(jinavoke::Home &home, uint32_t k, bool drops) : home_(home), k_(k), drops_(drops) {}
    void ask(uint32_t block) {
        jinavoke::Beat beat;
        beat.opcode = JV_OP_ACQUIRE_BLOCK; beat.param = JV_NTOT; beat.source = block;
        beat.address = home_.address_of(block);
        home_.a(k_, beat);
    }
    void cycle() {
        if (auto beat = home_.d(k_)) {
            home_.d_taken(k_);
            uint8_t *bytes = &copies_[beat->source][at_];
            std::copy_n(beat->data.begin(), 8, bytes);
            at_ = (at_ + 8) % 64;
            if (at_ == 0) granted(beat->source, beat->sink);
        }
        auto probe = home_.b(k_);
        if (!probe) return;
        uint32_t block = home_.block_of(probe->address);
        home_.b_taken(k_);
        jinavoke::Beat beat;
        beat.opcode = JV_OP_PROBE_ACK; beat.param = JV_REPORT_NTON; beat.address = probe->address;
        if (drops_) return home_.c(k_, beat);
        for (uint32_t at = 0; at < 64; at += 8) {
            beat.opcode = JV_OP_PROBE_ACK_DATA; beat.param = JV_REPORT_TTON;
            std::copy_n(&copies_[block][at], 8, beat.data.begin());
            home_.c(k_, beat);
        }
    }
    uint32_t grants = 0;

  private:
    void granted(uint32_t block, uint32_t sink) {
        grants++;
        copies_[block][0] += !drops_;
        if (!drops_) home_.store(k_, home_.address_of(block), copies_[block].data(), 1);
        home_.load(k_, home_.address_of(block), copies_[block].data(), 8);
        home_.e(k_, sink);
    }
    jinavoke::Home &home_;
    uint32_t k_, at_ = 0;
    bool drops_;
    std::map<uint32_t, std::array<uint8_t, 64>> copies_;
};

// Memory is refused from some cycle on, for so many: whether all Grants come, with no fault.
static bool run(uint64_t from, uint64_t count, bool drops) {
    jinavoke::Options o;
    o.numbers = {2, 2, 1, 64, 4, 4, 4, 16, 16};
    o.pace = 1;
    o.silent_tip = drops;
    jinavoke::Home home(o);
    std::string told;
    bool is_of_device = false;
    home.on_fault = [&](const jinavoke::Fault &f) {
        told = f.line();
        is_of_device = is_of_device || f.is_of_device();
    };
    Client clients[] = {{home, 0, drops}, {home, 1, drops}};
    uint32_t asked = 0;
    auto granted = [&] { return clients[0].grants + clients[1].grants; };
    for (uint64_t i = 0; i < 4000 && (asked < 200 || granted() < asked); i++) {
        is_refused = i >= from && i < from + count;
        if (granted() == asked && asked < 200) { // the other client takes each block over; with drops each asks twice
            if (drops) clients[asked / 4 % 2].ask(asked % 2);
            else clients[asked % 2].ask(asked / 2 % 8);
            asked++;
        }
        for (Client &client : clients) client.cycle();
        home.tick();
    }
    is_refused = false;
    for (int i = 0; i < 200; i++) { for (Client &client : clients) client.cycle(); home.tick(); }
    bool is_well = told.empty() && granted() == asked && home.is_quiet() && !is_of_device;
    is_well = is_well && (home.inferred() > 0) == drops;
    if (!is_well) std::cout << "refused from cycle " << from << " on for " << count << (drops ? ", with drops: " : ": ")
        << granted() << " of " << asked << " Grants, " << (home.is_quiet() ? "" : "not ") << "quiet; " << told << "\n";
    return is_well;
}

int main() {
    int wrong = 0;
    for (uint64_t from = 0; from < 400; from += 3)
        for (bool drops : {false, true}) wrong += !run(from, 100 + from % 7, drops);
    std::cout << refused << " requests for memory were refused; " << wrong << " runs went wrong\n";
    return wrong != 0 || refused == 0;
}
