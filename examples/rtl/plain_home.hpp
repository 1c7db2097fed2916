// A home with a directory and no model: it answers, and finds nothing wrong. What a scoreboard alone would be run
// against.
#pragma once
#include "jinavoke.hpp"

class PlainHome {
  public:
    PlainHome(const jinavoke::Options &o, const std::vector<uint8_t> &image)
        : options_(o), bus_{uint32_t(o.numbers.block_bytes), o.beat_bytes}, rng_(o.seed),
          clients_(size_t(o.numbers.clients)) {
        for (size_t i = 0; i < image.size(); i++) at(o.base + i).bytes[i % bus_.block_bytes] = image[i];
    }
    void d_taken(uint32_t k) {
        Client &me = clients_[k];
        if (++me.d_beat == bus_.beats(me.d.front().len != 0)) { me.d_beat = 0; me.d.pop_front(); }
    }
    void b_taken(uint32_t k) { clients_[k].b.pop_front(); }
    void c(uint32_t k, const jinavoke::Beat &beat) {
        Client &me = clients_[k];
        if (me.c_beat == 0) me.now = {0, 0, k, JV_C, beat.opcode, beat.param, beat.source, 0, beat.address, 0, {}};
        bool data = jinavoke::has_data(JV_C, beat.opcode);
        if (data) std::copy_n(beat.data.begin(), 8, me.now.bytes.begin() + 8 * me.c_beat);
        if (++me.c_beat < bus_.beats(data)) return;
        me.c_beat = 0;
        me.now.len = data ? bus_.block_bytes : 0;
        me.c.push_back(me.now);
    }
    void a(uint32_t k, const jinavoke::Beat &beat, uint64_t) {
        clients_[k].a.push_back({0, 0, k, JV_A, beat.opcode, beat.param, beat.source, 0, beat.address, 0, {}});
    }
    void e(uint32_t k, uint32_t sink) {
        Client &me = clients_[k];
        at(me.sinks[sink]).is_busy = false;
        me.sinks.erase(sink);
    }
    void load(uint32_t, uint64_t, const uint8_t *, uint32_t) {}
    void store(uint32_t, uint64_t, const uint8_t *, uint32_t) {}
    std::optional<jinavoke::Beat> b(uint32_t k) const {
        const Client &me = clients_[k];
        return me.b.empty() ? std::nullopt : std::optional(bus_.part(me.b.front(), 0));
    }
    std::optional<jinavoke::Beat> d(uint32_t k) const {
        const Client &me = clients_[k];
        return me.d.empty() ? std::nullopt : std::optional(bus_.part(me.d.front(), me.d_beat));
    }
    void tick() {
        cycle_++;
        for (uint32_t k = 0; k < clients_.size(); k++) {
            if (!clients_[k].c.empty() && chance()) take_c(k);
            if (!clients_[k].a.empty() && chance() && !at(clients_[k].a.front().address).is_busy) take_a(k);
        }
        for (size_t i = 0; i < open_.size();) {
            if (!grants(open_[i])) { i++; continue; }
            open_[i] = open_.back();
            open_.pop_back();
        }
    }
    uint64_t cycle() const { return cycle_; }
    bool is_quiet() const { return open_.empty(); }

  private:
    struct Block {
        std::array<uint8_t, JV_MOST_CLIENTS> perm{}; // jv_perm_number
        bool is_busy = false;
        uint32_t probes = 0;
        jinavoke::Message asked;
        uint64_t due = 0;
        jinavoke::Bytes bytes{};
    };
    struct Client {
        std::deque<jinavoke::Message> a, b, c, d;
        jinavoke::Message now;
        uint32_t c_beat = 0, d_beat = 0;
        std::map<uint32_t, uint64_t> sinks; // the block of each that is in use
    };
    bool chance() { return options_.pace <= 1 || rng_() % options_.pace == 0; }
    Block &at(uint64_t address) { return blocks_[address / bus_.block_bytes]; }
    void take_c(uint32_t k) {
        static const uint8_t leaves[] = {JV_BRANCH, JV_NONE, JV_NONE, JV_TIP, JV_BRANCH, JV_NONE};
        jinavoke::Message m = clients_[k].c.front();
        clients_[k].c.pop_front();
        Block &block = at(m.address);
        block.perm[k] = leaves[m.param];
        if (m.len) block.bytes = m.bytes;
        if (m.opcode < JV_OP_RELEASE) { block.probes--; return; }
        clients_[k].d.push_back({0, 0, k, JV_D, JV_OP_RELEASE_ACK, 0, m.source, 0, m.address, 0, {}});
    }
    void take_a(uint32_t k) {
        jinavoke::Message m = clients_[k].a.front();
        clients_[k].a.pop_front();
        Block &block = at(m.address);
        block.is_busy = true;
        block.asked = m;
        block.due = cycle_ + options_.memory_cycles;
        uint32_t cap = m.param == JV_NTOB ? JV_TO_B : JV_TO_N, left = m.param == JV_NTOB ? JV_BRANCH : JV_NONE;
        for (uint32_t j = 0; j < clients_.size(); j++) if (j != k && block.perm[j] > left) {
            clients_[j].b.push_back({0, 0, j, JV_B, JV_OP_PROBE_BLOCK, cap, 0, 0, m.address, 0, {}});
            block.probes++;
        }
        open_.push_back(m.address);
    }
    bool grants(uint64_t address) {
        Block &block = at(address);
        if (block.probes || block.due > cycle_ || !chance()) return false;
        uint32_t k = block.asked.client, sink = 0;
        Client &me = clients_[k];
        while (me.sinks.count(sink)) sink++;
        me.sinks[sink] = address;
        bool alone = true, data = block.perm[k] == JV_NONE;
        for (uint32_t j = 0; j < clients_.size(); j++) alone = alone && (j == k || block.perm[j] == JV_NONE);
        uint32_t cap = block.asked.param != JV_NTOB || alone ? JV_TO_T : JV_TO_B;
        block.perm[k] = cap == JV_TO_T ? JV_TIP : JV_BRANCH;
        uint32_t opcode = data ? JV_OP_GRANT_DATA : JV_OP_GRANT, len = data ? bus_.block_bytes : 0;
        me.d.push_back({0, 0, k, JV_D, opcode, cap, block.asked.source, sink, address, len, block.bytes});
        return true;
    }
    jinavoke::Options options_;
    jinavoke::Bus bus_;
    std::mt19937 rng_;
    std::vector<Client> clients_;
    std::map<uint64_t, Block> blocks_;
    std::vector<uint64_t> open_;
    uint64_t cycle_ = 0;
};
