// What the simulators in C++ share: which access a core makes next, and a core with its L1 (docs/SIMULATOR.md).
#pragma once
#include "jinavoke.hpp"
#include <unordered_map>

using jinavoke::Beat;
using jinavoke::Home;

// ---- what a core does

struct Access { bool is_store; uint64_t address; };

// Its nth access: a number drawn from seed, core and n, so that a run may go on anywhere. Half of all are to a few
// blocks that all cores share, a quarter to blocks of the core's own, a quarter anywhere. Each word is stored by one
// core alone, so that the bytes at the end do not hang on who was first.
struct Program {
    uint64_t seed, cores, base, bytes;
    static uint64_t mixed(uint64_t x) {
        x = (x ^ (x >> 30)) * 0xbf58476d1ce4e5b9;
        x = (x ^ (x >> 27)) * 0x94d049bb133111eb;
        return x ^ (x >> 31);
    }
    Access operator()(uint64_t core, uint64_t n) const {
        const uint64_t x = mixed(mixed(seed * 0x9e3779b97f4a7c15 + core) + n), words = bytes / 8, kind = x % 4;
        const uint64_t own = words / cores * core, y = x >> 24;
        const uint64_t most = kind < 2 ? 512 : kind == 2 ? std::min<uint64_t>(4096, words / cores) : words;
        uint64_t word = (kind == 2 ? own : 0) + y % std::min(most, words);
        const bool is_store = x >> 8 & 1;
        if (is_store) word = word / cores * cores + core;
        if (word >= words) word -= cores;
        return {is_store, base + word * 8};
    }
};

// ---- the event queue: which core acts in which cycle

using Event = std::pair<uint64_t, uint32_t>;
using Queue = std::priority_queue<Event, std::vector<Event>, std::greater<Event>>;

// ---- a core with its L1: one access at a time, lines given up in the order in which they came

class Core {
  public:
    // `most`: so many lines. With `drops` a clean line is given up in silence.
    Core(Home &home, Queue &queue, const Program &program, uint32_t k, size_t most, bool drops = false)
        : home_(home), queue_(queue), program_(program), k_(k), most_(most), drops_(drops) {}
    void run(uint64_t from, uint64_t to) {
        next_ = from;
        end_ = to;
        if (next_ < end_) queue_.push({home_.cycle() + 1, k_});
    }
    bool is_done() const { return next_ == end_; }
    // Its event: a hit is done, a miss asks for the block, or gives another up before it.
    void act() {
        const Access now = program_(k_, next_);
        const uint64_t block = now.address / 64 * 64;
        auto it = lines_.find(block);
        if (it != lines_.end() && (!now.is_store || it->second.perm == JV_TIP)) return done(now, it->second);
        if (it == lines_.end() && lines_.size() >= most_) return release();
        Beat beat = about(block);
        beat.opcode = JV_OP_ACQUIRE_BLOCK;
        beat.param = it != lines_.end() ? JV_BTOT : now.is_store ? JV_NTOT : JV_NTOB;
        home_.a(k_, beat);
    }
    // What home offers in this cycle.
    void hear() {
        if (auto beat = home_.d(k_)) {
            home_.d_taken(k_);
            if (beat->opcode == JV_OP_RELEASE_ACK) releasing_.reset();
            else granted(*beat);
            queue_.push({home_.cycle() + 1, k_});
        }
        auto probe = home_.b(k_);
        if (!probe || releasing_ == probe->address) return; // no answer before the ReleaseAck
        home_.b_taken(k_);
        answer(*probe);
    }
    uint64_t wrong = 0;
    // What was stored last, by address: the scoreboard of all cores.
    static std::unordered_map<uint64_t, uint64_t> &newest() {
        static std::unordered_map<uint64_t, uint64_t> words;
        return words;
    }

  private:
    struct Line { uint32_t perm; bool is_dirty; jinavoke::Bytes bytes; };
    Beat about(uint64_t block) const {
        Beat beat;
        beat.address = block;
        return beat;
    }
    void done(const Access &now, Line &line) {
        uint8_t *at = &line.bytes[now.address % 64];
        if (now.is_store) {
            const uint64_t word = Program::mixed(next_ + 1) + k_;
            std::memcpy(at, &word, 8);
            line.is_dirty = true;
            newest()[now.address] = word;
            home_.store(k_, now.address, at, 8);
        } else {
            uint64_t word;
            std::memcpy(&word, at, 8);
            auto last = newest().find(now.address);
            wrong += last != newest().end() && last->second != word;
            home_.load(k_, now.address, at, 8);
        }
        if (++next_ < end_) queue_.push({home_.cycle() + 1, k_});
    }
    void granted(const Beat &beat) {
        const uint64_t block = program_(k_, next_).address / 64 * 64;
        Line &line = lines_[block];
        if (beat.opcode == JV_OP_GRANT_DATA) {
            line.bytes = beat.data;
            order_.push_back(block);
        }
        line.perm = beat.param == JV_TO_T ? JV_TIP : JV_BRANCH;
        line.is_dirty = false;
        home_.e(k_, beat.sink);
    }
    void release() { // of the line that came first, and is still there
        while (!lines_.count(order_.front())) order_.pop_front();
        const uint64_t block = order_.front();
        const Line line = lines_[block];
        order_.pop_front();
        lines_.erase(block);
        if (drops_ && !line.is_dirty) return act();
        releasing_ = block;
        Beat beat = about(block);
        beat.opcode = line.is_dirty ? JV_OP_RELEASE_DATA : JV_OP_RELEASE;
        beat.param = line.perm == JV_TIP ? JV_TTON : JV_BTON;
        if (line.is_dirty) beat.data = line.bytes;
        home_.c(k_, beat);
    }
    void answer(const Beat &probe) {
        Beat beat = about(probe.address);
        auto it = lines_.find(probe.address);
        const bool to_none = probe.param == JV_TO_N, has = it != lines_.end();
        const bool is_tip = has && it->second.perm == JV_TIP, is_dirty = has && it->second.is_dirty;
        beat.opcode = is_dirty ? JV_OP_PROBE_ACK_DATA : JV_OP_PROBE_ACK;
        beat.param = !has ? JV_REPORT_NTON : is_tip ? (to_none ? JV_REPORT_TTON : JV_REPORT_TTOB)
                                                    : (to_none ? JV_REPORT_BTON : JV_REPORT_BTOB);
        if (is_dirty) beat.data = it->second.bytes;
        if (has && to_none) lines_.erase(it);
        else if (has) { it->second.perm = JV_BRANCH; it->second.is_dirty = false; }
        home_.c(k_, beat);
    }
    Home &home_;
    Queue &queue_;
    const Program &program_;
    uint32_t k_;
    size_t most_;
    bool drops_;
    uint64_t next_ = 0, end_ = 0;
    std::unordered_map<uint64_t, Line> lines_; // by the address of the block
    std::deque<uint64_t> order_;
    std::optional<uint64_t> releasing_; // its Release is not answered
};
