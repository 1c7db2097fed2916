// agents [SEED [CYCLES]]: caches in plain C++ and agents without a cache on the links of a home. Two caches share
// link 0 with an agent, as an I-cache; one is on link 1, beside an agent with four sources; link 2 has a DMA engine
// alone. The caches drop clean copies, ask by AcquirePerm, and send Releases that keep their copy. No fault may be
// told, each load and each Get gets the bytes stored last, and all comes to rest. Then what no client and no agent may
// send: each is told by its name, and the run goes on. Status 1 where it is otherwise.
#include "jinavoke.hpp"
#include <iostream>

using jinavoke::Beat;
using jinavoke::Request;
static const uint32_t kBlocks = 24, kBlock = 64;
static uint64_t wrong = 0;
static void want(bool is_well, const std::string &what) {
    if (is_well) return;
    wrong++;
    std::cout << "WRONG: " << what << "\n";
}

// What was stored last; the agents' accesses are told as the model makes them.
struct Board : jinavoke::Watch {
    std::vector<uint8_t> bytes = std::vector<uint8_t>(kBlocks * kBlock);
    std::map<uint64_t, std::deque<std::vector<uint8_t>>> loaded; // by agents
    uint32_t caches = 0;
    void event(const jinavoke::Event &e) override {
        if (!e.access || e.client < caches) return;
        const jinavoke::Access &x = *e.access;
        did(x.is_store, x.address, x.bytes.data(), x.len);
        if (x.is_store) return;
        auto &queue = loaded[x.address];
        queue.emplace_back(x.bytes.begin(), x.bytes.begin() + x.len);
        if (queue.size() > 64) queue.pop_front();
    }
    void did(bool is_store, uint64_t address, const uint8_t *data, uint32_t len) {
        if (is_store) std::copy_n(data, len, &bytes.at(address));
        else want(std::equal(data, data + len, &bytes.at(address)), "a load of old bytes");
    }
};
struct Link; // of this bench

// A cache of a range of sources: one Acquire and one Release at a time.
class Cache {
  public:
    Cache(jinavoke::Home &home, Board &board, std::mt19937 &rng, uint32_t number, jinavoke::Options::Range of)
        : home_(home), board_(board), rng_(rng), number_(number), of_(of) {}
    bool has(uint32_t source) const { return of_.from <= source && source <= of_.to; }
    uint32_t link() const { return of_.link; }
    bool takes_probe(uint32_t block) const { return block != releasing_; }
    void probed(uint32_t block, uint32_t cap) {
        Line &line = lines_[block];
        uint32_t to = std::min(line.perm, cap == JV_TO_N ? uint32_t(JV_NONE) : uint32_t(JV_BRANCH));
        static const uint32_t reports[3][3] = {
            {JV_REPORT_NTON}, {JV_REPORT_BTON, JV_REPORT_BTOB}, {JV_REPORT_TTON, JV_REPORT_TTOB, 3}};
        send(JV_OP_PROBE_ACK, block, reports[line.perm][to], line.is_dirty, of_.from);
        line.perm = to;
        line.is_dirty = false;
    }
    void granted(const Beat &beat) {
        if (beat.opcode == JV_OP_RELEASE_ACK) { releasing_ = ~0u; return; }
        Line &line = lines_[acquiring_];
        if (beat.opcode == JV_OP_GRANT_DATA) {
            std::copy_n(beat.data.begin(), 8, &line.bytes[at_]);
            at_ = (at_ + 8) % kBlock;
            if (at_) return;
        }
        line.perm = beat.param == JV_TO_T ? JV_TIP : JV_BRANCH;
        line.is_dirty = false;
        if (is_perm_) fill(line);
        home_.e(of_.link, beat.sink);
        acquiring_ = ~0u;
    }
    void cycle(bool has_work) {
        if (!has_work || rng_() % 3) return;
        uint32_t block = rng_() % kBlocks, what = rng_() % 16;
        Line &line = lines_[block];
        bool is_idle = block != acquiring_ && block != releasing_;
        if (what < 8) access(block, line, rng_() % 2);
        else if (what < 12 && is_idle && acquiring_ == ~0u) acquire(block, line);
        else if (what < 14 && is_idle) give_up(block, line);
        else if (what == 14 && is_idle && releasing_ == ~0u) clean(block, line);
    }

  private:
    struct Line {
        uint32_t perm = JV_NONE;
        bool is_dirty = false;
        std::array<uint8_t, kBlock> bytes{};
    };
    void send(uint32_t opcode, uint32_t block, uint32_t param, bool has_data, uint32_t source) {
        Beat beat;
        beat.opcode = opcode + has_data; beat.param = param; beat.source = source; beat.address = block * kBlock;
        beat.size = 6;
        for (uint32_t at = 0; at < (has_data ? kBlock : 8); at += 8) {
            std::copy_n(&lines_[block].bytes[at], 8, beat.data.begin());
            home_.c(of_.link, beat);
        }
    }
    void access(uint32_t block, Line &line, bool is_store) {
        uint32_t len = 1u << rng_() % 4, at = rng_() % kBlock / len * len;
        if (line.perm < (is_store ? JV_TIP : JV_BRANCH)) return;
        if (is_store) for (uint32_t i = 0; i < len; i++) line.bytes[at + i] = uint8_t(rng_());
        line.is_dirty = line.is_dirty || is_store;
        tell(is_store, block * kBlock + at, &line.bytes[at], len);
    }
    void tell(bool is_store, uint64_t address, const uint8_t *data, uint32_t len) {
        board_.did(is_store, address, data, len);
        if (is_store) home_.store(number_, address, data, len);
        else home_.load(number_, address, data, len);
    }
    void fill(Line &line) { // a core that stores the whole block needs none of its bytes
        for (uint8_t &byte : line.bytes) byte = uint8_t(rng_());
        line.is_dirty = true;
        tell(true, acquiring_ * kBlock, line.bytes.data(), kBlock);
    }
    void acquire(uint32_t block, const Line &line) {
        if (line.perm == JV_TIP) return;
        Beat beat;
        bool stores = line.perm == JV_BRANCH || rng_() % 2;
        is_perm_ = stores && rng_() % 3 == 0;
        beat.opcode = is_perm_ ? 7 : JV_OP_ACQUIRE_BLOCK;
        beat.param = line.perm == JV_BRANCH ? JV_BTOT : stores ? JV_NTOT : JV_NTOB;
        beat.source = of_.from + rng_() % (of_.to - of_.from + 1); beat.address = block * kBlock; beat.size = 6;
        acquiring_ = block;
        home_.a(of_.link, beat);
    }
    void give_up(uint32_t block, Line &line) { // a clean copy without a word, half of the time
        if (line.perm == JV_NONE) return;
        if (line.is_dirty || rng_() % 2) {
            if (releasing_ != ~0u) return;
            releasing_ = block;
            send(JV_OP_RELEASE, block, line.perm == JV_TIP ? JV_TTON : JV_BTON, line.is_dirty, of_.from);
        }
        line.perm = JV_NONE;
        line.is_dirty = false;
    }
    void clean(uint32_t block, Line &line) { // as CBO.CLEAN
        static const uint32_t params[] = {5, 4, 3};
        releasing_ = block;
        // a copy that was dropped in silence is none of which the model knows
        if (line.perm == JV_NONE) { releasing_ = ~0u; return; }
        send(JV_OP_RELEASE, block, params[line.perm], line.is_dirty, of_.from);
        line.is_dirty = false;
    }
    jinavoke::Home &home_;
    Board &board_;
    std::mt19937 &rng_;
    uint32_t number_;
    jinavoke::Options::Range of_;
    std::array<Line, kBlocks> lines_;
    uint32_t acquiring_ = ~0u, releasing_ = ~0u, at_ = 0;
    bool is_perm_ = false;
};

// The requests of a range of sources.
class Agent {
  public:
    Agent(jinavoke::Home &home, Board &board, std::mt19937 &rng, jinavoke::Options::Range of, bool is_reader)
        : home_(home), board_(board), rng_(rng), of_(of), is_reader_(is_reader), asks_(of.to - of.from + 1) {}
    bool has(uint32_t source) const { return of_.from <= source && source <= of_.to; }
    uint32_t link() const { return of_.link; }
    void cycle(bool has_work) {
        for (uint32_t i = 0; i < asks_.size(); i++) if (has_work && !asks_[i].is_open && rng_() % 16 == 0) ask(i);
    }
    void answered(const Beat &beat) {
        Ask &ask = asks_[beat.source - of_.from];
        want(ask.is_open, "an answer that no agent waits for");
        uint32_t opcode = ask.opcode < 2 ? 0 : ask.opcode == Request::Intent ? 2 : 1, len = 1u << ask.size;
        want(beat.opcode == opcode && beat.size == ask.size, "an answer of another kind or size");
        const uint32_t lane = home_.bus().lane_of(ask.address, len);
        for (uint32_t i = 0; opcode == 1 && i < std::min(len, 8u); i++) ask.got.push_back(beat.data[lane + i]);
        if (opcode == 1 && ask.got.size() < len) return;
        ask.is_open = false;
        answers++;
        for (uint32_t at = 0; opcode == 1 && at < len; at += 8) {
            std::vector<uint8_t> part(ask.got.begin() + at, ask.got.begin() + at + std::min(len - at, 8u));
            auto &queue = board_.loaded[ask.address + at];
            want(std::find(queue.begin(), queue.end(), part) != queue.end(), "a Get of bytes that nobody loaded");
        }
    }
    uint64_t answers = 0;

  private:
    struct Ask {
        bool is_open = false;
        uint32_t opcode, size;
        uint64_t address;
        std::vector<uint8_t> got;
    };
    void ask(uint32_t i) {
        Ask &ask = asks_[i];
        ask.opcode = is_reader_ ? uint32_t(Request::Get) : rng_() % 6;
        ask.size = is_reader_ ? 6 : rng_() % 7;
        bool is_atomic = ask.opcode == Request::Arithmetic || ask.opcode == Request::Logical;
        if (is_atomic) ask.size %= 4;
        uint32_t len = 1u << ask.size;
        ask.address = rng_() % kBlocks * kBlock + rng_() % kBlock / len * len;
        ask.is_open = true;
        ask.got.clear();
        Beat beat;
        beat.opcode = ask.opcode; beat.source = of_.from + i; beat.size = ask.size; beat.address = ask.address;
        beat.param = ask.opcode == Request::Arithmetic ? rng_() % 5 : ask.opcode == Request::Logical ? rng_() % 4 : 0;
        uint64_t lanes = home_.bus().lanes_of(ask.address, len);
        for (uint32_t at = 0; at < (ask.opcode < 4 ? len : 1); at += 8) {
            beat.mask = ask.opcode == Request::PutPartial ? lanes & rng_() : lanes;
            for (uint32_t j = 0; j < 8; j++) beat.data[j] = uint8_t(rng_());
            home_.a(of_.link, beat);
        }
    }
    jinavoke::Home &home_;
    Board &board_;
    std::mt19937 &rng_;
    jinavoke::Options::Range of_;
    bool is_reader_;
    std::vector<Ask> asks_;
};

static jinavoke::Options options_of(uint32_t seed) {
    jinavoke::Options o;
    o.numbers = {2, 6, seed % 2 ? 1 : 4, kBlock, 4, 4, 4, 8, kBlocks};
    o.cached = {{0, 0, 3}, {0, 4, 7}, {1, 0, 7}};
    o.uncached = {{0, 8, 8}, {1, 8, 11}, {2, 0, 15}};
    o.silent_branch = o.silent_tip = o.acquire_perm = o.cleans = true;
    o.has_taps = seed % 3 != 0;
    o.evict_every = 200;
    o.seed = seed;
    return o;
}
static void run(uint32_t seed, uint64_t cycles) {
    jinavoke::Home home(options_of(seed));
    const jinavoke::Options &o = home.options();
    std::mt19937 rng(seed);
    Board board;
    board.caches = uint32_t(o.cached.size());
    home.watch(&board);
    home.on_fault = [](const jinavoke::Fault &f) { want(false, f.text()); };
    std::deque<Cache> caches;
    std::deque<Agent> agents;
    for (uint32_t k = 0; k < o.cached.size(); k++) caches.emplace_back(home, board, rng, k, o.cached[k]);
    for (uint32_t k = 0; k < o.uncached.size(); k++) agents.emplace_back(home, board, rng, o.uncached[k], k == 0);
    for (uint64_t i = 0; wrong == 0 && i < cycles + 20000 && (i < cycles || !home.is_quiet()); i++) {
        for (uint32_t link = 0; link < home.links(); link++) {
            if (auto beat = rng() % 4 ? home.d(link) : std::nullopt) {
                home.d_taken(link);
                for (Cache &it : caches) if (it.link() == link && it.has(beat->source)) it.granted(*beat);
                for (Agent &it : agents) if (it.link() == link && it.has(beat->source)) it.answered(*beat);
            }
            auto beat = rng() % 4 ? home.b(link) : std::nullopt;
            if (!beat) continue;
            for (Cache &it : caches) {
                uint32_t block = uint32_t(beat->address / kBlock);
                if (it.link() != link || !it.has(beat->source) || !it.takes_probe(block)) continue;
                home.b_taken(link);
                it.probed(block, beat->param);
                break;
            }
        }
        for (Cache &it : caches) it.cycle(i < cycles);
        for (Agent &it : agents) it.cycle(i < cycles);
        home.tick();
    }
    want(home.is_quiet(), "it does not come to rest");
    uint64_t answers = 0;
    for (Agent &it : agents) answers += it.answers;
    want(answers == home.requests(), "a request without an answer");
    std::cout << "seed " << seed << ": " << home.cycle() << " cycles, " << answers << " requests of agents, "
              << home.inferred() << " drops inferred, " << home.rooms() << " evictions for room; " << home.faults()
              << " faults\n";
}

// ---- what may not be

static Beat request(uint32_t opcode, uint32_t source, uint32_t size, uint64_t address) {
    Beat beat;
    beat.opcode = opcode; beat.source = source; beat.size = size; beat.address = address;
    return beat;
}
static void refuses(const char *what, const std::vector<jinavoke::Options::Range> &cached,
                    const std::vector<jinavoke::Options::Range> &uncached) {
    jinavoke::Options o = options_of(1);
    o.cached = cached; o.uncached = uncached;
    try {
        jinavoke::Home home(o);
        want(false, std::string(what) + " is taken");
    } catch (const std::runtime_error &why) { std::cout << what << ": " << why.what() << "\n"; }
}
// What an atomic leaves, as it is written down for each.
static void atomics() {
    struct Row { uint32_t opcode, param, size; uint64_t old, by, left; };
    const uint32_t sum = Request::Arithmetic, bits = Request::Logical;
    const Row rows[] = {
        {sum, 0, 0, 0x7f, 0x80, 0x80}, {sum, 1, 0, 0x7f, 0x80, 0x7f},              // MIN, MAX: 0x80 is -128
        {sum, 2, 0, 0x7f, 0x80, 0x7f}, {sum, 3, 0, 0x7f, 0x80, 0x80},              // MINU, MAXU
        {sum, 4, 0, 0xff, 0x02, 0x01}, {sum, 4, 2, 0xffffffff, 2, 1},              // ADD
        {sum, 4, 3, ~0ull, 2, 1}, {sum, 0, 3, 1, ~0ull, ~0ull}, {sum, 2, 3, 1, ~0ull, 1},
        {sum, 0, 1, 5, 5, 5}, {sum, 1, 1, 0x8000, 0xffff, 0xffff},
        {bits, 0, 1, 0x0f0f, 0x00ff, 0x0ff0}, {bits, 1, 1, 0x0f0f, 0x00ff, 0x0fff}, // XOR, OR
        {bits, 2, 1, 0x0f0f, 0x00ff, 0x000f}, {bits, 3, 1, 0x0f0f, 0x00ff, 0x00ff}, // AND, SWAP
    };
    for (const Row &row : rows) {
        Request it;
        it.opcode = row.opcode; it.param = row.param; it.size = row.size;
        want(it.leaves(row.old, row.by) == row.left, "what an atomic leaves: param " + std::to_string(row.param));
    }
}
static void bad_input() {
    struct Row { const char *what, *names; std::vector<Beat> beats; };
    const uint32_t get = Request::Get, full = Request::PutFull, part = Request::PutPartial, add = Request::Arithmetic;
    Beat torn = request(full, 0, 4, 0), mask = request(part, 0, 2, 4), whole = request(get, 0, 3, 8);
    Beat param = request(add, 0, 3, 0);
    Beat perm = request(7, 0, 6, 64), clean = request(JV_OP_RELEASE, 0, 6, 0);
    mask.mask = 0x1f0; whole.mask = 0x7f; param.param = 5; perm.param = JV_NTOB; clean.param = 3;
    const Row rows[] = {
        {"a Get across a block", "codes ", {request(get, 0, 3, 60)}},
        {"a Get of two blocks", "codes ", {request(get, 0, 7, 0)}},
        {"a Get outside the memory", "address ", {request(get, 0, 3, kBlocks * kBlock)}},
        {"an atomic of 16 bytes", "codes ", {request(add, 0, 4, 0), request(add, 0, 4, 0)}},
        {"a Put of two blocks", "codes ", std::vector<Beat>(16, request(full, 0, 7, 0))},
        {"Gets of sizes that no wire carries", "codes codes ", {request(get, 0, 32, 0), request(get, 0, ~0u, 0)}},
        {"an atomic of no param", "codes ", {param}},
        {"a mask that is not of its bytes", "codes ", {mask}},
        {"a Get of another mask", "codes ", {whole}},
        {"an Acquire of an agent", "codes ", {request(6, 0, 6, 0)}},
        {"a source in use", "source ", {request(get, 0, 3, 0), request(get, 0, 3, 8)}},
        {"a burst that is broken off", "beats ", {torn, request(get, 0, 3, 0)}},
    };
    for (const Row &row : rows) {
        jinavoke::Home home(options_of(1));
        std::string names;
        home.on_fault = [&](const jinavoke::Fault &f) { names += f.name() + " "; };
        for (const Beat &beat : row.beats) home.a(2, beat);
        std::cout << row.what << ": " << names << "\n";
        want(names == row.names, row.what);
        uint64_t answers = 0;
        home.a(2, request(get, 15, 3, 0)); // the run goes on
        for (int i = 0; i < 2000; i++) {
            if (auto beat = home.d(2)) { answers += beat->source == 15; home.d_taken(2); }
            home.tick();
        }
        want(answers == 1 && names == row.names, std::string(row.what) + ": what comes then");
    }
    jinavoke::Home home(options_of(1));
    std::string names;
    home.on_fault = [&](const jinavoke::Fault &f) { names += f.name() + " "; };
    home.a(1, perm);
    home.c(1, clean);
    home.a(0, request(JV_OP_ACQUIRE_BLOCK, 9, 6, 0));
    want(names == "codes wrong from source ", "AcquirePerm NtoB, Release TtoT of no copy, nobody's Acquire: " + names);
    jinavoke::Home empty(options_of(1)); // an AcquirePerm brings no data: a byte is stored before it is loaded
    std::string loads;
    empty.on_fault = [&](const jinavoke::Fault &f) { loads += f.name() + " "; };
    Beat asks = request(7, 0, 6, 0);
    asks.param = JV_NTOT;
    empty.a(1, asks);
    for (int i = 0; i < 2000 && !empty.d(1); i++) empty.tick();
    want(empty.d(1) && empty.d(1)->opcode == JV_OP_GRANT, "the Grant of an AcquirePerm has no data");
    empty.d_taken(1);
    const uint8_t zero[8] = {};
    empty.store(2, 0, zero, 4);
    empty.load(2, 0, zero, 4);
    want(loads.empty(), "a load of what was stored: " + loads);
    empty.load(2, 0, zero, 8);
    want(loads == "load ", "a load of what was not stored: " + loads);
    refuses("ranges that overlap", {{0, 0, 3}, {0, 3, 7}, {1, 0, 7}}, {{0, 8, 8}, {1, 8, 11}, {2, 0, 15}});
    refuses("an agent on a cache's sources", {{0, 0, 3}, {0, 4, 7}, {1, 0, 8}}, {{0, 8, 8}, {1, 8, 11}, {2, 0, 15}});
    refuses("sources that are none of a link", {{0, 0, 3}, {0, 4, 7}, {1, 0, 7}}, {{0, 8, 8}, {1, 8, 11}, {2, 0, 16}});
    refuses("a client without a range", {{0, 0, 3}, {0, 4, 7}}, {{0, 8, 8}, {1, 8, 11}, {2, 0, 15}});
    refuses("agents alone, and no client", {}, {{0, 0, 0}, {1, 0, 0}, {2, 0, 0}, {3, 0, 0}, {4, 0, 0}, {5, 0, 0}});
}

int main(int argc, char **argv) {
    uint64_t cycles = argc > 2 ? std::stoull(argv[2]) : 20000;
    if (argc > 1) run(uint32_t(std::stoul(argv[1])), cycles);
    else for (uint32_t seed = 1; seed <= 12; seed++) run(seed, cycles);
    atomics();
    bad_input();
    return wrong != 0;
}
