// tile [KEY=VALUE ..]: three tiles (tile.sv) under Verilator with Jinavoke as their home, each a D-cache in Rocket's
// manner and an I-cache on one link, and a DMA engine on a link of its own. The cores are random, and a scoreboard
// knows the bytes that were stored last. Prints each fault; status 1 where there was one, or where it did not come to
// rest.
//
//   seed=1 cycles=100000    for so many cycles the cores and the agents ask; then the links are drained
//   plant=NAME              what is planted into tile 1 or the DMA engine (plants.sv)
//   boom=0 perms=0 agents=1 D-caches in BOOM's manner; stores that miss ask by AcquirePerm; I-caches and the DMA engine
//   taps=1 banks=1 copies=16 pace=3 evict=500 spots=24 stall=4 most=1   as those of bench.cpp
//   judge=0                 1: each step of the home is handed to a judge, whose faults are told in place of the home's
//   wire=FILE events=FILE   records for tlwire and tlcheck
//   quiet=0                 1: of each fault its first line alone
#include "Vtile.h"
#include "bench.hpp"
#include "verilated.h"

using jinavoke::Beat;
static const uint32_t kTiles = 3, kLinks = kTiles + 1, kBlock = 64;

static uint32_t plant_of(const std::string &word) { // the numbers of plants.sv
    if (word.empty()) return 0;
    return place_of(word, {"nothing", "lost-data", "lost-writeback", "-", "kept-copy", "early-answer", "-", "-", "-",
        "-", "-", "-", "-", "-", "-", "-", "-", "-", "-", "-", "silent-dirty", "ghost-load", "second-acquire",
        "short-store", "busy-source", "long-mask", "long-atomic", "torn-put", "across"}, "plant");
}

// The agents' accesses, as the model makes them: the scoreboard has them, and keeps what they loaded.
struct Agents : jinavoke::Watch {
    explicit Agents(Board &board) : board(board) {}
    Board &board;
    uint64_t old = 0; // loads of old bytes
    std::map<uint64_t, std::deque<std::vector<uint8_t>>> loaded;
    void event(const jinavoke::Event &e) override {
        if (!e.access || e.client < kTiles) return;
        const jinavoke::Access &x = *e.access;
        old += !board.did(x.is_store, x.address, x.bytes.data(), x.len);
        if (x.is_store) return;
        auto &queue = loaded[x.address];
        queue.emplace_back(x.bytes.begin(), x.bytes.begin() + x.len);
        if (queue.size() > 64) queue.pop_front();
    }
    bool did_load(uint64_t address, const std::vector<uint8_t> &bytes) {
        auto &queue = loaded[address];
        return std::find(queue.begin(), queue.end(), bytes) != queue.end();
    }
};

class Bench {
  public:
    Bench(const Settings &s, jinavoke::Home &home, Board &board, Agents &agents)
        : home_(home), board_(board), agents_(agents), rng_(uint32_t(s.number("seed", 1))),
          stall_(uint32_t(s.number("stall", 4))), spots_(uint32_t(s.number("spots", 24))) {
        context_.randReset(2);
        context_.randSeed(int(s.number("seed", 1)));
        top_ = std::make_unique<Vtile>(&context_);
        top_->seed = uint32_t(s.number("seed", 1)) * 2654435761u;
        top_->boom = s.number("boom", 0) != 0;
        top_->perms = s.number("perms", 0) != 0;
        has_agents_ = s.number("agents", 1) != 0;
        top_->plant = plant_of(s.text("plant"));
        top_->rst = 1;
        for (int i = 0; i < 4; i++) { top_->clk = 0; top_->eval(); top_->clk = 1; top_->eval(); }
        top_->rst = 0;
    }
    uint64_t accesses = 0, acquires = 0, releases = 0, probes = 0, perms = 0;
    std::function<void(uint32_t, const std::string &)> wrong = [](uint32_t, const std::string &) {};

    void cycle(bool has_work) {
        now_ = home_.cycle();
        top_->clk = 0;
        top_->agents = has_work && has_agents_;
        drive(has_work);
        top_->eval();
        for (uint32_t k = 0; k < kLinks; k++) fired_[k] = look(k);
        top_->clk = 1;
        top_->eval();
        for (uint32_t k = 0; k < kLinks; k++) tell(k, fired_[k]);
        home_.tick();
    }

  private:
    struct Fired { // what fires at this edge
        bool a, b, c, d, e, core, tap, is_store;
        Beat on_a, on_c, on_d;
        uint32_t sink, len;
        uint64_t address, data;
    };
    bool chance() { return stall_ == 0 || rng_() % stall_ != 0; }
    void drive(bool has_work) {
        uint32_t a = 0, b = 0, c = 0, d = 0, e = 0, core = 0;
        for (uint32_t k = 0; k < kLinks; k++) {
            if (k < kTiles && !pending_[k] && has_work && rng_() % 4 == 0) ask(k);
            core |= uint32_t(k < kTiles && pending_[k]) << k;
            a |= uint32_t(chance()) << k; c |= uint32_t(chance()) << k; e |= uint32_t(chance()) << k;
            if (auto beat = chance() ? home_.b(k) : std::nullopt) {
                b |= 1u << k;
                top_->b_param[k] = beat->param; top_->b_source[k] = beat->source;
                top_->b_address[k] = uint32_t(beat->address);
            }
            auto beat = chance() ? home_.d(k) : std::nullopt;
            if (!beat) continue;
            d |= 1u << k;
            top_->d_opcode[k] = beat->opcode; top_->d_param[k] = beat->param; top_->d_size[k] = *beat->size;
            top_->d_source[k] = beat->source; top_->d_sink[k] = beat->sink;
            std::memcpy(&top_->d_data[k], beat->data.data(), 8);
            offered_d_[k] = *beat;
        }
        top_->core_valid = core;
        top_->a_ready = a; top_->c_ready = c; top_->e_ready = e; top_->b_valid = b; top_->d_valid = d;
    }
    void ask(uint32_t k) {
        const Asked it = any_access(rng_, board_.base, spots_);
        top_->core_op[k] = it.op; top_->core_size[k] = it.size;
        top_->core_addr[k] = uint32_t(it.address); top_->core_data[k] = it.data;
        pending_[k] = true;
        asked_[k] = now_;
    }
    Fired look(uint32_t k) {
        auto both = [&](uint32_t x, uint32_t y) { return ((x & y) >> k & 1) != 0; };
        Fired f = {};
        f.a = both(top_->a_valid, top_->a_ready); f.b = both(top_->b_valid, top_->b_ready);
        f.c = both(top_->c_valid, top_->c_ready); f.d = both(top_->d_valid, top_->d_ready);
        f.e = both(top_->e_valid, top_->e_ready);
        f.on_a.opcode = top_->a_opcode[k]; f.on_a.param = top_->a_param[k]; f.on_a.size = top_->a_size[k];
        f.on_a.source = top_->a_source[k]; f.on_a.address = top_->a_address[k]; f.on_a.mask = top_->a_mask[k];
        std::memcpy(f.on_a.data.data(), &top_->a_data[k], 8);
        f.on_c.opcode = top_->c_opcode[k]; f.on_c.param = top_->c_param[k]; f.on_c.size = 6;
        f.on_c.source = top_->c_source[k]; f.on_c.address = top_->c_address[k];
        std::memcpy(f.on_c.data.data(), &top_->c_data[k], 8);
        f.on_d = offered_d_[k];
        f.sink = top_->e_sink[k];
        bool offers = (top_->a_valid >> k & 1) != 0; // the cycle in which valid rose
        if (offers && !offered_a_[k]) raised_[k] = now_;
        offered_a_[k] = offers && !f.a;
        if (k == kTiles) return f;
        f.core = both(top_->core_valid, top_->core_ready);
        f.tap = both(top_->tap_valid, ~0u); f.is_store = both(top_->tap_store, ~0u);
        f.len = top_->tap_len[k]; f.address = top_->tap_addr[k]; f.data = top_->tap_data[k];
        return f;
    }
    void tell(uint32_t k, const Fired &f) {
        if (f.d && f.on_d.opcode < JV_OP_GRANT) answered(k, f.on_d);
        if (f.d) { releases += f.on_d.opcode == JV_OP_RELEASE_ACK; home_.d_taken(k); }
        if (f.b) { probes++; home_.b_taken(k); }
        if (f.c) home_.c(k, f.on_c);
        if (f.tap) access(k, f);
        if (f.a) { acquires += f.on_a.opcode >= 6; perms += f.on_a.opcode == 7; home_.a(k, f.on_a, raised_[k]); }
        if (f.a && f.on_a.opcode < 6) asked_at_[{k, f.on_a.source}] = f.on_a.address;
        if (f.e) home_.e(k, f.sink);
        if (f.core) pending_[k] = false;
        if (k == kTiles || !pending_[k] || now_ - asked_[k] <= 50000) return;
        asked_[k] = now_;
        wrong(k, "the core waits for ever");
    }
    void access(uint32_t k, const Fired &f) {
        std::array<uint8_t, 64> bytes; // each word of a whole block is the same
        for (uint32_t at = 0; at < 64; at += 8) std::memcpy(&bytes[at], &f.data, 8);
        accesses++;
        if (f.is_store) home_.store(k, f.address, bytes.data(), f.len);
        else home_.load(k, f.address, bytes.data(), f.len);
        if (!board_.did(f.is_store, f.address, bytes.data(), f.len))
            wrong(k, "a load of " + jinavoke::words::address(f.address) + " got old bytes");
    }
    // The data of an answer is what the model's agent loaded.
    void answered(uint32_t k, const Beat &beat) {
        std::vector<uint8_t> &got = got_[{k, beat.source}];
        uint32_t len = 1u << *beat.size;
        if (beat.opcode != JV_OP_ACCESS_ACK_DATA) return;
        uint64_t address = asked_at_[{k, beat.source}];
        for (uint32_t i = 0, lane = home_.bus().lane_of(address, len); i < std::min(len, 8u); i++)
            got.push_back(beat.data[lane + i]);
        if (got.size() < len) return;
        for (uint32_t at = 0; at < len; at += 8)
            if (!agents_.did_load(address + at, {got.begin() + at, got.begin() + at + std::min(len - at, 8u)}))
                wrong(k, "an answer with bytes that nobody loaded");
        got.clear();
    }
    jinavoke::Home &home_;
    Board &board_;
    Agents &agents_;
    std::mt19937 rng_;
    uint32_t stall_, spots_;
    bool has_agents_;
    VerilatedContext context_;
    std::unique_ptr<Vtile> top_;
    uint64_t now_ = 0;
    std::array<Fired, kLinks> fired_;
    std::array<Beat, kLinks> offered_d_;
    std::array<bool, kLinks> pending_{}, offered_a_{};
    std::array<uint64_t, kLinks> asked_{}, raised_{};
    std::map<std::pair<uint32_t, uint32_t>, uint64_t> asked_at_;
    std::map<std::pair<uint32_t, uint32_t>, std::vector<uint8_t>> got_;
};

static jinavoke::Options options_of(const Settings &s) {
    jinavoke::Options o;
    o.numbers = {2, kTiles + kLinks, int64_t(s.number("banks", 1)), kBlock, int64_t(s.number("sets", 16)), 4, 8,
                 int64_t(s.number("copies", 16)), 4096};
    o.base = 0x80000000;
    for (uint32_t k = 0; k < kTiles; k++) { o.cached.push_back({k, 0, 7}); o.uncached.push_back({k, 8, 15}); }
    o.uncached.push_back({kTiles, 0, 15});
    o.has_taps = s.number("taps", 1);
    o.silent_branch = o.silent_tip = o.acquire_perm = true;
    o.pace = uint32_t(s.number("pace", 3));
    o.evict_every = uint32_t(s.number("evict", 500));
    o.seed = uint32_t(s.number("seed", 1)) + 7;
    return o;
}

int main(int argc, char **argv) {
    Settings s(argc, argv);
    const jinavoke::Options o = options_of(s);
    std::mt19937 rng(o.seed + 1);
    std::vector<uint8_t> image(s.number("spots", 24) * kBlock);
    for (uint8_t &byte : image) byte = uint8_t(rng());
    Board board = {o.base, image};
    Agents agents(board);
    jinavoke::Home home(o, image);
    home.watch(&agents);
    std::ofstream wire = s.file("wire"), events = s.file("events");
    std::unique_ptr<jinavoke::Watch> wire_record, event_record;
    if (wire.is_open()) home.watch((wire_record = std::make_unique<jinavoke::WireRecord>(wire, o, image)).get());
    if (events.is_open()) home.watch((event_record = std::make_unique<jinavoke::EventRecord>(events, o, image)).get());
    Bench bench(s, home, board, agents);
    Outcome out;
    auto hear = [&](uint64_t &count, uint64_t &first, const std::string &text) {
        if (!count++) first = home.cycle();
        std::cout << text;
    };
    jinavoke::EventJudge judge(o, image);
    const bool is_judged = s.number("judge", 0) != 0;
    if (is_judged) home.watch(&judge);
    judge.on_fault = [&](const std::string &said) {
        hear(out.faults, out.first_fault, "cycle " + std::to_string(home.cycle()) + ": judge: " + said + "\n");
    };
    home.on_fault = [&](const jinavoke::Fault &f) {
        if (!is_judged) hear(out.faults, out.first_fault, s.number("quiet", 0) ? f.line() + "\n" : f.text());
    };
    bench.wrong = [&](uint32_t k, const std::string &what) {
        std::string who = "cycle " + std::to_string(home.cycle()) + ": link " + std::to_string(k);
        hear(out.wrong, out.first_wrong, who + ": scoreboard: " + what + "\n");
    };
    const uint64_t cycles = s.number("cycles", 100000), most = s.number("most", 1);
    auto goes_on = [&] { return most == 0 || out.faults + out.wrong < most; };
    while (goes_on() && home.cycle() < cycles) bench.cycle(true);
    for (uint64_t i = 0; goes_on() && i < 30000 && (i < 400 || !home.is_quiet()); i++) bench.cycle(false);
    bool is_at_rest = !goes_on() || home.is_quiet();
    out.wrong += agents.old;
    std::cout << home.cycle() << " cycles, " << bench.accesses << " accesses, " << bench.acquires << " Acquires, "
              << bench.perms << " of them AcquirePerms, " << bench.releases << " Releases, " << bench.probes
              << " Probes; " << home.inferred() << " drops inferred, " << home.rooms() << " evictions for room, "
              << home.requests() << " requests of agents; " << out.faults << " faults; " << out.wrong
              << " by the scoreboard; " << (is_at_rest ? "at rest" : "not at rest") << ", " << kibibytes() << " KiB\n";
    if (is_judged) std::cout << judge.taken() << " events were permitted\n";
    return out.faults + out.wrong != 0 || !is_at_rest;
}
