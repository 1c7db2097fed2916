// bench [KEY=VALUE ..]: four L1s (l1.sv) under Verilator with Jinavoke as their home, and random cores. Beside it a
// scoreboard, which knows the bytes that were stored last, and nothing of the protocol. Prints each fault; status 1
// where there was one.
//
//   seed=1 cycles=100000    for so many cycles the cores ask; then the links are drained
//   accesses=               the cores ask until so many accesses are done, if that is sooner
//   plant=NAME              what is planted into L1 1 (plants.sv), in small letters with minus signs
//   at=0 for=0              from which cycle on, and for how many; 0: to the end
//   damage=NAME             what befalls one message of L1 1 on the wires, from cycle `at` on: flip-c, flip-d (a bit of
//                           its data), param-c, drop-b, drop-c, drop-d, drop-e (it is lost), size-c (its third beat has
//                           another size)
//   taps=1 banks=1 sets=16 pace=3 evict=500   whether the loads and stores are told; the home's numbers and choices
//   silent=0 tip=0 more=0   whether a clean Branch and a clean Tip may be dropped, and a Probe toB be answered by
//                           giving the copy up
//   drops=0                 1: each L1 drops its clean victims, and sends no Release
//   copies=16               for how many copies of a client the home has room
//   spots=24 stall=4        how many blocks; a beat is stalled in one of so many cycles (0: never)
//   flush=0                 1: at the end home takes all blocks back, and the memory is compared with the scoreboard
//   most=1                  the run ends after so many faults (0: never)
//   plain=0                 1: a home without a model in Jinavoke's place
//   judge=0                 1: each step of the home is handed to a judge, whose faults are told in place of the home's
//   wire=FILE events=FILE   records for tlwire and tlcheck
//   chart=FILE              the first fault's block as a script for tlchart
//   quiet=0                 1: of each fault its first line alone
#include "Vtop.h"
#include "bench.hpp"
#include "plain_home.hpp"
#include "verilated.h"

using jinavoke::Beat;
static const uint32_t kClients = 4, kPlanted = 1, kBlock = 64;

static uint32_t plant_of(const std::string &word) { // the numbers of plants.sv
    if (word.empty()) return 0;
    return place_of(word, {"nothing", "lost-data", "lost-writeback", "silent-upgrade", "kept-copy", "early-answer",
        "early-acquire", "wrong-report", "torn-refill", "shifted-burst", "second-grant-ack", "lost-probe",
        "lost-release-beats", "deaf-b", "other-source", "early-grant-ack", "clean-data", "late-btot", "silent-branch",
        "gives-more", "silent-dirty"}, "plant");
}
enum damage_t { kNone, kFlipC, kFlipD, kParamC, kDropB, kDropC, kDropD, kDropE, kSizeC };
static damage_t damage_of(const std::string &word) {
    if (word.empty()) return kNone;
    return damage_t(place_of(word, {"nothing", "flip-c", "flip-d", "param-c", "drop-b", "drop-c", "drop-d", "drop-e",
        "size-c"}, "damage"));
}

template <class Home> class Bench {
  public:
    Bench(const Settings &s, Home &home, Board &board)
        : home_(home), board_(board), rng_(uint32_t(s.number("seed", 1))), stall_(uint32_t(s.number("stall", 4))),
          spots_(uint32_t(s.number("spots", 24))), plant_(plant_of(s.text("plant"))), at_(s.number("at", 0)),
          for_(s.number("for", 0)), has_taps_(s.number("taps", 1) != 0), damage_(damage_of(s.text("damage"))) {
        context_.randReset(2);
        context_.randSeed(int(s.number("seed", 1)));
        top_ = std::make_unique<Vtop>(&context_);
        top_->drops = s.number("drops", 0) != 0;
        top_->rst = 1;
        for (int i = 0; i < 4; i++) { top_->clk = 0; top_->eval(); top_->clk = 1; top_->eval(); }
        top_->rst = 0;
    }
    uint64_t accesses = 0, acquires = 0, probes = 0, releases = 0;
    // what the scoreboard says of a client
    std::function<void(uint32_t, const std::string &)> wrong = [](uint32_t, const std::string &) {};

    void cycle(bool has_work) {
        now_ = home_.cycle();
        top_->clk = 0;
        top_->plant = now_ >= at_ && (for_ == 0 || now_ < at_ + for_) ? plant_ : 0;
        drive(has_work);
        top_->eval();
        std::array<Fired, kClients> fired;
        for (uint32_t k = 0; k < kClients; k++) fired[k] = look(k);
        top_->clk = 1;
        top_->eval();
        for (uint32_t k = 0; k < kClients; k++) tell(k, fired[k]);
        home_.tick();
    }

  private:
    struct Fired { // what fires at this edge
        bool a, b, c, d, e, core, tap, is_store;
        Beat on_a, on_c;
        uint32_t sink, len, address;
        uint64_t data;
    };
    struct Burst { // how far the beats of a message have come
        uint32_t at = 0;
        bool has_data = false, is_dropped = false;
        void step() { at = has_data ? (at + 1) % (kBlock / 8) : 0; }
    };
    bool chance(uint32_t one_in) { return one_in == 0 || rng_() % one_in != 0; }
    static uint32_t bit(uint32_t k, bool on) { return uint32_t(on) << k; }
    void drive(bool has_work) {
        uint32_t a = 0, b = 0, c = 0, d = 0, e = 0, core = 0;
        for (uint32_t k = 0; k < kClients; k++) {
            if (!pending_[k] && has_work && rng_() % 4 == 0) ask(k);
            core |= bit(k, pending_[k]);
            a |= bit(k, chance(stall_)); c |= bit(k, chance(stall_)); e |= bit(k, chance(stall_));
            if (auto beat = chance(stall_) ? home_.b(k) : std::nullopt) {
                hidden_b_[k] = damages(k, kDropB);
                b |= bit(k, !hidden_b_[k]);
                top_->b_param[k] = beat->param; top_->b_source[k] = beat->source;
                top_->b_address[k] = uint32_t(beat->address);
            }
            if (auto beat = chance(stall_) ? home_.d(k) : std::nullopt) {
                hidden_d_[k] = drops(k, d_[k], kDropD);
                d |= bit(k, !hidden_d_[k]);
                offer_d(k, *beat);
            }
        }
        top_->core_valid = core;
        top_->a_ready = a; top_->c_ready = c; top_->e_ready = e; top_->b_valid = b; top_->d_valid = d;
    }
    void offer_d(uint32_t k, const Beat &beat) {
        top_->d_opcode[k] = beat.opcode; top_->d_param[k] = beat.param;
        top_->d_source[k] = beat.source; top_->d_sink[k] = beat.sink;
        std::memcpy(&top_->d_data[k], beat.data.data(), 8);
        d_[k].has_data = beat.opcode == JV_OP_GRANT_DATA;
        if (d_[k].has_data && damages(k, kFlipD)) top_->d_data[k] ^= 1ull << rng_() % 64;
    }
    void ask(uint32_t k) {
        const Asked it = any_access(rng_, board_.base, spots_);
        top_->core_op[k] = it.op; top_->core_size[k] = it.size;
        top_->core_addr[k] = uint32_t(it.address); top_->core_data[k] = it.data;
        pending_[k] = true;
        asked_[k] = now_;
    }
    Fired look(uint32_t k) {
        auto both = [&](uint32_t x, uint32_t y) { return ((x & y) >> k & 1) != 0; };
        Fired f;
        f.a = both(top_->a_valid, top_->a_ready); f.b = both(top_->b_valid, top_->b_ready);
        f.c = both(top_->c_valid, top_->c_ready); f.d = both(top_->d_valid, top_->d_ready);
        f.e = both(top_->e_valid, top_->e_ready); f.core = both(top_->core_valid, top_->core_ready);
        f.tap = both(top_->tap_valid, ~0u); f.is_store = both(top_->tap_store, ~0u);
        f.on_a.opcode = top_->a_opcode[k]; f.on_a.param = top_->a_param[k];
        f.on_a.source = top_->a_source[k]; f.on_a.address = top_->a_address[k];
        f.on_c.opcode = top_->c_opcode[k]; f.on_c.param = top_->c_param[k];
        f.on_c.source = top_->c_source[k]; f.on_c.address = top_->c_address[k];
        std::memcpy(f.on_c.data.data(), &top_->c_data[k], 8);
        f.sink = top_->e_sink[k];
        f.len = 1u << top_->tap_size[k]; f.address = top_->tap_addr[k]; f.data = top_->tap_data[k];
        bool offers = (top_->a_valid >> k & 1) != 0; // the cycle in which valid rose
        if (offers && !offered_[k]) raised_[k] = now_;
        offered_[k] = offers && !f.a;
        return f;
    }
    void tell(uint32_t k, Fired &f) {
        if (f.d || hidden_d_[k]) { d_[k].step(); home_.d_taken(k); }
        if (f.b || hidden_b_[k]) { probes++; home_.b_taken(k); }
        hidden_b_[k] = hidden_d_[k] = false;
        if (f.c) tell_c(k, f.on_c);
        if (f.tap) access(k, f);
        if (f.a) { acquires++; home_.a(k, f.on_a, raised_[k]); }
        if (f.e && !damages(k, kDropE)) home_.e(k, f.sink);
        if (f.core) pending_[k] = false;
        if (pending_[k] && now_ - asked_[k] > 50000) { asked_[k] = now_; wrong(k, "the core waits for ever"); }
    }
    void tell_c(uint32_t k, Beat beat) {
        Burst &c = c_[k];
        bool is_dropped = drops(k, c, kDropC);
        c.has_data = jinavoke::has_data(JV_C, beat.opcode);
        beat.size = c.at == 2 && damages(k, kSizeC) ? 5 : 6;
        releases += c.at == 0 && beat.opcode >= JV_OP_RELEASE;
        c.step();
        if (is_dropped) return;
        if (c.has_data && damages(k, kFlipC)) beat.data[rng_() % 8] ^= uint8_t(1u << rng_() % 8);
        if (!c.has_data && damages(k, kParamC)) beat.param ^= 1;
        home_.c(k, beat);
    }
    void access(uint32_t k, const Fired &f) {
        const uint8_t *data = reinterpret_cast<const uint8_t *>(&f.data);
        accesses++;
        if (has_taps_ && f.is_store) home_.store(k, f.address, data, f.len);
        if (has_taps_ && !f.is_store) home_.load(k, f.address, data, f.len);
        if (!board_.did(f.is_store, f.address, data, f.len))
            wrong(k, "a load of " + jinavoke::words::address(f.address) + " got old bytes");
    }

    // ---- damages: once, to a message of the planted L1, after `at`
    bool damages(uint32_t k, damage_t what) {
        if (k != kPlanted || damage_ != what || now_ < at_) return false;
        damage_ = kNone;
        return true;
    }
    // Whether the beat that comes next is of a message that gets lost.
    bool drops(uint32_t k, Burst &burst, damage_t what) {
        if (burst.at == 0) burst.is_dropped = damages(k, what);
        return burst.is_dropped;
    }

    Home &home_;
    Board &board_;
    std::mt19937 rng_;
    uint32_t stall_, spots_, plant_;
    uint64_t at_, for_;
    bool has_taps_;
    damage_t damage_;
    VerilatedContext context_;
    std::unique_ptr<Vtop> top_;
    uint64_t now_ = 0;
    std::array<bool, kClients> pending_{}, offered_{};
    std::array<bool, kClients> hidden_b_{}, hidden_d_{}; // home sees a beat taken that the L1 does not
    std::array<Burst, kClients> c_, d_;
    std::array<uint64_t, kClients> asked_{}, raised_{};
};

template <class Home>
static void print(const Outcome &out, const Home &home, const Bench<Home> &bench, double seconds) {
    std::cout << home.cycle() << " cycles, " << bench.accesses << " accesses, " << bench.acquires << " Acquires, "
              << bench.releases << " Releases, " << bench.probes << " Probes; " << out.faults << " faults";
    if (out.faults) std::cout << ", the first at " << out.first_fault;
    std::cout << "; " << out.wrong << " by the scoreboard";
    if (out.wrong) std::cout << ", the first at " << out.first_wrong;
    if constexpr (std::is_same_v<Home, jinavoke::Home>) if (home.inferred() + home.rooms())
        std::cout << "; " << home.inferred() << " drops inferred, " << home.rooms() << " evictions for room";
    std::cout << "; " << uint64_t(double(home.cycle()) / seconds) << " cycles a second, " << kibibytes() << " KiB\n";
}
// The end of a test: home takes all blocks back, and then the memory has what was stored last. Whether it has.
static bool has_all(jinavoke::Home &home, Bench<jinavoke::Home> &bench, const Board &board) {
    for (uint64_t i = 0; i < 30000 && !home.flush(); i++) bench.cycle(false);
    const std::vector<uint8_t> image = home.image();
    return home.flush() && std::equal(board.bytes.begin(), board.bytes.end(), image.begin());
}
using Hears = std::function<void(std::function<void()>)>; // has a function called at each fault of the home
template <class Home> static Outcome run(const Settings &s, Home &home, Board &board, const Hears &hears) {
    Outcome out;
    const uint64_t cycles = s.number("cycles", 100000), accesses = s.number("accesses", UINT64_MAX);
    const uint64_t most = s.number("most", 1);
    Bench<Home> bench(s, home, board);
    hears([&] { if (!out.faults++) out.first_fault = home.cycle(); });
    bench.wrong = [&](uint32_t k, const std::string &what) {
        if (!out.wrong++) out.first_wrong = home.cycle();
        std::cout << "cycle " << home.cycle() << ": client " << k << ": scoreboard: " << what << "\n";
    };
    auto from = std::chrono::steady_clock::now();
    auto goes_on = [&] { return most == 0 || out.faults + out.wrong < most; };
    while (goes_on() && home.cycle() < cycles && bench.accesses < accesses) bench.cycle(true);
    for (uint64_t i = 0; goes_on() && i < 30000 && (i < 200 || !home.is_quiet()); i++) bench.cycle(false);
    if constexpr (std::is_same_v<Home, jinavoke::Home>) {
        bool is_compared = s.number("flush", 0) && goes_on();
        if (is_compared && !has_all(home, bench, board)) bench.wrong(0, "the memory has other bytes at the end");
        else if (is_compared) std::cout << "the memory has what was stored last\n";
    }
    print(out, home, bench, std::chrono::duration<double>(std::chrono::steady_clock::now() - from).count());
    return out;
}

// A run in which a judge of events tells the faults: of each step in the cycle in which the home makes it.
static Outcome judge_steps(const Settings &s, jinavoke::Home &home, const std::vector<uint8_t> &image, Board &board) {
    jinavoke::EventJudge judge(home.options(), image);
    home.watch(&judge);
    Outcome out = run(s, home, board, [&](std::function<void()> hear) {
        judge.on_fault = [&home, hear](const std::string &said) {
            hear();
            std::cout << "cycle " << home.cycle() << ": judge: " << said << "\n";
        };
    });
    std::cout << judge.taken() << " events were permitted\n";
    return out;
}

// A run with Jinavoke: records where they are asked for, each fault's text, the first one's chart.
static Outcome judge(const Settings &s, const jinavoke::Options &o, const std::vector<uint8_t> &image, Board &board) {
    jinavoke::Home home(o, image);
    std::ofstream wire = s.file("wire"), events = s.file("events");
    std::unique_ptr<jinavoke::Watch> wire_record, event_record;
    if (wire.is_open()) home.watch((wire_record = std::make_unique<jinavoke::WireRecord>(wire, o, image)).get());
    if (events.is_open()) home.watch((event_record = std::make_unique<jinavoke::EventRecord>(events, o, image)).get());
    if (s.number("judge", 0)) return judge_steps(s, home, image, board);
    return run(s, home, board, [&](std::function<void()> hear) {
        home.on_fault = [&s, &home, hear](const jinavoke::Fault &f) {
            hear();
            std::cout << (s.number("quiet", 0) ? f.line() + "\n" : f.text());
            if (home.faults() == 1 && !s.text("chart").empty()) s.file("chart") << f.script;
        };
    });
}

int main(int argc, char **argv) {
    Settings s(argc, argv);
    jinavoke::Options o;
    o.numbers = {2, kClients, int64_t(s.number("banks", 1)), kBlock, int64_t(s.number("sets", 16)), 4, 8, 16, 4096};
    o.base = 0x80000000;
    o.has_taps = s.number("taps", 1);
    o.silent_branch = s.number("silent", 0);
    o.silent_tip = s.number("tip", 0);
    o.numbers.copies = int64_t(s.number("copies", 16));
    o.gives_more = s.number("more", 0);
    o.pace = uint32_t(s.number("pace", 3));
    o.evict_every = uint32_t(s.number("evict", 500));
    o.seed = uint32_t(s.number("seed", 1)) + 7;
    std::mt19937 rng(o.seed + 1);
    std::vector<uint8_t> image(s.number("spots", 24) * kBlock);
    for (uint8_t &byte : image) byte = uint8_t(rng());
    Board board = {o.base, image};
    if (!s.number("plain", 0)) {
        Outcome out = judge(s, o, image, board);
        return out.faults + out.wrong != 0;
    }
    PlainHome home(o, image);
    return run(s, home, board, [](std::function<void()>) {}).wrong != 0;
}
