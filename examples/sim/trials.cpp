// trials: what docs/SIMULATOR.md says of a home in a simulator, tried: options that cannot be, a window of every kind,
// a memory that fails, what is due, counts beside counts of one's own, checkpoints that are damaged. Words: a folder
// for files. It is linked with malloc and realloc of its own (--wrap), which refuse the bank memory for a while. The
// last line says how many trials there were; status 1 where one went wrong.
#include "core.hpp"
#include <iostream>

extern "C" {
void *__real_malloc(size_t n);
void *__real_realloc(void *p, size_t n);
static bool is_refused = false;
static long refused = 0;
void *__wrap_malloc(size_t n) { return is_refused && ++refused ? nullptr : __real_malloc(n); }
void *__wrap_realloc(void *p, size_t n) { return is_refused && ++refused ? nullptr : __real_realloc(p, n); }
}

using jinavoke::Count;
using jinavoke::HomeCount;
using jinavoke::Options;
using jinavoke::PagedMemory;

static int trials = 0, failed = 0;
static std::string folder = ".";
static void expect(bool is_so, const std::string &what) {
    trials++;
    if (is_so) return;
    failed++;
    std::cout << "wrong: " << what << "\n";
}
// What it throws says this.
template <class Error, class F> static void throws(const std::string &said, const std::string &what, F f) {
    try {
        f();
        expect(false, what + ": nothing is thrown");
    } catch (const Error &why) {
        expect(std::string(why.what()).find(said) != std::string::npos, what + ": " + why.what());
    }
}

// ---- a run of cores over a home

struct Setting {
    Options options;
    uint64_t accesses = 300; // of each core
    size_t lines = 24;
    bool ticks = false, drops = false;
    std::function<void(Home &)> each = [](Home &) {}; // in each step
};
struct Ended {
    uint64_t wrong = 0, cycles = 0;
    std::string faults, json;
    std::vector<std::string> records; // of each bank
    std::map<uint64_t, uint8_t> bytes; // of the memory, where they are not 0
};
static Options small(PagedMemory *memory, int64_t clients = 4, int64_t banks = 2) {
    Options o;
    o.numbers = {2, clients, banks, 64, 4, 2, 4, 64, 64 * banks};
    o.base = 0x40000000;
    o.beat_bytes = 64;
    o.pace = 1;
    o.memory = memory;
    o.memory_bytes = memory ? 1 << 22 : 0;
    return o;
}
static std::map<uint64_t, uint8_t> bytes_in(jinavoke::Memory &memory) {
    std::map<uint64_t, uint8_t> bytes;
    std::vector<uint8_t> page(PagedMemory::page_bytes);
    for (const auto &it : memory.ranges()) {
        for (bool is_read = false; !is_read;) try { // one that fails is asked again
            memory.read(it.first, page.data(), page.size());
            is_read = true;
        } catch (const std::range_error &) {}
        for (size_t i = 0; i < page.size(); i++) if (page[i]) bytes[it.first + i] = page[i];
    }
    return bytes;
}
class Run {
  public:
    Run(Home &home, const Setting &s, uint64_t from, uint64_t to)
        : home_(home), setting_(s), program_{s.options.seed, home.clients(), s.options.base,
              s.options.memory ? s.options.memory_bytes : uint64_t(s.options.numbers.memory_blocks * 64)} {
        for (uint32_t k = 0; k < home.clients(); k++) cores_.emplace_back(home, queue_, program_, k, s.lines, s.drops);
        for (Core &core : cores_) core.run(from, to);
        while (!is_done() && home.cycle() < 2000000) step();
        while (!home.flush() && home.cycle() < 2000000) step();
    }
    bool is_done() const {
        return std::all_of(cores_.begin(), cores_.end(), [](const Core &it) { return it.is_done(); });
    }
    uint64_t wrong() const {
        uint64_t all = !is_done() + !home_.is_quiet();
        for (const Core &core : cores_) all += core.wrong;
        return all;
    }

  private:
    void step() {
        uint64_t next = queue_.empty() ? ~uint64_t(0) : queue_.top().first;
        if (auto due = home_.next_due()) next = std::min(next, *due);
        if (setting_.ticks) next = home_.cycle() + 1;
        if (next == ~uint64_t(0)) throw std::logic_error("nothing is due, and the run is not at its end");
        go_to(next);
        setting_.each(home_);
        for (Core &core : cores_) guarded([&] { core.hear(); });
        while (!queue_.empty() && queue_.top().first <= next) {
            const uint32_t k = queue_.top().second;
            queue_.pop();
            guarded([&] { cores_[k].act(); });
        }
    }
    void go_to(uint64_t cycle) {
        while (home_.cycle() < cycle) guarded([&] { home_.advance_to(cycle); });
    }
    template <class F> void guarded(F f) { // a memory that fails is asked again
        try { f(); } catch (const std::range_error &) {}
    }
    Home &home_;
    const Setting &setting_;
    Program program_;
    Queue queue_;
    std::deque<Core> cores_;
};
struct Recorded { // a home with its records, and a judge of its events
    Recorded(Home &home, const std::vector<uint8_t> &image = {}) : judge(home.options(), image) {
        for (uint32_t bank = 0; bank < home.banks(); bank++) {
            texts.emplace_back();
            records.emplace_back(texts.back(), home.options(), image, bank);
            home.watch(&records.back());
        }
        judge.on_fault = [this](const std::string &it) { said += it + "\n"; };
        home.watch(&judge);
        home.on_fault = [this](const jinavoke::Fault &f) { said += f.line() + "\n"; };
    }
    std::string said;
    std::deque<std::ostringstream> texts;
    std::deque<jinavoke::EventRecord> records;
    jinavoke::EventJudge judge;
};
static Ended ran(const Setting &s, const std::vector<uint8_t> &image = {}) {
    Core::newest().clear();
    Home home(s.options, image);
    Recorded recorded(home, image);
    Run run(home, s, 0, s.accesses);
    Ended it;
    it.wrong = run.wrong();
    it.cycles = home.cycle();
    it.faults = recorded.said;
    it.json = home.counts().json();
    for (auto &text : recorded.texts) it.records.push_back(text.str());
    if (s.options.memory) it.bytes = bytes_in(*s.options.memory);
    return it;
}
static std::string told(const Ended &it) { return std::to_string(it.wrong) + " wrong; " + it.faults; }
static bool is_well(const Ended &it) { return !it.wrong && it.faults.empty(); }

// ---- options that cannot be

static void bad_options() {
    PagedMemory memory;
    auto made = [&](const std::string &said, const std::string &what, std::function<void(Options &)> change,
                    std::vector<uint8_t> image = {}) {
        throws<std::runtime_error>(said, what, [&] {
            Options o = small(&memory);
            change(o);
            Home home(o, image);
        });
    };
    made("memory_bytes, and no memory", "no memory", [](Options &o) { o.memory = nullptr; });
    made("of 0 bytes", "a memory of 0", [](Options &o) { o.memory_bytes = 0; });
    made("no blocks of 64", "100 bytes", [](Options &o) { o.memory_bytes = 100; });
    made("no blocks of 64", "a window and a half block", [](Options &o) { o.memory_bytes += 32; });
    made("past the last address", "an end past 2^64", [](Options &o) { o.base = ~uint64_t(0) - 63; });
    made("a multiple of 8", "a window of 65", [](Options &o) { o.numbers.memory_blocks = 65; });
    made("at least 24", "a window of 16", [](Options &o) { o.numbers.memory_blocks = 16; });
    made("memory blocks", "a window of 0", [](Options &o) { o.numbers.memory_blocks = 0; });
    made("memory blocks", "a window of 65537", [](Options &o) { o.numbers.memory_blocks = 65537; });
    made("memory blocks", "a window of -8", [](Options &o) { o.numbers.memory_blocks = -8; });
    made("banks", "3 banks", [](Options &o) { o.numbers.banks = 3; });
    made("banks", "no bank", [](Options &o) { o.numbers.banks = 0; });
    made("sets", "no set", [](Options &o) { o.numbers.sets = 0; });
    made("block bytes", "a block of 0", [](Options &o) { o.numbers.block_bytes = 0; });
    made("an image beside", "an image beside a memory", [](Options &) {}, std::vector<uint8_t>(8, 1));
    throws<std::runtime_error>("no window", "a record for tlwire", [&] {
        std::ostringstream out;
        jinavoke::WireRecord record(out, small(&memory));
    });
    expect(memory.pages() == 0, "a home that was not made has written");
}

// ---- windows

static void windows() {
    for (int64_t banks : {1, 2, 4, 8}) for (bool drops : {false, true}) for (uint32_t pace : {1, 3}) {
        PagedMemory memory;
        Setting s;
        s.options = small(&memory, 4, banks);
        s.options.pace = pace;
        s.options.silent_branch = s.options.silent_tip = s.drops = drops;
        const Ended it = ran(s);
        const std::string what = "a window, banks=" + std::to_string(banks) + " drops=" + std::to_string(drops);
        expect(is_well(it), what + ": " + told(it));
        expect(it.records[0].find("# window ") != std::string::npos, what + ": no line says so");
        for (const auto &word : Core::newest()) {
            uint64_t now = 0;
            memory.read(word.first, reinterpret_cast<uint8_t *>(&now), 8);
            if (now != word.second) { expect(false, what + ": the memory has other bytes"); break; }
        }
    }
}
// The smallest window, and cores that all want blocks of one bank and set: Acquires wait, and all are granted.
static void smallest_window() {
    PagedMemory memory;
    Setting s;
    s.options = small(&memory, 8, 1);
    s.options.numbers.sets = 1;
    s.options.numbers.memory_blocks = 3;
    s.options.memory_bytes = 1 << 14;
    s.lines = 1;
    const Ended it = ran(s);
    expect(is_well(it), "the smallest window: " + told(it));
    expect(it.json.find("\"Acquires_held,_window_full\": ") != std::string::npos, "nothing waited for the window");
}
// Where the window is the whole memory nothing is otherwise: the records are those of a home over an image.
static void whole_window() {
    for (uint32_t pace : {1, 3}) {
        std::vector<uint8_t> image(128 * 64);
        for (size_t i = 0; i < image.size(); i++) image[i] = uint8_t(i * 7);
        PagedMemory memory;
        Setting s;
        s.options = small(nullptr);
        s.options.pace = pace;
        const Ended plain = ran(s, image);
        memory.write(s.options.base, image.data(), image.size());
        s.options.memory = &memory;
        s.options.memory_bytes = image.size();
        Core::newest().clear();
        Home home(s.options);
        Recorded recorded(home, image);
        Run run(home, s, 0, s.accesses);
        expect(is_well(plain) && !run.wrong() && recorded.said.empty(), "the whole memory: " + recorded.said);
        for (uint32_t bank = 0; bank < 2; bank++)
            expect(recorded.texts[bank].str() == plain.records[bank], "the whole memory: another record");
        for (const auto &word : Core::newest()) {
            uint64_t now = 0;
            memory.read(word.first, reinterpret_cast<uint8_t *>(&now), 8);
            if (now != word.second) { expect(false, "the whole memory has other bytes"); break; }
        }
    }
}
static void numbers_of_blocks() { // the window parts blocks as the banks do
    for (int64_t banks : {1, 2, 4, 8}) {
        Options o = small(nullptr, 2, banks);
        o.numbers.memory_blocks = 4096;
        Home home(o);
        jinavoke::Window window(o.numbers, 1 << 20);
        bool is_same = true;
        for (uint32_t block = 0; block < 4096; block++)
            is_same = is_same && window.bank_of(block) == jv_bank_of(home.model(), block).serial;
        expect(is_same, "a block's bank");
    }
}
// Messages and accesses of blocks that no number stands for.
static void nobodys() {
    PagedMemory memory;
    Home home(small(&memory));
    std::vector<std::string> names;
    home.on_fault = [&](const jinavoke::Fault &f) {
        names.push_back(f.name());
        expect(f.is_of_device() && f.line().find(" at 0x40001000: ") != std::string::npos, "nobody's: " + f.line());
    };
    Beat beat;
    beat.address = 0x40001000;
    beat.opcode = JV_OP_RELEASE; beat.param = JV_TTON;
    home.c(0, beat);
    beat.opcode = JV_OP_PROBE_ACK; beat.param = JV_REPORT_NTON;
    home.c(0, beat);
    const uint8_t bytes[8] = {};
    home.load(0, 0x40001008, bytes, 8);
    home.store(0, 0x40001008, bytes, 8);
    beat.opcode = JV_OP_ACQUIRE_BLOCK; beat.param = JV_BTOT;
    home.a(0, beat);
    home.advance_to(200);
    const std::vector<std::string> wanted = {"wrong from", "unasked", "no permission", "no permission", "wrong from"};
    expect(names == wanted, "nobody's: " + std::to_string(names.size()) + " faults");
}
// A limit, and no fault of the device: no number comes to rest, since the cores keep their copies.
static void window_full() {
    PagedMemory memory;
    Options o = small(&memory, 4, 1);
    o.numbers = {2, 4, 1, 64, 1, 1, 4, 64, 2};
    o.patience = 500;
    Home home(o);
    std::vector<std::string> names;
    bool is_of_device = false;
    home.on_fault = [&](const jinavoke::Fault &f) {
        names.push_back(f.name());
        is_of_device = is_of_device || f.is_of_device();
    };
    for (uint32_t k = 0; k < 4; k++) { // the first one's Grant is not taken
        Beat beat;
        beat.opcode = JV_OP_ACQUIRE_BLOCK; beat.param = JV_NTOT; beat.address = o.base + 64 * k;
        home.a(k, beat);
    }
    home.advance_to(450);
    expect(home.counts().all().held[jinavoke::Counts::window_full] == 2, "two Acquires wait for a number");
    home.advance_to(640);
    const bool is_told = std::count(names.begin(), names.end(), "window full") == 2;
    expect(is_told, "window full: " + std::to_string(names.size()) + " faults");
}

// ---- a memory that fails, and one that answers when it likes

struct Failing : PagedMemory {
    uint64_t asked = 0, every = 3;
    void fail() { if (++asked % every == 0) throw std::range_error("it fails now"); }
    void read(uint64_t address, uint8_t *bytes, size_t len) override { fail(); PagedMemory::read(address, bytes, len); }
    void write(uint64_t address, const uint8_t *bytes, size_t len) override {
        fail();
        PagedMemory::write(address, bytes, len);
    }
};
struct Late : PagedMemory {
    std::mt19937 rng{5};
    uint64_t early = 0;
    std::map<uint64_t, uint64_t> due;
    uint64_t ready(const jinavoke::MemoryRequest &it, uint64_t now) override {
        if (now < it.cycle + 20 || it.len != 64 || it.address % 64) early++;
        auto at = due.find(it.address);
        if (at == due.end()) at = due.emplace(it.address, now + rng() % 300).first;
        const uint64_t when = at->second;
        if (when <= now) due.erase(at);
        return when;
    }
};
static void memories() {
    Failing failing;
    Setting s;
    s.options = small(&failing);
    Ended it = ran([&] { failing.every = ~uint64_t(0); return s; }());
    failing.every = 3;
    it = ran(s);
    failing.every = ~uint64_t(0);
    expect(is_well(it) && failing.asked > 1000, "a memory that fails: " + told(it));
    Late late;
    s.options = small(&late);
    it = ran(s);
    expect(is_well(it) && !late.early, "a memory that answers when it likes: " + told(it));
    PagedMemory behind;
    Home home(small(&behind)); // whose memory is written behind it
    Beat beat;
    beat.opcode = JV_OP_ACQUIRE_BLOCK; beat.param = JV_NTOB; beat.address = home.options().base;
    home.a(0, beat);
    home.advance_to(5);
    const uint8_t one = 1;
    behind.write(beat.address, &one, 1);
    throws<std::logic_error>("written behind the home", "a memory that changes", [&] { home.advance_to(100); });
}
static void starved() { // the bank is refused memory for a while, again and again
    PagedMemory memory;
    Setting s;
    s.options = small(&memory);
    s.each = [](Home &home) { is_refused = home.cycle() % 100 < 40; };
    Core::newest().clear();
    Home home(s.options);
    std::string said;
    home.on_fault = [&](const jinavoke::Fault &f) { said += f.line() + "\n"; };
    Run run(home, s, 0, s.accesses);
    is_refused = false;
    expect(said.empty() && !run.wrong(), "memory that is refused: " + said);
}

// ---- what is due

static void what_is_due() {
    for (uint32_t pace : {1, 3}) for (uint32_t evict : {0, 50}) for (bool has_window : {false, true})
        for (bool has_latency : {false, true}) {
            PagedMemory one, two;
            Setting s;
            s.accesses = 150;
            s.options = small(has_window ? &one : nullptr);
            s.options.pace = pace;
            s.options.evict_every = evict;
            if (has_latency) s.options.latencies = {3, 5, 7, 2, 9, 11, 13};
            const Ended due = ran(s);
            s.options.memory = has_window ? &two : nullptr;
            s.ticks = true;
            const Ended ticked = ran(s);
            expect(is_well(due) && is_well(ticked), "what is due: " + told(due) + told(ticked));
            expect(due.records == ticked.records && due.json == ticked.json, "what is due: another run than by ticks");
        }
    Home home(small(nullptr));
    home.tick();
    expect(!home.next_due(), "an idle home is due");
    home.advance_to(1000000000);
    expect(home.cycle() == 1000000000 && home.counts()[HomeCount::Cycles] == home.cycle(), "idle cycles");
    throws<std::logic_error>("is behind", "a cycle that is behind", [&] { home.advance_to(5); });
    Beat beat; // a Probe that is never answered: the home is due when that is told as late
    beat.opcode = JV_OP_ACQUIRE_BLOCK; beat.param = JV_NTOT; beat.address = home.options().base;
    home.a(0, beat);
    std::string name;
    home.on_fault = [&](const jinavoke::Fault &f) { name = f.name(); };
    uint64_t steps = 0;
    for (; name.empty() && steps < 1000; steps++) home.advance_to(home.next_due().value_or(home.cycle() + 1));
    expect(name == "late" && steps < 40, "a Grant that nobody takes: " + name + ", " + std::to_string(steps));
}
static uint64_t latency_of(const std::array<uint64_t, 7> &latencies, bool is_asked) { // of one Acquire
    Options o = small(nullptr, 2, 1);
    o.latencies = latencies;
    if (is_asked) {
        o.latencies = {};
        o.latency = [latencies](uint32_t channel, uint32_t, uint64_t) { return latencies[channel]; };
    }
    Home home(o);
    Beat beat;
    beat.opcode = JV_OP_ACQUIRE_BLOCK; beat.param = JV_NTOT; beat.address = o.base + 64;
    home.a(0, beat);
    while (!home.d(0)) home.advance_to(home.next_due().value());
    home.d_taken(0);
    home.e(0, 0);
    while (!home.is_quiet()) home.advance_to(home.next_due().value());
    return home.counts().clients[0].latency.sum;
}
static void latencies() {
    const uint64_t none = latency_of({}, false);
    for (uint32_t channel = 0; channel < 7; channel++) {
        std::array<uint64_t, 7> it{};
        it[channel] = 50;
        const bool is_on_the_way = channel == JV_A || channel == JV_D || channel >= JV_MEMORY_A;
        const uint64_t table = latency_of(it, false), asked = latency_of(it, true);
        expect(table == asked, "a table, and what is asked");
        const uint64_t more = table - none; // what takes a cycle at home anyhow is not waited for twice
        expect(is_on_the_way ? more >= 49 && more <= 50 : more == 0, "50 cycles on channel " + std::to_string(channel)
            + ": " + std::to_string(more));
    }
}

// ---- counts

struct Counter : jinavoke::Watch {
    std::map<std::string, uint64_t> messages, events;
    uint64_t memory_messages = 0;
    void message(const jinavoke::Message &m) override { messages[m.kind()]++; }
    void event(const jinavoke::Event &e) override { events[jinavoke::words::event(e.kind)]++; }
    void memory(const jinavoke::MemoryMessage &) override { memory_messages++; }
};
static void counts() {
    PagedMemory memory;
    Setting s;
    s.options = small(&memory);
    Core::newest().clear();
    Home home(s.options);
    Counter own;
    home.watch(&own);
    Run run(home, s, 0, s.accesses);
    const jinavoke::Counts &it = home.counts();
    const jinavoke::ClientCounts all = it.all();
    auto same = [&](uint64_t counted, uint64_t seen, const std::string &what) {
        expect(counted == seen, what + ": " + std::to_string(counted) + ", and " + std::to_string(seen) + " were seen");
    };
    same(all[Count::AcquireNtoB], own.messages["AcquireBlock NtoB"], "NtoB");
    same(all[Count::AcquireNtoT], own.messages["AcquireBlock NtoT"], "NtoT");
    same(all[Count::AcquireBtoT], own.messages["AcquireBlock BtoT"], "BtoT");
    same(all[Count::GrantToT], own.messages["Grant toT"], "Grant toT");
    same(all[Count::GrantDataToT], own.messages["GrantData toT"], "GrantData toT");
    same(all[Count::GrantDataToB], own.messages["GrantData toB"], "GrantData toB");
    same(all[Count::ProbeToB], own.messages["ProbeBlock toB"], "Probe toB");
    same(all[Count::ProbeToN], own.messages["ProbeBlock toN"], "Probe toN");
    same(all[Count::AnswerDataTtoN], own.messages["ProbeAckData TtoN"], "ProbeAckData TtoN");
    same(all[Count::AnswerDataTtoB], own.messages["ProbeAckData TtoB"], "ProbeAckData TtoB");
    same(all[Count::AnswerTtoN], own.messages["ProbeAck TtoN"], "ProbeAck TtoN");
    same(all[Count::AnswerBtoN], own.messages["ProbeAck BtoN"], "ProbeAck BtoN");
    same(all[Count::ReleaseBtoN], own.messages["Release BtoN"], "Release BtoN");
    same(all[Count::ReleaseDataTtoN], own.messages["ReleaseData TtoN"], "ReleaseData TtoN");
    same(it[HomeCount::Fetches], own.events["get"], "fetches");
    same(it[HomeCount::Writebacks], own.events["put"], "writebacks");
    same(2 * (it[HomeCount::Fetches] + it[HomeCount::Writebacks]), own.memory_messages, "the memory's messages");
    same(all[Count::Loads] + all[Count::Stores], s.accesses * home.clients(), "accesses");
    const uint64_t grants = all[Count::GrantToT] + all[Count::GrantDataToT] + all[Count::GrantDataToB];
    same(all.latency.count, grants, "latencies");
    const uint64_t hits = all[Count::LoadHits] + all[Count::StoreHits];
    expect(hits > 0 && hits + grants >= all[Count::Loads] + all[Count::Stores], "hits: " + std::to_string(hits));
    uint64_t in_buckets = 0;
    for (uint64_t n : all.latency.buckets) in_buckets += n;
    same(in_buckets, grants, "buckets");
    expect(all.latency.least <= all.latency.mean() && all.latency.mean() <= double(all.latency.greatest), "mean");
    expect(it[HomeCount::MostRegisters] <= 8 && it[HomeCount::MostRegisters] > 1, "registers");
    expect(it[HomeCount::MostMessages] > 2, "messages in flight");
    expect(it.text().find("Acquires NtoT") != std::string::npos, "the table");
    home.reset_counts();
    expect(home.counts().all()[Count::Loads] == 0 && home.counts()[HomeCount::Cycles] == 0, "a reset");
    const uint64_t from = home.cycle();
    home.advance_to(from + 100);
    expect(home.counts()[HomeCount::Cycles] == 100, "cycles since a reset");
}
static void latency_buckets() {
    jinavoke::Latencies it;
    for (uint64_t n : {0, 1, 2, 3, 4, 7, 8}) it.add(n);
    it.add(~uint64_t(0) >> 1);
    const std::vector<uint64_t> wanted = {1, 1, 2, 2, 1};
    expect(std::equal(wanted.begin(), wanted.end(), it.buckets.begin()) && it.buckets[63] == 1, "buckets of latencies");
    expect(it.least == 0 && it.count == 8 && jinavoke::Latencies::first_of(3) == 4, "latencies");
}

// ---- functional access

static void pokes() {
    PagedMemory memory;
    Setting s;
    s.options = small(&memory);
    Home home(s.options);
    Recorded recorded(home);
    // one core holds a block dirty: the poke takes it back first
    Beat beat;
    beat.opcode = JV_OP_ACQUIRE_BLOCK; beat.param = JV_NTOT; beat.address = s.options.base + 640;
    home.a(0, beat);
    while (!home.d(0)) home.advance_to(home.next_due().value());
    jinavoke::Bytes line = home.d(0)->data;
    const uint32_t sink = home.d(0)->sink;
    home.d_taken(0);
    home.e(0, sink);
    line[8] = 7;
    home.store(0, beat.address + 8, &line[8], 1);
    uint8_t got[16];
    home.peek(beat.address, got, 16);
    expect(got[8] == 7 && got[0] == 0, "a peek of a dirty Tip");
    const uint8_t poked[4] = {1, 2, 3, 4};
    expect(home.poke(beat.address + 4096, poked, 4), "a poke of a block that rests");
    expect(!home.poke(beat.address + 2, poked, 4), "a poke of a block that a core has");
    expect(!home.is_quiet(), "a poke that waits, and quiet");
    Beat other = beat; // and an Acquire that waits for it
    home.a(1, other);
    while (!home.b(0)) home.advance_to(home.next_due().value());
    home.b_taken(0);
    beat.opcode = JV_OP_PROBE_ACK_DATA; beat.param = JV_REPORT_TTON; beat.data = line;
    home.c(0, beat);
    while (!home.d(1)) home.advance_to(home.next_due().value());
    const jinavoke::Bytes now = home.d(1)->data;
    expect(now[2] == 1 && now[5] == 4 && now[8] == 7 && now[0] == 0, "what is granted behind a poke");
    home.peek(s.options.base + 640 + 4096, got, 4);
    expect(std::equal(poked, poked + 4, got), "a peek of the memory");
    expect(recorded.said.empty(), "pokes: " + recorded.said);
    expect(recorded.texts[0].str().find("# poke 0x4000") != std::string::npos
        || recorded.texts[1].str().find("# poke 0x4000") != std::string::npos, "a poke's line");
    throws<std::out_of_range>("outside the memory", "a peek behind the memory",
                              [&] { home.peek(s.options.base - 1, got, 1); });
    throws<std::out_of_range>("outside the memory", "a poke behind the memory",
                              [&] { home.poke(s.options.base + s.options.memory_bytes - 2, poked, 4); });
    Home plain(small(nullptr));
    throws<std::logic_error>("behind a window", "a poke without a window",
                             [&] { plain.poke(s.options.base, poked, 4); });
}

// ---- agents through a window

static void agents() {
    PagedMemory memory;
    Options o = small(&memory, 3, 2);
    o.uncached = {{2, 0, 3}};
    o.latencies = {2, 2, 2, 2, 2, 2, 2};
    Home home(o);
    Recorded recorded(home);
    std::map<uint64_t, uint8_t> put;
    std::mt19937 rng(3);
    uint64_t wrong = 0, got = 0;
    for (int i = 0; i < 600; i++) {
        Beat beat;
        const bool is_put = rng() % 2;
        beat.opcode = is_put ? jinavoke::Request::PutFull : jinavoke::Request::Get;
        beat.size = 0;
        beat.source = uint32_t(i % 4);
        beat.address = o.base + (rng() % 40) * 1000;
        const uint8_t byte = uint8_t(rng());
        beat.data[beat.address % 64] = byte;
        beat.mask = uint64_t(1) << beat.address % 64;
        home.a(2, beat);
        for (int wait = 0; !home.d(2) && wait < 2000; wait++)
            home.advance_to(home.next_due().value_or(home.cycle() + 1));
        auto answer = home.d(2);
        if (!answer) { wrong++; break; }
        home.d_taken(2);
        if (is_put) put[beat.address] = byte;
        else { got++; wrong += answer->data[beat.address % 64] != put[beat.address]; }
    }
    const bool is_well = !wrong && got > 100 && recorded.said.empty();
    expect(is_well, "agents through a window: " + std::to_string(wrong) + recorded.said);
    expect(home.counts().clients[2][Count::Requests] == 600, "requests counted");
}

// ---- checkpoints

static std::string file_of(const std::string &name) { return folder + "/" + name; }
static std::string read_file(const std::string &name) {
    std::ifstream in(name, std::ios::binary);
    return {std::istreambuf_iterator<char>(in), std::istreambuf_iterator<char>()};
}
static void write_file(const std::string &name, const std::string &text) {
    std::ofstream(name, std::ios::binary) << text;
}
// A run in two halves, with a checkpoint between them or none, ends with the same bytes.
static void halves() {
    for (bool has_window : {true, false}) {
        PagedMemory one, two, three;
        Setting s;
        s.options = small(has_window ? &one : nullptr);
        s.options.latencies = {1, 2, 3, 4, 5, 6, 7};
        const std::string file = file_of("half");
        Core::newest().clear();
        Home home(s.options);
        home.on_fault = [](const jinavoke::Fault &f) { expect(false, f.line()); };
        { Run run(home, s, 0, 150); expect(!run.wrong(), "the first half"); }
        home.save(file);
        { Run run(home, s, 150, 300); expect(!run.wrong(), "the second half"); }
        auto it = Home::restore(file, [&](Options &o) { o.memory = has_window ? &two : nullptr; });
        Recorded recorded(*it);
        const auto counted = it->counts().json();
        expect(it->cycle() > 0 && it->counts().all()[Count::Loads] + it->counts().all()[Count::Stores] == 600, counted);
        Core::newest().clear(); // those of the first half are asked of the file's bytes below
        { Run run(*it, s, 150, 300); expect(!run.wrong(), "the restored half"); }
        expect(recorded.said.empty() || !has_window, "the restored half: " + recorded.said);
        std::vector<uint8_t> a(8192), b(8192);
        home.peek(s.options.base, a.data(), a.size());
        it->peek(s.options.base, b.data(), b.size());
        expect(a == b && (!has_window || bytes_in(one) == bytes_in(two)), "two halves end with other bytes");
        if (has_window) throws<std::logic_error>("has the bytes", "an image of one's own", [&] { (void)home.image(); });
        else expect(home.image() == a && it->image() == b, "an image is the memory from its base on");
    }
}
static void damaged() {
    PagedMemory memory;
    Setting s;
    s.options = small(&memory);
    s.accesses = 20;
    Core::newest().clear();
    Home home(s.options);
    { Run run(home, s, 0, 20); }
    const std::string file = file_of("whole"), other = file_of("damaged");
    home.save(file);
    const std::string text = read_file(file);
    std::mt19937 rng(4);
    uint64_t taken = 0;
    PagedMemory fresh;
    auto is_refused_now = [&] {
        try {
            (void)Home::restore(other, [&](Options &o) { o.memory = &fresh; });
            taken++;
        } catch (const std::runtime_error &why) {
            if (std::string(why.what()).find(other) == std::string::npos) taken++;
        }
    };
    for (int i = 0; i < 400; i++) { // one bit, or cut short
        std::string it = text;
        if (i % 2) it[rng() % it.size()] ^= char(1 << rng() % 8); else it.resize(rng() % it.size());
        write_file(other, it);
        is_refused_now();
    }
    expect(taken == 0 && fresh.pages() == 0, "damaged files: " + std::to_string(taken) + " were taken");
    throws<std::runtime_error>("cannot be read", "no file", [] { (void)Home::restore(file_of("nothing")); });
    throws<std::runtime_error>("none is given", "a file's memory", [&] { (void)Home::restore(file); });
    throws<std::runtime_error>("cannot be written", "no folder", [&] { home.save(file_of("no/such")); });
    throws<std::runtime_error>("counts of other clients", "other clients", [&] {
        (void)Home::restore(file, [&](Options &o) { o.memory = &fresh; o.numbers.clients = 2; });
    });
    Home busy(s.options);
    Beat beat;
    beat.opcode = JV_OP_ACQUIRE_BLOCK; beat.param = JV_NTOT; beat.address = s.options.base;
    busy.a(0, beat);
    throws<std::logic_error>("is not quiet", "a home that is not flushed", [&] { busy.save(file); });
    expect(read_file(file) == text, "a file that stays as it was");
}

int main(int argc, char **argv) {
    std::cout << std::unitbuf;
    if (argc > 1) folder = argv[1];
    const std::vector<std::pair<const char *, void (*)()>> all = {
        {"bad options", bad_options}, {"numbers of blocks", numbers_of_blocks}, {"nobody's", nobodys},
        {"window full", window_full}, {"windows", windows}, {"the smallest window", smallest_window},
        {"the whole window", whole_window}, {"memories", memories}, {"starved", starved}, {"what is due", what_is_due},
        {"latencies", latencies}, {"counts", counts}, {"buckets", latency_buckets}, {"pokes", pokes},
        {"agents", agents}, {"halves", halves}, {"damaged", damaged}};
    for (const auto &it : all) {
        try {
            it.second();
        } catch (const std::exception &why) { expect(false, std::string(it.first) + ": " + why.what()); }
        is_refused = false;
    }
    std::cout << trials << " trials, " << failed << " failed; " << refused << " requests for memory were refused\n";
    return failed != 0;
}
