// queue: a simulator in miniature: an event queue, cores with an L1 each, and Jinavoke as the last-level cache over a
// memory of any size. docs/SIMULATOR.md explains it part by part. Words are KEY=VALUE:
//   cores=16 banks=8 accesses=1000000 memory=1073741824 window=65536 lines=128 seed=1
//   events=PREFIX   the steps of each bank, as records for `tlcheck`: PREFIX.0, PREFIX.1 ..
//   judge=1         hands each step of the banks to a judge, which tells the first that is not legal
//   json=FILE       the counts as JSON; their table is printed
//   half=FILE       stops after half of the accesses, and keeps the home there; half= goes on after the same pause
//   restore=FILE    goes on from such a file, to be given the same words
//   ticks=1         ticks each cycle, and asks for nothing that is due
// The last line says how many loads were wrong, how many faults there were, and a sum of the memory's bytes. Status 1
// where one of them was, or a step was not legal.
#include "core.hpp"
#include <chrono>
#include <iostream>

// ---- a memory with rows: the row that was read or written last is open, and answers sooner

struct Dram : jinavoke::PagedMemory {
    static constexpr uint64_t row_bytes = 8192, opening = 60; // cycles from the request on
    uint64_t row = ~uint64_t(0);
    uint64_t ready(const jinavoke::MemoryRequest &it, uint64_t now) override {
        const uint64_t its = it.address / row_bytes;
        if (row != its && now < it.cycle + opening) return it.cycle + opening;
        row = its;
        return now;
    }
};

// ---- all of it

struct Words {
    std::map<std::string, std::string> all;
    Words(int argc, char **argv) {
        for (int i = 1; i < argc; i++) {
            const std::string word = argv[i];
            const size_t at = word.find('=');
            if (at == std::string::npos) throw std::runtime_error("queue: " + word + " is not KEY=VALUE");
            all[word.substr(0, at)] = word.substr(at + 1);
        }
    }
    bool has(const char *key) const { return all.count(key) != 0; }
    std::string text(const char *key) const { return has(key) ? all.at(key) : ""; }
    uint64_t number(const char *key, uint64_t other) const {
        return has(key) ? std::stoull(all.at(key), nullptr, 0) : other;
    }
};

static jinavoke::Options options_of(const Words &words) {
    jinavoke::Options o;
    o.numbers = {2, int64_t(words.number("cores", 16)), int64_t(words.number("banks", 8)), 64, 64, 8, 8, 64,
                 int64_t(words.number("window", 65536))};
    o.base = 0x80000000;
    o.memory_bytes = words.number("memory", uint64_t(1) << 30);
    o.beat_bytes = 64;     // a message is one beat
    o.pace = 1;            // home does each step as soon as it can
    o.memory_cycles = 20;
    o.seed = uint32_t(words.number("seed", 1));
    return o;
}
// How long a message is on its way: the hops between a core and the bank on a ring, two cycles each; to the memory 5.
static uint64_t hops(const Home *home, uint32_t channel, uint32_t client, uint64_t address) {
    if (channel >= JV_MEMORY_A) return 5;
    const uint32_t bank = uint32_t(address / 64 % home->banks()) * home->clients() / home->banks();
    const uint32_t apart = client > bank ? client - bank : bank - client;
    return 1 + 2 * std::min(apart, home->clients() - apart);
}
static uint64_t sum_of(jinavoke::Memory &memory) { // of each byte that is not 0, with its address
    uint64_t sum = 0;
    std::vector<uint8_t> page(jinavoke::PagedMemory::page_bytes);
    for (const auto &it : memory.ranges()) {
        memory.read(it.first, page.data(), page.size());
        for (size_t i = 0; i < page.size(); i++)
            if (page[i]) sum += Program::mixed((it.first + i) * 256 + page[i]);
    }
    return sum;
}

class Simulator {
  public:
    explicit Simulator(const Words &words)
        : words_(words), accesses_(words.number("accesses", 1000000)), ticks_(words.number("ticks", 0) != 0) {
        auto ring = [this](uint32_t channel, uint32_t client, uint64_t address) {
            return hops(home_.get(), channel, client, address);
        };
        auto adapt = [&](jinavoke::Options &o) { o.memory = &dram_; o.latency = ring; };
        jinavoke::Options o = options_of(words);
        adapt(o);
        if (words.has("restore")) home_ = Home::restore(words.text("restore"), adapt);
        else home_ = std::make_unique<Home>(o);
        home_->on_fault = [](const jinavoke::Fault &f) { std::cout << f.text(); };
        program_ = {o.seed, home_->clients(), o.base, o.memory_bytes};
        if (words.has("events")) record();
        if (words.number("judge", 0)) judge();
        for (uint32_t k = 0; k < home_->clients(); k++)
            cores_.emplace_back(*home_, queue_, program_, k, size_t(words.number("lines", 128)));
    }
    int run() {
        const auto begun = std::chrono::steady_clock::now();
        const uint64_t each = accesses_ / cores_.size(), half = each / 2;
        const bool pauses = words_.has("half") || words_.has("restore");
        if (!words_.has("restore")) run_to(0, pauses ? half : each);
        if (!words_.text("half").empty()) {
            home_->save(words_.text("half"));
            return say(begun);
        }
        if (pauses) run_to(half, each);
        return say(begun);
    }

  private:
    // Runs each core's accesses, and then takes back what they hold.
    void run_to(uint64_t from, uint64_t to) {
        for (Core &core : cores_) core.run(from, to);
        while (!std::all_of(cores_.begin(), cores_.end(), [](const Core &it) { return it.is_done(); })) step();
        while (!home_->flush()) step();
    }
    // To the next cycle in which a core or home has something to do.
    void step() {
        uint64_t next = queue_.empty() ? ~uint64_t(0) : queue_.top().first;
        if (auto due = home_->next_due()) next = std::min(next, *due);
        if (ticks_) next = home_->cycle() + 1;
        home_->advance_to(next);
        steps_++;
        for (Core &core : cores_) core.hear();
        while (!queue_.empty() && queue_.top().first <= next) {
            const uint32_t k = queue_.top().second;
            queue_.pop();
            cores_[k].act();
        }
    }
    void record() {
        for (uint32_t bank = 0; bank < home_->banks(); bank++) {
            files_.emplace_back(words_.text("events") + "." + std::to_string(bank));
            records_.emplace_back(files_.back(), home_->options(), image(), bank);
            home_->watch(&records_.back());
        }
    }
    void judge() {
        judge_ = std::make_unique<jinavoke::EventJudge>(home_->options(), image());
        judge_->on_fault = [this](const std::string &said) {
            illegal_++;
            std::cout << "judge: " << said << "\n";
        };
        home_->watch(judge_.get());
    }
    // The bytes that the banks begin with: behind a window 0.
    std::vector<uint8_t> image() const {
        const jinavoke::Options &o = home_->options();
        std::vector<uint8_t> bytes(o.has_window() ? 0 : size_t(o.memory_bytes));
        if (!bytes.empty()) home_->peek(o.base, bytes.data(), bytes.size());
        return bytes;
    }
    int say(std::chrono::steady_clock::time_point begun) {
        const auto &counts = home_->counts();
        std::cout << counts.text();
        if (words_.has("json")) std::ofstream(words_.text("json")) << counts.json() << "\n";
        const double seconds = std::chrono::duration<double>(std::chrono::steady_clock::now() - begun).count();
        const double calls = double(counts[jinavoke::HomeCount::Calls]);
        uint64_t wrong = 0;
        for (const Core &core : cores_) wrong += core.wrong;
        std::cout << home_->cycle() << " cycles in " << steps_ << " steps, " << seconds << " s, " << dram_.pages()
                  << " pages, " << 100 * double(counts.refused_calls()) / std::max(calls, 1.0)
                  << " of 100 calls refused\n";
        if (judge_) std::cout << judge_->taken() << " steps judged, " << illegal_ << " not legal\n";
        std::cout << wrong << " wrong, " << home_->faults() << " faults, sum " << std::hex << sum_of(dram_) << "\n";
        return wrong || home_->faults() || illegal_;
    }

    const Words &words_;
    uint64_t accesses_, steps_ = 0, illegal_ = 0;
    bool ticks_;
    Dram dram_;
    std::unique_ptr<Home> home_;
    Program program_{};
    Queue queue_;
    std::deque<Core> cores_;
    std::deque<std::ofstream> files_;
    std::deque<jinavoke::EventRecord> records_;
    std::unique_ptr<jinavoke::EventJudge> judge_;
};

int main(int argc, char **argv) {
    try {
        const Words words(argc, argv);
        return Simulator(words).run();
    } catch (const std::exception &why) {
        std::cerr << why.what() << "\n";
        return 2;
    }
}
