// jinavoke_counts.hpp: what a home of jinavoke.hpp counts, by client and in all, as numbers, as a table and as JSON.
// docs/SIMULATOR.md says what each number counts. C++17, header only, tested and not proved.
#ifndef JINAVOKE_COUNTS_HPP
#define JINAVOKE_COUNTS_HPP
#include "jinavoke.h"
#include <algorithm>
#include <array>
#include <cstdint>
#include <cstdio>
#include <string>
#include <vector>

namespace jinavoke {

// How long something took, in cycles: how often, the sum, the least and the greatest, and how often by powers of two.
struct Latencies {
    uint64_t count = 0, sum = 0, least = 0, greatest = 0;
    std::array<uint64_t, 65> buckets{}; // the first of 0 cycles, the k-th behind it of 2^(k-1) to 2^k - 1

    static size_t bucket_of(uint64_t cycles) {
        size_t bucket = 0;
        for (; cycles; cycles >>= 1) bucket++;
        return bucket;
    }
    static uint64_t first_of(size_t bucket) { return bucket ? uint64_t(1) << (bucket - 1) : 0; }
    void add(uint64_t cycles) {
        least = count ? std::min(least, cycles) : cycles;
        greatest = std::max(greatest, cycles);
        count++;
        sum += cycles;
        buckets[bucket_of(cycles)]++;
    }
    double mean() const { return count ? double(sum) / double(count) : 0; }
    Latencies &operator+=(const Latencies &it) {
        if (it.count) least = count ? std::min(least, it.least) : it.least;
        greatest = std::max(greatest, it.greatest);
        count += it.count;
        sum += it.sum;
        for (size_t i = 0; i < buckets.size(); i++) buckets[i] += it.buckets[i];
        return *this;
    }
};

// What is counted of a client.
enum class Count : uint32_t {
    Loads, LoadHits, Stores, StoreHits,                       // that taps told
    AcquireNtoB, AcquireNtoT, AcquireBtoT, AcquirePerm, Requests,
    GrantToT, GrantToB, GrantDataToT, GrantDataToB,           // without data, and with
    ReleaseTtoB, ReleaseTtoN, ReleaseBtoN, ReleaseTtoT, ReleaseBtoB, ReleaseNtoN,
    ReleaseDataTtoB, ReleaseDataTtoN, ReleaseDataTtoT, Drops, // dropped: inferred
    ProbeToB, ProbeToN,
    AnswerTtoB, AnswerTtoN, AnswerBtoN, AnswerBtoB, AnswerNtoN, AnswerDataTtoB, AnswerDataTtoN,
    Brought                                                   // blocks that were brought into the window
};
// What is counted of the home.
enum class HomeCount : uint32_t {
    Cycles, Fetches, Writebacks, Unchanged, Evictions, Rooms, MostMessages, MostRegisters, MostNumbers, Calls
};

struct ClientCounts {
    static constexpr size_t kinds = size_t(Count::Brought) + 1;
    static constexpr size_t statuses = 34; // those of jv_status, and what only a window has
    std::array<uint64_t, kinds> of{};
    std::array<uint64_t, statuses> held{};    // Acquires that waited before the bank was handed them, by the reason
    std::array<uint64_t, statuses> waited{};  // Acquires that waited at the bank, by the first refusal
    std::array<uint64_t, statuses> refused{}; // messages and accesses that were refused: the client's faults
    Latencies latency;                        // from an Acquire to the last beat of its Grant

    uint64_t operator[](Count it) const { return of[size_t(it)]; }
    uint64_t &operator[](Count it) { return of[size_t(it)]; }
    ClientCounts &operator+=(const ClientCounts &it) {
        for (size_t i = 0; i < kinds; i++) of[i] += it.of[i];
        for (size_t i = 0; i < statuses; i++) {
            held[i] += it.held[i];
            waited[i] += it.waited[i];
            refused[i] += it.refused[i];
        }
        latency += it.latency;
        return *this;
    }
    static const char *name(size_t kind) {
        static const char *const names[kinds] = {
            "loads", "load hits", "stores", "store hits", "Acquires NtoB", "Acquires NtoT", "Acquires BtoT",
            "AcquirePerms", "requests without a cache", "Grants toT", "Grants toB", "Grants toT with data",
            "Grants toB with data", "Releases TtoB", "Releases TtoN", "Releases BtoN", "Releases TtoT",
            "Releases BtoB", "Releases NtoN", "Releases TtoB with data", "Releases TtoN with data",
            "Releases TtoT with data", "copies dropped in silence", "Probes toB", "Probes toN", "ProbeAcks TtoB",
            "ProbeAcks TtoN", "ProbeAcks BtoN", "ProbeAcks BtoB", "ProbeAcks NtoN", "ProbeAcks TtoB with data",
            "ProbeAcks TtoN with data", "blocks brought into the window"};
        return names[kind];
    }
    static std::string reason(size_t status) { // why an Acquire is held back
        return status == 0 ? "behind another" : status == statuses - 2 ? "brought in" : status == statuses - 1
            ? "window full" : jv_status_name(uint32_t(status));
    }
};

// All that a home counts since it was made, or since they were last reset.
struct Counts {
    static constexpr size_t kinds = size_t(HomeCount::Calls) + 1;
    // why an Acquire is held beside the statuses: its block is brought into the window; each number is in use
    static constexpr uint32_t brought_in = uint32_t(ClientCounts::statuses - 2);
    static constexpr uint32_t window_full = uint32_t(ClientCounts::statuses - 1);
    std::vector<ClientCounts> clients;
    std::array<uint64_t, kinds> home{};
    std::array<uint64_t, ClientCounts::statuses> polls{}; // calls that a bank refused, by the status

    explicit Counts(size_t clients = 0) : clients(clients) {}
    uint64_t operator[](HomeCount it) const { return home[size_t(it)]; }
    uint64_t &operator[](HomeCount it) { return home[size_t(it)]; }
    ClientCounts all() const {
        ClientCounts sum;
        for (const ClientCounts &it : clients) sum += it;
        return sum;
    }
    uint64_t refused_calls() const {
        uint64_t sum = 0;
        for (uint64_t it : polls) sum += it;
        return sum;
    }
    static const char *name(size_t kind) {
        static const char *const names[kinds] = {
            "cycles", "blocks fetched", "blocks written back", "written back as they were", "evictions",
            "evictions for room", "most messages in flight", "most registers in use",
            "most numbers of the window in use", "calls of the banks"};
        return names[kind];
    }

    // A table: a line for each number that is not 0, with all clients first; then the latencies, then home's.
    std::string text() const {
        std::vector<const ClientCounts *> columns;
        const ClientCounts sum = all();
        columns.push_back(&sum);
        for (const ClientCounts &it : clients) columns.push_back(&it);
        std::string s = padded("clients") + right("all");
        for (size_t k = 0; k < clients.size(); k++) s += right(std::to_string(k));
        s += "\n";
        each_of_client(sum, [&](const std::string &name, auto get) {
            if (!get(sum)) return;
            s += padded(name);
            for (const ClientCounts *it : columns) s += right(std::to_string(get(*it)));
            s += "\n";
        });
        if (sum.latency.count) s += latencies(columns);
        s += "home\n";
        each_of_home([&](const std::string &name, uint64_t n) {
            if (n) s += padded(name) + right(std::to_string(n)) + "\n";
        });
        return s;
    }
    // One object: each number by its name, blanks as underscores, also those that are 0 where they have a name of
    // their own; "clients" is an array in the order of the clients, "all" their sum.
    std::string json() const {
        std::string s = "{";
        each_of_home([&](const std::string &name, uint64_t n) { s += field(name, std::to_string(n)) + ", "; });
        s += "\"all\": " + json_of(all()) + ", \"clients\": [";
        for (size_t k = 0; k < clients.size(); k++) s += (k ? ", " : "") + json_of(clients[k]);
        return s + "]}";
    }
    // Each number with its name, in a fixed order, to be saved or set.
    template <class Self, class F> static void each_word(Self &it, F f) {
        for (auto &n : it.home) f(n);
        for (auto &n : it.polls) f(n);
        for (auto &client : it.clients) {
            for (auto *list : {&client.held, &client.waited, &client.refused}) for (auto &n : *list) f(n);
            for (auto &n : client.of) f(n);
            auto &latency = client.latency;
            for (auto *n : {&latency.count, &latency.sum, &latency.least, &latency.greatest}) f(*n);
            for (auto &n : latency.buckets) f(n);
        }
    }

  private:
    static std::string padded(const std::string &name) {
        return name + std::string(name.size() < 33 ? 34 - name.size() : 1, ' ');
    }
    static std::string right(const std::string &word) {
        return std::string(word.size() < 10 ? 10 - word.size() : 0, ' ') + word;
    }
    static std::string fixed(double n) {
        char text[32];
        std::snprintf(text, sizeof text, "%.1f", n);
        return text;
    }
    static std::string field(std::string name, const std::string &value) {
        std::replace(name.begin(), name.end(), ' ', '_');
        return "\"" + name + "\": " + value;
    }
    template <class F> static void each_of_client(const ClientCounts &sum, F f) {
        for (size_t i = 0; i < ClientCounts::kinds; i++)
            f(ClientCounts::name(i), [i](const ClientCounts &it) { return it.of[i]; });
        for (size_t i = 0; i < ClientCounts::statuses; i++) if (sum.held[i])
            f("Acquires held, " + ClientCounts::reason(i), [i](const ClientCounts &it) { return it.held[i]; });
        for (size_t i = 0; i < ClientCounts::statuses; i++) if (sum.waited[i])
            f("Acquires waited, " + ClientCounts::reason(i), [i](const ClientCounts &it) { return it.waited[i]; });
        for (size_t i = 0; i < ClientCounts::statuses; i++) if (sum.refused[i])
            f("refused, " + ClientCounts::reason(i), [i](const ClientCounts &it) { return it.refused[i]; });
    }
    template <class F> void each_of_home(F f) const {
        for (size_t i = 0; i < kinds; i++) f(std::string(name(i)), home[i]);
        for (size_t i = 0; i < polls.size(); i++)
            if (polls[i]) f("calls refused, " + ClientCounts::reason(i), polls[i]);
    }
    static std::string latencies(const std::vector<const ClientCounts *> &columns) {
        std::string s = "cycles from an Acquire to its Grant\n";
        auto row = [&](const std::string &name, auto get) {
            s += padded("  " + name);
            for (const ClientCounts *it : columns) s += right(get(it->latency));
            s += "\n";
        };
        row("least", [](const Latencies &it) { return std::to_string(it.least); });
        row("mean", [](const Latencies &it) { return fixed(it.mean()); });
        row("greatest", [](const Latencies &it) { return std::to_string(it.greatest); });
        for (size_t i = 0; i < columns[0]->latency.buckets.size(); i++) {
            if (!columns[0]->latency.buckets[i]) continue;
            const uint64_t from = Latencies::first_of(i), to = i < 2 ? from : 2 * (from - 1) + 1;
            std::string name = std::to_string(from);
            if (to > from) name += " to " + std::to_string(to);
            row(name, [i](const Latencies &it) { return std::to_string(it.buckets[i]); });
        }
        return s;
    }
    static std::string json_of(const ClientCounts &it) {
        std::string s = "{";
        each_of_client(it, [&](const std::string &name, auto get) {
            s += field(name, std::to_string(get(it))) + ", ";
        });
        s += "\"latency\": {" + field("count", std::to_string(it.latency.count)) + ", "
            + field("least", std::to_string(it.latency.least)) + ", " + field("mean", fixed(it.latency.mean())) + ", "
            + field("greatest", std::to_string(it.latency.greatest)) + ", \"from\": {";
        bool is_first = true;
        for (size_t i = 0; i < it.latency.buckets.size(); i++) {
            if (!it.latency.buckets[i]) continue;
            s += (is_first ? "" : ", ") + field(std::to_string(Latencies::first_of(i)),
                                                std::to_string(it.latency.buckets[i]));
            is_first = false;
        }
        return s + "}}}";
    }
};

} // namespace jinavoke
#endif
