// What the benches in C++ share: words of the command line, a scoreboard, what cores ask for, what a run has come to.
#pragma once
#include "jinavoke.hpp"
#include <chrono>
#include <cstdlib>
#include <iostream>
#include <map>
#include <memory>

struct Settings {
    std::map<std::string, std::string> words;
    Settings(int argc, char **argv) {
        for (int i = 1; i < argc; i++) {
            std::string word = argv[i];
            size_t at = word.find('=');
            if (at == std::string::npos) { std::cerr << "bench: " << word << " is not KEY=VALUE\n"; std::exit(2); }
            words[word.substr(0, at)] = word.substr(at + 1);
        }
    }
    std::string text(const char *key) const {
        auto it = words.find(key);
        return it == words.end() ? "" : it->second;
    }
    std::ofstream file(const char *key) const { // opened where the key names one; else nothing is written
        std::ofstream it;
        if (!text(key).empty()) it.open(text(key));
        if (it) return it;
        std::cerr << "bench: " << text(key) << " cannot be written\n";
        std::exit(2);
    }
    uint64_t number(const char *key, uint64_t other) const {
        auto it = words.find(key);
        return it == words.end() ? other : std::stoull(it->second, nullptr, 0);
    }
};

static uint32_t place_of(const std::string &word, std::initializer_list<const char *> names, const char *what) {
    uint32_t n = 0;
    for (const char *name : names) { if (word == name) return n; n++; }
    std::cerr << "bench: there is no " << what << " " << word << "\n";
    std::exit(2);
}
// What was stored last.
struct Board {
    uint64_t base;
    std::vector<uint8_t> bytes;
    // Whether a load is right; a store is kept.
    bool did(bool is_store, uint64_t address, const uint8_t *data, uint32_t len) {
        uint8_t *at = &bytes.at(address - base);
        if (is_store) { std::memcpy(at, data, len); return true; }
        return std::memcmp(at, data, len) == 0;
    }
};

// What a core asks for.
struct Asked {
    uint32_t op, size; // 0 a load, 1 a store, 2 a flush; the base-2 logarithm of its bytes
    uint64_t address, data;
};
// An access at random, in one of so many blocks of 64 bytes; one in ten is a flush.
static Asked any_access(std::mt19937 &rng, uint64_t base, uint32_t spots) {
    const uint32_t size = rng() % 4, kind = rng() % 100, block = rng() % spots, at = rng() % 64;
    const uint64_t high = rng(), low = rng();
    return {kind < 10 ? 2u : kind < 55 ? 0u : 1u, size, base + block * 64 + (at >> size << size), high << 32 | low};
}

// What a run has come to.
struct Outcome {
    uint64_t faults = 0, wrong = 0;             // of the home, and of the scoreboard
    uint64_t first_fault = 0, first_wrong = 0;  // their cycles
};

// The most memory that the process has taken, where the system tells it.
static uint64_t kibibytes() {
    std::ifstream status("/proc/self/status");
    for (std::string line; std::getline(status, line);)
        if (line.rfind("VmHWM:", 0) == 0) return std::stoull(line.substr(6));
    return 0;
}
