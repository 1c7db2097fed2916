// Plays the steps of a script (docs/FORMAT.md) through jinavoke.h, and prints what `tlcache trace` prints of it.
// It reads as much of TOML as the scripts in examples/ have: lines `key = number`, and steps, one a line.
#include "jinavoke.h"
#include <cinttypes>
#include <cstdio>
#include <fstream>
#include <iostream>
#include <map>
#include <sstream>
#include <string>
#include <vector>

static const char *kind_name(uint32_t channel, uint32_t opcode) {
    static const std::map<uint32_t, const char *> names = {
        {6, "AcquireBlock"}, {16, "ProbeBlock"}, {24, "ProbeAck"}, {25, "ProbeAckData"}, {26, "Release"}, {27, "ReleaseData"},
        {34, "Grant"}, {35, "GrantData"}, {36, "ReleaseAck"}, {40, "GrantAck"}};
    return names.at(channel * 10 + opcode);
}
static const char *param_name(const jv_answer &a) {
    static const char *grow[] = {"NtoB", "NtoT", "BtoT"}, *cap[] = {"toT", "toB", "toN"};
    static const char *report[] = {"TtoB", "TtoN", "BtoN", "TtoT", "BtoB", "NtoN"};
    switch (a.channel) {
    case JV_A: return grow[a.param];
    case JV_B: return cap[a.param];
    case JV_C: return report[a.param];
    case JV_D: return a.opcode == JV_OP_RELEASE_ACK ? nullptr : cap[a.param];
    default: return nullptr;
    }
}
static void hex(const jv_answer &a) { for (uint32_t i = 0; i < a.len; i++) std::printf("%02x", a.bytes[i]); }

static void print_memory(const jv_answer &a) {
    bool carries = a.len != 0;
    if (a.opcode == JV_OP_GET) std::printf("memory 4.0 Get %u 0x%08x", a.size, a.address);
    else if (a.opcode == JV_OP_ACCESS_ACK_DATA) { std::printf("memory 1.0 AccessAckData %u ", a.size); hex(a); }
    else if (carries) { std::printf("memory 0.0 PutFullData %u 0x%08x ", a.size, a.address); hex(a); }
    else std::printf("memory 0.0 AccessAck %u", a.size);
}
static void print(long step, const jv_answer &a) {
    std::printf("%ld ", step);
    if (a.status) std::printf("refused %u", a.status);
    else switch (a.what) {
    case JV_TELLS_MESSAGE:
        std::printf("sent %u.%u.%c.%" PRIu64 " %u.%u %s", a.bank, a.client, "ABCDE"[a.channel], a.serial, a.opcode, a.param,
            kind_name(a.channel, a.opcode));
        if (param_name(a)) std::printf(" %s", param_name(a));
        if (a.len) { std::printf(" "); hex(a); }
        break;
    case JV_TELLS_MEMORY: print_memory(a); break;
    case JV_TELLS_DROPPED: std::printf("drop"); break;
    case JV_TELLS_LOADED: std::printf("data "); hex(a); break;
    default: std::printf("ok");
    }
    std::printf("\n");
}

static uint32_t number(const std::string &word) { return uint32_t(std::stoul(word, nullptr, 0)); }
static uint32_t place_in(const std::string &word, std::vector<std::string> names) {
    for (uint32_t i = 0; i < names.size(); i++) if (names[i] == word) return i;
    return 99;
}
static jv_ticket ticket(const std::string &word) { // BANK.CLIENT.CHANNEL.SERIAL
    jv_ticket t; char letter = 0;
    if (std::sscanf(word.c_str(), "%u.%u.%c.%" SCNu64, &t.bank, &t.client, &letter, &t.serial) != 4) std::exit(2);
    t.channel = uint32_t(letter - 'A');
    return t;
}
static jv_answer play(jv_cache *c, uint32_t index, const std::vector<std::string> &w) {
    const std::string &verb = w.at(0);
    auto n = [&](size_t i) { return number(w.at(i)); };
    jv_accessed accessed;
    if (verb == "load") { accessed = jv_load(c, n(1), n(2), n(3), index); return jv_accessed_wide(&accessed); }
    if (verb == "store") {
        std::vector<uint8_t> bytes;
        for (size_t i = 0; i + 1 < w.at(3).size(); i += 2) bytes.push_back(uint8_t(std::stoul(w[3].substr(i, 2), nullptr, 16)));
        accessed = jv_store(c, n(1), n(2), bytes.data(), uint32_t(bytes.size()), index);
        return jv_accessed_wide(&accessed);
    }
    if (verb == "acquire") return jv_acquire(c, n(1), n(2), jv_grow(place_in(w.at(3), {"NtoB", "NtoT", "BtoT"})));
    if (verb == "release") return jv_release(c, n(1), n(2), jv_prune(place_in(w.at(3), {"TtoB", "TtoN", "BtoN"})));
    if (verb == "advance") return jv_advance(c, n(1));
    if (verb == "evict") return jv_evict(c, n(1));
    if (verb == "serve_memory") return jv_serve_memory(c, n(1));
    if (verb == "take_memory") return jv_take_memory(c, n(1));
    jv_ticket t = ticket(w.at(1));
    if (verb == "answer_probe") return jv_answer_probe(c, t);
    if (verb == "take_grant") return jv_take_grant(c, t);
    if (verb == "take_release_ack") return jv_take_release_ack(c, t);
    if (verb == "accept") return jv_accept(c, t);
    if (verb == "take_c") return jv_take_c(c, t);
    if (verb == "take_grant_ack") return jv_take_grant_ack(c, t);
    std::exit(2);
}
static void close_lines(const jv_cache *c, const jv_numbers &n) {
    for (uint32_t bank = 0; bank < n.banks; bank++) {
        std::printf("bank %u held %" PRIu64 " recorded %" PRIu64 " events %" PRIu64 "\n", bank, jv_held(c, bank).serial,
            jv_recorded(c, bank).serial, jv_events(c, bank).serial);
    }
    std::printf("end\n");
}
static void block_lines(const jv_cache *c, const jv_numbers &n) { // of one bank: which bank a block lies in is home's affair
    for (uint32_t b = 0; b < n.memory_blocks; b++) {
        uint64_t home = jv_home_copy(c, b).serial;
        if (home == JV_HOME_NONE) continue;
        std::printf("block %u %s recorded ", b, home == JV_HOME_DIRTY ? "dirty" : "clean");
        for (uint32_t k = 0; k < n.clients; k++) std::printf("%c", "NBT"[jv_directory(c, k, b).serial]);
        std::printf(" copies ");
        for (uint32_t k = 0; k < n.clients; k++) std::printf("%c", "NBT"[jv_perm(c, k, b).serial]);
        std::printf("\n");
    }
}

int main(int argc, char **argv) {
    if (argc != 2) { std::fprintf(stderr, "usage: trace SCRIPT, of one bank\n"); return 2; }
    std::ifstream file(argv[1]);
    std::map<std::string, int64_t> given;
    std::vector<std::vector<std::string>> steps;
    for (std::string line; std::getline(file, line);) {
        size_t from = line.find('"'), to = line.rfind('"'), is = line.find(" = ");
        if (line[0] == '#') continue;
        if (from != std::string::npos && to > from) {
            std::istringstream words(line.substr(from + 1, to - from - 1));
            std::vector<std::string> step;
            for (std::string word; words >> word;) step.push_back(word);
            steps.push_back(step);
        } else if (is != std::string::npos && std::isdigit(line[is + 3])) given[line.substr(0, is)] = std::stoll(line.substr(is + 3));
    }
    jv_numbers n = {given["version"], given["clients"], given["banks"], given["block_bytes"], given["sets"], given["ways"],
        given["registers"], given["copies"], given["memory_blocks"]};
    uint32_t why;
    jv_cache *c = jv_new(&n, nullptr, 0, &why);
    if (!c) { std::fprintf(stderr, "jv_new: %u\n", why); return 1; }
    for (size_t i = 0; i < steps.size(); i++) print(long(i), play(c, uint32_t(i), steps[i]));
    block_lines(c, n);
    close_lines(c, n);
    jv_free(c);
    return 0;
}
