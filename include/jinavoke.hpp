// jinavoke.hpp: a home for the TL-C links of an RTL design, over the proved banks of jinavoke.h. C++17, header only,
// tested and not proved. docs/RTL.md leads through it.
//
//   jinavoke::Options options;                  // how many clients, how large a cache, the base of the memory, the bus
//   jinavoke::Home home(options, image);
//   at each clock edge what fired is told, in this order: D and B (home.d_taken, home.b_taken), C (home.c), what the
//   cores did (home.load, home.store), A and E (home.a, home.e); then home.tick(), and home.b and home.d are to be
//   driven.
//
// Each message that a client sends is asked of the model, the client that the banks have in its place: it is done where
// the model would send the same, kind and bytes, and is a fault else. Home's own messages are those of the banks.
// Channels may overtake one another on the way: a message waits until those that justify it have come, at most
// `patience` cycles.
//
// Beside it, for a design with a home of its own: jinavoke::Judge is handed that home's and its clients' events, and
// tells of each at once whether it is permitted; jinavoke::PinsJudge is handed what is seen at one client's pins, and
// tells of each line at once whether it may be seen there.
#ifndef JINAVOKE_HPP
#define JINAVOKE_HPP
#include "jinavoke.h"
#include "jinavoke_checkpoint.hpp"
#include "jinavoke_counts.hpp"
#include "jinavoke_memory.hpp"
#include <algorithm>
#include <array>
#include <bitset>
#include <cstdio>
#include <cstring>
#include <deque>
#include <fstream>
#include <functional>
#include <map>
#include <memory>
#include <optional>
#include <queue>
#include <random>
#include <set>
#include <sstream>
#include <stdexcept>
#include <string>
#include <utility>
#include <vector>

namespace jinavoke {

// ---- words

using Bytes = std::array<uint8_t, JV_MOST_BLOCK_BYTES>;

namespace words {
inline const char *at(std::initializer_list<const char *> names, uint32_t n) {
    return n < names.size() ? names.begin()[n] : "?";
}
inline const char *grow(uint32_t n) { return at({"NtoB", "NtoT", "BtoT"}, n); }
inline const char *report(uint32_t n) { return at({"TtoB", "TtoN", "BtoN", "TtoT", "BtoB", "NtoN"}, n); }
inline const char *cap(uint32_t n) { return at({"toT", "toB", "toN"}, n); }
inline const char *perm(uint64_t n) { return at({"None", "Branch", "Tip"}, uint32_t(n)); }
inline const char *opcode(uint32_t channel, uint32_t n) {
    switch (channel) {
    case JV_A:
        return at({"PutFullData", "PutPartialData", "ArithmeticData", "LogicalData", "Get", "Intent", "AcquireBlock",
                   "AcquirePerm"}, n);
    case JV_B: return at({"?", "?", "?", "?", "?", "?", "ProbeBlock", "ProbePerm"}, n);
    case JV_C:
        return at({"AccessAck", "AccessAckData", "HintAck", "?", "ProbeAck", "ProbeAckData", "Release",
                   "ReleaseData"}, n);
    case JV_D: return at({"AccessAck", "AccessAckData", "HintAck", "?", "Grant", "GrantData", "ReleaseAck", "?"}, n);
    default: return "GrantAck";
    }
}
inline const char *event(uint32_t n) {
    return at({"load", "store", "acquire", "release", "answer_probe", "take_grant", "take_release_ack", "accept",
               "probe", "take_c", "grant", "take_grant_ack", "get", "serve", "take_data", "drop", "put",
               "take_put_ack"}, n);
}
inline std::string number(uint64_t n) { return std::to_string(n); }
inline std::string address(uint64_t n) {
    char text[24];
    std::snprintf(text, sizeof text, "0x%08llx", static_cast<unsigned long long>(n));
    return text;
}
inline std::string hex(const uint8_t *bytes, size_t len) {
    static const char digits[] = "0123456789abcdef";
    std::string s(2 * len, '0');
    for (size_t i = 0; i < len; i++) { s[2 * i] = digits[bytes[i] >> 4]; s[2 * i + 1] = digits[bytes[i] & 15]; }
    return s;
}
} // namespace words

// Where the first eight bytes begin in which two blocks differ; the last eight, where they do not.
inline size_t first_other(const uint8_t *a, const uint8_t *b, size_t len) {
    return size_t(std::mismatch(a, a + len - 1, b).first - a) / 8 * 8;
}

// ---- beats and messages

struct Beat { // what the wires of a channel carry in one cycle
    uint32_t opcode = 0, param = 0, source = 0, sink = 0;
    std::optional<uint32_t> size; // where the link has it
    uint64_t address = 0;
    Bytes data{}; // the lanes of the bus, lane 0 first
    std::optional<uint64_t> mask; // of a request without a cache, where the link has it: a bit for each lane
};
struct Message { // its beats joined
    uint64_t cycle = 0; // of its last beat
    uint32_t bank = 0, client = 0, channel = JV_A, opcode = 0, param = 0, source = 0, sink = 0;
    uint64_t address = 0; // of its block; Home knows it on D and E too
    uint32_t len = 0;     // of its data, else 0
    Bytes bytes{};
    bool is_inferred = false; // nobody saw it: the model's client sent it for one that dropped its copy
    bool is_clean = false; // on C, with taps: its data are those of a Tip to which nobody told a store
    std::optional<uint32_t> size; // of a request without a cache and of its answer: the base-2 logarithm of the bytes

    std::string kind() const { // as in a trace
        std::string s = words::opcode(channel, opcode), blank = " ";
        if (channel == JV_A && opcode >= 6) s += blank + words::grow(param);
        if (channel == JV_C && opcode >= 4) s += blank + words::report(param);
        if (channel == JV_B || is_grant()) s += blank + words::cap(param);
        return s;
    }
    std::string shown() const {
        return (len ? kind() + " " + words::hex(bytes.data(), len) : kind()) + (is_inferred ? " # inferred" : "");
    }
    bool is_grant() const { return channel == JV_D && (opcode == JV_OP_GRANT || opcode == JV_OP_GRANT_DATA); }
    bool is_release() const { return channel == JV_C && (opcode == JV_OP_RELEASE || opcode == JV_OP_RELEASE_DATA); }
    bool is_answer() const { return channel == JV_C && (opcode == JV_OP_PROBE_ACK || opcode == JV_OP_PROBE_ACK_DATA); }
};
inline bool has_data(uint32_t channel, uint32_t opcode) {
    return channel == JV_A || channel == JV_B ? opcode < 4 : channel != JV_E && opcode % 2 == 1;
}

struct Bus { // how a block lies on the wires: block and beat bytes, each 8 to 64 and a power of two
    uint32_t block_bytes = 64, beat_bytes = 8;
    uint32_t beats(bool has_data) const { return beats_of(has_data ? block_bytes : 0); }
    uint32_t beats_of(uint32_t len) const { return len > beat_bytes ? len / beat_bytes : 1; } // of so many bytes
    uint32_t len() const { return std::min(block_bytes, beat_bytes); }
    uint32_t lane(uint64_t address) const { return lane_of(address, block_bytes); } // where the block begins
    uint32_t lane_of(uint64_t address, uint32_t len) const { // where so many bytes begin, on a bus that is wider
        return len && len < beat_bytes ? uint32_t(address % beat_bytes) / len * len : 0;
    }
    uint64_t lanes_of(uint64_t address, uint32_t len) const { // the lanes where they lie
        uint32_t n = std::min(len, beat_bytes);
        return (n == 64 ? ~uint64_t(0) : (uint64_t(1) << n) - 1) << lane_of(address, len);
    }
    Beat part(const Message &m, uint32_t at) const { // the beat of a message at a place
        Beat b;
        b.opcode = m.opcode; b.param = m.param; b.source = m.source; b.sink = m.sink; b.address = m.address;
        b.size = m.size.value_or(size());
        uint32_t n = std::min(m.len, beat_bytes);
        if (n) std::memcpy(&b.data[lane_of(m.address, m.len)], &m.bytes[at * beat_bytes], n);
        return b;
    }
    uint32_t size() const { uint32_t n = 0; while ((1u << n) < block_bytes) n++; return n; }
};
class Joiner { // joins the beats of one channel of one link
  public:
    Joiner(Bus bus, uint32_t client, uint32_t channel) : bus_(bus) { now_.client = client; now_.channel = channel; }
    // The message whose last beat this is. A beat whose fields are not those of the message's first is torn.
    std::optional<Message> take(const Beat &b) {
        bool data = has_data(now_.channel, b.opcode);
        torn_.reset();
        if (at_ > 0 && !is_of(b)) { torn_ = now_; at_ = 0; }
        if (at_ == 0) {
            now_.opcode = b.opcode; now_.param = b.param; now_.source = b.source; now_.sink = b.sink;
            now_.address = b.address;
            size_ = b.size;
            now_.len = data ? bus_.block_bytes : 0;
            now_.bytes.fill(0);
        }
        if (data) std::memcpy(&now_.bytes[at_ * bus_.beat_bytes], &b.data[bus_.lane(b.address)], bus_.len());
        if (++at_ < bus_.beats(data)) return std::nullopt;
        at_ = 0;
        return now_;
    }
    const std::optional<Message> &torn() const { return torn_; } // the message that this beat broke off
    bool is_open() const { return at_ > 0; }                     // a message has begun, and beats of it are to come
    const Message &now() const { return now_; }                  // with the beats so far
    uint32_t beats() const { return at_; }

  private:
    bool is_of(const Beat &b) const {
        return b.opcode == now_.opcode && b.param == now_.param && b.source == now_.source && b.size == size_
            && b.address == now_.address;
    }
    Bus bus_;
    Message now_;
    std::optional<uint32_t> size_; // of the first beat, where the link has it
    uint32_t at_ = 0;
    std::optional<Message> torn_;
};

// ---- requests of agents without a cache

struct Request { // a Get, a Put, an atomic or a Hint: its beats joined
    enum Opcode : uint32_t { PutFull, PutPartial, Arithmetic, Logical, Get, Intent };
    static constexpr uint32_t MostSize = 12; // of a burst whose beats are joined, to be refused as one
    uint32_t opcode = Get, param = 0, source = 0, size = 0;
    uint64_t address = 0;
    Bytes data{};                             // its first byte first
    std::bitset<JV_MOST_BLOCK_BYTES> mask{};  // the bytes that a Put stores
    uint32_t beats = 0;                       // so many have come
    bool is_refused = false;                  // a fault of it was told

    uint32_t len() const { return 1u << size; }
    bool has_data() const { return opcode < Get; }
    bool is_atomic() const { return opcode == Arithmetic || opcode == Logical; }
    bool is_put() const { return opcode <= PutPartial; }
    bool is_of(const Beat &b) const {
        return b.opcode == opcode && b.param == param && b.source == source && b.address == address
            && b.size.value_or(size) == size;
    }
    // What an atomic leaves of `len` bytes, the lowest first.
    uint64_t leaves(uint64_t old, uint64_t by) const {
        uint64_t sign = uint64_t(1) << (8 * len() - 1), ones = sign - 1 + sign;
        if (opcode == Logical) return param == 0 ? old ^ by : param == 1 ? old | by : param == 2 ? old & by : by;
        bool is_less = param < 2 ? (old ^ sign) < (by ^ sign) : old < by; // with their signs, or without
        if (param == 4) return (old + by) & ones;
        return is_less == (param % 2 == 0) ? old : by; // MIN and MINU; MAX and MAXU
    }
    // What of a beat is no request of this project's agents; empty where it is one.
    static std::string wrong(const Beat &b, uint32_t size, const Bus &bus) {
        static const uint32_t params[] = {1, 1, 5, 4, 1, 2}; // of each opcode: so many
        if (b.opcode > Intent) return " is no request of an agent without a cache";
        if (b.param >= params[b.opcode]) return " has no such param";
        if (size > bus.size() || b.address % (uint64_t(1) << size)) return " is not of one block: its size or address";
        if ((b.opcode == Arithmetic || b.opcode == Logical) && size > 3) return " of more than 8 bytes";
        uint64_t lanes = bus.lanes_of(b.address, 1u << size), mask = b.mask.value_or(lanes);
        if (b.opcode == PutPartial ? mask & ~lanes : b.opcode != Intent && mask != lanes)
            return " has a mask that is none of its bytes";
        return "";
    }
};

// ---- what is told of a run

struct Access { // of a core, 1 to 8 bytes of one block
    uint64_t cycle = 0;
    uint32_t bank = 0, client = 0;
    bool is_store = false;
    uint64_t address = 0;
    uint32_t len = 0;
    std::array<uint8_t, 8> bytes{};
    bool is_inferred = false; // nobody told it: the model's client needs it for the data that its client sent
};
struct Event { // a step of the model: jv_event_kind
    uint32_t kind = 0, bank = 0, client = 0, block = 0, param = 0;
    const Message *seen = nullptr;
    const Access *access = nullptr;
    bool is_inferred = false; // nothing on the links shows it, or shows it so: an option lets the client do that
};
struct MemoryMessage { // between home and the memory
    uint64_t cycle = 0;
    uint32_t bank = 0, block = 0, channel = JV_A, opcode = 0, len = 0;
    Bytes bytes{};
};
struct WindowLine { // a number of the banks stands for another block from now on
    uint64_t cycle = 0;
    uint32_t bank = 0, block = 0;
    uint64_t address = 0; // of the block in the memory
};
struct PokeLine { // bytes of one block were written behind the home
    uint64_t cycle = 0;
    uint32_t bank = 0;
    uint64_t address = 0;
    const std::vector<uint8_t> *bytes = nullptr;
};
struct Watch { // is told all that Home sees and does; a fault's own message comes before the fault
    virtual ~Watch() = default;
    virtual void message(const Message &) {}
    virtual void begun(const Message &) {} // on D, of several beats: its first was taken
    virtual void access(const Access &) {}
    virtual void memory(const MemoryMessage &) {}
    virtual void event(const Event &) {}
    virtual void window(const WindowLine &) {}
    virtual void poke(const PokeLine &) {}
};

enum class Cause { Refused, Differs, Load, Beats, Codes, Address, Source, Sink, Unasked, Late, Outside, Window };
inline const char *cause_name(Cause c) {
    return words::at({"refused", "differs", "load", "beats", "codes", "address", "source", "sink", "unasked", "late",
                      "outside the model", "window full"}, uint32_t(c));
}
// What a client may not do; or what is none of its faults: a message of TileLink that the model has not (`Outside`), or
// what this cache has no room for (a status of class limit, or `Window`).
struct Fault {
    uint64_t cycle = 0;
    uint32_t client = 0;
    std::optional<uint32_t> block;
    std::optional<uint64_t> address; // of the block, where its number is one of a window
    Cause cause = Cause::Refused;
    uint32_t status = JV_OK;      // of the model's refusal
    std::string said;             // what was seen, and what is wrong with it
    std::vector<std::string> state; // what the model has of the block
    std::vector<std::string> last;  // the last messages of the block, oldest first
    std::string script;           // the block's history for `tlchart`, where it is short enough, else empty

    // Whether the device did what it may not.
    bool is_of_device() const {
        bool is_room = cause == Cause::Window || jv_status_class(status) == JV_CLASS_LIMIT;
        return cause != Cause::Outside && !is_room;
    }
    // The status's name, as `wrong from`; or the cause's.
    std::string name() const { return cause == Cause::Refused ? jv_status_name(status) : cause_name(cause); }
    std::string line() const {
        std::string s = "cycle " + words::number(cycle) + ": client " + words::number(client);
        if (block) s += ", block " + words::number(*block);
        if (address) s += " at " + words::address(*address);
        return s + ": " + name() + ": " + said;
    }
    std::string text() const {
        std::string s = line() + "\n";
        for (auto &it : state) s += "    " + it + "\n";
        if (!last.empty()) s += "  the last messages of the block:\n";
        for (auto &it : last) s += "    " + it + "\n";
        return s;
    }
};

// ---- options

struct Options {
    jv_numbers numbers = {2, 4, 1, 64, 16, 4, 8, 64, 4096}; // as in jinavoke.h: a cache of how many clients, banks ..
    uint64_t base = 0;           // the address of block 0
    uint32_t beat_bytes = 8;     // of the bus
    uint32_t sources = 16;       // a link's sources are 0 to one less
    uint32_t sinks = 16;         // and its sinks
    bool has_taps = true;        // load and store are called; else they are ignored, and stores are inferred from what
                                 // the clients send back
    bool silent_branch = false;  // a client may drop a clean Branch and send no Release
    bool silent_tip = false;     // a client may drop a clean Tip and send no Release
    bool acquire_perm = false;   // a client may send an AcquirePerm, and stores each byte before it loads it
    bool cleans = false;         // a client may send a Release that keeps its copy: TtoT, BtoB, NtoN
    struct Range { uint32_t link, from, to; }; // sources of a link, with the last
    std::vector<Range> uncached; // each is an agent without a cache, and the last clients of `numbers` stand for them
    std::vector<Range> cached;   // the sources of each other client; none: client k has those of link k that are left
    bool gives_more = false;     // a client may answer a Probe toB by giving its copy up: TtoN or BtoN
    bool keeps_log = false;      // else the banks forget their logs, and memory stays flat
    uint64_t patience = 20000;   // so many cycles what has to come may take; 0: for ever
    uint64_t slack = 0;          // so many cycles an Acquire may take from its client to here
    uint32_t pace = 3;           // a step of home is tried in one of so many cycles; 1: at once
    uint32_t memory_cycles = 20; // the memory answers after so many
    uint32_t evict_every = 0;    // in one of so many cycles home evicts a block; 0: only where it must
    uint32_t seed = 1;           // of home's choices
    size_t last = 12;            // so many messages are told with a fault
    // For a simulator (docs/SIMULATOR.md): how many cycles a message is on its way on each channel (jv_channel), by a
    // table, or by what is asked for each message with its client and the address of its block. On D and B it is
    // offered then; to the memory (JV_MEMORY_A) and back (JV_MEMORY_D) it takes so long beside `memory_cycles`.
    std::array<uint64_t, 7> latencies{};
    std::function<uint64_t(uint32_t channel, uint32_t client, uint64_t address)> latency;
    Memory *memory = nullptr;    // of the user's own, behind the home: it has to live as long
    uint64_t memory_bytes = 0;   // of it, from `base` on; where they are more than memory_blocks, these are a window
    bool has_window() const { // of lawful numbers
        auto is_in = [](int64_t n, int64_t least, int64_t most) { return least <= n && n <= most; };
        const jv_numbers &n = numbers;
        return memory && is_in(n.banks, 1, JV_MOST_BANKS) && is_in(n.sets, 1, JV_MOST_SETS)
            && is_in(n.ways, 1, JV_MOST_WAYS) && is_in(n.block_bytes, 8, JV_MOST_BLOCK_BYTES)
            && is_in(n.memory_blocks, 1, JV_MOST_MEMORY_BLOCKS)
            && memory_bytes > uint64_t(n.memory_blocks * n.block_bytes);
    }
};

// ---- a judge of events beside a bench

// The first eight bytes in which what is sent differs from what is shown.
inline std::string other_bytes(const uint8_t *sent, const uint8_t *shown, size_t len) {
    size_t at = first_other(shown, sent, len);
    return "bytes " + words::number(at) + " to " + words::number(at + 7) + " " + words::hex(sent + at, 8) + ", and "
        + words::hex(shown + at, 8) + " are shown";
}

// What clients do that a judge permits: with `drops_clean` a client may drop a clean copy, and send no Release.
enum class Clients { exact, drops_clean };
// Whom home probes: those that it records above what the Probe asks for; or, with `anyone`, also clients that have no
// more than the Probe leaves them, as a home without an exact directory does.
enum class Probes { recorded, anyone };

// One block's jj_judge for clients that drop clean copies, or a home that probes anyone.
//
// What a client dropped is known once it acquires the block anew, or answers a Probe NtoN: then the judge is handed a
// Release of it that nobody saw. That stands where home accepts the Acquire, since home may send Probes by its record
// until then; so the Acquire too is handed in there, and not where it is sent. A Probe that asks for no less than is
// recorded is an idle one: it, its answer and home's taking of that change nothing, and are not handed in. Each entry's
// place is that of the block as block 0.
class BlockJudge {
  public:
    BlockJudge(const jj_numbers &numbers, const std::vector<uint8_t> &image, Clients clients, Probes probes)
        : may_drop_(clients == Clients::drops_clean), is_probing_anyone_(probes == Probes::anyone),
          block_bytes_(numbers.block_bytes), clients_(numbers.clients) {
        uint32_t why = 0;
        judge_ = jj_new(&numbers, image.data(), image.size(), &why);
        if (!judge_) throw std::runtime_error("jinavoke: no judge: " + words::number(why) + " " + jv_status_name(why));
    }
    BlockJudge(const BlockJudge &) = delete;
    BlockJudge &operator=(const BlockJudge &) = delete;
    ~BlockJudge() { jj_free(judge_); }

    jj_verdict see(const jj_entry &e) {
        bool is_there = e.event >= JV_EVENT_SEND_GET || e.client < clients_.size();
        if (!is_there) return jj_see(judge_, &e); // (which says what is wrong)
        switch (e.event) {
        case JV_EVENT_LOAD: case JV_EVENT_STORE: return access(e);
        case JV_EVENT_SEND_ACQUIRE: return acquire(e);
        case JV_EVENT_SEND_RELEASE: settle(e.client); return hand(e);
        case JV_EVENT_ANSWER_PROBE: return clients_[e.client].has_idle_probe ? answer_idle(e) : answer(e);
        case JV_EVENT_ACCEPT_ACQUIRE: settle(e.client); return hand(e);
        case JV_EVENT_SEND_PROBE: return probe(e);
        case JV_EVENT_TAKE_C: return take_c(e);
        case JV_EVENT_SEND_GRANT: return grant(e);
        case JV_EVENT_TAKE_GRANT: return take_grant(e);
        case JV_EVENT_DROP: case JV_EVENT_SEND_PUT: return is_idly_probed() ? told(0, JJ_NOTHING_IS_PENDING) : hand(e);
        default: return hand(e);
        }
    }
    uint64_t inferred() const { return inferred_; } // how many Releases that nobody saw
    // What the client may do and whether home has the block, as a verdict tells it; where a rule is named, that the
    // entry breaks it.
    jj_verdict told(uint32_t client, uint32_t rule = JJ_NO_RULE) const {
        jj_verdict v;
        std::memset(&v, 0, sizeof v);
        v.status = rule ? JV_NOT_PERMITTED : JV_OK;
        v.rule = rule;
        v.perm = client < clients_.size() ? clients_[client].perm : uint32_t(JV_NONE);
        v.is_at_home = is_at_home_;
        return v;
    }

  private:
    enum class OnC { release, answer, idle_answer };
    struct Client {
        uint32_t perm = JV_NONE, recorded = JV_NONE, cap = JV_TO_N; // of the last Probe that was handed in
        bool is_dirty = false, is_lowered = false;  // its Grant was toB, and the rules have it toT
        bool is_probed = false, is_releasing = false; // home has not taken its answer; it has not got its ReleaseAck
        std::optional<jj_entry> acquire;            // sent, and not yet handed in
        uint32_t asked = JV_NTOB;                   // by the last that was
        std::deque<std::pair<OnC, uint32_t>> c;     // the messages on C, and what they leave
        bool has_idle_probe = false;                // that is not answered
    };
    // Hands an entry in, and keeps what it does to its client.
    jj_verdict hand(const jj_entry &e) {
        jj_verdict v = jj_see(judge_, &e);
        if (v.status) return v;
        is_at_home_ = v.is_at_home;
        if (e.event < JV_EVENT_SEND_GET) keep(clients_[e.client], e, v.perm);
        return v;
    }
    void keep(Client &me, const jj_entry &e, uint32_t perm) {
        me.perm = perm;
        switch (e.event) {
        case JV_EVENT_STORE: me.is_dirty = true; break;
        case JV_EVENT_SEND_PROBE: me.cap = e.param; me.is_probed = true; break;
        case JV_EVENT_SEND_RELEASE: case JV_EVENT_ANSWER_PROBE: {
            bool is_release = e.event == JV_EVENT_SEND_RELEASE;
            me.is_dirty = me.is_dirty && perm == JV_TIP;
            me.is_releasing = me.is_releasing || is_release;
            me.c.push_back({is_release ? OnC::release : OnC::answer, perm});
            break;
        }
        case JV_EVENT_TAKE_C: {
            auto m = std::find_if(me.c.begin(), me.c.end(), [](auto &it) { return it.first != OnC::idle_answer; });
            me.is_probed = me.is_probed && m->first == OnC::release;
            me.recorded = m->second;
            me.c.erase(m);
            break;
        }
        case JV_EVENT_SEND_GRANT: is_granting_ = true; break;
        case JV_EVENT_TAKE_GRANT: me.is_dirty = false; break;
        case JV_EVENT_TAKE_GRANT_ACK: is_granting_ = false; break;
        case JV_EVENT_TAKE_RELEASE_ACK: me.is_releasing = false; break;
        default: break;
        }
    }
    // A Release of a copy that the client has dropped, home's taking it, and the ReleaseAck.
    jj_verdict release(uint32_t client, uint32_t prune) {
        jj_verdict v = hand(jj_event(JV_EVENT_SEND_RELEASE, client, 0, prune));
        if (!v.status) v = hand(jj_event(JV_EVENT_TAKE_C, client, 0, 0));
        if (!v.status) v = hand(jj_event(JV_EVENT_TAKE_RELEASE_ACK, client, 0, 0));
        inferred_++;
        return v;
    }
    bool is_dropped(const Client &me) const { // a copy that the client may have dropped
        return may_drop_ && (me.perm == JV_BRANCH || (me.perm == JV_TIP && !me.is_dirty));
    }
    static uint32_t prune_of(const Client &me) { return me.perm == JV_TIP ? JV_TTON : JV_BTON; }
    // Hands the Acquire in that is not yet, behind the Release that it tells of.
    void settle(uint32_t client) {
        Client &me = clients_[client];
        if (!me.acquire) return;
        jj_entry e = *me.acquire;
        me.acquire.reset();
        me.asked = e.param;
        if (e.param != JV_BTOT && is_dropped(me)) release(client, prune_of(me));
        if (e.param == JV_BTOT && me.perm == JV_NONE) { // a Probe took the copy since
            e.param = JV_NTOT;
            e.shown = 0;
        }
        hand(e);
    }
    jj_verdict acquire(const jj_entry &e) {
        Client &me = clients_[e.client];
        uint32_t from = e.param == JV_BTOT ? JV_BRANCH : JV_NONE;
        bool is_well = e.param <= JV_BTOT && (me.perm == from || (from == JV_NONE && is_dropped(me)));
        bool is_shown_so = !e.shown || (e.channel == JV_A && e.opcode == JV_OP_ACQUIRE_BLOCK && e.shown_param == e.param
            && !e.len);
        if (me.acquire || !is_well || !is_shown_so) { settle(e.client); return hand(e); }
        me.acquire = e;
        return told(e.client);
    }
    jj_verdict access(const jj_entry &e) {
        const std::optional<jj_entry> &asked = clients_[e.client].acquire;
        if (asked && asked->param != JV_BTOT) settle(e.client); // it has said that it has no copy
        return hand(e);
    }
    jj_verdict answer(jj_entry e) {
        Client &me = clients_[e.client];
        bool is_none = e.shown && e.channel == JV_C && e.opcode == JV_OP_PROBE_ACK && e.shown_param == JV_REPORT_NTON
            && !e.len;
        if (!is_none || !is_dropped(me)) return hand(e);
        if (me.cap == JV_TO_B) { // home then records nothing: it may grant toT at once
            jj_verdict v = release(e.client, prune_of(me));
            return v.status ? v : hand(e);
        }
        e.shown = 0; // the rules' client answers what it has, and has nothing then, as is shown
        inferred_++;
        return hand(e);
    }

    // ---- idle Probes

    static bool is_idle_at(const Client &me) { // whether home waits for its answer to one
        auto is_answer = [](auto &m) { return m.first == OnC::idle_answer; };
        return me.has_idle_probe || std::any_of(me.c.begin(), me.c.end(), is_answer);
    }
    bool is_idly_probed() const { return std::any_of(clients_.begin(), clients_.end(), is_idle_at); }
    jj_verdict probe(const jj_entry &e) {
        Client &me = clients_[e.client];
        const uint32_t left = e.param == JV_TO_B ? JV_BRANCH : JV_NONE;
        bool is_cap = e.param == JV_TO_B || e.param == JV_TO_N;
        bool is_shown_so = !e.shown || (e.channel == JV_B && e.opcode == JV_OP_PROBE_BLOCK && e.shown_param == e.param
            && !e.len);
        if (is_idle_at(me)) return told(e.client, JJ_CLIENT_HAS_NO_PROBE);
        if (!is_probing_anyone_ || !is_cap || !is_shown_so || me.recorded > left) return hand(e);
        if (me.is_probed) return told(e.client, JJ_CLIENT_HAS_NO_PROBE);
        if (is_granting_) return told(e.client, JJ_NO_GRANT_IS_PENDING);
        me.has_idle_probe = true;
        return told(e.client);
    }
    // The client has no more than the Probe leaves it, and says so.
    jj_verdict answer_idle(const jj_entry &e) {
        Client &me = clients_[e.client];
        if (me.is_releasing) return told(e.client, JJ_NO_RELEASE_UNANSWERED);
        bool is_none = e.shown && e.shown_param == JV_REPORT_NTON;
        if (me.perm == JV_BRANCH && is_none && is_dropped(me)) {
            jj_verdict v = release(e.client, JV_BTON);
            if (v.status) return v;
        }
        jj_verdict v = told(e.client);
        v.opcode = JV_OP_PROBE_ACK;
        v.param = me.perm == JV_BRANCH ? JV_REPORT_BTOB : JV_REPORT_NTON;
        if (e.shown && (e.channel != JV_C || e.opcode / 2 != v.opcode / 2)) v.rule = JJ_OTHER_MESSAGE;
        else if (e.shown && e.shown_param != v.param) v.rule = JJ_OTHER_PARAM;
        else if (e.shown && e.len) v.rule = JJ_DATA_IS_EXTRA;
        if (v.rule) { v.status = JV_NOT_PERMITTED; return v; }
        me.has_idle_probe = false;
        me.c.push_back({OnC::idle_answer, me.perm});
        return told(e.client);
    }
    jj_verdict take_c(const jj_entry &e) {
        Client &me = clients_[e.client];
        if (me.c.empty() || me.c.front().first != OnC::idle_answer) return hand(e);
        me.c.pop_front();
        return told(e.client);
    }

    // ---- Grants

    // A home without a directory sends data with each Grant. The rules' home sends none to a client that it records:
    // the bytes are then those of its copy, which loads of that client ask.
    jj_verdict shows_its_copy(const jj_entry &e) {
        for (uint32_t at = 0; at < e.len; at += JV_MOST_ACCESS_BYTES) {
            jj_entry load = jj_event(JV_EVENT_LOAD, e.client, at, 0);
            load.len = JV_MOST_ACCESS_BYTES;
            std::copy_n(e.bytes + at, JV_MOST_ACCESS_BYTES, load.bytes);
            jj_verdict v = jj_see(judge_, &load);
            if (v.status) return v;
        }
        return told(e.client);
    }
    // A sole reader is granted Tip by the rules. Where home grants it Branch, its Grant is toT, and it gives back to
    // Branch as it takes it.
    jj_verdict grant(jj_entry e) {
        Client &me = clients_[e.client];
        if (is_idly_probed()) return told(e.client, JJ_NO_PROBE_IS_PENDING);
        bool has_data = e.shown && e.channel == JV_D && e.opcode == JV_OP_GRANT_DATA && e.len == block_bytes_;
        if (is_probing_anyone_ && has_data && me.asked == JV_BTOT && me.recorded == JV_BRANCH) {
            jj_verdict v = shows_its_copy(e);
            if (v.status) return v;
            e.opcode = JV_OP_GRANT;
            e.len = 0;
        }
        bool is_alone = true;
        for (const Client &it : clients_) is_alone = is_alone && (&it == &me || it.recorded == JV_NONE);
        bool is_branch = e.shown && e.shown_param == JV_TO_B;
        me.is_lowered = is_alone && is_branch;
        if (me.is_lowered) e.shown_param = JV_TO_T;
        jj_verdict v = hand(e);
        bool stays_branch = e.shown ? is_branch && !me.is_lowered : me.asked == JV_NTOB && !is_alone;
        if (!v.status) me.recorded = stays_branch ? JV_BRANCH : JV_TIP;
        return v;
    }
    jj_verdict take_grant(const jj_entry &e) {
        Client &me = clients_[e.client];
        jj_verdict v = hand(e);
        if (v.status || !me.is_lowered) return v;
        me.is_lowered = false;
        return release(e.client, JV_TTOB);
    }
    jj_judge *judge_ = nullptr;
    bool may_drop_, is_probing_anyone_;
    bool is_at_home_ = false, is_granting_ = false; // home has a copy; it has not taken a Grant's GrantAck
    uint32_t block_bytes_;
    std::vector<Client> clients_;
    uint64_t inferred_ = 0;
};

// The order of each channel of each client over the blocks (JJ_WHOLE_CHANNEL), which a judge a block does not ask. A
// Probe's answer is in none: a client may answer the Probes of several blocks in any order.
class ChannelOrder {
  public:
    // Whether what an event takes is the first of its channel; what it sends is then the last.
    bool take(uint32_t event, uint32_t client, uint32_t block) {
        switch (event) {
        case JV_EVENT_SEND_ACQUIRE: sent_[{client, JV_A}].push_back(block); return true;
        case JV_EVENT_ACCEPT_ACQUIRE: return is_first(client, JV_A, block);
        case JV_EVENT_SEND_RELEASE: case JV_EVENT_ANSWER_PROBE: sent_[{client, JV_C}].push_back(block); return true;
        case JV_EVENT_SEND_GRANT: sent_[{client, JV_D}].push_back(block); return true;
        case JV_EVENT_TAKE_GRANT:
            sent_[{client, JV_E}].push_back(block);
            return is_first(client, JV_D, block);
        case JV_EVENT_TAKE_RELEASE_ACK: return is_first(client, JV_D, block);
        case JV_EVENT_TAKE_GRANT_ACK: return is_first(client, JV_E, block);
        default: return true;
        }
    }
    // A message of C that home takes: a Release is answered on D.
    bool take_c(uint32_t client, uint32_t block, bool is_release) {
        if (is_release) sent_[{client, JV_D}].push_back(block);
        return is_first(client, JV_C, block);
    }

  private:
    bool is_first(uint32_t client, uint32_t channel, uint32_t block) {
        std::deque<uint32_t> &queue = sent_[{client, channel}];
        if (queue.empty() || queue.front() != block) return false;
        queue.pop_front();
        return true;
    }
    std::map<std::pair<uint32_t, uint32_t>, std::deque<uint32_t>> sent_; // by client and channel: the blocks
};

// jj_judge of jinavoke.h, which says what each entry and verdict is. It needs no Home: the events may be those of a
// design's own home and clients, as a monitor tells them. For clients that drop clean copies, and for a home that
// probes anyone, there is a judge a block.
class Judge {
  public:
    explicit Judge(const jj_numbers &numbers, const std::vector<uint8_t> &image = {}, Clients clients = Clients::exact,
                   Probes probes = Probes::recorded)
        : numbers_(numbers), clients_(clients), probes_(probes) {
        if (is_by_block()) image_ = image;
        uint32_t why = 0;
        judge_ = jj_new(&numbers, image.data(), image.size(), &why); // (of the numbers, where there is one a block)
        if (!judge_) throw std::runtime_error("jinavoke: no judge: " + words::number(why) + " " + jv_status_name(why));
    }
    Judge(const Judge &) = delete;
    Judge &operator=(const Judge &) = delete;
    ~Judge() { jj_free(judge_); }

    jj_verdict see(const jj_entry &entry) {
        jj_verdict v = is_by_block() ? see_block(entry) : jj_see(judge_, &entry);
        if (v.status == JV_OK) taken_++;
        if (v.status != JV_OK && said_.empty()) said_ = text(entry, v);
        return v;
    }
    // An event that is no access, with the message that was seen to be sent by it, where one was.
    jj_verdict see(uint32_t event, uint32_t client, uint32_t block, uint32_t param = 0, const Message *seen = nullptr) {
        jj_entry e = jj_event(event, client, block, param);
        if (seen) {
            e.shown = 1; e.channel = seen->channel; e.opcode = seen->opcode; e.shown_param = seen->param;
            e.len = seen->len;
            std::copy(seen->bytes.begin(), seen->bytes.end(), e.bytes);
        }
        return see(e);
    }
    // A load or a store of 1 to 8 bytes; the address begins at 0.
    jj_verdict access(bool is_store, uint32_t client, uint32_t address, const uint8_t *bytes, uint32_t len) {
        jj_entry e = jj_event(is_store ? JV_EVENT_STORE : JV_EVENT_LOAD, client, address, 0);
        e.len = len;
        std::copy_n(bytes, std::min<size_t>(len, JV_MOST_ACCESS_BYTES), e.bytes);
        return see(e);
    }
    uint64_t taken() const { return taken_; } // how many entries were permitted
    uint64_t inferred() const { // how many copies clients are taken to have dropped
        uint64_t all = 0;
        for (const auto &it : blocks_) all += it.second.inferred();
        return all;
    }
    // Of the first that was not: who, which block, which rule, and what was there before it. Else empty.
    const std::string &said() const { return said_; }

  private:
    bool is_by_block() const { return clients_ == Clients::drops_clean || probes_ == Probes::anyone; }
    uint32_t block_of(const jj_entry &e) const {
        return e.event <= JV_EVENT_STORE ? e.place / numbers_.block_bytes : e.place;
    }
    jj_verdict see_block(const jj_entry &entry) {
        if (fault_) return *fault_;
        uint32_t block = block_of(entry);
        bool is_there = block < numbers_.memory_blocks && entry.event <= JV_EVENT_TAKE_PUT_ACK;
        jj_entry e = entry;
        e.place = e.event <= JV_EVENT_STORE ? e.place % numbers_.block_bytes : 0;
        if (!is_there) return kept(jj_see(judge_, &entry)); // (which says what is wrong)
        BlockJudge &judge = judge_of(block);
        const jj_verdict before = judge.told(e.client, JJ_OUT_OF_ORDER);
        jj_verdict v = judge.see(e);
        bool is_asked = numbers_.order == JJ_WHOLE_CHANNEL;
        return kept(v.status == JV_OK && is_asked && !is_in_order(entry, block) ? before : v);
    }
    jj_verdict kept(const jj_verdict &v) { // the first fault is told again
        if (v.status && v.status != JV_BAD_ARGUMENT) fault_ = v;
        return v;
    }
    bool is_in_order(const jj_entry &e, uint32_t block) {
        const std::pair<uint32_t, uint32_t> whose = {e.client, block};
        if (e.event == JV_EVENT_SEND_RELEASE || e.event == JV_EVENT_ANSWER_PROBE)
            on_c_[whose].push_back(e.event == JV_EVENT_SEND_RELEASE);
        if (e.event != JV_EVENT_TAKE_C || on_c_[whose].empty()) return order_.take(e.event, e.client, block);
        bool is_release = on_c_[whose].front();
        on_c_[whose].pop_front();
        return order_.take_c(e.client, block, is_release);
    }
    BlockJudge &judge_of(uint32_t block) {
        auto it = blocks_.find(block);
        if (it != blocks_.end()) return it->second;
        size_t from = std::min(image_.size(), size_t(block) * numbers_.block_bytes);
        size_t to = std::min(image_.size(), from + numbers_.block_bytes);
        std::vector<uint8_t> bytes(image_.begin() + long(from), image_.begin() + long(to));
        jj_numbers one = {numbers_.clients, numbers_.block_bytes, 1, numbers_.order}; // (of one block both are the same)
        return blocks_.try_emplace(block, one, bytes, clients_, probes_).first->second;
    }
    std::string text(const jj_entry &e, const jj_verdict &v) const {
        bool has_client = e.event < JV_EVENT_SEND_GET;
        uint32_t block = block_of(e);
        std::string s = has_client ? "client " + words::number(e.client) + ", " : "";
        s += "block " + words::number(block) + ": " + words::event(e.event) + ": ";
        if (v.status != JV_NOT_PERMITTED) return s + jv_status_name(v.status);
        s += jj_rule_name(v.rule);
        if (v.rule == JJ_OTHER_BYTES) s += ", " + other_bytes(v.bytes, e.bytes, v.len);
        else if (v.rule >= JJ_OTHER_MESSAGE) s += ", " + sent(e, v).kind();
        if (has_client) s += std::string("; the client has ") + words::perm(v.perm);
        s += v.is_at_home ? "; home has a copy" : "; home has no copy";
        return clients_ == Clients::drops_clean ? s + "; what clients dropped is inferred" : s;
    }
    static Message sent(const jj_entry &e, const jj_verdict &v) { // what the event sends
        Message m;
        m.channel = channel_of(e.event); m.opcode = v.opcode; m.param = v.param;
        return m;
    }
    static uint32_t channel_of(uint32_t event) { // of the message that an event sends
        switch (event) {
        case JV_EVENT_SEND_ACQUIRE: return JV_A;
        case JV_EVENT_SEND_PROBE: return JV_B;
        case JV_EVENT_SEND_RELEASE: case JV_EVENT_ANSWER_PROBE: return JV_C;
        case JV_EVENT_TAKE_C: case JV_EVENT_SEND_GRANT: return JV_D;
        default: return JV_E;
        }
    }

    jj_numbers numbers_;
    Clients clients_;
    Probes probes_;
    std::vector<uint8_t> image_; // where there is a judge for each block
    jj_judge *judge_ = nullptr;
    std::map<uint32_t, BlockJudge> blocks_;
    std::map<std::pair<uint32_t, uint32_t>, std::deque<bool>> on_c_; // by client and block: whether it is a Release
    ChannelOrder order_;
    std::optional<jj_verdict> fault_;
    uint64_t taken_ = 0;
    std::string said_;
};

// ---- a judge of messages at one client's pins

// jp_judge of jinavoke.h, which says what each line and verdict is. It needs no Home, and no event of one.
class PinsJudge {
  public:
    explicit PinsJudge(const jp_numbers &numbers, Clients clients = Clients::exact)
        : client_(numbers.client), block_bytes_(numbers.of.block_bytes), may_drop_(clients == Clients::drops_clean) {
        uint32_t why = 0;
        judge_ = jp_new(&numbers, &why);
        if (!judge_) throw std::runtime_error("jinavoke: no judge: " + words::number(why) + " " + jv_status_name(why));
    }
    PinsJudge(const PinsJudge &) = delete;
    PinsJudge &operator=(const PinsJudge &) = delete;
    ~PinsJudge() { jp_free(judge_); }

    jp_verdict see(const jp_line &line) {
        if (may_drop_ && line.client == client_) infer(line);
        jp_verdict v = jp_see(judge_, &line);
        if (v.status == JV_OK && line.client == client_) keep(line, v);
        if (v.status == JV_OK) taken_++;
        if (v.status != JV_OK && said_.empty()) said_ = text(line, v);
        return v;
    }
    // A message of a block on a client's link: its channel, opcode, param, and its bytes where it has some.
    jp_verdict see(uint32_t block, const Message &m) {
        return see(jp_message(m.client, block, m.channel, m.opcode, m.param, m.bytes.data(), m.len));
    }
    // A load or a store of 1 to 8 bytes; the address begins at 0.
    jp_verdict access(bool is_store, uint32_t client, uint32_t address, const uint8_t *bytes, uint32_t len) {
        return see(jp_access(is_store ? JP_STORE : JP_LOAD, client, address, bytes, len));
    }
    uint64_t taken() const { return taken_; } // how many lines may be seen
    uint64_t inferred() const { return inferred_; } // how many copies the client is taken to have dropped
    // Of the first that may not: who, which block, what, which rule, and what was there before it. Else empty.
    const std::string &said() const { return said_; }

  private:
    struct Copy { // of a block
        uint32_t perm = JV_NONE, wait = JP_NOTHING;
        bool is_dirty = false;
    };
    uint32_t block_of(const jp_line &l) const { return l.what == JP_MESSAGE ? l.place : l.place / block_bytes_; }
    void keep(const jp_line &l, const jp_verdict &v) {
        Copy &copy = copies_[block_of(l)];
        copy.perm = v.perm;
        copy.wait = v.wait;
        bool is_taken = l.what == JP_MESSAGE && l.channel == JV_D;
        copy.is_dirty = l.what == JP_STORE || (copy.is_dirty && v.perm == JV_TIP && !is_taken);
    }
    // An Acquire from None or a ProbeAck NtoN of a copy that is clean: the client has dropped it. A Release and its
    // ReleaseAck, which nobody saw, stand before the line.
    void infer(const jp_line &l) {
        auto it = copies_.find(block_of(l));
        if (it == copies_.end() || l.what != JP_MESSAGE) return;
        Copy copy = it->second;
        bool is_clean = copy.perm == JV_BRANCH || (copy.perm == JV_TIP && !copy.is_dirty);
        bool acquires = l.channel == JV_A && l.opcode == JV_OP_ACQUIRE_BLOCK && l.param <= JV_NTOT;
        bool answers = l.channel == JV_C && l.opcode == JV_OP_PROBE_ACK && l.param == JV_REPORT_NTON;
        if (!is_clean || copy.wait != JP_NOTHING || !(acquires || answers)) return;
        uint32_t prune = copy.perm == JV_TIP ? JV_TTON : JV_BTON;
        for (jp_line own : {jp_message(client_, l.place, JV_C, JV_OP_RELEASE, prune, nullptr, 0),
                            jp_message(client_, l.place, JV_D, JV_OP_RELEASE_ACK, 0, nullptr, 0)}) {
            jp_verdict v = jp_see(judge_, &own);
            if (v.status) return; // the line is then answered so
            keep(own, v);
        }
        inferred_++;
    }
    static std::string what(const jp_line &l) {
        if (l.what != JP_MESSAGE) return words::at({"load", "store"}, l.what);
        Message m;
        m.channel = l.channel; m.opcode = l.opcode; m.param = l.param;
        return m.kind();
    }
    std::string text(const jp_line &l, const jp_verdict &v) const {
        uint32_t block = block_of(l);
        std::string s = "client " + words::number(l.client) + ", block " + words::number(block) + ": " + what(l) + ": ";
        if (v.status != JV_NOT_PERMITTED) return s + jv_status_name(v.status);
        s += jj_rule_name(v.rule);
        if (v.rule == JJ_OTHER_BYTES) s += ", " + other_bytes(v.bytes, l.bytes, v.len);
        else if (v.rule >= JJ_OTHER_MESSAGE) {
            Message sent;
            sent.channel = JV_C; sent.opcode = v.opcode; sent.param = v.param;
            s += ", " + sent.kind();
        }
        s += "; client " + words::number(client_) + " has " + words::perm(v.perm)
            + words::at({"", ", and waits for a Grant", ", and waits for a ReleaseAck"}, v.wait);
        return may_drop_ ? s + "; what it dropped is inferred" : s;
    }

    uint32_t client_, block_bytes_;
    bool may_drop_;
    std::map<uint32_t, Copy> copies_; // by block
    jp_judge *judge_ = nullptr;
    uint64_t taken_ = 0, inferred_ = 0;
    std::string said_;
};

// ---- a judge of the events of a Home

// Hands each step of a Home's model to a judge as it is made, with the message that was seen. Each bank has its own.
class EventJudge : public Watch {
  public:
    explicit EventJudge(const Options &o, const std::vector<uint8_t> &image = {})
        : base_(o.base), block_bytes_(uint64_t(o.numbers.block_bytes)) {
        const jv_numbers &n = o.numbers;
        jj_numbers numbers = {uint32_t(n.clients), uint32_t(n.block_bytes), uint32_t(n.memory_blocks),
                              JJ_WHOLE_CHANNEL};
        for (int64_t bank = 0; bank < n.banks; bank++) judges_.emplace_back(numbers, image);
    }
    std::function<void(const std::string &)> on_fault = [](const std::string &) {}; // what Judge::said has
    void event(const Event &e) override {
        Judge &judge = judges_.at(e.bank);
        if (!judge.said().empty()) return; // it would answer that fault again
        if (const Access *x = e.access)
            judge.access(x->is_store, x->client, place_of(e), x->bytes.data(), x->len);
        else
            judge.see(e.kind, e.client, e.block, e.param, e.seen);
        if (!judge.said().empty()) on_fault(judge.said());
    }
    uint64_t taken() const { // how many steps were permitted
        uint64_t all = 0;
        for (const Judge &judge : judges_) all += judge.taken();
        return all;
    }

  private:
    uint32_t place_of(const Event &e) const {
        return uint32_t(e.block * block_bytes_ + (e.access->address - base_) % block_bytes_);
    }
    uint64_t base_, block_bytes_;
    std::deque<Judge> judges_; // by bank
};

// ---- the home

class Home {
  public:
    explicit Home(const Options &options, const std::vector<uint8_t> &image = {})
        : options_(options), bus_{uint32_t(options.numbers.block_bytes), options.beat_bytes}, rng_(options.seed) {
        uint32_t why = JV_OK, bus = options.beat_bytes;
        if (bus < 8 || bus > JV_MOST_BLOCK_BYTES || (bus & (bus - 1)))
            throw std::runtime_error("jinavoke: a bus of " + words::number(bus) + " bytes: 8, 16, 32 or 64");
        if (!options.sources || !options.sinks) throw std::runtime_error("jinavoke: a link has a source and a sink");
        check_ranges(options);
        check_memory(options, image);
        if (options.has_window()) window_.emplace(options.numbers, options.memory_bytes / bus_.block_bytes);
        const std::vector<uint8_t> own = options.memory && !options.has_window() ? read_all(options) : image;
        cache_ = jv_new(&options_.numbers, own.data(), own.size(), &why);
        if (!cache_) throw std::runtime_error("jinavoke: no cache: " + words::number(why) + " " + jv_status_name(why));
        if (!has_room(options.base)) {
            jv_free(cache_);
            throw std::runtime_error("jinavoke: no memory at " + words::address(options.base)
                + ": it begins where a block does, and ends before 2^64");
        }
        const uint32_t agents = uint32_t(options_.uncached.size());
        wires_ = options_.cached.empty() ? clients() - agents : 0;
        for (auto *ranges : {&options_.cached, &options_.uncached})
            for (const Options::Range &it : *ranges) wires_ = std::max(wires_, it.link + 1);
        for (uint32_t k = 0; k < wires_ + agents; k++) links_.emplace_back(bus_, k); // the last ones: of agents, unseen
        for (uint32_t k = 0; k < clients(); k++) {
            bool is_agent = k + agents >= clients();
            if (is_agent) agents_.push_back({options_.uncached[k + agents - clients()], k, {}});
            uint32_t own = options_.cached.empty() || is_agent ? k : options_.cached[k].link;
            clients_.emplace_back(k, is_agent ? wires_ + k + agents - clients() : own, banks());
        }
        changes_.resize(banks());
        closed_.resize(banks());
        pasts_.resize(size_t(options_.numbers.memory_blocks));
        fresh_.resize(pasts_.size());
        sharers_.resize(pasts_.size());
        home_places_.resize(pasts_.size(), Window::nowhere);
        counts_ = Counts(clients());
    }
    Home(const Home &) = delete;
    Home &operator=(const Home &) = delete;
    ~Home() { jv_free(cache_); }

    std::function<void(const Fault &)> on_fault = [](const Fault &) {};
    void watch(Watch *w) { watches_.push_back(w); } // it has to live as long as the home

    // ---- what fires at an edge

    void d_taken(uint32_t k) { // a beat of what d() offers
        Link &link = link_of(k);
        if (!d(k)) throw std::logic_error("jinavoke: a beat is taken on D, and none is offered");
        is_awake_ = true;
        Down &down = link.d.front();
        Client &me = clients_[down.m.client];
        if (Grant *g = link.d_beat == 0 ? grant_of(me, down) : nullptr) {
            g->is_begun = true;
            link.acquires.erase(down.m.source);
        }
        if (link.d_beat == 0 && bus_.beats_of(down.m.len) > 1) begin(down.m);
        link.d_since = cycle_;
        if (++link.d_beat < bus_.beats_of(down.m.len)) return;
        Down whole = std::move(down);
        link.d_beat = 0;
        link.d.pop_front();
        tell(whole.m);
        count_grant(whole);
        if (whole.m.size) { // an agent's answer
            link.requests.erase(whole.m.source);
            return;
        }
        if (whole.is_own) { // the ReleaseAck of a Release that kept the copy
            link.releases.erase(whole.m.source);
            uint32_t block = block_of(whole.m.address);
            me.cleaning.erase(block);
            if (window_ && block != Window::nowhere && home_places_[block] == Window::nowhere) window_->rest(block);
            return settle(me);
        }
        me.taken.push_back(std::move(whole));
        take_down(me);
        settle(me);
    }
    void b_taken(uint32_t k) {
        Link &link = link_of(k);
        if (!b(k)) throw std::logic_error("jinavoke: a beat is taken on B, and none is offered");
        is_awake_ = true;
        Message m = link.b.front();
        Client &me = clients_[m.client];
        link.b.pop_front();
        link.b_since = cycle_;
        tell(m);
        counts_.clients[m.client][m.param == JV_TO_B ? Count::ProbeToB : Count::ProbeToN]++;
        for (Probe &p : me.probes)
            if (!p.is_hidden && p.block == block_of(m.address)) { p.is_taken = true; p.since = cycle_; }
        settle(me);
    }
    void c(uint32_t k, const Beat &beat) {
        Link &link = link_of(k);
        std::optional<Message> m = link.c.take(beat);
        link.c_since = cycle_;
        is_awake_ = true;
        if (std::optional<Message> torn = link.c.torn()) {
            torn->client = client_of(k, torn->source).value_or(anyone_on(k));
            fault(Cause::Beats, *torn, torn->kind() + " is broken off: a later beat has other fields");
        }
        if (!m || !has_client(k, *m)) return;
        m->is_clean = is_of_clean_copy(*m);
        if (!is_sound(*m, beat)) return;
        count_c(*m);
        bool has_source = m->is_release() && use(link.releases, *m, "Release");
        take(clients_[m->client], Held{*m, std::nullopt, cycle_, cycle_, JV_OK, has_source});
    }
    // `raised`: the cycle in which valid rose for this beat, where it is known. A BtoT that waited since before its
    // copy was probed away is lawful: it is granted with data.
    void a(uint32_t k, const Beat &beat, std::optional<uint64_t> raised = std::nullopt) {
        Link &link = link_of(k);
        Message m;
        m.client = k; m.channel = JV_A; m.opcode = beat.opcode; m.param = beat.param; m.source = beat.source;
        m.address = beat.address;
        is_awake_ = true;
        if (is_request(k, beat) || !has_client(k, m) || !is_sound(m, beat)) return;
        count_acquire(m);
        bool has_source = use(link.acquires, m, "Acquire");
        if (has_source) link.asked[m.source] = cycle_;
        take(clients_[m.client], Held{m, std::nullopt, cycle_, raised.value_or(cycle_), JV_OK, has_source});
    }
    void e(uint32_t k, uint32_t sink) {
        Message m;
        (void)link_of(k); // it is there
        is_awake_ = true;
        m.cycle = cycle_; m.client = anyone_on(k); m.channel = JV_E; m.sink = sink;
        for (Client &me : clients_) for (Grant &g : me.grants) {
            if (me.link != k || g.sink != sink || !g.is_begun || g.is_acknowledged) continue;
            g.is_acknowledged = true;
            m.client = me.number; m.address = address_of(g.block); m.bank = g.bank;
            g.due = due_on(JV_E, m);
            return tell(m);
        }
        tell(m);
        fault(Cause::Sink, m, "GrantAck of sink " + words::number(sink) + ", which no Grant that came has", false);
    }
    // A load or a store of a client's core: the client's number, which is that of its link where each has its own.
    void load(uint32_t k, uint64_t address, const uint8_t *bytes, uint32_t len) {
        access(k, false, address, bytes, len);
    }
    void store(uint32_t k, uint64_t address, const uint8_t *bytes, uint32_t len) {
        access(k, true, address, bytes, len);
    }

    // ---- what home offers

    std::optional<Beat> b(uint32_t k) const {
        const Link &link = link_of(k);
        if (link.b.empty() || link.b.front().cycle > cycle_) return std::nullopt; // it is on its way
        return bus_.part(link.b.front(), 0);
    }
    std::optional<Beat> d(uint32_t k) const {
        const Link &link = link_of(k);
        if (link.d.empty() || !link.d.front().has_sink || link.d.front().is_hidden) return std::nullopt;
        if (link.d.front().m.cycle > cycle_) return std::nullopt; // it is on its way
        return bus_.part(link.d.front().m, link.d_beat);
    }
    // The cycle's end: what waits is tried again, and home and the memory make their own steps.
    void tick() {
        cycle_++;
        counts_[HomeCount::Cycles]++;
        is_awake_ = false;
        is_in_tick_ = true;
        try {
            step();
        } catch (...) { // of a memory of the user's own: the next cycle goes on with what is not done
            is_awake_ = true;
            is_in_tick_ = false;
            throw;
        }
        is_in_tick_ = false;
        if (options_.keeps_log || cycle_ < forget_due_) return;
        forget_due_ = cycle_ / 4096 * 4096 + 4096;
        for (uint32_t bank = 0; bank < banks(); bank++) jv_forget(cache_, bank);
    }

    // ---- for an event queue

    // The next cycle in which tick() may do something, or something comes to be offered, where nothing is told before
    // it; none, where nothing ever will.
    std::optional<uint64_t> next_due() const {
        if (is_awake_ || options_.evict_every) return cycle_ + 1;
        while (!timers_.empty() && timers_.top() <= cycle_) timers_.pop();
        uint64_t due = timers_.empty() ? never : timers_.top();
        if (options_.patience) due = std::min(due, next_late());
        return due == never ? std::nullopt : std::optional<uint64_t>(due);
    }
    // As tick() until this cycle, which is no earlier one: cycles in which nothing is due take no time.
    void advance_to(uint64_t cycle) {
        if (cycle < cycle_)
            throw std::logic_error("jinavoke: cycle " + words::number(cycle) + " is behind, and it is "
                + words::number(cycle_));
        while (cycle_ < cycle) {
            const uint64_t due = std::min(next_due().value_or(cycle), cycle);
            if (due > cycle_ + 1) skip_to(due - 1);
            tick();
        }
    }

    // ---- functional access, for a loader or a debugger

    // Writes the memory behind a window. Whether it is done: where not, home takes the block back first, as an eviction
    // does, and writes then; until then no Acquire of the block is taken, and is_quiet() is false.
    bool poke(uint64_t address, const uint8_t *bytes, size_t len);
    // The newest bytes: those of a client's Tip, where one has it, as far as taps or the links have told them; else
    // home's, or the memory's. It changes nothing.
    void peek(uint64_t address, uint8_t *bytes, size_t len) const;

    // ---- checkpoint

    // Whether home holds no block and nothing is under way. Where it does it takes all blocks back, with their Probes
    // and writebacks: ask again after each cycle, and send no Acquire until it is so.
    bool flush();
    // The bytes of the memory from `base` on, as it has them: after flush() those last stored. std::logic_error where
    // the memory is one's own, which has them.
    std::vector<uint8_t> image() const;
    // Keeps the home in a file: memory, options, counts, choices and the cycle. std::logic_error where flush() is not
    // yet true, std::runtime_error where the file cannot be written; what it had then stays.
    void save(const std::string &file) const;
    // The home of such a file, at its cycle, with empty ways. `adapt` is handed the options as they were, and sets what
    // a file does not keep: the memory of one's own, which then gets the file's blocks and has 0 elsewhere, and the
    // `latency` that is asked. std::runtime_error where the file is none, cut short, damaged or of another version.
    static std::unique_ptr<Home> restore(const std::string &file, const std::function<void(Options &)> &adapt = {});

    // ---- views

    uint64_t cycle() const { return cycle_; }
    uint64_t faults() const { return faults_; }
    uint64_t waits() const { return waits_; } // how many messages waited for others
    uint64_t inferred() const { return inferred_; } // how many copies a client is taken to have dropped in silence
    uint64_t requests() const { return requests_; } // how many requests of agents were carried out
    uint64_t rooms() const { return rooms_; } // how many copies home took back since a client's table was full
    const Options &options() const { return options_; }
    const Bus &bus() const { return bus_; }
    uint32_t clients() const { return uint32_t(options_.numbers.clients); }
    uint32_t banks() const { return uint32_t(options_.numbers.banks); }
    uint32_t link(uint32_t client) const { return clients_.at(client).link; } // of a client with a cache
    uint32_t links() const { return wires_; } // how many links there are: their numbers are those of the calls above
    const jv_cache *model() const { return cache_; } // for the views of jinavoke.h
    // A block's number. Through a window that is the one that stands for it now, or Window::nowhere; and the address
    // of a number is that of the block that it stands for.
    uint32_t block_of(uint64_t address) const {
        return window_ ? window_->find(place_in(address)) : uint32_t(place_in(address));
    }
    uint64_t address_of(uint32_t block) const {
        return options_.base + (window_ ? window_->block_of(block) : uint64_t(block)) * bus_.block_bytes;
    }
    // What was counted since the home was made, or since the counts were last reset.
    const Counts &counts() const { return counts_; }
    void reset_counts() {
        counts_ = Counts(clients());
        counts_[HomeCount::MostMessages] = in_flight_;
        counts_[HomeCount::MostRegisters] = registers_;
        counts_[HomeCount::MostNumbers] = numbers_in_use();
    }
    bool is_quiet() const {
        if (!loads_.empty() || !pokes_.empty()) return false;
        for (const Client &me : clients_)
            if (!me.held.empty() || !me.grants.empty() || !me.dropping.empty() || !me.taken.empty()) return false;
        for (const Link &link : links_)
            if (!link.d.empty() || !link.b.empty() || link.c.is_open() || link.request) return false;
        for (const Agent &agent : agents_) if (!agent.asks.empty()) return false;
        for (uint32_t bank = 0; bank < banks(); bank++) if (jv_is_quiet(cache_, bank).serial != 1) return false;
        return true;
    }
    // Where no client may write the block, its bytes as home or the memory has them. Throws std::out_of_range where
    // there is no such block.
    std::optional<Bytes> bytes_of(uint32_t block) const {
        if (block >= pasts_.size()) throw std::out_of_range("jinavoke: there is no block " + words::number(block));
        for (uint32_t k = 0; k < clients(); k++) if (jv_perm(cache_, k, block).serial == JV_TIP) return std::nullopt;
        jv_answer home = jv_home_copy(cache_, block), memory = jv_memory_block(cache_, block);
        const jv_answer &from = home.serial == JV_HOME_NONE ? memory : home;
        Bytes bytes{};
        std::copy(from.bytes, from.bytes + from.len, bytes.begin());
        return bytes;
    }
    // What has come of a block since home last had no copy of it, as a script for `tlcache trace` and `tlchart`; empty
    // where that is more than a chart has room for.
    std::string script(uint32_t block) const {
        return pasts_.at(block).is_cut ? "" : Script(*this, block).of(pasts_[block].steps);
    }

  private:
    static constexpr uint64_t never = ~uint64_t(0);
    struct Up { // on the model's A or C, not yet home's
        jv_ticket ticket;
        uint32_t block, source;
        bool is_hidden;
        uint64_t due = 0;        // the cycle in which it comes to home
        bool is_counted = false; // as one that waits
    };
    struct Lane { std::deque<Up> ups; uint64_t stuck = ~uint64_t(0); };
    struct Probe {
        uint32_t block, source, cap;
        jv_ticket ticket;
        uint64_t since;
        bool is_taken, is_hidden = false; // nobody sees it: the block is being brought into the window
    };
    struct Down {
        Message m;
        jv_ticket ticket;
        bool has_sink, is_hidden;
        bool is_own = false;  // the model knows nothing of it
        bool is_perm = false; // the Grant of an AcquirePerm: the model sends it with data
        std::optional<uint64_t> asked = std::nullopt; // of a Grant: when its Acquire came
    };
    struct Grant {
        uint32_t bank, block, sink;
        uint64_t since;
        bool is_begun, is_taken, is_acknowledged; // its first beat and its last; its GrantAck
        jv_ticket ack;
        uint64_t due = 0;       // the cycle in which that comes to home
        bool is_hidden = false; // nobody sees it: of a block that is brought into the window
    };
    struct Held { // seen, and not yet the model's
        Message m;
        std::optional<Access> access;
        uint64_t since, raised;
        uint32_t why;            // the refusal for which it waits
        bool has_source = false; // it has its source to itself
        bool is_told = false;    // that its source is another
        std::optional<uint64_t> asked = std::nullopt; // an Acquire that was refused: how many steps there were then
    };
    struct Link { // the wires
        Link(Bus bus, uint32_t k) : c(bus, k, JV_C) {}
        Joiner c;
        std::deque<Message> b;
        std::deque<Down> d;
        uint32_t d_beat = 0;
        uint64_t b_since = 0, d_since = 0; // when the beat that is offered came to be the next
        uint64_t c_since = 0;              // when the last beat came
        std::set<uint32_t> acquires, releases, requests; // the sources of those that are not answered
        std::map<uint32_t, uint64_t> asked; // by the source of an Acquire: when it came
        std::optional<Request> request; // of an agent, with beats to come
    };
    struct Client { // of the model
        Client(uint32_t k, uint32_t link, uint32_t banks)
            : number(k), link(link), to_a(banks), to_c(banks), rooms(banks) {}
        uint32_t number, link;
        std::vector<Lane> to_a, to_c; // of each bank
        uint32_t busy = 0;            // a bit for each bank that has something of them, or a Grant
        std::deque<Held> held;        // in the order in which they were seen
        std::deque<Probe> probes;     // unanswered, in the order of sending
        std::deque<Grant> grants;     // from sending until home takes the GrantAck, in the order of sending
        std::deque<Down> taken;       // from D, and not yet by the model
        uint64_t news = 0;            // how many steps it has made: what is refused now may be permitted then
        std::map<uint32_t, uint32_t> source_of; // by block: of the Acquire
        std::map<uint32_t, uint64_t> probed;    // the blocks of which a Probe took a Branch, and when
        std::set<uint32_t> gone;     // the blocks of which the model has a Branch, and the client said that it has none
        std::set<uint32_t> dropping; // those that the model's client gives up for it, until its ReleaseAck is taken
        std::deque<uint32_t> granted; // the blocks of its copies, the one that was granted longest ago first
        std::vector<std::optional<uint32_t>> rooms; // by bank: the block that home evicts to make room in its table
        std::set<uint32_t> perms;       // the blocks that were asked for by AcquirePerm, until their Grant
        std::map<uint32_t, std::bitset<JV_MOST_BLOCK_BYTES>> blank; // by block: the bytes that it got no data of
        std::map<uint32_t, Bytes> kept; // by block: the bytes that a Release sent which kept the copy
        std::set<uint32_t> cleaning;    // the blocks of such Releases, until the ReleaseAck
    };
    struct Ask { Request of; bool is_asked; }; // the model's client has sent the Acquire for it
    struct Agent { Options::Range of; uint32_t client; std::deque<Ask> asks; };
    struct Open {
        uint32_t block, bank;
        bool is_eviction;
        uint64_t stuck;
        uint32_t victim = Window::nowhere; // the other block that it works on, where an advance told it
        uint32_t sent = 0, pending = 0;    // a bit for each client that it has probed, and that home has no answer of
        bool is_asleep = false;            // nothing is to be done before one of these, or the memory's answer, comes
    };
    struct Outward {
        uint32_t block, bank;
        uint64_t due;
        bool is_put, is_served;
        uint64_t since = 0;         // when it was sent
        bool is_eviction = false;   // of a register that then closes
        bool is_unchanged = false;  // a Put of the bytes that the user's memory has
        bool is_done = false;       // the user's memory has read or written
    };
    struct Load { // a block that is brought into the window, in the name of a client
        uint32_t block, client;
        Bytes bytes;
        bool is_read = false, is_granted = false;
    };
    struct Poke { // of bytes of one block
        uint64_t address;
        std::vector<uint8_t> bytes;
        mutable uint64_t asked = never; // when home was asked to evict it: how many steps there were
    };
    struct Past {
        uint8_t kind, client, param, len;
        uint32_t offset;
        std::array<uint8_t, 8> bytes;
        bool is_inferred;
    };
    struct History { std::vector<Past> steps; bool is_cut = false; };

    // ---- the memory behind the home, and the window through which the banks see it

    static void check_memory(const Options &o, const std::vector<uint8_t> &image);
    static std::vector<uint8_t> read_all(const Options &o);
    uint64_t place_in(uint64_t address) const { return (address - options_.base) / bus_.block_bytes; } // its block
    uint64_t blocks_of_memory() const;
    uint32_t bank_at(uint64_t address) const;
    uint32_t model_address(uint64_t address) const;
    uint32_t placed(Client &me, uint64_t address, uint32_t &why);
    bool is_first(uint32_t client, uint64_t address);
    void waits_no_more(uint32_t client, uint64_t address);
    bool is_at_rest(uint32_t block) const;
    void changed(uint32_t block);
    void load_into(Client &me, uint32_t block, uint32_t &why);
    bool is_loading(uint32_t block, uint32_t client) const;
    bool is_loaded(uint32_t block);
    void step_loads();
    void fill_in(Load &it);
    void loaded(const Client &me, uint32_t block);
    Bytes newest(uint32_t block) const;
    void unkeep(const Held &h);
    void answer_hidden();
    bool has_in_memory(uint32_t block, const uint8_t *bytes);
    bool is_served_by_memory(Outward &out);
    void read_for(uint32_t block, uint64_t address, uint32_t len);

    // ---- checkpoint

    static std::vector<uint64_t> words_of(const std::vector<Options::Range> &ranges);
    static std::vector<Options::Range> ranges_of(const std::vector<uint64_t> &words);
    template <class Self, class F> static void each_option(Self &o, F f);
    void save_options(CheckpointWriter &out) const;
    static Options options_in(CheckpointReader &in);
    template <class F> void each_block(F f) const;
    void save_memory(CheckpointWriter &out) const;
    static std::vector<uint8_t> load_memory(CheckpointReader &in, const Options &o);

    // ---- functional access

    void check_range(uint64_t address, size_t len) const;
    Bytes peeked(uint64_t address) const;
    bool is_poked(uint64_t address) const;
    void step_pokes();
    bool is_poke_done(const Poke &it);

    // ---- for an event queue

    uint64_t latency_on(uint32_t channel, uint32_t client, uint64_t address) const;
    uint64_t due_on(uint32_t channel, const Message &m) const;
    uint64_t due_at(uint64_t cycle) const;
    void push(Client &me, Lane &lane, const jv_answer &a, Up &&up);
    void opened(Open &&o);
    void close(uint32_t bank);
    void wake(uint32_t block);
    void answered(uint32_t client, uint32_t block);
    void skip_to(uint64_t cycle);
    uint64_t next_late() const;

    // ---- what is counted

    uint32_t called(uint32_t status);
    uint64_t numbers_in_use() const { return home_blocks_.size() + crossings_; }
    void count_event(uint32_t kind, uint32_t block);
    void comes_home(uint32_t block);
    void leaves_home(uint32_t block);
    void rests(uint32_t block) { if (window_) window_->rest(block); }
    void count_acquire(const Message &m);
    void count_c(const Message &m);
    void count_grant(const Down &down);
    void count_access(const Access &x, uint32_t block);

    // ---- links, and who is on them

    static void check_ranges(const Options &o) {
        auto wrong = [](const Options::Range &it, const char *why) {
            throw std::runtime_error("jinavoke: sources " + words::number(it.from) + " to " + words::number(it.to)
                + " of link " + words::number(it.link) + ": " + why);
        };
        std::vector<Options::Range> all = o.cached;
        all.insert(all.end(), o.uncached.begin(), o.uncached.end());
        for (size_t i = 0; i < all.size(); i++) {
            if (all[i].from > all[i].to || all[i].to >= o.sources) wrong(all[i], "they are none of a link");
            if (all[i].link >= JV_MOST_CLIENTS) wrong(all[i], "there is no such link");
            for (size_t j = 0; j < i; j++)
                if (all[i].link == all[j].link && all[i].from <= all[j].to && all[j].from <= all[i].to)
                    wrong(all[i], "another client has some of them");
        }
        bool is_short = !o.uncached.empty() && o.numbers.clients <= int64_t(o.uncached.size());
        bool is_other = !o.cached.empty() && o.numbers.clients != int64_t(all.size());
        if (is_short || is_other)
            throw std::runtime_error("jinavoke: " + std::to_string(o.numbers.clients) + " clients, with ranges for "
                + words::number(o.cached.size()) + " of them and for " + words::number(o.uncached.size()) + " agents");
    }
    bool has_room(uint64_t base) const { // for the memory's addresses
        uint64_t last = memory_bytes() - 1;
        return base % bus_.block_bytes == 0 && base <= ~uint64_t(0) - last;
    }
    uint64_t memory_bytes() const { return blocks_of_memory() * bus_.block_bytes; }
    Link &link_of(uint32_t k) { return const_cast<Link &>(std::as_const(*this).link_of(k)); }
    const Link &link_of(uint32_t k) const {
        if (k >= wires_) throw std::out_of_range("jinavoke: there is no link " + words::number(k));
        return links_[k];
    }
    bool is_agent(uint32_t client) const { return client + agents_.size() >= clients_.size(); }
    // The client with a cache whose source of a link it is.
    std::optional<uint32_t> client_of(uint32_t k, uint32_t source) const {
        if (options_.cached.empty()) return is_agent(k) ? std::nullopt : std::optional<uint32_t>(k);
        for (uint32_t i = 0; i < options_.cached.size(); i++) {
            const Options::Range &it = options_.cached[i];
            if (it.link == k && it.from <= source && source <= it.to) return i;
        }
        return std::nullopt;
    }
    Agent *agent_of(uint32_t k, uint32_t source) {
        for (Agent &it : agents_) if (it.of.link == k && it.of.from <= source && source <= it.of.to) return &it;
        return nullptr;
    }
    uint32_t anyone_on(uint32_t k) const { // for a fault that is nobody's
        for (const Client &me : clients_) if (me.link == k) return me.number;
        for (const Agent &it : agents_) if (it.of.link == k) return it.client;
        return 0;
    }
    // Whether a message is one of a client with a cache, which it then has; else the fault is told.
    bool has_client(uint32_t k, Message &m) {
        std::optional<uint32_t> client = client_of(k, m.source);
        m.client = client.value_or(anyone_on(k));
        if (client) return true;
        m.cycle = cycle_;
        std::string said = m.kind() + ": source " + words::number(m.source) + " is not one of a client of the link";
        fault(Cause::Source, m, said, has_block(m));
        return false;
    }

    // ---- agents without a cache: each is a client of the model that acquires, accesses, and releases again. Nobody
    // sees that on the links.

    // Whether a beat on A is one of an agent's request, which is kept once it is whole, or told as a fault.
    bool is_request(uint32_t k, const Beat &beat) {
        if (agents_.empty()) return false;
        Link &link = link_of(k);
        Message m;
        m.cycle = cycle_; m.channel = JV_A; m.size = bus_.size();
        if (link.request && !link.request->is_of(beat)) {
            m.client = agent_of(k, link.request->source)->client;
            m.opcode = link.request->opcode; m.source = link.request->source; m.address = link.request->address;
            link.request.reset();
            fault(Cause::Beats, m, m.kind() + " is broken off: a later beat has other fields");
        }
        Agent *agent = agent_of(k, beat.source);
        if (!agent) return false;
        m.client = agent->client; m.opcode = beat.opcode; m.param = beat.param; m.source = beat.source;
        m.address = beat.address; m.size = beat.size.value_or(bus_.size());
        std::string wrong = Request::wrong(beat, *m.size, bus_);
        std::string said = m.kind() + " of source " + words::number(m.source) + " of link " + words::number(k);
        bool is_in_memory = has_block(m), is_well = is_in_memory && wrong.empty();
        if (!is_in_memory) wrong = " is of " + words::address(m.address) + ", outside the memory";
        if (!is_well && !(link.request && link.request->is_refused))
            fault(is_in_memory ? Cause::Codes : Cause::Address, m, said + wrong, is_in_memory);
        if (*m.size > Request::MostSize) { link.request.reset(); return true; }
        std::optional<Request> whole = joined(link, beat, *m.size, !is_well);
        if (!whole || whole->is_refused) return true;
        m.len = whole->has_data() ? whole->len() : 0;
        m.bytes = whole->data;
        tell(m);
        if (link.requests.insert(m.source).second) agent->asks.push_back({*whole, false});
        else fault(Cause::Source, m, said + ": it has an unanswered request");
        return true;
    }
    // The request whose last beat this is.
    std::optional<Request> joined(Link &link, const Beat &beat, uint32_t size, bool is_refused) const {
        if (!link.request) {
            link.request.emplace();
            link.request->opcode = beat.opcode; link.request->param = beat.param; link.request->source = beat.source;
            link.request->size = size; link.request->address = beat.address;
        }
        Request &it = *link.request;
        it.is_refused = it.is_refused || is_refused;
        uint32_t len = it.has_data() ? it.len() : 0, n = std::min(len, bus_.beat_bytes);
        uint32_t from = it.beats * bus_.beat_bytes, lane = bus_.lane_of(beat.address, len);
        for (uint32_t i = 0; i < n && from + i < it.data.size(); i++) { // (of more than a block it is refused)
            it.data[from + i] = beat.data[lane + i];
            it.mask[from + i] = !beat.mask || (*beat.mask >> (lane + i) & 1);
        }
        if (++it.beats < bus_.beats_of(len)) return std::nullopt;
        return std::exchange(link.request, std::nullopt);
    }
    void step_agent(Agent &agent) {
        Client &me = clients_[agent.client];
        for (size_t i = 0; i < agent.asks.size(); i++) ask_for(agent, me, i);
        answer_probes(me);
        take_grants(agent, me);
    }
    // Sends the Acquire for a request; those of one block are carried out in their order.
    void ask_for(Agent &agent, Client &me, size_t i) {
        Ask &ask = agent.asks[i];
        if (ask.of.opcode == Request::Intent) {
            answer(agent, ask.of, 2, 0, {}); // HintAck
            agent.asks.erase(agent.asks.begin() + long(i));
            return;
        }
        auto is_same = [&](const Ask &it) { return place_in(it.of.address) == place_in(ask.of.address); };
        if (ask.is_asked || std::any_of(agent.asks.begin(), agent.asks.begin() + long(i), is_same)) return;
        uint32_t why = JV_OK, block = placed(me, ask.of.address, why);
        if (block == Window::nowhere) return;
        jv_grow grow = ask.of.opcode == Request::Get ? JV_NTOB : JV_NTOT;
        jv_answer a = jv_acquire(cache_, me.number, block, grow);
        if (called(a.status)) return; // a table or a channel is full, its last Release is not answered: later
        note(JV_EVENT_SEND_ACQUIRE, a.bank, me.number, block, grow);
        push(me, me.to_a[a.bank], a, {jv_sent(&a), block, 0, false});
        ask.is_asked = true;
    }
    // An agent has no copy that it could keep: its Probes are answered as soon as no Release of the block is under way.
    void answer_probes(Client &me) {
        links_[me.link].b.clear();
        for (size_t i = 0; i < me.probes.size();) {
            Probe p = me.probes[i];
            jv_answer a = jv_answer_probe(cache_, p.ticket);
            if (called(a.status)) { i++; continue; }
            note(JV_EVENT_ANSWER_PROBE, a.bank, me.number, p.block, a.param);
            push(me, me.to_c[a.bank], a, {jv_sent(&a), p.block, 0, true});
            hidden_probes_ -= p.is_hidden;
            me.probes.erase(me.probes.begin() + long(i));
        }
    }
    // Carries out what was granted, and gives the copy back.
    void take_grants(Agent &agent, Client &me) {
        std::deque<Down> &d = links_[me.link].d;
        while (!d.empty() && !d.front().is_hidden) {
            uint32_t block = block_of(d.front().m.address), bank = d.front().m.bank;
            // the steps that follow are one: there is memory and room on C for all of them, or they wait
            if (called(jv_reserve(cache_, bank, 3 * JV_MOST_BLOCK_BYTES).status)) return;
            if (me.to_c[bank].ups.size() + 1 >= JV_MOST_MESSAGES) return;
            Grant *g = grant_of(me, d.front());
            g->is_begun = g->is_acknowledged = true;
            if (!take_grant(me, d.front())) return;
            d.pop_front();
            auto is_same = [&](const Ask &it) { return it.is_asked && block_of(it.of.address) == block; };
            auto ask = std::find_if(agent.asks.begin(), agent.asks.end(), is_same);
            carry_out(agent, ask->of);
            agent.asks.erase(ask);
            bool is_tip = jv_perm(cache_, me.number, block).serial == JV_TIP;
            jv_answer a = jv_release(cache_, me.number, block, is_tip ? JV_TTON : JV_BTON);
            if (called(a.status)) throw std::logic_error("jinavoke: an agent may not release");
            note(JV_EVENT_SEND_RELEASE, a.bank, me.number, block, a.param);
            push(me, me.to_c[a.bank], a, {jv_sent(&a), block, 0, true});
        }
    }
    void carry_out(Agent &agent, const Request &it) {
        Bytes old{};
        uint32_t len = it.len();
        if (it.is_put()) puts(agent, it);
        else for (uint32_t at = 0; at < len; at += 8) reads(agent, it.address + at, &old[at], std::min(len - at, 8u));
        if (it.is_atomic()) {
            uint64_t from = 0, by = 0;
            std::memcpy(&from, old.data(), len);
            std::memcpy(&by, it.data.data(), len);
            uint64_t left = it.leaves(from, by);
            writes(agent, it.address, reinterpret_cast<const uint8_t *>(&left), len);
        }
        answer(agent, it, it.is_put() ? JV_OP_ACCESS_ACK : JV_OP_ACCESS_ACK_DATA, it.is_put() ? 0 : len, old);
    }
    void puts(Agent &agent, const Request &it) { // each run of bytes that the mask names, eight at most at once
        for (uint32_t at = 0; at < it.len();) {
            uint32_t n = 0;
            while (at + n < it.len() && n < 8 && it.mask[at + n]) n++;
            if (n) writes(agent, it.address + at, &it.data[at], n);
            at += std::max(n, 1u);
        }
    }
    void reads(const Agent &agent, uint64_t address, uint8_t *to, uint32_t len) {
        jv_accessed got = jv_load(cache_, agent.client, model_address(address), len, index_++);
        if (called(got.status)) throw std::logic_error("jinavoke: an agent may not load");
        std::copy_n(got.bytes, len, to);
        accessed(agent, false, address, to, len);
    }
    void writes(const Agent &agent, uint64_t address, const uint8_t *from, uint32_t len) {
        if (called(jv_store(cache_, agent.client, model_address(address), from, len, index_++).status))
            throw std::logic_error("jinavoke: an agent may not store");
        accessed(agent, true, address, from, len);
    }
    void accessed(const Agent &agent, bool is_store, uint64_t address, const uint8_t *bytes, uint32_t len) {
        uint32_t block = block_of(address);
        Access x = {cycle_, bank_of(block), agent.client, is_store, address, len, {}};
        std::copy_n(bytes, len, x.bytes.begin());
        for (Watch *w : watches_) w->access(x);
        note(is_store ? JV_EVENT_STORE : JV_EVENT_LOAD, x.bank, agent.client, block, 0, nullptr, &x);
    }
    void answer(const Agent &agent, const Request &it, uint32_t opcode, uint32_t len, const Bytes &bytes) {
        Message m;
        m.client = agent.client; m.channel = JV_D; m.opcode = opcode; m.source = it.source; m.address = it.address;
        m.bank = bank_of(block_of(it.address)); m.size = it.size; m.len = len; m.bytes = bytes;
        offer(links_[agent.of.link], {m, {}, true, false});
        requests_++;
        counts_.clients[agent.client][Count::Requests]++;
    }

    // ---- what is told

    void tell(Message &m) {
        m.cycle = cycle_;
        if (m.channel != JV_E && m.channel != JV_D) m.bank = bank_at(m.address);
        keep(m);
        for (Watch *w : watches_) w->message(m);
    }
    void begin(Message m) { // the first beat of what will be told
        m.cycle = cycle_;
        for (Watch *w : watches_) w->begun(m);
    }
    void keep(const Message &m) { // for the texts of faults
        if (recent_.size() < 1024) recent_.push_back(m); else recent_[told_ % 1024] = m;
        told_++;
    }
    void note(uint32_t kind, uint32_t bank, uint32_t client, uint32_t block, uint32_t param = 0,
              const Message *seen = nullptr, const Access *access = nullptr, bool is_inferred = false) {
        is_inferred = is_inferred || (kind < JV_EVENT_SEND_GET && is_agent(client));
        remember({uint8_t(kind), uint8_t(client), uint8_t(param), 0, 0, {}, is_inferred}, block, access);
        if (kind <= JV_EVENT_TAKE_RELEASE_ACK) clients_[client].news++;
        if (kind == JV_EVENT_ACCEPT_ACQUIRE) serving_[block] = client;
        if (kind == JV_EVENT_TAKE_GRANT_ACK) serving_.erase(block);
        is_awake_ = true;
        count_event(kind, block);
        if (watches_.empty()) return;
        Event e = {kind, bank, client, block, param, seen, access, is_inferred};
        for (Watch *w : watches_) w->event(e);
    }
    // A step of which nobody saw a message.
    void note_inferred(uint32_t kind, uint32_t bank, uint32_t client, uint32_t block, uint32_t param = 0) {
        note(kind, bank, client, block, param, nullptr, nullptr, true);
    }
    void remember(Past p, uint32_t block, const Access *access) {
        History &past = pasts_[block];
        bool is_gone = p.kind == JV_EVENT_DROP || p.kind == JV_EVENT_TAKE_PUT_ACK, is_long = past.steps.size() >= 180;
        if (is_gone || is_long) past = History{{}, !is_gone};
        if (is_gone || past.is_cut) return;
        if (access) {
            p.len = uint8_t(access->len);
            p.offset = uint32_t((access->address - options_.base) % bus_.block_bytes);
            p.bytes = access->bytes;
        }
        past.steps.push_back(p);
    }
    void fault(Cause cause, const Message &m, const std::string &said, bool has_block = true, uint32_t status = JV_OK) {
        Fault f;
        f.cycle = cycle_; f.client = m.client; f.cause = cause; f.status = status; f.said = said;
        if (has_block && window_) f.address = m.address / bus_.block_bytes * bus_.block_bytes;
        if (has_block && block_of(m.address) != Window::nowhere) {
            f.block = block_of(m.address);
            f.state = state_of(m.client, *f.block);
            f.last = last_of(*f.block);
            f.script = script(*f.block);
        }
        faults_++;
        on_fault(f);
    }
    static const char *reason(uint32_t status) {
        switch (status) {
        case JV_NO_PERMISSION: return "the copy does not permit it";
        case JV_WAITING: return "an Acquire or a Release of the block is not answered";
        case JV_WRONG_FROM: return "it does not start from the permission of the copy";
        case JV_RELEASE_PENDING: return "the ReleaseAck of the block was not taken";
        case JV_COPIES_FULL: return "the client has more copies than `copies` of the model";
        case JV_NO_MEMORY: return "the model has no memory for it";
        default: return "the model refuses it";
        }
    }
    void refused(const Message &m, const std::string &what, uint32_t status) {
        counts_.clients[m.client].refused[std::min<size_t>(status, ClientCounts::statuses - 1)]++;
        fault(Cause::Refused, m, what + ": " + reason(status), true, status);
    }
    std::vector<std::string> state_of(uint32_t client, uint32_t block) const {
        std::vector<std::string> lines;
        for (const Client &it : clients_) {
            uint32_t k = it.number;
            uint64_t has = jv_perm(cache_, k, block).serial, recorded = jv_directory(cache_, k, block).serial;
            if (k != client && has == JV_NONE && recorded == JV_NONE) continue;
            std::string s = "client " + words::number(k) + " has " + words::perm(has);
            jv_answer copy = jv_copy(cache_, k, block);
            if (copy.serial == JV_COPY_DIRTY_TIP) s += " dirty";
            if (copy.len) s += " " + words::hex(copy.bytes, copy.len);
            s += std::string(", home records ") + words::perm(recorded);
            for (const Probe &p : it.probes)
                if (p.block == block) s += p.is_taken ? ", a Probe to answer" : ", a Probe on its way";
            for (const Held &h : it.held)
                if (!h.access && block_of(h.m.address) == block) s += ", " + h.m.kind() + " held back";
            lines.push_back(s);
        }
        jv_answer home = jv_home_copy(cache_, block);
        std::string s = std::string("home has ") + words::at({"no copy", "clean ", "dirty "}, uint32_t(home.serial));
        if (home.len) s += words::hex(home.bytes, home.len);
        if (auto it = serving_.find(block); it != serving_.end()) s += ", serves client " + words::number(it->second);
        lines.push_back(s);
        return lines;
    }
    std::vector<std::string> last_of(uint32_t block) const {
        std::deque<std::string> lines;
        size_t n = recent_.size();
        for (size_t i = 0; i < n && lines.size() < options_.last; i++) {
            const Message &m = recent_[(told_ - 1 - i) % n];
            if (!has_block(m) || block_of(m.address) != block) continue;
            lines.push_front("cycle " + words::number(m.cycle) + " client " + words::number(m.client) + " "
                + "ABCDE"[m.channel] + " " + m.shown());
        }
        return {lines.begin(), lines.end()};
    }

    // ---- what clients send

    bool has_block(const Message &m) const { // its address is in the memory
        return m.address >= options_.base && m.address - options_.base < memory_bytes();
    }
    // Whether a message is one of the profile and of one block of the memory; else the fault is told.
    bool is_sound(Message &m, const Beat &beat) {
        bool in_memory = has_block(m), aligned = (m.address - options_.base) % bus_.block_bytes == 0;
        m.cycle = cycle_;
        if (in_memory && aligned) tell(m);
        auto wrong = [&](Cause cause, const std::string &what) {
            std::string codes = " (opcode " + words::number(m.opcode) + ", param " + words::number(m.param) + ")";
            fault(cause, m, m.kind() + codes + what, in_memory);
            return false;
        };
        bool may_be_perm = options_.acquire_perm && m.channel == JV_A && m.opcode == 7;
        if (is_outside(m) && !may_be_perm)
            return wrong(Cause::Outside, " is a message of TileLink that the model has not");
        if (!is_in_profile(m) && !is_perm(m) && !is_cleaning(m))
            return wrong(Cause::Codes, " is no message of the profile");
        if (beat.size && *beat.size != bus_.size()) return wrong(Cause::Codes, " is of another size than a block");
        if (!in_memory) return wrong(Cause::Address, " of " + words::address(m.address) + ", outside the memory");
        return aligned || wrong(Cause::Address, " of " + words::address(m.address) + ", where no block begins");
    }
    // A Put, Get, atomic or Hint, an AcquirePerm; an answer to one that home would have sent.
    static bool is_outside(const Message &m) {
        return m.channel == JV_A ? m.opcode < JV_OP_ACQUIRE_BLOCK || m.opcode == 7 : m.channel == JV_C && m.opcode <= 2;
    }
    bool is_perm(const Message &m) const { // AcquirePerm for a store
        bool is_for_store = m.param == JV_NTOT || m.param == JV_BTOT;
        return options_.acquire_perm && m.channel == JV_A && m.opcode == 7 && is_for_store;
    }
    bool is_cleaning(const Message &m) const { // a Release that keeps the copy
        bool has_param = m.opcode == JV_OP_RELEASE_DATA ? m.param == 3 : m.param >= 3 && m.param <= 5;
        return options_.cleans && m.is_release() && has_param;
    }
    static bool is_in_profile(const Message &m) {
        if (m.channel == JV_A) return m.opcode == JV_OP_ACQUIRE_BLOCK && m.param <= JV_BTOT;
        switch (m.opcode) {
        case JV_OP_PROBE_ACK: return m.param <= JV_REPORT_NTON && m.param != 3;
        case JV_OP_PROBE_ACK_DATA: case JV_OP_RELEASE_DATA: return m.param <= JV_TTON;
        case JV_OP_RELEASE: return m.param <= JV_BTON;
        default: return false;
        }
    }
    // Whether the message has its source to itself; else the fault is told.
    bool use(std::set<uint32_t> &sources, const Message &m, const std::string &what) {
        std::string said = m.kind() + ": source " + words::number(m.source);
        if (m.source >= options_.sources) fault(Cause::Source, m, said + " is not one of the link");
        else if (sources.insert(m.source).second) return true;
        else fault(Cause::Source, m, said + " has an unanswered " + what);
        return false;
    }
    void access(uint32_t k, bool is_store, uint64_t address, const uint8_t *bytes, uint32_t len) {
        if (k >= clients() || is_agent(k)) throw std::out_of_range("jinavoke: there is no client " + words::number(k));
        if (!options_.has_taps) return;
        is_awake_ = true;
        uint64_t from = address - options_.base;
        if (address < options_.base || from > memory_bytes() || len > memory_bytes() - from) {
            Message m;
            m.client = k;
            std::string what = is_store ? "a store" : "a load";
            return fault(Cause::Address, m, what + " at " + words::address(address) + ", outside the memory", false);
        }
        for (uint32_t at = 0; at < len;) {
            uint32_t room = bus_.block_bytes - uint32_t((address + at - options_.base) % bus_.block_bytes);
            Access x = {cycle_, bank_at(address + at), k, is_store, address + at, std::min({len - at, room, 8u}), {}};
            std::copy(bytes + at, bytes + at + x.len, x.bytes.begin());
            for (Watch *w : watches_) w->access(x);
            Message m;
            m.client = k; m.address = options_.base + place_in(address + at) * bus_.block_bytes;
            take(clients_.at(k), Held{m, x, cycle_, cycle_, JV_OK});
            at += x.len;
        }
    }
    // Makes it the model's at once, or holds it back.
    void take(Client &me, Held &&h) {
        if (me.held.empty() && make(me, h)) return;
        me.held.push_back(std::move(h));
        size_t all = me.held.size();
        if (all > 1) settle(me);
        if (me.held.size() != all) return;
        waits_++;
        const Held &last = me.held.back();
        if (!last.access && last.m.channel == JV_A) counts_.clients[me.number].held[last.why]++;
    }
    void settle(Client &me) {
        for (size_t i = 0; i < me.held.size();) {
            if (is_behind(me.held, i) || !make(me, me.held[i])) { i++; continue; }
            me.held.erase(me.held.begin() + long(i));
            i = 0;
        }
    }
    // Acquires are made in their order; all else of one block in its order, but that it does not wait for an Acquire,
    // which may have overtaken it.
    static bool is_behind(const std::deque<Held> &held, size_t i) {
        auto asks = [](const Held &h) { return !h.access && h.m.channel == JV_A; };
        return std::any_of(held.begin(), held.begin() + long(i), [&](const Held &h) {
            return asks(h) ? asks(held[i]) : h.m.address == held[i].m.address;
        });
    }
    // Whether it is done with, by the model or by a fault; else it has to wait, and why.
    bool make(Client &me, Held &h) {
        if (!me.taken.empty()) { h.why = JV_NO_MEMORY; return false; }
        if (h.access) return make_access(me, h);
        if (h.m.channel == JV_A) return make_acquire(me, h);
        if (is_cleaning(h.m)) return make_cleaning(me, h);
        return h.m.is_answer() ? make_answer(me, h) : make_release(me, h);
    }
    bool make_access(Client &me, Held &h) {
        const Access &x = *h.access;
        uint32_t block = block_of(x.address), index = index_++;
        if (block == Window::nowhere) return is_nobodys(h);
        uint32_t at = model_address(x.address);
        jv_accessed got = x.is_store ? jv_store(cache_, x.client, at, x.bytes.data(), x.len, index)
                                     : jv_load(cache_, x.client, at, x.len, index);
        h.why = called(got.status);
        if (lacks_memory(h) || (got.status == JV_NO_PERMISSION && is_coming(me, block))) return false;
        note(x.is_store ? JV_EVENT_STORE : JV_EVENT_LOAD, x.bank, x.client, block, 0, nullptr, &x);
        if (!got.status) count_access(x, block);
        auto says = [&] { return said_of(x); };
        if (got.status) refused(h.m, says(), got.status);
        else if (x.is_store ? fill(me, x) : is_blank(me, x))
            fault(Cause::Load, h.m, says() + ": an AcquirePerm brings no data, and nothing was stored there");
        else if (!x.is_store && std::memcmp(got.bytes, x.bytes.data(), x.len))
            fault(Cause::Load, h.m, says() + ", where the model has " + words::hex(got.bytes, x.len));
        return true;
    }
    static std::string said_of(const Access &x) {
        return std::string(x.is_store ? "store" : "load") + " of " + words::hex(x.bytes.data(), x.len) + " at "
            + words::address(x.address);
    }
    // A message or an access of a block that no number stands for, so that no client has a copy of it: a fault.
    bool is_nobodys(Held &h) {
        if (h.has_source) links_[clients_[h.m.client].link].releases.erase(h.m.source);
        h.why = h.access ? JV_NO_PERMISSION : JV_WRONG_FROM;
        refused(h.m, h.access ? said_of(*h.access) : h.m.kind(), h.why);
        return true;
    }
    // Whether an access is of a byte of which the copy got no data, and none was stored.
    bool is_blank(const Client &me, const Access &x) const {
        auto it = me.blank.find(block_of(x.address));
        return it != me.blank.end() && (it->second & bits(x)).any();
    }
    bool fill(Client &me, const Access &x) {
        auto it = me.blank.find(block_of(x.address));
        if (it != me.blank.end()) it->second &= ~bits(x);
        return false;
    }
    std::bitset<JV_MOST_BLOCK_BYTES> bits(const Access &x) const {
        std::bitset<JV_MOST_BLOCK_BYTES> these;
        for (uint32_t i = 0; i < x.len; i++) these.set((x.address - options_.base) % bus_.block_bytes + i);
        return these;
    }
    // Whether the model has no memory for it now: it is tried again as long as patience lasts.
    bool lacks_memory(const Held &h) const { return h.why == JV_NO_MEMORY && is_patient(h.since); }
    bool is_patient(uint64_t since) const { return !options_.patience || cycle_ - since < options_.patience; }
    // Whether a Grant of the block has begun to come: a core may go on before its last beat.
    static bool is_coming(const Client &me, uint32_t block) {
        return std::any_of(me.grants.begin(), me.grants.end(), [&](const Grant &g) {
            return g.block == block && g.is_begun && !g.is_taken;
        });
    }
    static const Probe *probe_of(const Client &me, uint32_t block) {
        for (const Probe &p : me.probes) if (p.block == block && p.is_taken && !p.is_hidden) return &p;
        return nullptr;
    }
    bool make_acquire(Client &me, Held &h) {
        uint32_t bank = h.m.bank, why = JV_OK, block = placed(me, h.m.address, why);
        if (block == Window::nowhere) { h.why = why; return false; }
        const uint64_t steps = me.news + changes_[bank];
        if (h.asked == steps && h.why != JV_NO_MEMORY && is_patient(h.since)) return false; // it is as it was
        h.asked = steps;
        Message asked = h.m; // an AcquirePerm is an Acquire whose Grant goes out without its data
        asked.opcode = JV_OP_ACQUIRE_BLOCK;
        const bool is_other = h.m.opcode != asked.opcode;
        jv_answer a = me.cleaning.count(block) ? refusal(JV_WAITING) : saw(asked);
        h.why = a.status;
        if (a.status == JV_COPIES_FULL) make_room(me, bank);
        bool is_full = a.status == JV_COPIES_FULL || a.status == JV_LINK_FULL, is_wrong = a.status == JV_WRONG_FROM;
        bool waits = is_full || (is_wrong && probe_of(me, block)); // for a Release, or for an answer to a Probe
        if (lacks_memory(h) || (waits && is_patient(h.since))) return false;
        if (gives_up(me, h)) return false;
        bool is_late = is_wrong && h.m.param == JV_BTOT && was_probed_since(me, block, h.raised);
        uint32_t param = is_late ? uint32_t(JV_NTOT) : h.m.param;
        if (is_late) h.why = called((a = jv_acquire(cache_, me.number, block, JV_NTOT)).status);
        if (lacks_memory(h)) return false;
        const Message *seen = is_late || is_other ? nullptr : &h.m;
        note(JV_EVENT_SEND_ACQUIRE, h.m.bank, me.number, block, param, seen, nullptr, is_other);
        if (window_) window_->keep(block, false);
        if (a.status) { // it is never granted, so its source is free again
            if (h.has_source) links_[me.link].acquires.erase(h.m.source);
            if (window_) window_->rest(block);
            refused(h.m, h.m.kind(), a.status);
            return true;
        }
        me.source_of[block] = h.m.source;
        if (is_other) me.perms.insert(block);
        push(me, me.to_a[a.bank], a, {jv_sent(&a), block, h.m.source, false, due_on(JV_A, h.m)});
        return true;
    }
    // A client that has dropped its copy acquires the block anew. The model's client releases it first, which nobody
    // sees: whether the Acquire has to wait for that.
    bool gives_up(Client &me, Held &h) {
        uint32_t block = block_of(h.m.address);
        if (me.dropping.count(block)) return true;
        if (h.why != JV_WRONG_FROM || h.m.param == JV_BTOT || probe_of(me, block)) return false;
        jv_answer copy = jv_copy(cache_, me.number, block);
        uint64_t has = copy.serial;
        bool may_branch = options_.silent_branch || me.gone.count(block);
        bool is_clean = has == JV_COPY_CLEAN_TIP || (has == JV_COPY_DIRTY_TIP && was_kept(me, block, copy.bytes));
        bool is_dropped = has == JV_COPY_BRANCH ? may_branch : is_clean && options_.silent_tip;
        if (!is_dropped) return false;
        const uint32_t why = release_hidden(me, block, has == JV_COPY_BRANCH ? JV_BTON : JV_TTON);
        bool lacks_room = why == JV_LINK_FULL || why == JV_NO_MEMORY;
        if (lacks_room) { h.why = why; h.asked.reset(); } // it is tried again in the next cycle
        return lacks_room || why == JV_OK;
    }
    // Releases a copy that the client has dropped: the model's answer.
    uint32_t release_hidden(Client &me, uint32_t block, jv_prune prune) {
        jv_answer a = jv_release(cache_, me.number, block, prune);
        called(a.status);
        if (a.status) return a.status;
        note_inferred(JV_EVENT_SEND_RELEASE, a.bank, me.number, block, prune);
        Message m = down(a, block, 0);
        m.cycle = cycle_; m.is_inferred = true;
        keep(m);
        inferred_++;
        counts_.clients[me.number][Count::Drops]++;
        me.dropping.insert(block);
        push(me, me.to_c[a.bank], a, {jv_sent(&a), block, 0, true});
        return JV_OK;
    }
    // The client's table of copies is full. Home takes the copy back that it was granted longest ago, by a Probe that
    // the client has to answer whether it still has the copy or has dropped it; and no other before that is answered.
    void make_room(Client &me, uint32_t bank) {
        auto has = [&](uint32_t block) { return jv_perm(cache_, me.number, block).serial != JV_NONE; };
        if (me.rooms[bank] && has(*me.rooms[bank])) return;
        me.rooms[bank].reset();
        forget_granted(me);
        for (uint32_t block : me.granted) {
            if (bank_of(block) != bank || me.dropping.count(block) || !begin_evict(block)) continue;
            me.rooms[bank] = block;
            rooms_++;
            counts_[HomeCount::Rooms]++;
            return;
        }
    }
    void forget_granted(Client &me) { // the blocks of which it has no copy any more
        auto is_gone = [&](uint32_t it) { return jv_perm(cache_, me.number, it).serial == JV_NONE; };
        me.granted.erase(std::remove_if(me.granted.begin(), me.granted.end(), is_gone), me.granted.end());
    }
    bool was_probed_since(const Client &me, uint32_t block, uint64_t raised) const {
        auto it = me.probed.find(block);
        bool is_since = it != me.probed.end() && raised <= it->second + options_.slack;
        return is_since && jv_perm(cache_, me.number, block).serial == JV_NONE;
    }
    bool make_answer(Client &me, Held &h) {
        uint32_t block = block_of(h.m.address);
        const Probe *p = block == Window::nowhere ? nullptr : probe_of(me, block);
        if (!p) {
            if (block != Window::nowhere)
                note(JV_EVENT_ANSWER_PROBE, h.m.bank, me.number, block, h.m.param, &h.m);
            fault(Cause::Unasked, h.m, h.m.kind() + " answers no Probe that the client took");
            return true;
        }
        if (h.m.source != p->source && !h.is_told) { // it is told once, and then taken as the answer
            h.is_told = true;
            fault(Cause::Source, h.m, h.m.kind() + ": source " + words::number(h.m.source) + ", and its Probe has "
                + words::number(p->source));
        }
        for (const Probe &it : me.probes) { // the model answers the Probes of a bank in their order
            if (&it == p) break;
            if (it.ticket.bank == p->ticket.bank) return false;
        }
        jv_answer a = me.cleaning.count(block) ? refusal(JV_RELEASE_PENDING) : saw(asked_by(h.m, *p));
        h.why = a.status;
        if (a.status == JV_LINK_FULL || (a.status == JV_RELEASE_PENDING && me.dropping.count(block))) return false;
        if (lacks_memory(h) || lacks_room(h)) return false;
        bool is_other = (a.status == JV_OK || a.status == JV_DIFFERS) && may_report(h.m, sent_by(h.m, a));
        const Message *seen = is_other ? nullptr : &h.m;
        note(JV_EVENT_ANSWER_PROBE, h.m.bank, me.number, block, h.m.param, seen, nullptr, is_other);
        std::optional<jv_answer> own = sent(h.m, a, &p->ticket);
        if (!own) return true;
        me.probes.erase(std::find_if(me.probes.begin(), me.probes.end(), [&](const Probe &it) { return &it == p; }));
        if (own->param == JV_REPORT_BTON) me.probed[block] = cycle_;
        if (own->param != h.m.param) me.gone.insert(block);
        inferred_ += is_other && h.m.param == JV_REPORT_NTON;
        if (jv_perm(cache_, me.number, block).serial == JV_NONE) me.gone.erase(block);
        push(me, me.to_c[own->bank], *own, {jv_sent(&*own), block, h.m.source, false, due_on(JV_C, h.m)});
        return true;
    }
    static jv_answer refusal(uint32_t status) {
        jv_answer a;
        std::memset(&a, 0, sizeof a);
        a.status = status;
        return a;
    }
    // A Release that keeps the copy: the model has no such message. It is answered, and the bytes that it sent are
    // those that home has: a later message of the client without data is then right as long as nothing was stored.
    bool make_cleaning(Client &me, Held &h) {
        static const uint32_t starts[] = {JV_TIP, JV_BRANCH, JV_NONE}; // TtoT, BtoB, NtoN
        uint32_t block = block_of(h.m.address), why = JV_OK;
        if (block == Window::nowhere && starts[h.m.param - 3] != JV_NONE) return is_nobodys(h);
        if (block == Window::nowhere) why = JV_OK; // NtoN
        else if (jv_waits_for(cache_, me.number, block).serial || me.cleaning.count(block)) why = JV_WAITING;
        else if (jv_perm(cache_, me.number, block).serial != starts[h.m.param - 3]) why = JV_WRONG_FROM;
        if (why) {
            if (h.has_source) links_[me.link].releases.erase(h.m.source);
            refused(h.m, h.m.kind(), why);
            return true;
        }
        if (h.m.len && !options_.has_taps && !store_what_differs(h)) return false;
        if (h.m.len && !has_bytes(h.m)) {
            jv_answer copy = jv_copy(cache_, me.number, block);
            fault(Cause::Differs, h.m, h.m.kind() + other_bytes(h.m.bytes, sent_by(h.m, copy).bytes));
        } else if (h.m.len) me.kept[block] = h.m.bytes;
        if (block != Window::nowhere) me.cleaning.insert(block);
        Message m;
        m.bank = h.m.bank; m.client = me.number; m.channel = JV_D; m.opcode = JV_OP_RELEASE_ACK;
        m.source = h.m.source; m.address = h.m.address;
        offer(links_[me.link], {m, {}, true, false, true});
        return true;
    }
    // Makes the stores that lead to the bytes of a message; whether there was memory for all of them.
    bool store_what_differs(Held &h) {
        uint32_t block = block_of(h.m.address);
        for (uint32_t at = 0; at < h.m.len; at += 8) {
            jv_answer copy = jv_copy(cache_, h.m.client, block);
            if (!std::memcmp(&copy.bytes[at], &h.m.bytes[at], 8)) continue;
            uint64_t address = h.m.address + at;
            uint32_t place = model_address(address);
            h.why = called(jv_store(cache_, h.m.client, place, &h.m.bytes[at], 8, index_++).status);
            if (h.why) return false;
            Access x = {cycle_, h.m.bank, h.m.client, true, address, 8, {}};
            std::copy_n(&h.m.bytes[at], 8, x.bytes.begin());
            note(JV_EVENT_STORE, h.m.bank, h.m.client, block, 0, nullptr, &x);
        }
        return true;
    }
    static bool was_kept(const Client &me, uint32_t block, const uint8_t *bytes) {
        auto it = me.kept.find(block);
        return it != me.kept.end() && std::equal(it->second.begin(), it->second.end(), bytes);
    }
    bool make_release(Client &me, Held &h) {
        uint32_t block = block_of(h.m.address);
        if (block == Window::nowhere) return is_nobodys(h);
        jv_answer a = me.cleaning.count(block) ? refusal(JV_WAITING) : saw(h.m);
        h.why = a.status;
        if (a.status == JV_LINK_FULL || lacks_memory(h) || lacks_room(h)) return false;
        note(JV_EVENT_SEND_RELEASE, h.m.bank, me.number, block, h.m.param, &h.m);
        std::optional<jv_answer> own = sent(h.m, a, nullptr);
        if (!own) { // no ReleaseAck comes, so its source is free again
            if (h.has_source) links_[me.link].releases.erase(h.m.source);
            return true;
        }
        push(me, me.to_c[own->bank], *own, {jv_sent(&*own), block, h.m.source, false, due_on(JV_C, h.m)});
        return true;
    }
    // Whether what the model's client sends in place of what was seen has to wait for memory.
    bool lacks_room(Held &h) {
        if (h.why != JV_DIFFERS || called(jv_reserve(cache_, h.m.bank, 1).status) == JV_OK) return false;
        h.why = JV_NO_MEMORY;
        return is_patient(h.since);
    }
    // The answer that a client gives as the Probe asks for it, where it gives up more.
    Message asked_by(const Message &m, const Probe &p) const {
        Message asked = m;
        bool is_more = options_.gives_more && p.cap == JV_TO_B && m.param == JV_REPORT_TTON;
        if (is_more) asked.param = JV_REPORT_TTOB;
        return asked;
    }
    // What the model's client has sent, or would; without the data that the client has sent before, and kept.
    Message sent_by(const Message &m, const jv_answer &a) const {
        Message own = m;
        own.opcode = a.opcode; own.param = a.param; own.len = a.len;
        own.bytes.fill(0);
        std::copy(a.bytes, a.bytes + a.len, own.bytes.begin());
        if (m.len || !own.len || !was_kept(clients_.at(m.client), block_of(m.address), own.bytes.data())) return own;
        own.opcode--;
        own.len = 0;
        own.bytes.fill(0);
        return own;
    }
    // Whether another report than the model's is one that an option permits: of a Branch that was dropped, or of a copy
    // that is given up where a Probe toB left a Branch.
    bool may_report(const Message &m, const Message &own) const {
        if (!m.is_answer() || m.param == own.param || m.opcode != own.opcode || m.len != own.len) return false;
        bool is_gone = options_.silent_branch || clients_.at(m.client).gone.count(block_of(m.address));
        bool was_branch = own.param == JV_REPORT_BTON || own.param == JV_REPORT_BTOB;
        bool was_tip = own.param == JV_REPORT_TTON || own.param == JV_REPORT_TTOB;
        if (m.param == JV_REPORT_NTON) return (is_gone && was_branch) || (options_.silent_tip && was_tip);
        return options_.gives_more && ((m.param == JV_REPORT_TTON && own.param == JV_REPORT_TTOB)
            || (m.param == JV_REPORT_BTON && own.param == JV_REPORT_BTOB));
    }
    // What the model's client has sent; none where it was refused. Where that is not what was seen the fault is told,
    // and the run goes on with the model's.
    std::optional<jv_answer> sent(const Message &m, jv_answer a, const jv_ticket *probe) {
        if (a.status != JV_OK && a.status != JV_DIFFERS) {
            refused(m, m.kind(), a.status);
            return std::nullopt;
        }
        const Message own = sent_by(m, a);
        bool is_other = own.opcode != m.opcode || own.param != m.param || own.len != m.len;
        if (is_other && !may_report(m, own)) fault(Cause::Differs, m, m.kind() + "; the model sends " + own.kind());
        else if (own.bytes != m.bytes) fault(Cause::Differs, m, m.kind() + other_bytes(m.bytes, own.bytes));
        if (a.status != JV_DIFFERS) return a;
        a = own_call(m, probe);
        if (a.status == JV_OK) return a;
        refused(m, m.kind(), a.status);
        return std::nullopt;
    }
    static std::string other_bytes(const Bytes &seen, const Bytes &own) {
        size_t at = first_other(seen.data(), own.data(), seen.size());
        return " with bytes " + words::number(at) + " to " + words::number(at + 7) + " " + words::hex(&seen[at], 8)
            + ", where the model has " + words::hex(&own[at], 8);
    }

    // ---- the model's client

    // The answer of the model's client: it has sent what was seen; or nothing changed, and JV_DIFFERS tells what it
    // would send. Where nobody tells stores, those that lead to the data of a Tip are made first; with taps only the
    // one of a clean copy, whose data TileLink allows.
    jv_answer saw(const Message &m) {
        jv_seen s;
        std::memset(&s, 0, sizeof s);
        s.channel = m.channel; s.opcode = m.opcode; s.param = m.param; s.client = m.client;
        s.block = block_of(m.address); s.len = m.len; s.index = index_;
        std::copy(m.bytes.begin(), m.bytes.end(), s.bytes);
        if (m.len && (!options_.has_taps || has_bytes(m))) s.options = JV_STORES;
        jv_answer a = jv_saw(cache_, &s);
        called(a.status);
        if (a.stores) tell_stores(m, a);
        return a;
    }
    // Whether a message has the data of a Tip to which nobody told a store: the model's client makes one then.
    bool is_of_clean_copy(const Message &m) const {
        if (!options_.has_taps || !m.len || !(m.is_release() || m.is_answer()) || !has_block(m)) return false;
        const uint32_t block = block_of(m.address);
        return block != Window::nowhere && jv_copy(cache_, m.client, block).serial == JV_COPY_CLEAN_TIP && has_bytes(m);
    }
    bool has_bytes(const Message &m) const {
        return std::memcmp(jv_copy(cache_, m.client, block_of(m.address)).bytes, m.bytes.data(), m.len) == 0;
    }
    // The stores that were made for a message stand before its event in the log.
    void tell_stores(const Message &m, const jv_answer &a) {
        std::array<jv_answer, JV_MOST_BLOCK_BYTES / 8> made{};
        uint64_t at = jv_events(cache_, m.bank).serial - (a.status == JV_OK) - a.stores;
        size_t n = jv_read_events(cache_, m.bank, &at, made.data(), a.stores);
        for (size_t i = 0; i < n; i++) {
            const jv_answer &e = made[i];
            const uint64_t address = address_of(e.place) + e.address % bus_.block_bytes;
            Access x = {cycle_, m.bank, m.client, true, address, e.len, {}, true};
            std::copy_n(e.bytes, e.len, x.bytes.begin());
            for (Watch *w : watches_) w->access(x);
            note(JV_EVENT_STORE, m.bank, m.client, e.place, 0, nullptr, &x);
        }
        index_++;
    }
    uint32_t bank_of(uint32_t block) const { return uint32_t(jv_bank_of(cache_, block).serial); }
    jv_answer own_call(const Message &m, const jv_ticket *probe) {
        uint32_t block = block_of(m.address);
        if (m.channel == JV_A) return jv_acquire(cache_, m.client, block, jv_grow(m.param));
        return probe ? jv_answer_probe(cache_, *probe) : jv_release(cache_, m.client, block, jv_prune(m.param));
    }

    // ---- what clients take

    Grant *grant_of(Client &me, const Down &down) const {
        if (!down.m.is_grant()) return nullptr;
        for (Grant &g : me.grants) if (!g.is_taken && g.block == block_of(down.m.address)) return &g;
        return nullptr;
    }
    // What was taken from D is taken by the model's client, in its order; where it has no memory for it, later.
    void take_down(Client &me) {
        while (!me.taken.empty()) {
            const Down &down = me.taken.front();
            bool is_done = down.m.opcode == JV_OP_RELEASE_ACK ? take_release_ack(me, down) : take_grant(me, down);
            if (!is_done) return;
            me.taken.pop_front();
        }
    }
    bool take_grant(Client &me, const Down &down) {
        Grant &g = *grant_of(me, down);
        jv_answer a = jv_take_grant(cache_, down.ticket);
        if (called(a.status) == JV_NO_MEMORY) return false;
        note(JV_EVENT_TAKE_GRANT, g.bank, me.number, g.block, 0, nullptr, nullptr, down.is_hidden);
        if (a.status) refused(down.m, down.m.kind(), a.status);
        g.is_taken = true;
        g.since = cycle_;
        g.ack = jv_sent(&a);
        me.probed.erase(g.block);
        me.gone.erase(g.block);
        if (down.is_hidden) return is_loaded(g.block);
        fresh_[g.block] |= uint16_t(1u << me.number);
        if (me.granted.size() > 2 * size_t(options_.numbers.copies) * banks()) forget_granted(me);
        me.granted.erase(std::remove(me.granted.begin(), me.granted.end(), g.block), me.granted.end());
        me.granted.push_back(g.block);
        if (me.rooms[g.bank] == g.block) me.rooms[g.bank].reset(); // it was evicted, and this is another copy
        me.kept.erase(g.block);
        if (down.m.len || down.is_perm) me.blank.erase(g.block);
        if (down.is_perm) me.blank[g.block].set();
        return true;
    }
    // The ReleaseAcks of what the model's client gave up for a client that had dropped it: nobody sees them.
    void take_hidden(Link &link) {
        while (!link.d.empty() && link.d.front().is_hidden) {
            Client &me = clients_[link.d.front().m.client];
            me.taken.push_back(std::move(link.d.front()));
            link.d.pop_front();
            link.d_since = cycle_;
            take_down(me);
        }
    }
    bool take_release_ack(Client &me, const Down &down) {
        uint32_t block = block_of(down.m.address);
        jv_answer a = jv_take_release_ack(cache_, down.ticket);
        if (called(a.status) == JV_NO_MEMORY) return false;
        note(JV_EVENT_TAKE_RELEASE_ACK, down.m.bank, me.number, block, 0, nullptr, nullptr, down.is_hidden);
        if (a.status) refused(down.m, down.m.kind(), a.status);
        if (window_ && home_places_[block] == Window::nowhere) window_->rest(block);
        if (!down.is_hidden) { links_[me.link].releases.erase(down.m.source); return true; }
        me.dropping.erase(block);
        me.gone.erase(block);
        if (window_ && window_->state(block) == Window::State::Loading) loaded(me, block);
        return true;
    }

    // ---- what home and the memory do

    void step() { // of all that is to be done in a cycle
        for (Client &me : clients_) {
            take_hidden(links_[me.link]);
            take_down(me);
            if (!me.held.empty()) settle(me);
            step_lanes(me);
        }
        for (Agent &agent : agents_) step_agent(agent);
        if (!loads_.empty()) step_loads();
        if (hidden_probes_) answer_hidden();
        if (!pokes_.empty()) step_pokes();
        advance();
        serve();
        if (options_.evict_every && rng_() % options_.evict_every == 0) evict();
        for (uint32_t k = 0; k < wires_; k++) give_sink(links_[k]);
        if (cycle_ % 64 == 0) look_for_waits();
    }
    bool chance() {
        if (options_.pace <= 1 || rng_() % options_.pace == 0) return true;
        is_awake_ = true;
        return false;
    }
    void step_lanes(Client &me) { // bank after bank
        for (uint32_t bank = 0, left = me.busy; left; bank++, left >>= 1) {
            if (!(left & 1)) continue;
            step_c(me, bank);
            step_a(me, bank);
            step_e(me, bank);
            auto is_of = [&](const Grant &it) { return it.bank == bank; };
            bool is_idle = me.to_a[bank].ups.empty() && me.to_c[bank].ups.empty();
            if (is_idle && std::none_of(me.grants.begin(), me.grants.end(), is_of)) me.busy &= ~(1u << bank);
        }
    }
    void step_c(Client &me, uint32_t bank) {
        Lane &lane = me.to_c[bank];
        if (lane.ups.empty() || lane.ups.front().due > cycle_ || !chance()) return;
        Up up = lane.ups.front();
        jv_answer a = jv_take_c(cache_, up.ticket);
        if (called(a.status)) return; // D is full
        lane.ups.pop_front();
        changes_[bank]++;
        note(JV_EVENT_TAKE_C, bank, me.number, up.block, 0, nullptr, nullptr, up.is_hidden);
        const bool has_none = jv_directory(cache_, me.number, up.block).serial == JV_NONE;
        if (has_none) sharers_[up.block] &= uint16_t(~(1u << me.number));
        if (a.what != JV_TELLS_MESSAGE) return answered(me.number, up.block);
        in_flight_++;
        offer(links_[me.link], {down(a, up.block, up.source), jv_sent(&a), true, up.is_hidden});
    }
    void step_a(Client &me, uint32_t bank) {
        Lane &lane = me.to_a[bank];
        // with a pace of 1 no choice is drawn, and so it is asked again where a register was closed alone
        const uint64_t changes = options_.pace <= 1 ? closed_[bank] : changes_[bank];
        if (lane.ups.empty() || lane.ups.front().due > cycle_ || lane.stuck == changes || !chance()) return;
        Up &up = lane.ups.front();
        jv_answer a = jv_accept(cache_, up.ticket);
        if (called(a.status) == JV_NO_MEMORY) return;
        if (a.status) {
            lane.stuck = changes;
            if (!up.is_hidden && !std::exchange(up.is_counted, true)) counts_.clients[me.number].waited[a.status]++;
            return;
        }
        const uint32_t block = up.block;
        const bool is_hidden = up.is_hidden;
        lane.ups.pop_front();
        changes_[bank]++;
        note(JV_EVENT_ACCEPT_ACQUIRE, bank, me.number, block, 0, nullptr, nullptr, is_hidden);
        opened({block, bank, false, ~uint64_t(0)});
    }
    // A bank takes the GrantAcks of a link in the order of the Grants, so one that came early waits.
    void step_e(Client &me, uint32_t bank) {
        auto g = std::find_if(me.grants.begin(), me.grants.end(), [&](const Grant &it) { return it.bank == bank; });
        if (g == me.grants.end() || !g->is_taken || !g->is_acknowledged || g->due > cycle_ || !chance()) return;
        if (called(jv_take_grant_ack(cache_, g->ack).status)) return;
        note(JV_EVENT_TAKE_GRANT_ACK, bank, me.number, g->block, 0, nullptr, nullptr, g->is_hidden);
        changes_[bank]++;
        close(bank);
        me.grants.erase(g);
    }
    void advance() {
        for (size_t i = 0; i < open_.size();) {
            Open &o = open_[i];
            if (o.is_asleep || o.stuck == changes_[o.bank] || !chance()) { i++; continue; }
            jv_answer a = jv_advance(cache_, o.block);
            called(a.status);
            bool is_tried_again = a.status == JV_LINK_FULL || a.status == JV_NO_MEMORY;
            if (a.status == JV_OK) changes_[o.bank]++; else if (!is_tried_again) o.stuck = changes_[o.bank];
            o.is_asleep = options_.pace <= 1 && (a.status == JV_NOT_YET || (a.status == JV_OK && waits_after(o, a)));
            if (a.status == JV_OK && acts(o, a)) { open_[i] = open_.back(); open_.pop_back(); } else i++;
        }
    }
    // Whether a register has nothing to do after what it did until an answer comes.
    bool waits_after(Open &o, const jv_answer &a) const {
        if (a.what == JV_TELLS_MEMORY) return true;
        if (a.what != JV_TELLS_MESSAGE || a.channel != JV_B) return false;
        if (o.pending == 0) o.sent = 0;
        o.sent |= 1u << a.client;
        o.pending |= 1u << a.client;
        auto serves = serving_.find(o.block);
        const uint32_t asks = a.place == o.block && serves != serving_.end() ? 1u << serves->second : 0;
        return a.param == JV_TO_B || !(sharers_[a.place] & ~o.sent & ~asks); // a Probe toB is of the one that has Tip
    }
    // What an advance did; whether the register has then nothing more to do but to be closed.
    bool acts(Open &o, const jv_answer &a) {
        switch (a.what) {
        case JV_TELLS_DROPPED:
            note(JV_EVENT_DROP, o.bank, 0, a.place);
            if (o.is_eviction) close(o.bank); else closed_[o.bank]++;
            o.victim = Window::nowhere;
            return o.is_eviction;
        case JV_TELLS_MEMORY: {
            bool is_put = a.opcode == JV_OP_PUT_FULL_DATA;
            Outward out = {a.place, o.bank, cycle_ + options_.memory_cycles, is_put, false, cycle_};
            if (is_put) o.victim = a.place;
            out.is_eviction = is_put && o.is_eviction;
            out.is_unchanged = is_put && window_ && has_in_memory(a.place, a.bytes);
            out.due = out.is_unchanged ? cycle_ : due_at(out.due + latency_on(JV_MEMORY_A, 0, address_of(a.place)));
            outward_.push_back(out);
            note(out.is_put ? JV_EVENT_SEND_PUT : JV_EVENT_SEND_GET, o.bank, 0, out.block);
            counts_[HomeCount::Unchanged] += out.is_unchanged;
            to_memory(out, a, JV_A);
            return o.is_eviction;
        }
        default: break;
        }
        Client &me = clients_.at(a.client);
        Link &link = links_[me.link];
        auto source = me.source_of.find(a.place); // of the Acquire; a Probe has none
        Message m = down(a, a.place, source == me.source_of.end() ? 0 : source->second);
        bool is_probe = a.channel == JV_B, is_other = !is_probe && me.perms.count(a.place);
        const bool is_hidden = is_loading(a.place, a.client);
        uint32_t kind = is_probe ? JV_EVENT_SEND_PROBE : JV_EVENT_SEND_GRANT;
        note(kind, o.bank, a.client, a.place, a.param, is_hidden ? nullptr : &m, nullptr, is_other || is_hidden);
        if (is_probe) {
            o.victim = a.place;
            m.source = options_.cached.empty() || is_agent(a.client) ? 0 : options_.cached[a.client].from;
            me.probes.push_back({a.place, m.source, a.param, jv_sent(&a), cycle_, is_hidden, is_hidden});
            hidden_probes_ += is_hidden;
            if (is_hidden) return false;
            if (link.b.empty()) link.b_since = cycle_;
            m.cycle = cycle_;
            if (!is_agent(a.client)) m.cycle = due_on(JV_B, m);
            link.b.push_back(m);
            return false;
        }
        me.busy |= 1u << o.bank;
        sharers_[a.place] |= uint16_t(1u << a.client);
        if (is_hidden) { // it is taken and acknowledged at once
            me.grants.push_back({o.bank, a.place, ~0u, cycle_, true, false, true, {}, 0, true});
            link.d.push_back({m, jv_sent(&a), true, true});
            return true;
        }
        me.source_of.erase(a.place);
        bool is_perm = me.perms.erase(a.place) && m.len; // (a BtoT is granted without data in any case)
        if (is_perm) { m.opcode = JV_OP_GRANT; m.len = 0; }
        Down down = {m, jv_sent(&a), false, false, false, is_perm};
        if (auto it = link.asked.find(m.source); it != link.asked.end()) {
            down.asked = it->second;
            link.asked.erase(it);
        }
        offer(link, std::move(down));
        me.grants.push_back({o.bank, a.place, ~0u, cycle_, false, false, false, {}});
        return true;
    }
    void offer(Link &link, Down &&down) {
        if (link.d.empty()) link.d_since = cycle_;
        down.m.cycle = cycle_;
        if (!down.is_hidden) down.m.cycle = due_on(JV_D, down.m);
        link.d.push_back(std::move(down));
    }
    Message down(const jv_answer &a, uint32_t block, uint32_t source) const {
        Message m;
        m.bank = a.bank; m.client = a.client; m.channel = a.channel; m.opcode = a.opcode; m.param = a.param;
        m.source = source; m.address = address_of(block); m.len = a.len;
        std::copy(a.bytes, a.bytes + a.len, m.bytes.begin());
        return m;
    }
    void to_memory(const Outward &out, const jv_answer &a, uint32_t channel) {
        MemoryMessage m = {cycle_, out.bank, out.block, channel, a.opcode, a.len, {}};
        std::copy(a.bytes, a.bytes + a.len, m.bytes.begin());
        for (Watch *w : watches_) w->memory(m);
    }
    void serve() {
        for (size_t i = 0; i < outward_.size();) {
            Outward &out = outward_[i];
            if (out.due > cycle_ || !chance()) { i++; continue; }
            if (!out.is_served) {
                i++;
                if (options_.memory && !is_served_by_memory(out)) continue;
                jv_answer a = jv_serve_memory(cache_, out.block);
                if (called(a.status)) continue;
                out.is_served = true;
                out.due = due_at(cycle_ + latency_on(JV_MEMORY_D, 0, address_of(out.block)));
                note(JV_EVENT_SERVE, out.bank, 0, out.block);
                to_memory(out, a, JV_D);
                continue;
            }
            if (called(jv_take_memory(cache_, out.block).status)) { i++; continue; }
            note(out.is_put ? JV_EVENT_TAKE_PUT_ACK : JV_EVENT_TAKE_DATA, out.bank, 0, out.block);
            changes_[out.bank]++;
            if (out.is_put && out.is_eviction) close(out.bank);
            else if (out.is_put) closed_[out.bank]++;
            wake(out.block);
            out = outward_.back();
            outward_.pop_back();
        }
    }
    void evict() {
        if (recent_.empty()) return;
        uint32_t block = block_of(recent_[rng_() % recent_.size()].address);
        if (block != Window::nowhere) begin_evict(block);
    }
    // Whether home begins to evict a block.
    bool begin_evict(uint32_t block) {
        if (called(jv_evict(cache_, block).status)) return false;
        uint32_t bank = bank_of(block);
        changes_[bank]++;
        is_awake_ = true;
        counts_[HomeCount::Evictions]++;
        opened({block, bank, true, ~uint64_t(0)});
        return true;
    }
    // The first of D gets a sink, the lowest that is free on the link.
    void give_sink(Link &link) {
        if (link.d.empty() || link.d.front().has_sink) return;
        Down &down = link.d.front();
        for (uint32_t sink = 0; sink < options_.sinks; sink++) {
            if (is_in_use(link, sink)) continue;
            grant_of(clients_[down.m.client], down)->sink = down.m.sink = sink;
            down.has_sink = true;
            link.d_since = std::max(cycle_, down.m.cycle);
            return;
        }
    }
    bool is_in_use(const Link &link, uint32_t sink) const {
        for (const Client &me : clients_) {
            if (me.grants.empty() || &links_[me.link] != &link) continue;
            for (const Grant &g : me.grants) if (g.sink == sink && !g.is_acknowledged) return true;
        }
        return false;
    }
    // Whether so long a wait is too long; it is told once in so many cycles.
    bool is_late(uint64_t &since) const {
        bool late = !is_patient(since);
        if (late) since = cycle_;
        return late;
    }
    void look_for_waits() {
        for (uint32_t k = 0; k < std::max(wires_, clients()); k++) {
            if (k < wires_) look_for_stuck(links_[k]);
            if (k < clients() && !is_agent(k)) look_for_late(clients_[k]);
        }
    }
    // A beat that is offered and not taken, and a message on C that does not go on.
    void look_for_stuck(Link &link) {
        if (!link.b.empty() && link.b.front().cycle <= cycle_ && is_late(link.b_since))
            fault(Cause::Late, link.b.front(), link.b.front().kind() + " is offered on B, and is not taken");
        bool is_offered = !link.d.empty() && link.d.front().has_sink && !link.d.front().is_hidden
            && link.d.front().m.cycle <= cycle_;
        if (is_offered && is_late(link.d_since)) {
            const Down &down = link.d.front();
            std::string beat = down.m.len ? ", beat " + words::number(link.d_beat) : "";
            fault(Cause::Late, down.m, down.m.kind() + " is offered on D" + beat + ", and is not taken");
        }
        if (link.c.is_open() && is_late(link.c_since)) {
            Message m = link.c.now();
            m.client = client_of(m.client, m.source).value_or(anyone_on(m.client));
            std::string beats = words::number(link.c.beats()) + " of " + words::number(bus_.beats(true)) + " beats";
            fault(Cause::Late, m, m.kind() + " stops after " + beats, has_block(m));
        }
    }
    // What did not come in time: an answer to a Probe, a GrantAck, or what a message waits for.
    void look_for_late(Client &me) {
        Message m;
        m.client = me.number;
        for (Probe &p : me.probes) if (p.is_taken && !p.is_hidden && is_late(p.since)) {
            m.address = address_of(p.block);
            fault(Cause::Late, m, "no ProbeAck came for the Probe that the client took");
        }
        for (Grant &g : me.grants) if (g.is_taken && !g.is_acknowledged && is_late(g.since)) {
            m.address = address_of(g.block);
            fault(Cause::Late, m, "no GrantAck came for the Grant of sink " + words::number(g.sink));
        }
        for (size_t i = 0; i < me.held.size(); i++) if (is_late(me.held[i].since)) {
            Held h = me.held[i];
            me.held.erase(me.held.begin() + long(i--));
            std::string what = h.access ? "an access" : h.m.kind();
            unkeep(h);
            if (h.why == Counts::window_full) {
                fault(Cause::Window, h.m, what + ": each number of its bank and set is in use");
                continue;
            }
            fault(Cause::Late, h.m, what + " waits, and what it waits for does not come", true, h.why);
        }
    }

    // A script of one block's history: one bank, the block as block 0, tickets counted anew.
    class Script {
      public:
        Script(const Home &home, uint32_t block) : home_(home), block_(block) {}
        std::string of(const std::vector<Past> &steps) {
            for (const Past &p : steps) add(p);
            const jv_answer memory = jv_memory_block(home_.cache_, block_);
            return "# block " + words::number(block_) + " at " + words::address(home_.address_of(block_))
                + "\nversion = 2\nclients = " + words::number(home_.clients()) + "\nbanks = 1\nblock_bytes = "
                + words::number(home_.bus_.block_bytes) + "\nsets = 1\nways = 1\nregisters = 1\ncopies = 1\n"
                + "memory_blocks = 1\nturns = 1\nimage = \"" + words::hex(memory.bytes, memory.len) + "\"\nsteps = [\n"
                + lines_ + "]\n";
        }

      private:
        void line(const std::string &words) { lines_ += "    \"" + words + "\"," + mark_ + "\n"; }
        std::string ticket(uint32_t client, uint32_t channel) { // of the next message that is taken
            uint64_t serial = taken_[{client, channel}]++;
            return "0." + words::number(client) + "." + "ABCDE"[channel] + "." + words::number(serial);
        }
        void advance() { // by the block's own register, or by that of a block whose victim it is
            if (!is_open_) line("evict 0");
            is_open_ = true;
            line("advance 0");
        }
        void add(const Past &p) {
            std::string name = words::event(p.kind), k = words::number(p.client);
            mark_ = p.is_inferred ? " # inferred" : "";
            switch (p.kind) {
            case JV_EVENT_LOAD: line("load " + k + " " + words::address(p.offset) + " " + words::number(p.len)); break;
            case JV_EVENT_STORE:
                line("store " + k + " " + words::address(p.offset) + " " + words::hex(p.bytes.data(), p.len));
                break;
            case JV_EVENT_SEND_ACQUIRE: line("acquire " + k + " 0 " + words::grow(p.param)); break;
            case JV_EVENT_SEND_RELEASE: line("release " + k + " 0 " + words::report(p.param)); break;
            case JV_EVENT_ANSWER_PROBE: line("answer_probe " + ticket(p.client, JV_B)); break;
            case JV_EVENT_TAKE_GRANT: case JV_EVENT_TAKE_RELEASE_ACK: line(name + " " + ticket(p.client, JV_D)); break;
            case JV_EVENT_ACCEPT_ACQUIRE: line("accept " + ticket(p.client, JV_A)); is_open_ = true; break;
            case JV_EVENT_TAKE_C: line("take_c " + ticket(p.client, JV_C)); break;
            case JV_EVENT_TAKE_GRANT_ACK: line("take_grant_ack " + ticket(p.client, JV_E)); is_open_ = false; break;
            case JV_EVENT_SERVE: line("serve_memory 0"); break;
            case JV_EVENT_TAKE_DATA: line("take_memory 0"); break;
            default: advance();
            }
        }
        const Home &home_;
        uint32_t block_;
        std::string lines_, mark_;
        bool is_open_ = false;
        std::map<std::pair<uint32_t, uint32_t>, uint64_t> taken_;
    };

    Options options_;
    Bus bus_;
    std::mt19937 rng_;
    jv_cache *cache_ = nullptr;
    std::deque<Client> clients_;
    std::deque<Link> links_;
    std::deque<Agent> agents_;
    uint32_t wires_ = 0; // how many links are seen
    std::vector<Open> open_;         // the registers that have something to do
    std::vector<Outward> outward_;   // what passes to the memory
    std::vector<uint64_t> changes_;  // of each bank: a step that was refused is tried again when it changed
    std::map<uint32_t, uint32_t> serving_; // by block: the client whose Acquire home serves
    std::vector<History> pasts_;           // by block
    std::vector<uint64_t> closed_;         // of each bank: how many registers were closed, or lost their victim
    std::vector<uint16_t> fresh_;          // by block: the clients that made no access since its Grant
    std::vector<uint16_t> sharers_;        // by block: the clients of which home records a permission
    std::vector<uint32_t> home_blocks_, home_places_; // the blocks that home holds; by block its place among them
    std::vector<Message> recent_;
    std::optional<Window> window_;
    std::map<size_t, std::deque<std::pair<uint32_t, uint64_t>>> full_; // by bank and set: clients and blocks that wait
    std::map<uint32_t, Load> loads_; // by number: the blocks that are brought into the window
    std::deque<Poke> pokes_;
    std::vector<uint64_t> flushed_; // by bank: how many registers were closed when flush() last asked
    Counts counts_;
    mutable std::priority_queue<uint64_t, std::vector<uint64_t>, std::greater<uint64_t>> timers_; // what comes then
    bool is_in_tick_ = false;
    bool is_awake_ = true; // something was done or told, or a choice fell otherwise: the next cycle may do more
    uint64_t in_flight_ = 0, registers_ = 0, crossings_ = 0, hidden_probes_ = 0, forget_due_ = 4096;
    uint64_t cycle_ = 0, told_ = 0, faults_ = 0, waits_ = 0, inferred_ = 0, rooms_ = 0, requests_ = 0;
    uint32_t index_ = 0;
    std::vector<Watch *> watches_;
};

// ---- records

// The stream of a record; std::runtime_error where nothing can be written there, as to a file that was not opened.
inline std::ostream &writable(std::ostream &out) {
    if (!out) throw std::runtime_error("jinavoke: a record cannot be written: its file is not open");
    return out;
}

// What `tlwire` is to expect of a record (docs/RECORD.md, "What is open"): it answers with what is not so.
struct Expected {
    bool ends_quiet = false; // the bench runs on until nothing is under way
    uint64_t patience = 0;   // so many cycles an exchange may be open; 0: for ever
};

// What was seen on the links, for `tlwire` (docs/RECORD.md): one bank's. A line waits where the record's order wants
// another before it: a GrantAck for its Grant, and a source that is used again for the answer that frees it. `image` is
// the home's; a memory of one's own is read for it. The record is made before the first message.
//
// The header says that each message is seen between its sending and its taking. That is so: D and B are told when their
// first beat is taken, and home has sent them before; A, E and the last beat of C when they fire, and home takes them
// behind that; the memory's messages as they are sent. It does not say so beside agents, for which the model's clients
// have copies that nobody sees; nor where clients may drop copies, which it says; nor where they may give up more than
// a Probe asks for, which `tlwire` never permits.
class WireRecord : public Watch {
  public:
    WireRecord(std::ostream &out, const Options &o, const std::vector<uint8_t> &image = {}, uint32_t bank = 0,
               const Expected &expected = {})
        : out_(writable(out)), options_(o), bank_(bank),
          size_(Bus{uint32_t(o.numbers.block_bytes), o.beat_bytes}.size()) {
        if (o.has_window())
            throw std::runtime_error("jinavoke: a record for tlwire has no window: memory_bytes are too many for it");
        out_ << "jvwire 1\nshape clients=" << o.numbers.clients << " block=" << o.numbers.block_bytes << " blocks="
             << o.numbers.memory_blocks << " base=" << words::address(o.base) << "\n";
        for (int64_t k = 0; k < o.numbers.clients - int64_t(o.uncached.size()); k++) {
            Options::Range its = o.cached.empty() ? Options::Range{0, 0, o.sources - 1} : o.cached[size_t(k)];
            out_ << "source client=" << k << " from=" << its.from << " to=" << its.to << "\n";
        }
        const bool may_drop = o.silent_branch || o.silent_tip;
        if (is_unseen()) out_ << "cores unseen\n";
        if (may_drop) out_ << "drops clients\n";
        if (o.uncached.empty() && !may_drop && !o.gives_more) out_ << "seen between\n";
        if (expected.ends_quiet) out_ << "ends quiet\n";
        if (expected.patience) out_ << "patience " << expected.patience << "\n";
        const std::vector<uint8_t> first = o.memory && image.empty() ? bytes_of(o) : image;
        if (!first.empty()) out_ << "image " << words::hex(first.data(), first.size()) << "\n";
    }
    void message(const Message &m) override {
        if (m.bank != bank_) return;
        if (m.size) return unknown(m);
        if (m.channel == JV_D && m.len > options_.beat_bytes) return; // it stands at its first beat
        if (m.is_clean) infer(m);
        put(m);
    }
    void begun(const Message &m) override {
        if (m.bank == bank_ && !m.size) put(m);
    }
    void access(const Access &x) override {
        if (x.bank != bank_ || is_unseen() || (x.is_inferred && options_.has_taps)) return;
        put(x);
    }
    void memory(const MemoryMessage &m) override {
        if (m.bank != bank_) return;
        out_ << m.cycle << " m " << "ABCDE"[m.channel] << " " << m.opcode << " size=" << size_ << " source=" << m.block;
        uint64_t address = options_.base + uint64_t(m.block) * uint64_t(options_.numbers.block_bytes);
        if (m.channel == JV_A) out_ << " address=" << words::address(address);
        if (m.len) out_ << " data=" << words::hex(m.bytes.data(), m.len);
        out_ << "\n";
    }

  private:
    // Nobody tells loads and stores. (Those of agents stand in a record all the same.)
    bool is_unseen() const { return !options_.has_taps && options_.uncached.empty(); }
    static std::vector<uint8_t> bytes_of(const Options &o) { // of a memory of one's own, up to the last that is not 0
        const uint64_t most = uint64_t(JV_MOST_MEMORY_BLOCKS) * JV_MOST_BLOCK_BYTES;
        std::vector<uint8_t> bytes(size_t(std::min(o.memory_bytes, most)), 0);
        o.memory->read(o.base, bytes.data(), bytes.size());
        while (!bytes.empty() && bytes.back() == 0) bytes.pop_back();
        return bytes;
    }
    // The store that a message with the data of a clean Tip stands for, where `tlwire` knows data of a dirty one alone.
    void infer(const Message &m) {
        Access x = {m.cycle, m.bank, m.client, true, m.address, std::min(m.len, 8u), {}, true};
        std::copy_n(m.bytes.begin(), x.len, x.bytes.begin());
        out_ << "# inferred\n";
        put(x);
    }
    void put(const Access &x) {
        out_ << x.cycle << " c" << x.client << (x.is_store ? " store " : " load ") << words::address(x.address) << " "
             << words::hex(x.bytes.data(), x.len) << "\n";
    }
    void put(const Message &m) { // now, or where the record's order has room for it
        if (must_wait(m)) { waiting_.push_back(m); return; }
        write(m);
        for (size_t i = 0; i < waiting_.size();) {
            Message next = waiting_[i];
            if (must_wait(next)) { i++; continue; }
            waiting_.erase(waiting_.begin() + long(i));
            next.cycle = m.cycle;
            write(next);
            i = 0;
        }
    }
    void unknown(const Message &m) { // `tlwire` knows no agents: a comment
        out_ << "# " << m.cycle << " c" << m.client << " " << "ABCDE"[m.channel] << " " << m.shown() << " source="
             << m.source << " address=" << words::address(m.address) << "\n";
    }
    using Key = std::pair<uint32_t, uint32_t>; // of a link and a source or a sink
    bool must_wait(const Message &m) const {
        if (m.channel == JV_E) return !sinks_.count({m.client, m.sink});
        return m.channel == JV_A && requests_.count({m.client, m.source}) != 0;
    }
    void write(const Message &m) {
        if (m.channel == JV_A) requests_.insert({m.client, m.source});
        if (m.is_grant()) { requests_.erase({m.client, m.source}); sinks_.insert({m.client, m.sink}); }
        if (m.channel == JV_E) sinks_.erase({m.client, m.sink});
        out_ << m.cycle << " c" << m.client << " " << "ABCDE"[m.channel] << " " << m.opcode;
        if (m.channel != JV_E) out_ << " param=" << m.param << " size=" << size_;
        if (m.channel == JV_A || m.channel == JV_D || m.is_release()) out_ << " source=" << m.source;
        if (m.channel == JV_E || m.is_grant()) out_ << " sink=" << m.sink;
        if (m.channel != JV_D && m.channel != JV_E) out_ << " address=" << words::address(m.address);
        if (m.len) out_ << " data=" << words::hex(m.bytes.data(), m.len);
        out_ << "\n";
    }
    std::ostream &out_;
    Options options_;
    uint32_t bank_, size_;
    std::deque<Message> waiting_;
    std::set<Key> requests_, sinks_;
};

// The model's steps with the messages that were seen, for `tlcheck` (docs/RECORD.md): one bank's.
class EventRecord : public Watch {
  public:
    EventRecord(std::ostream &out, const Options &o, const std::vector<uint8_t> &image = {}, uint32_t bank = 0)
        : out_(writable(out)), bank_(bank), base_(o.base), block_bytes_(uint64_t(o.numbers.block_bytes)) {
        out_ << "clients " << o.numbers.clients << " block_bytes " << o.numbers.block_bytes << " memory_blocks "
             << o.numbers.memory_blocks << "\n";
        if (!image.empty()) out_ << "image " << words::hex(image.data(), image.size()) << "\n";
    }
    void window(const WindowLine &w) override {
        if (w.bank == bank_) out_ << "# window " << w.block << " " << words::address(w.address) << "\n";
    }
    void poke(const PokeLine &p) override {
        if (p.bank != bank_) return;
        out_ << "# poke " << words::address(p.address) << " " << words::hex(p.bytes->data(), p.bytes->size()) << "\n";
    }
    void event(const Event &e) override {
        if (e.bank != bank_) return;
        out_ << (e.is_inferred ? "# inferred\n" : "") << words::event(e.kind);
        if (const Access *x = e.access) {
            const uint64_t at = e.block * block_bytes_ + (x->address - base_) % block_bytes_;
            out_ << " " << x->client << " " << words::address(at) << " "
                 << words::hex(x->bytes.data(), x->len) << "\n";
            return;
        }
        if (e.kind < JV_EVENT_SEND_GET) out_ << " " << e.client;
        out_ << " " << e.block;
        if (e.kind == JV_EVENT_SEND_ACQUIRE) out_ << " " << words::grow(e.param);
        if (e.kind == JV_EVENT_SEND_RELEASE) out_ << " " << words::report(e.param);
        if (e.kind == JV_EVENT_SEND_PROBE) out_ << " " << words::cap(e.param);
        if (e.seen && e.kind != JV_EVENT_SEND_PROBE) out_ << " " << e.seen->shown();
        out_ << "\n";
    }

  private:
    std::ostream &out_;
    uint32_t bank_;
    uint64_t base_, block_bytes_;
};

} // namespace jinavoke
#include "jinavoke_simulator.hpp"
#endif
