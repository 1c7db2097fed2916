// What jinavoke_pkg.sv imports, and the Python module loads: the calls of jinavoke.h, and of jinavoke.hpp judges and a
// home, with words and pointers alone, since DPI takes no struct by value. A bit vector of SystemVerilog is its words
// of 32 bits, the lowest first.
#include "jinavoke.hpp"
#include <iterator>
#include <memory>

namespace {
std::vector<uint8_t> bytes_of(const char *hex) {
    std::vector<uint8_t> bytes(std::strlen(hex) / 2);
    for (size_t i = 0; i < bytes.size(); i++) {
        const char two[] = {hex[2 * i], hex[2 * i + 1], 0};
        bytes[i] = uint8_t(std::strtoul(two, nullptr, 16));
    }
    return bytes;
}

// The ranges of sources in a text as "0:8-8 2:8-11".
std::vector<jinavoke::Options::Range> ranges_of(const char *text) {
    std::vector<jinavoke::Options::Range> ranges;
    for (int n = 0; *(text += std::strspn(text, " ")); text += n) {
        jinavoke::Options::Range it = {};
        bool is_range = std::sscanf(text, "%u:%u-%u%n", &it.link, &it.from, &it.to, &n) == 3;
        if (!is_range || (text[n] && text[n] != ' '))
            throw std::runtime_error(std::string("jinavoke: no LINK:FROM-TO: ") + text);
        ranges.push_back(it);
    }
    return ranges;
}

// A memory behind a home that is read and written by functions of the caller; or, without them, one of its own.
using ReadBytes = int (*)(long long address, uint8_t *bytes, int len);       // 0 where it failed
using WriteBytes = int (*)(long long address, const uint8_t *bytes, int len);
using ReadyIn = long long (*)(long long address, int len, int is_write, long long sent, long long now);
struct Behind : jinavoke::PagedMemory {
    ReadBytes reads = nullptr;
    WriteBytes writes = nullptr;
    ReadyIn is_ready = nullptr;
    uint64_t bytes = 0;
    std::array<uint64_t, 7> latencies{};
    void read(uint64_t address, uint8_t *to, size_t len) override {
        if (!reads) return PagedMemory::read(address, to, len);
        if (!reads(static_cast<long long>(address), to, int(len))) throw std::runtime_error("jinavoke: no read");
    }
    void write(uint64_t address, const uint8_t *from, size_t len) override {
        if (!writes) return PagedMemory::write(address, from, len);
        if (!writes(static_cast<long long>(address), from, int(len))) throw std::runtime_error("jinavoke: no write");
    }
    uint64_t ready(const jinavoke::MemoryRequest &it, uint64_t now) override {
        if (!is_ready) return now;
        return uint64_t(is_ready(static_cast<long long>(it.address), int(it.len), it.is_write,
            static_cast<long long>(it.cycle), static_cast<long long>(now)));
    }
};
// What it has said goes into the options.
void put_behind(jinavoke::Options &o, Behind *behind) {
    if (!behind) return;
    o.latencies = behind->latencies;
    if (behind->bytes) { o.memory = behind; o.memory_bytes = behind->bytes; }
}

struct Links { // a home with its records, the texts of the faults that were not yet told, and the last one's script
    Links(const jinavoke::Options &o, const std::vector<uint8_t> &image)
        : Links(std::make_unique<jinavoke::Home>(o, image)) {}
    explicit Links(std::unique_ptr<jinavoke::Home> it) : own(std::move(it)), home(*own) {
        home.on_fault = [this](const jinavoke::Fault &f) {
            text += f.text();
            script = f.script;
        };
    }
    template <class Record, class... More>
    void record(const char *file, const std::vector<uint8_t> &image, const More &...more) {
        if (!*file) return;
        auto stream = std::make_unique<std::ofstream>(file);
        if (!*stream) throw std::runtime_error(std::string("jinavoke: ") + file + " cannot be written");
        files.push_back({file, std::move(stream)});
        records.push_back(std::make_unique<Record>(*files.back().stream, home.options(), image, 0u, more...));
        home.watch(records.back().get());
    }
    ~Links() { // a record that is not whole is told
        for (File &it : files)
            if (!it.stream->flush()) std::fprintf(stderr, "jinavoke: %s could not be written whole\n", it.name.c_str());
    }
    struct File {
        std::string name;
        std::unique_ptr<std::ofstream> stream;
    };
    std::unique_ptr<jinavoke::Home> own;
    jinavoke::Home &home;
    std::unique_ptr<Behind> behind; // where there is one: what it throws is told by jvh_failed
    std::string failed;
    std::string text, told, script;
    std::vector<File> files;
    std::vector<std::unique_ptr<jinavoke::Watch>> records;
};
jinavoke::Clients clients_that(int drops_clean) {
    return drops_clean ? jinavoke::Clients::drops_clean : jinavoke::Clients::exact;
}
jinavoke::Probes probes_of(int probes_anyone) {
    return probes_anyone ? jinavoke::Probes::anyone : jinavoke::Probes::recorded;
}
// What `make` makes; NULL where it throws, and standard error says why.
template <class Make> auto made(Make make) -> decltype(make()) {
    try {
        return make();
    } catch (const std::exception &why) {
        std::fprintf(stderr, "%s\n", why.what());
        return nullptr;
    }
}
void tell(const jv_answer &a, int *status, int *what, uint32_t *told, long long *told_serial, uint32_t *data) {
    const uint32_t words[] = {a.bank, a.client, a.channel, a.opcode, a.param, a.place, a.address, a.size, a.index,
                              a.len};
    std::copy(std::begin(words), std::end(words), told);
    *status = int(a.status);
    *what = int(a.what);
    *told_serial = static_cast<long long>(a.serial);
    std::memcpy(data, a.bytes, sizeof a.bytes);
}
jinavoke::Home &home_of(void *at) { return static_cast<Links *>(at)->home; }
// Makes a call of a home: what a memory of the caller's throws in it is kept, for jvh_failed.
template <class Call> void in_home(void *at, Call call) {
    Links &links = *static_cast<Links *>(at);
    if (!links.behind) return call(links.home);
    try {
        call(links.home);
    } catch (const std::exception &why) { links.failed = why.what(); }
}
jinavoke::Expected expected_of(int ends_quiet, long long patience) { return {ends_quiet != 0, uint64_t(patience)}; }
jinavoke::Beat beat_of(int opcode, int param, int size, int source, long long address) {
    jinavoke::Beat beat;
    beat.opcode = uint32_t(opcode); beat.param = uint32_t(param); beat.source = uint32_t(source);
    beat.size = uint32_t(size);
    beat.address = uint64_t(address);
    return beat;
}
} // namespace

extern "C" {

// ---- one cache

void *jvd_new(int clients, int banks, int block_bytes, int sets, int ways, int registers, int copies, int blocks,
              const char *image, int *status) {
    jv_numbers n = {2, clients, banks, block_bytes, sets, ways, registers, copies, blocks};
    std::vector<uint8_t> bytes = bytes_of(image);
    uint32_t why = JV_OK;
    jv_cache *cache = jv_new(&n, bytes.data(), bytes.size(), &why);
    *status = int(why);
    return cache;
}
void jvd_free(void *cache) { jv_free(static_cast<jv_cache *>(cache)); }
void jvd_call(void *cache, int call, int index, int client, int place, int param, int bank, int channel, int len,
              long long serial, long long bytes, int *status, int *what, uint32_t *told, long long *told_serial,
              uint32_t *data) {
    jv_request r = {uint32_t(call), uint32_t(index), uint32_t(client), uint32_t(place), uint32_t(param), uint32_t(bank),
        uint32_t(channel), uint32_t(len), uint64_t(serial), {}};
    std::memcpy(r.bytes, &bytes, sizeof r.bytes);
    tell(jv_call(static_cast<jv_cache *>(cache), &r), status, what, told, told_serial, data);
}
void jvd_saw(void *cache, int client, int channel, int opcode, int param, int block, int len, const uint32_t *bytes,
             int *status, int *what, uint32_t *told, long long *told_serial, uint32_t *data) {
    jv_seen s = {uint32_t(channel), uint32_t(opcode), uint32_t(param), uint32_t(client), uint32_t(block), uint32_t(len),
        0, 0, {}};
    std::memcpy(s.bytes, bytes, sizeof s.bytes);
    tell(jv_saw(static_cast<jv_cache *>(cache), &s), status, what, told, told_serial, data);
}
const char *jvd_status_name(int status) { return jv_status_name(uint32_t(status)); }
// The bytes of the memory in hexadecimal digits, as jvd_new takes them; they lie there until the next call of this.
const char *jvd_image(void *cache) {
    static std::string digits;
    std::vector<uint8_t> bytes(size_t(JV_MOST_MEMORY_BLOCKS) * JV_MOST_BLOCK_BYTES);
    const size_t len = jv_image(static_cast<jv_cache *>(cache), bytes.data(), bytes.size());
    digits = jinavoke::words::hex(bytes.data(), len);
    return digits.c_str();
}

// ---- a judge of events

// `drops_clean`: 1 where clients may drop clean copies, and send no Release; likewise below. `probes_anyone`: 1 where
// home may probe a client that has no more than the Probe leaves it. `each_block`: 1 where the order of a channel is
// asked for each block alone.
void *jjd_new_wide(int clients, int block_bytes, int blocks, int drops_clean, int probes_anyone, int each_block,
                   const char *image) {
    const uint32_t order = each_block ? JJ_EACH_BLOCK : JJ_WHOLE_CHANNEL;
    jj_numbers n = {uint32_t(clients), uint32_t(block_bytes), uint32_t(blocks), order};
    return made([&] {
        return new jinavoke::Judge(n, bytes_of(image), clients_that(drops_clean), probes_of(probes_anyone));
    });
}
void *jjd_new(int clients, int block_bytes, int blocks, const char *image) {
    return jjd_new_wide(clients, block_bytes, blocks, 0, 0, 0, image);
}
// The same with the structs of jinavoke.h, for Python: NULL where it is not opened, and why.
void *jjd_open(const jj_numbers *numbers, const uint8_t *image, size_t len, int drops_clean, int probes_anyone,
               uint32_t *why) {
    jj_free(jj_new(numbers, image, len, why));
    if (*why) return nullptr;
    auto *judge = made([&] {
        const std::vector<uint8_t> bytes(image, image + len);
        return new jinavoke::Judge(*numbers, bytes, clients_that(drops_clean), probes_of(probes_anyone));
    });
    if (!judge) *why = JV_NO_MEMORY;
    return judge;
}
void jjd_judge(void *judge, const jj_entry *entry, jj_verdict *verdict) {
    *verdict = static_cast<jinavoke::Judge *>(judge)->see(*entry);
}
void jjd_free(void *judge) { delete static_cast<jinavoke::Judge *>(judge); }
int jjd_see(void *judge, int event, int client, int place, int param, int is_shown, int channel, int opcode,
            int shown_param, int len, const uint32_t *bytes, int *rule) {
    jj_entry e = jj_event(uint32_t(event), uint32_t(client), uint32_t(place), uint32_t(param));
    e.shown = is_shown != 0;
    e.channel = uint32_t(channel); e.opcode = uint32_t(opcode); e.shown_param = uint32_t(shown_param);
    e.len = uint32_t(len);
    std::memcpy(e.bytes, bytes, sizeof e.bytes);
    jj_verdict v = static_cast<jinavoke::Judge *>(judge)->see(e);
    *rule = int(v.rule);
    return int(v.status);
}
long long jjd_inferred(void *judge) {
    return static_cast<long long>(static_cast<jinavoke::Judge *>(judge)->inferred());
}
const char *jjd_said(void *judge) { return static_cast<jinavoke::Judge *>(judge)->said().c_str(); }

// ---- a judge of messages at one client's pins

void *jpd_new_wide(int clients, int block_bytes, int blocks, int client, int cores_unseen, int drops_clean) {
    jp_numbers n = {{uint32_t(clients), uint32_t(block_bytes), uint32_t(blocks), JJ_WHOLE_CHANNEL}, uint32_t(client),
        uint32_t(cores_unseen)};
    return made([&] { return new jinavoke::PinsJudge(n, clients_that(drops_clean)); });
}
void *jpd_new(int clients, int block_bytes, int blocks, int client, int cores_unseen) {
    return jpd_new_wide(clients, block_bytes, blocks, client, cores_unseen, 0);
}
// The same with the structs of jinavoke.h, for Python: NULL where it is not opened, and why.
void *jpd_open(const jp_numbers *numbers, int drops_clean, uint32_t *why) {
    jp_free(jp_new(numbers, why));
    if (*why) return nullptr;
    auto *judge = made([&] { return new jinavoke::PinsJudge(*numbers, clients_that(drops_clean)); });
    if (!judge) *why = JV_NO_MEMORY;
    return judge;
}
void jpd_judge(void *judge, const jp_line *line, jp_verdict *verdict) {
    *verdict = static_cast<jinavoke::PinsJudge *>(judge)->see(*line);
}
void jpd_free(void *judge) { delete static_cast<jinavoke::PinsJudge *>(judge); }
int jpd_see(void *judge, int what, int client, int place, int channel, int opcode, int param, int len,
            const uint32_t *bytes, int *rule) {
    jp_line l = {uint32_t(what), uint32_t(client), uint32_t(place), uint32_t(channel), uint32_t(opcode),
        uint32_t(param), uint32_t(len), {}};
    std::memcpy(l.bytes, bytes, sizeof l.bytes);
    jp_verdict v = static_cast<jinavoke::PinsJudge *>(judge)->see(l);
    *rule = int(v.rule);
    return int(v.status);
}
long long jpd_inferred(void *judge) {
    return static_cast<long long>(static_cast<jinavoke::PinsJudge *>(judge)->inferred());
}
const char *jpd_said(void *judge) { return static_cast<jinavoke::PinsJudge *>(judge)->said().c_str(); }

// ---- a home of links

// As jvh_new, with what a tile needs. `clients` are those with a cache. `uncached` has the sources of each agent
// without one, and `cached` those of each client, or is empty: LINK:FROM-TO, with blanks between, as "0:8-8 2:8-11".
// `behind` is of jvh_behind, and the home's from then on; or NULL. `ends_quiet` and `wire_patience` are what the record
// for `tlwire` says of its end, or 0.
void *jvh_new_expected(void *behind, int clients, int banks, int block_bytes, int sets, int ways, int registers,
                       int copies, int blocks, long long base, int beat_bytes, int sources, int sinks, int has_taps,
                       int pace, int memory_cycles, int evict_every, int patience, int slack, int seed,
                       int silent_branch, int gives_more, int silent_tip, int acquire_perm, int cleans,
                       const char *cached, const char *uncached, const char *image, const char *wire_file,
                       const char *events_file, int ends_quiet, long long wire_patience) {
    std::unique_ptr<Behind> own(static_cast<Behind *>(behind));
    jinavoke::Options o;
    o.numbers = {2, clients, banks, block_bytes, sets, ways, registers, copies, blocks};
    o.base = uint64_t(base); o.beat_bytes = uint32_t(beat_bytes);
    o.sources = uint32_t(sources); o.sinks = uint32_t(sinks);
    o.has_taps = has_taps != 0; o.pace = uint32_t(pace); o.memory_cycles = uint32_t(memory_cycles);
    o.evict_every = uint32_t(evict_every); o.patience = uint64_t(patience); o.slack = uint64_t(slack);
    o.seed = uint32_t(seed); o.silent_branch = silent_branch != 0; o.gives_more = gives_more != 0;
    o.silent_tip = silent_tip != 0; o.acquire_perm = acquire_perm != 0; o.cleans = cleans != 0;
    std::vector<uint8_t> bytes = bytes_of(image);
    return made([&] {
        put_behind(o, own.get());
        o.cached = ranges_of(cached);
        o.uncached = ranges_of(uncached);
        o.numbers.clients += int64_t(o.uncached.size());
        auto links = std::make_unique<Links>(o, bytes);
        links->behind = std::move(own);
        links->record<jinavoke::WireRecord>(wire_file, bytes, expected_of(ends_quiet, wire_patience));
        links->record<jinavoke::EventRecord>(events_file, bytes);
        return links.release();
    });
}
void *jvh_new_behind(void *behind, int clients, int banks, int block_bytes, int sets, int ways, int registers,
                     int copies, int blocks, long long base, int beat_bytes, int sources, int sinks, int has_taps,
                     int pace, int memory_cycles, int evict_every, int patience, int slack, int seed,
                     int silent_branch, int gives_more, int silent_tip, int acquire_perm, int cleans,
                     const char *cached, const char *uncached, const char *image, const char *wire_file,
                     const char *events_file) {
    return jvh_new_expected(behind, clients, banks, block_bytes, sets, ways, registers, copies, blocks, base,
        beat_bytes, sources, sinks, has_taps, pace, memory_cycles, evict_every, patience, slack, seed, silent_branch,
        gives_more, silent_tip, acquire_perm, cleans, cached, uncached, image, wire_file, events_file, 0, 0);
}
void *jvh_new_wide(int clients, int banks, int block_bytes, int sets, int ways, int registers, int copies, int blocks,
                   long long base, int beat_bytes, int sources, int sinks, int has_taps, int pace, int memory_cycles,
                   int evict_every, int patience, int slack, int seed, int silent_branch, int gives_more,
                   int silent_tip, int acquire_perm, int cleans, const char *cached, const char *uncached,
                   const char *image, const char *wire_file, const char *events_file) {
    return jvh_new_behind(nullptr, clients, banks, block_bytes, sets, ways, registers, copies, blocks, base,
        beat_bytes, sources, sinks, has_taps, pace, memory_cycles, evict_every, patience, slack, seed, silent_branch,
        gives_more, silent_tip, acquire_perm, cleans, cached, uncached, image, wire_file, events_file);
}
void *jvh_new(int clients, int banks, int block_bytes, int sets, int ways, int registers, int copies, int blocks,
              long long base, int beat_bytes, int sources, int sinks, int has_taps, int pace, int memory_cycles,
              int evict_every, int patience, int slack, int seed, int silent_branch, int gives_more, const char *image,
              const char *wire_file, const char *events_file) {
    return jvh_new_wide(clients, banks, block_bytes, sets, ways, registers, copies, blocks, base, beat_bytes, sources,
        sinks, has_taps, pace, memory_cycles, evict_every, patience, slack, seed, silent_branch, gives_more, 0, 0, 0,
        "", "", image, wire_file, events_file);
}
void jvh_free(void *home) { delete static_cast<Links *>(home); }
void jvh_a(void *home, int client, int opcode, int param, int size, int source, long long address, long long raised) {
    home_of(home).a(uint32_t(client), beat_of(opcode, param, size, source, address), uint64_t(raised));
}
// As jvh_a, with the lanes of a request without a cache, and a bit of the mask for each.
void jvh_a_wide(void *home, int link, int opcode, int param, int size, int source, long long address, long long raised,
                const uint32_t *data, const uint32_t *mask) {
    jinavoke::Beat beat = beat_of(opcode, param, size, source, address);
    std::memcpy(beat.data.data(), data, beat.data.size());
    beat.mask = mask[0] | uint64_t(mask[1]) << 32;
    in_home(home, [&](jinavoke::Home &it) { it.a(uint32_t(link), beat, uint64_t(raised)); });
}
void jvh_c(void *home, int client, int opcode, int param, int size, int source, long long address,
           const uint32_t *data) {
    jinavoke::Beat beat = beat_of(opcode, param, size, source, address);
    std::memcpy(beat.data.data(), data, beat.data.size());
    in_home(home, [&](jinavoke::Home &it) { it.c(uint32_t(client), beat); });
}
void jvh_e(void *home, int client, int sink) { home_of(home).e(uint32_t(client), uint32_t(sink)); }
int jvh_taken(void *home, int client, int channel) { // 0 where nothing is offered there
    uint32_t k = uint32_t(client);
    if (channel == JV_B && home_of(home).b(k)) in_home(home, [&](jinavoke::Home &it) { it.b_taken(k); });
    else if (channel == JV_D && home_of(home).d(k)) in_home(home, [&](jinavoke::Home &it) { it.d_taken(k); });
    else return 0;
    return 1;
}
// 0 where it is not one of 1 to 8 bytes; then nothing is told.
int jvh_access(void *home, int client, int is_store, long long address, int len, long long bytes) {
    uint8_t data[8];
    if (len < 1 || len > int(sizeof data)) return 0;
    std::memcpy(data, &bytes, sizeof data);
    in_home(home, [&](jinavoke::Home &it) {
        if (is_store) it.store(uint32_t(client), uint64_t(address), data, uint32_t(len));
        else it.load(uint32_t(client), uint64_t(address), data, uint32_t(len));
    });
    return 1;
}
// An access of up to a block's bytes, of those that the mask names: a run of them is an access. 0 where it is none.
int jvh_tap(void *home, int client, int is_store, long long address, int len, const uint32_t *data,
            const uint32_t *mask) {
    uint8_t bytes[JV_MOST_BLOCK_BYTES];
    if (len < 1 || len > int(sizeof bytes)) return 0;
    std::memcpy(bytes, data, sizeof bytes);
    auto is_meant = [&](int at) { return (mask[at / 32] >> at % 32 & 1) != 0; };
    for (int at = 0; at < len;) {
        int end = at;
        while (end < len && is_meant(end)) end++;
        uint32_t k = uint32_t(client), n = uint32_t(end - at);
        uint64_t where = uint64_t(address) + uint64_t(at);
        if (n && is_store) home_of(home).store(k, where, bytes + at, n);
        if (n && !is_store) home_of(home).load(k, where, bytes + at, n);
        at = end + 1;
    }
    return 1;
}
void jvh_tick(void *home) { in_home(home, [](jinavoke::Home &it) { it.tick(); }); }
int jvh_b(void *home, int client, int *param, int *source, long long *address) {
    auto beat = home_of(home).b(uint32_t(client));
    if (!beat) return 0;
    *param = int(beat->param); *source = int(beat->source); *address = static_cast<long long>(beat->address);
    return 1;
}
int jvh_d(void *home, int client, int *opcode, int *param, int *source, int *sink, uint32_t *data) {
    auto beat = home_of(home).d(uint32_t(client));
    if (!beat) return 0;
    *opcode = int(beat->opcode); *param = int(beat->param); *source = int(beat->source); *sink = int(beat->sink);
    std::memcpy(data, beat->data.data(), beat->data.size());
    return 1;
}
// As jvh_d, with the size of the message, which is another than a block's for the answer to an agent.
int jvh_d_wide(void *home, int link, int *opcode, int *param, int *size, int *source, int *sink, uint32_t *data) {
    auto beat = home_of(home).d(uint32_t(link));
    if (!beat) return 0;
    *size = int(beat->size.value_or(0));
    return jvh_d(home, link, opcode, param, source, sink, data);
}
int jvh_links(void *home) { return int(home_of(home).links()); }
int jvh_link_of(void *home, int client) { return int(home_of(home).link(uint32_t(client))); }
long long jvh_inferred(void *home) { return static_cast<long long>(home_of(home).inferred()); }
long long jvh_rooms(void *home) { return static_cast<long long>(home_of(home).rooms()); }
long long jvh_requests(void *home) { return static_cast<long long>(home_of(home).requests()); }
long long jvh_cycle(void *home) { return static_cast<long long>(home_of(home).cycle()); }
int jvh_is_quiet(void *home) { return home_of(home).is_quiet(); }
int jvh_faults(void *home) { return int(home_of(home).faults()); }
const char *jvh_fault(void *home) { // those since it was last asked
    Links &links = *static_cast<Links *>(home);
    links.told = std::exchange(links.text, "");
    return links.told.c_str();
}
// What came of the last fault's block, as a script for `tlchart`; empty where there was no fault, or it is too long.
const char *jvh_script(void *home) { return static_cast<Links *>(home)->script.c_str(); }

// ---- a home in a simulator (docs/SIMULATOR.md)

// What lies behind a home that is made next with it: a memory of so many bytes, of the functions where they are given,
// and how many cycles a message is on its way on each of the seven channels.
void *jvh_behind(long long bytes, ReadBytes reads, WriteBytes writes, ReadyIn is_ready, const long long *latencies) {
    auto behind = std::make_unique<Behind>();
    behind->bytes = uint64_t(bytes);
    behind->reads = reads; behind->writes = writes; behind->is_ready = is_ready;
    std::copy_n(latencies, behind->latencies.size(), behind->latencies.begin());
    return behind.release();
}
// What failed in a call since this was last asked, as a memory of the caller's; else empty.
const char *jvh_failed(void *home) {
    Links &links = *static_cast<Links *>(home);
    links.told = std::exchange(links.failed, "");
    return links.told.c_str();
}
const char *jvh_counts(void *home, int is_json) {
    Links &links = *static_cast<Links *>(home);
    links.told = is_json ? links.home.counts().json() : links.home.counts().text();
    return links.told.c_str();
}
void jvh_reset_counts(void *home) { home_of(home).reset_counts(); }
long long jvh_next_due(void *home) { return static_cast<long long>(home_of(home).next_due().value_or(~uint64_t(0))); }
int jvh_advance_to(void *home, long long cycle) { // 0 where that is behind
    if (uint64_t(cycle) < home_of(home).cycle()) return 0;
    in_home(home, [&](jinavoke::Home &it) { it.advance_to(uint64_t(cycle)); });
    return 1;
}
// Functional access, the checkpoint: -1 where it failed, and jvh_failed says why.
int jvh_poke(void *home, long long address, const uint8_t *bytes, int len) {
    try {
        return home_of(home).poke(uint64_t(address), bytes, size_t(len));
    } catch (const std::exception &why) { static_cast<Links *>(home)->failed = why.what(); }
    return -1;
}
int jvh_peek(void *home, long long address, uint8_t *bytes, int len) {
    try {
        home_of(home).peek(uint64_t(address), bytes, size_t(len));
        return 1;
    } catch (const std::exception &why) { static_cast<Links *>(home)->failed = why.what(); }
    return -1;
}
// As jvh_peek, of 1 to 64 bytes, for a vector: 0 behind them.
int jvh_peek_wide(void *home, long long address, int len, uint32_t *data) {
    uint8_t bytes[JV_MOST_BLOCK_BYTES] = {};
    const bool is_legal = len >= 1 && len <= int(sizeof bytes);
    if (!is_legal) static_cast<Links *>(home)->failed = "jinavoke: 1 to 64 bytes";
    const int told = is_legal ? jvh_peek(home, address, bytes, len) : -1;
    std::memcpy(data, bytes, sizeof bytes);
    return told;
}
int jvh_flush(void *home) { return home_of(home).flush(); }
int jvh_save(void *home, const char *file) {
    try {
        home_of(home).save(file);
        return 1;
    } catch (const std::exception &why) { static_cast<Links *>(home)->failed = why.what(); }
    return -1;
}
// NULL where it failed, and standard error says why. The latencies are those of the file.
void *jvh_restore_expected(const char *file, void *behind, const char *wire_file, const char *events_file,
                           int ends_quiet, long long wire_patience) {
    std::unique_ptr<Behind> own(static_cast<Behind *>(behind));
    try {
        auto adapt = [&](jinavoke::Options &o) { if (own && o.memory_bytes) o.memory = own.get(); };
        auto links = std::make_unique<Links>(jinavoke::Home::restore(file, adapt));
        const jinavoke::Home &home = links->home;
        const std::vector<uint8_t> bytes = home.options().memory ? std::vector<uint8_t>() : home.image();
        links->behind = std::move(own);
        links->record<jinavoke::WireRecord>(wire_file, bytes, expected_of(ends_quiet, wire_patience));
        links->record<jinavoke::EventRecord>(events_file, bytes);
        return links.release();
    } catch (const std::exception &why) {
        std::fprintf(stderr, "%s\n", why.what());
        return nullptr;
    }
}
void *jvh_restore(const char *file, void *behind, const char *wire_file, const char *events_file) {
    return jvh_restore_expected(file, behind, wire_file, events_file, 0, 0);
}
// The numbers of a home in the order of jvh_new_wide, from `clients` to `cleans`.
void jvh_numbers(void *home, long long *out) {
    const jinavoke::Options &o = home_of(home).options();
    const jv_numbers &n = o.numbers;
    const int64_t numbers[] = {n.clients - int64_t(o.uncached.size()), n.banks, n.block_bytes, n.sets, n.ways,
        n.registers, n.copies, n.memory_blocks, int64_t(o.base), o.beat_bytes, o.sources, o.sinks, o.has_taps, o.pace,
        o.memory_cycles, o.evict_every, int64_t(o.patience), int64_t(o.slack), o.seed, o.silent_branch, o.gives_more,
        o.silent_tip, o.acquire_perm, o.cleans};
    std::copy(std::begin(numbers), std::end(numbers), out);
}

} // extern "C"
