// numbers: a home of a bus, a link or a tap that cannot be is refused, from C++ and by the calls for DPI, and so are
// judges; a message of TileLink that the model has not is told, and not as a fault of the client. Status 1 where it is
// otherwise.
#include "jinavoke_dpi.cpp"
#include <climits>
#include <iostream>

static int wrong = 0;
static void want(bool is_well, const char *what, int64_t number) {
    std::cout << what << " " << number << (is_well ? ": ok\n" : ": WRONG\n");
    wrong += !is_well;
}
static bool is_made(uint32_t beat_bytes, uint32_t sources = 16, uint32_t sinks = 16) {
    jinavoke::Options options;
    options.beat_bytes = beat_bytes; options.sources = sources; options.sinks = sinks;
    try {
        jinavoke::Home home(options);
        for (int i = 0; i < 100; i++) home.tick();
        return true;
    } catch (const std::runtime_error &) { return false; }
}
static void *made_for_dpi(int beat_bytes) {
    return jvh_new(2, 1, 64, 16, 4, 8, 64, 4096, 0, beat_bytes, 16, 16, 1, 3, 20, 0, 20000, 0, 1, 0, 0, "", "", "");
}

// How a message of one beat is told that a client sends to a fresh home, and whether as its fault.
static std::pair<std::string, bool> told_of(uint32_t channel, uint32_t opcode, uint32_t param) {
    jinavoke::Home home({});
    std::pair<std::string, bool> told = {"nothing", false};
    home.on_fault = [&](const jinavoke::Fault &f) { told = {f.name(), f.is_of_device()}; };
    jinavoke::Beat beat;
    beat.opcode = opcode; beat.param = param;
    if (channel == JV_A) home.a(0, beat); else home.c(0, beat);
    return told;
}
static void messages() {
    struct Row { uint32_t channel, opcode, param; std::string name; bool is_of_device; };
    const Row rows[] = {
        {JV_A, 4, 0, "outside the model", false},  // Get
        {JV_A, 5, 0, "outside the model", false},  // Intent, the Hint
        {JV_A, 7, 1, "outside the model", false},  // AcquirePerm NtoT
        {JV_C, 2, 0, "outside the model", false},  // HintAck
        {JV_A, 6, 3, "codes", true},               // AcquireBlock of no grow
        {JV_C, 6, 3, "codes", true},               // Release of no prune
        {JV_C, 4, 5, "unasked", true},             // ProbeAck NtoN, and no Probe
        {JV_C, 6, 2, "wrong from", true},          // Release BtoN, and no copy
        {JV_A, 6, 1, "nothing", false},            // AcquireBlock NtoT
    };
    for (const Row &row : rows) {
        auto told = told_of(row.channel, row.opcode, row.param);
        want(told == std::make_pair(row.name, row.is_of_device), told.first.c_str(), row.opcode);
    }
}

// ---- what a home does with numbers at their edges

static jinavoke::Options small() {
    jinavoke::Options o;
    o.numbers = {2, 2, 1, 64, 1, 1, 1, 4, 4};
    return o;
}
static jinavoke::Beat acquires(uint32_t param, uint32_t source, uint64_t address = 0) {
    jinavoke::Beat beat;
    beat.opcode = JV_OP_ACQUIRE_BLOCK; beat.param = param; beat.source = source; beat.address = address;
    return beat;
}
// The names of the faults of a run, each with a blank behind it.
struct Told {
    explicit Told(jinavoke::Home &home) {
        home.on_fault = [this](const jinavoke::Fault &f) { names += f.name() + " "; };
    }
    std::string names;
};
static void edges() {
    jinavoke::Home home(small());
    Told told(home);
    for (int i = 0; i < 2; i++) home.a(0, acquires(JV_BTOT, 3));
    want(told.names == "wrong from wrong from ", "an Acquire that was refused has given its source back:", 3);
    want(home.bytes_of(3).has_value(), "the bytes of block", 3);
    bool is_thrown = false;
    try { home.bytes_of(4); } catch (const std::out_of_range &) { is_thrown = true; }
    want(is_thrown, "no bytes of a block that is not there:", 4);

    for (uint64_t patience : {0, 2000}) { // a Grant that is never taken
        jinavoke::Options o = small();
        o.patience = patience;
        jinavoke::Home slow(o);
        Told late(slow);
        slow.a(0, acquires(JV_NTOT, 0));
        for (int i = 0; i < 5000; i++) slow.tick();
        want((late.names == "") == (patience == 0), "a patience of", int64_t(patience));
    }
    jinavoke::Options o = small();
    o.has_taps = false;
    jinavoke::Home untold(o);
    Told of_taps(untold);
    const uint8_t byte = 1;
    untold.store(0, 0, &byte, 1);
    want(of_taps.names == "", "stores that are told where the options say that none is:", 1);

    jinavoke::Fault f;
    for (auto [status, is_of_device] : {std::pair<uint32_t, bool>(JV_NO_MEMORY, false), {JV_CLOCK_FULL, false},
            {JV_COPIES_FULL, false}, {JV_WRONG_FROM, true}, {JV_OK, true}}) {
        f.status = status;
        want(f.is_of_device() == is_of_device, "whether it is the device's fault: status", status);
    }
}
// A memory that is at the end of all addresses, or would go on behind it; one that begins within a block.
static void ends() {
    jinavoke::Options o = small();
    o.base = ~uint64_t(0) - 4 * 64 + 1;
    jinavoke::Home home(o);
    Told told(home);
    home.a(0, acquires(JV_NTOT, 0, ~uint64_t(0) - 63));
    for (int i = 0; i < 200 && told.names.empty(); i++) {
        home.tick();
        if (!home.d(0)) continue;
        home.d_taken(0);
        if (home.d(0)) continue; // the last beat was taken
        const uint8_t byte = 1;
        home.store(0, ~uint64_t(0), &byte, 1);
        home.load(0, ~uint64_t(0), &byte, 1);
        break;
    }
    want(told.names == "", "a store of the last byte of all:", 1);
    const uint8_t two[2] = {};
    home.load(0, ~uint64_t(0), two, 2);
    want(told.names == "address ", "a load that goes on behind it:", 2);
    for (uint64_t base : {~uint64_t(0) - 3 * 64 + 1, ~uint64_t(0) - 63, uint64_t(4), ~uint64_t(0)}) {
        o.base = base;
        bool is_thrown = false;
        try { jinavoke::Home none(o); } catch (const std::runtime_error &) { is_thrown = true; }
        want(is_thrown, "no memory at", int64_t(base));
    }
    o = small();
    o.numbers.clients = 3;
    o.uncached = {{2, 0, 15}};
    jinavoke::Home wide(o);
    for (uint32_t k : {2u, 3u, ~0u}) { // an agent, and nobody
        bool is_thrown = false;
        try { wide.load(k, 0, two, 2); } catch (const std::out_of_range &) { is_thrown = true; }
        want(is_thrown, "no core of client", k);
    }
}
static void records() {
    std::ofstream lost("/no/such/folder/record");
    int thrown = 0;
    try { jinavoke::WireRecord wire(lost, small()); } catch (const std::runtime_error &) { thrown++; }
    try { jinavoke::EventRecord events(lost, small()); } catch (const std::runtime_error &) { thrown++; }
    want(thrown == 2, "records that cannot be opened:", thrown);
    for (auto [wire, events] : {std::pair<const char *, const char *>("/no/such/folder/record", ""),
            {"", "/no/such/folder/record"}}) {
        void *home = jvh_new(2, 1, 64, 16, 4, 8, 64, 4096, 0, 8, 16, 16, 1, 3, 20, 0, 20000, 0, 1, 0, 0, "", wire,
                             events);
        want(home == nullptr, "no home for DPI whose record cannot be opened:", *wire != 0);
    }
}
// What the header of a record says of how it was seen, by what the options say of the clients.
static std::string header_of(const jinavoke::Options &o, const jinavoke::Expected &expected = {}) {
    std::ostringstream out;
    jinavoke::WireRecord record(out, o, {}, 0, expected);
    const std::string text = out.str();
    size_t at = text.find('\n') + 1; // behind the first line, that of the shape, and those of sources
    while (text.compare(at, 5, "shape") == 0 || text.compare(at, 6, "source") == 0) at = text.find('\n', at) + 1;
    return text.substr(at);
}
static void headers() {
    struct Ones : jinavoke::Memory {
        void read(uint64_t, uint8_t *to, size_t len) override { std::memset(to, 0, len); to[1] = 0xff; }
        void write(uint64_t, const uint8_t *, size_t) override {}
    } ones;
    auto says = [](const char *what, const std::string &wanted, auto change) {
        jinavoke::Options o = small();
        change(o);
        want(header_of(o) == wanted, what, 0);
    };
    says("a record with taps", "seen between\n", [](auto &) {});
    says("a record without taps", "cores unseen\nseen between\n", [](auto &o) { o.has_taps = false; });
    says("a record of Branches that are dropped", "drops clients\n", [](auto &o) { o.silent_branch = true; });
    says("a record of Tips that are dropped", "drops clients\n", [](auto &o) { o.silent_tip = true; });
    says("a record of more that is given up", "", [](auto &o) { o.gives_more = true; });
    says("a record beside agents", "", [](auto &o) {
        o.numbers.clients++;
        o.uncached = {{2, 0, 15}};
        o.has_taps = false;
    });
    says("a record of a memory of one's own", "seen between\nimage 00ff\n", [&](auto &o) {
        o.memory = &ones;
        o.memory_bytes = uint64_t(o.numbers.memory_blocks * o.numbers.block_bytes);
    });
    const std::string end = header_of(small(), {true, 500});
    want(end == "seen between\nends quiet\npatience 500\n", "what is expected of a record: patience", 500);
}
static void *wide_for_dpi(const char *cached, const char *uncached) {
    return jvh_new_wide(2, 1, 64, 16, 4, 8, 64, 4096, 0, 8, 16, 16, 1, 3, 20, 0, 20000, 0, 1, 0, 0, 1, 1, 1, cached,
        uncached, "", "", "");
}
static void ranges() {
    void *home = wide_for_dpi("0:0-3 0:4-7", " 0:8-8  2:0-15 ");
    want(home != nullptr, "a home of clients and agents by their sources, on link", 2);
    want(jvh_links(home) == 3, "links:", jvh_links(home));
    want(jvh_link_of(home, 1) == 0, "the link of client 1:", jvh_link_of(home, 1));
    jvh_free(home);
    for (const char *wrong : {"0:8", "x", "0:8-9,1:2-3", "0:8-16", "0:9-8", "16:8-9", "0:8-9 0:9-9", "0:-1--1"})
        want(wide_for_dpi("", wrong) == nullptr, wrong, 0);
    want(wide_for_dpi("0:0-3", "") == nullptr, "no home of two clients and one range of sources:", 1);
}
// A vector of 16 bytes of which a mask names some is told as its runs.
static void masks() {
    void *home = made_for_dpi(16);
    uint32_t data[16] = {}, all[2] = {~0u, ~0u}, some[2] = {0x0ff3, 0};
    want(jvh_tap(home, 0, 0, 0, 65, data, all) == 0, "no tap of", 65);
    want(jvh_tap(home, 0, 0, 0, 0, data, all) == 0, "no tap of", 0);
    jvh_tap(home, 0, 0, 0, 16, data, some); // bytes 0 and 1, and 4 to 11: the second run is one access of eight
    want(jvh_faults(home) == 2, "runs of a masked load, each without a copy:", jvh_faults(home));
    jvh_tap(home, 0, 0, 56, 16, data, all);
    want(jvh_faults(home) == 4, "a load over two blocks, each without a copy:", jvh_faults(home));
    jvh_free(home);
}

// The newest bytes for a vector; and a cache's memory in the digits that a new one takes.
static void peeks() {
    void *home = jvh_new(2, 1, 64, 16, 4, 8, 64, 4096, 0, 8, 16, 16, 1, 3, 20, 0, 20000, 0, 1, 0, 0, "00112233", "",
                         "");
    uint32_t data[16];
    std::fill(std::begin(data), std::end(data), ~0u);
    const bool is_told = jvh_peek_wide(home, 1, 3, data) == 1 && data[0] == 0x332211;
    want(is_told && std::count(std::begin(data) + 1, std::end(data), 0u) == 15, "a peek of bytes", 3);
    for (int len : {0, -1, 65, INT_MAX}) {
        want(jvh_peek_wide(home, 0, len, data) == -1 && *jvh_failed(home), "no peek of bytes", len);
        want(data[0] == 0 && !*jvh_failed(home), "and nothing is told:", len);
    }
    for (long long address : {4096 * 64 - 2ll, 4096 * 64ll, -4ll})
        want(jvh_peek_wide(home, address, 4, data) == -1 && *jvh_failed(home), "no peek of 4 bytes at", address);
    want(jvh_flush(home) == 1, "a home at reset holds nothing:", 1);
    jvh_free(home);
    int status = -1;
    void *cache = jvd_new(2, 1, 8, 1, 1, 1, 1, 2, "0011223344556677", &status);
    want(status == 0 && std::string(jvd_image(cache)) == "00112233445566770000000000000000", "an image of bytes", 16);
    jvd_free(cache);
}

static int seen(void *judge, int event, int place) { // the status of an event of client 0 with nothing shown
    const uint32_t none[JV_MOST_BLOCK_BYTES / 4] = {};
    int rule = 0;
    return jjd_see(judge, event, 0, place, 0, 0, 0, 0, 0, 8, none, &rule);
}
static void judges() {
    struct Row { int clients, block_bytes, blocks; const char *image; bool is_made; };
    const Row rows[] = {
        {64, 64, 4, "", true}, {0, 64, 4, "", false}, {65, 64, 4, "", false}, {2, 24, 4, "", false},
        {2, 64, 0, "", false}, {2, 64, 65537, "", false}, {2, 8, 1, "0011223344556677", true},
        {2, 8, 1, "001122334455667788", false}, {-1, 64, 4, "", false},
    };
    for (const Row &row : rows) {
        void *judge = jjd_new(row.clients, row.block_bytes, row.blocks, row.image);
        const char *what = row.is_made ? "a judge of clients" : "no judge of clients";
        want((judge != nullptr) == row.is_made, what, row.clients);
        jjd_free(judge);
    }
    void *judge = jjd_new(2, 64, 4, "");
    want(seen(judge, JV_EVENT_TAKE_PUT_ACK + 1, 0) == JV_BAD_ARGUMENT, "no event of number", JV_EVENT_TAKE_PUT_ACK + 1);
    want(seen(judge, JV_EVENT_STORE, 64) == JV_NOT_PERMITTED, "a store without a copy, at", 64);
    want(seen(judge, JV_EVENT_LOAD, 0) == JV_NOT_PERMITTED, "and that again, whatever is handed in:", JV_EVENT_LOAD);
    want(std::string(jjd_said(judge)) == "block 0: ?: bad argument", jjd_said(judge), 0);
    jjd_free(judge);
}

static int at_pins(void *judge, int channel, int opcode, int param) { // the status of a message of client 1 and block 3
    const uint32_t none[JV_MOST_BLOCK_BYTES / 4] = {};
    int rule = 0;
    return jpd_see(judge, JP_MESSAGE, 1, 3, channel, opcode, param, 0, none, &rule);
}
static void judges_at_pins() {
    struct Row { int clients, block_bytes, blocks, client, cores_unseen; bool is_made; };
    const Row rows[] = {
        {64, 64, 4, 63, 0, true}, {2, 64, 4, 1, 1, true}, {0, 64, 4, 0, 0, false}, {2, 24, 4, 0, 0, false},
        {2, 64, 65537, 0, 0, false}, {2, 64, 4, 2, 0, false}, {2, 64, 4, -1, 0, false}, {2, 64, 4, 0, 2, false},
    };
    for (const Row &row : rows) {
        void *judge = jpd_new(row.clients, row.block_bytes, row.blocks, row.client, row.cores_unseen);
        const char *what = row.is_made ? "a judge at the pins of client" : "no judge at the pins of client";
        want((judge != nullptr) == row.is_made, what, row.client);
        jpd_free(judge);
    }
    void *judge = jpd_new(2, 64, 4, 1, 0);
    want(at_pins(judge, JV_A, JV_OP_ACQUIRE_BLOCK, JV_NTOT) == JV_OK, "an Acquire at the pins, param", JV_NTOT);
    want(at_pins(judge, JV_C, JV_OP_RELEASE, JV_TTON) == JV_NOT_PERMITTED, "no Release beside it, param", JV_TTON);
    want(at_pins(judge, JV_B, JV_OP_PROBE_BLOCK, JV_TO_N) == JV_NOT_PERMITTED, "and that again, param", JV_TO_N);
    const std::string said = "client 1, block 3: Release TtoN: no Release is sent between an Acquire and its Grant; "
        "client 1 has None, and waits for a Grant";
    want(jpd_said(judge) == said, jpd_said(judge), 1);
    jpd_free(judge);
}

int main() {
    messages();
    edges();
    ends();
    records();
    headers();
    ranges();
    masks();
    peeks();
    judges();
    judges_at_pins();
    for (uint32_t bus : {8u, 16u, 32u, 64u}) want(is_made(bus), "a bus of", bus);
    for (uint32_t bus : {0u, 1u, 4u, 7u, 12u, 24u, 63u, 65u, 128u, 1u << 31, ~0u})
        want(!is_made(bus), "no bus of", bus);
    want(!is_made(8, 0), "no link of sources", 0);
    want(!is_made(8, 16, 0), "no link of sinks", 0);
    for (int bus : {-8, 0, 4, 24, 128}) want(made_for_dpi(bus) == nullptr, "no bus for DPI of", bus);
    void *home = made_for_dpi(16);
    want(home != nullptr, "a bus for DPI of", 16);
    for (int len : {-1, 0, 9, 15, 1 << 30}) want(jvh_access(home, 0, 1, 0, len, 0) == 0, "no tap of", len);
    want(jvh_faults(home) == 0, "faults of taps that are refused:", jvh_faults(home));
    for (int len : {1, 8}) want(jvh_access(home, 0, 1, 0, len, 0) == 1, "a tap of", len);
    want(jvh_faults(home) == 2, "faults of stores without a copy:", jvh_faults(home));
    jvh_free(home);
    return wrong != 0;
}
