// foreign [RUNS [LENGTH]]: random runs of a home of one's own, with clients that drop clean copies, as a judge sees
// them that is told so (Clients::drops_clean), and a judge at each client's pins. The home has a directory, which keeps
// what was dropped until it hears of it; in half of the runs it grants a sole reader Branch beside its own old record.
// Then runs of a home without a directory, which probes all others for each Acquire and sends data with each Grant, as
// a judge sees them that is told that too (Probes::anyone), with clients that drop clean copies and with such that do
// not. Each run has to be permitted. Runs in which a dirty copy is dropped, a Probe is left out or an Acquire is served
// out of order have not. A judge that is not told so refuses runs with drops, and with such Probes. Status 1 where it
// is otherwise.
#include "jinavoke.hpp"
#include <iostream>

static const uint32_t kClients = 3, kBlocks = 4, kBlock = 8;
static uint64_t wrong = 0;
static void want(bool is_well, const std::string &what) {
    if (is_well) return;
    wrong++;
    std::cout << "WRONG: " << what << "\n";
}
using Word = std::array<uint8_t, kBlock>;
enum class Plant { nothing, dirty_drop };
struct Manner { // of a home and its clients
    bool keeps_own = false, probes_anyone = false, drops = true;
};

// A run, event by event, each with the message that it sends.
class Run {
  public:
    Run(uint32_t seed, Manner manner, Plant plant) : rng_(seed), is_(manner), plant_(plant) {}
    std::vector<jj_entry> log;
    uint64_t drops = 0, dirty_drops = 0;
    void to(size_t length) { while (log.size() < length) step(); }

  private:
    struct Copy {
        uint32_t perm = JV_NONE, recorded = JV_NONE;
        bool is_dirty = false, waits = false, acks = false; // for a Grant; for a ReleaseAck
        Word word{};
    };
    struct Sent { uint32_t block, opcode, param; Word word; bool has_data; };
    struct Service { uint32_t client, grow; std::set<uint32_t> asked, probed; bool is_granted; };
    Copy &copy(uint32_t k, uint32_t b) { return copies_[k][b]; }
    void event(uint32_t what, uint32_t k, uint32_t b) { log.push_back(jj_event(what, k, b, 0)); }
    void shown(uint32_t what, uint32_t k, uint32_t channel, const Sent &m, uint32_t param = 0) {
        jj_entry e = jj_event(what, k, m.block, param);
        e.shown = 1; e.channel = channel; e.opcode = m.opcode; e.shown_param = m.param;
        e.len = m.has_data ? kBlock : 0;
        if (m.has_data) std::copy(m.word.begin(), m.word.end(), e.bytes);
        log.push_back(e);
    }
    void access(bool is_store, uint32_t k, uint32_t b) {
        Copy &x = copy(k, b);
        if (is_store) for (uint8_t &byte : x.word) byte = uint8_t(rng_());
        x.is_dirty = x.is_dirty || is_store;
        jj_entry e = jj_event(is_store ? JV_EVENT_STORE : JV_EVENT_LOAD, k, b * kBlock, 0);
        e.len = kBlock;
        std::copy(x.word.begin(), x.word.end(), e.bytes);
        log.push_back(e);
    }
    void step() {
        uint32_t k = rng_() % kClients, b = rng_() % kBlocks;
        Copy &x = copy(k, b);
        switch (rng_() % 12) {
        case 0: if (!x.waits && !x.acks && x.perm != JV_TIP) acquire(k, b, x); break;
        case 1: if (x.perm != JV_NONE) access(x.perm == JV_TIP && rng_() % 4, k, b); break;
        case 2: if (!x.waits && !x.acks && x.perm != JV_NONE) give_up(k, b, x); break;
        case 3: if (!b_[k].empty()) answer(k); break;
        case 4: case 5: if (!d_[k].empty()) take_d(k); break;
        case 6: if (!e_[k].empty()) take_e(k); break;
        case 7: case 8: if (!c_[k].empty()) take_c(k); break;
        case 9: if (!a_[k].empty() && !services_.count(a_[k].front().block)) accept(k); break;
        default: serve();
        }
    }
    void acquire(uint32_t k, uint32_t b, Copy &x) {
        uint32_t grow = x.perm == JV_BRANCH ? JV_BTOT : rng_() % 2 ? JV_NTOT : JV_NTOB;
        x.waits = true;
        a_[k].push_back({b, JV_OP_ACQUIRE_BLOCK, grow, {}, false});
        shown(JV_EVENT_SEND_ACQUIRE, k, JV_A, a_[k].back(), grow);
    }
    void give_up(uint32_t k, uint32_t b, Copy &x) {
        bool drops_dirty = plant_ == Plant::dirty_drop && rng_() % 4 == 0;
        if (is_.drops && (!x.is_dirty || drops_dirty)) { drops++; dirty_drops += x.is_dirty; }
        else {
            uint32_t prune = x.perm == JV_TIP ? JV_TTON : JV_BTON;
            x.acks = true;
            c_[k].push_back({b, uint32_t(JV_OP_RELEASE) + x.is_dirty, prune, x.word, x.is_dirty});
            shown(JV_EVENT_SEND_RELEASE, k, JV_C, c_[k].back(), prune);
        }
        x.perm = JV_NONE;
        x.is_dirty = false;
    }
    void answer(uint32_t k) {
        static const uint32_t reports[3][2] = {{JV_REPORT_NTON, JV_REPORT_NTON}, {JV_REPORT_BTON, JV_REPORT_BTOB},
                                               {JV_REPORT_TTON, JV_REPORT_TTOB}};
        Sent probe = b_[k].front();
        Copy &x = copy(k, probe.block);
        if (x.acks) return;
        b_[k].pop_front();
        bool to_branch = probe.param == JV_TO_B;
        uint32_t report = reports[x.perm][to_branch];
        bool has_data = x.is_dirty;
        c_[k].push_back({probe.block, uint32_t(JV_OP_PROBE_ACK) + has_data, report, x.word, has_data});
        shown(JV_EVENT_ANSWER_PROBE, k, JV_C, c_[k].back());
        x.perm = std::min(x.perm, to_branch ? uint32_t(JV_BRANCH) : uint32_t(JV_NONE));
        x.is_dirty = false;
    }
    void take_d(uint32_t k) {
        Sent m = d_[k].front();
        d_[k].pop_front();
        Copy &x = copy(k, m.block);
        if (m.opcode == JV_OP_RELEASE_ACK) { x.acks = false; return event(JV_EVENT_TAKE_RELEASE_ACK, k, m.block); }
        x.waits = false;
        x.perm = m.param == JV_TO_T ? JV_TIP : JV_BRANCH;
        if (m.has_data) x.word = m.word;
        e_[k].push_back(m.block);
        event(JV_EVENT_TAKE_GRANT, k, m.block);
    }
    void take_e(uint32_t k) {
        uint32_t b = e_[k].front();
        e_[k].pop_front();
        services_.erase(b);
        event(JV_EVENT_TAKE_GRANT_ACK, k, b);
    }
    void take_c(uint32_t k) {
        static const uint32_t leaves[] = {JV_BRANCH, JV_NONE, JV_NONE, JV_TIP, JV_BRANCH, JV_NONE};
        Sent m = c_[k].front();
        c_[k].pop_front();
        copy(k, m.block).recorded = leaves[m.param];
        if (m.has_data) home_[m.block] = m.word;
        event(JV_EVENT_TAKE_C, k, m.block);
        if (m.opcode >= JV_OP_RELEASE) d_[k].push_back({m.block, JV_OP_RELEASE_ACK, 0, {}, false});
        else services_.at(m.block).probed.erase(k);
    }
    void accept(uint32_t k) {
        Sent m = a_[k].front();
        a_[k].pop_front();
        services_[m.block] = {k, m.param, {}, {}, false};
        event(JV_EVENT_ACCEPT_ACQUIRE, k, m.block);
        if (!has_.insert(m.block).second) return;
        for (uint32_t what : {JV_EVENT_SEND_GET, JV_EVENT_SERVE, JV_EVENT_TAKE_DATA}) event(what, 0, m.block);
    }
    void serve() { // a Probe, or a Grant
        for (auto &[b, s] : services_) {
            if (s.is_granted) continue;
            uint32_t cap = s.grow == JV_NTOB ? JV_TO_B : JV_TO_N, left = s.grow == JV_NTOB ? JV_BRANCH : JV_NONE;
            for (uint32_t j = 0; j < kClients; j++) {
                bool is_recorded = is_.probes_anyone || copy(j, b).recorded > left;
                if (j == s.client || !is_recorded || s.asked.count(j)) continue;
                s.asked.insert(j);
                s.probed.insert(j);
                b_[j].push_back({b, JV_OP_PROBE_BLOCK, cap, {}, false});
                return shown(JV_EVENT_SEND_PROBE, j, JV_B, b_[j].back(), cap);
            }
            if (s.probed.empty()) return grant(b, s);
        }
    }
    void grant(uint32_t b, Service &s) {
        bool is_alone = true;
        for (uint32_t j = 0; j < kClients; j++) {
            bool counts = j != s.client || (is_.keeps_own && s.grow == JV_NTOB);
            is_alone = is_alone && (!counts || copy(j, b).recorded == JV_NONE);
        }
        Copy &x = copy(s.client, b);
        uint32_t cap = s.grow != JV_NTOB || is_alone ? JV_TO_T : JV_TO_B;
        bool has_data = s.grow != JV_BTOT || x.recorded == JV_NONE || is_.probes_anyone;
        x.recorded = cap == JV_TO_T ? JV_TIP : JV_BRANCH;
        s.is_granted = true;
        d_[s.client].push_back({b, uint32_t(JV_OP_GRANT) + has_data, cap, home_[b], has_data});
        shown(JV_EVENT_SEND_GRANT, s.client, JV_D, d_[s.client].back());
    }
    std::mt19937 rng_;
    Manner is_;
    Plant plant_;
    std::array<std::array<Copy, kBlocks>, kClients> copies_;
    std::array<std::deque<Sent>, kClients> a_, b_, c_, d_;
    std::array<std::deque<uint32_t>, kClients> e_;
    std::map<uint32_t, Service> services_;
    std::set<uint32_t> has_; // the blocks that home has a copy of
    std::array<Word, kBlocks> home_{};
};

// What a judge says of a log; empty where each entry is permitted.
static std::string said_of(const std::vector<jj_entry> &log, jinavoke::Clients clients,
                           jinavoke::Probes probes = jinavoke::Probes::recorded) {
    jinavoke::Judge judge({kClients, kBlock, kBlocks, JJ_WHOLE_CHANNEL}, {}, clients, probes);
    for (const jj_entry &e : log) judge.see(e);
    return judge.said();
}
// What the judges at the clients' pins say: messages on A and C as they are sent, on D as they are taken, accesses.
static std::string said_at_pins(const std::vector<jj_entry> &log, jinavoke::Clients clients) {
    for (uint32_t k = 0; k < kClients; k++) {
        jinavoke::PinsJudge pins({{kClients, kBlock, kBlocks, JJ_WHOLE_CHANNEL}, k, 0}, clients);
        std::map<uint32_t, jj_entry> grants; // by block
        for (const jj_entry &e : log) {
            if (e.event >= JV_EVENT_SEND_GET || e.client != k) continue;
            if (e.event <= JV_EVENT_STORE) pins.access(e.event == JV_EVENT_STORE, k, e.place, e.bytes, e.len);
            if (e.event == JV_EVENT_SEND_GRANT) grants[e.place] = e;
            jj_entry m = e.event == JV_EVENT_TAKE_GRANT ? grants[e.place] : e;
            if (e.event == JV_EVENT_TAKE_RELEASE_ACK) { m.shown = 1; m.channel = JV_D; m.opcode = JV_OP_RELEASE_ACK; }
            bool is_line = (e.event >= JV_EVENT_SEND_ACQUIRE && e.event <= JV_EVENT_TAKE_RELEASE_ACK) && m.shown;
            if (is_line) pins.see(jp_message(k, e.place, m.channel, m.opcode, m.shown_param, m.bytes, m.len));
        }
        if (!pins.said().empty()) return pins.said();
    }
    return "";
}
// The log without one Probe, its answer and home's taking of that; empty where there is none that tells of a copy.
static std::vector<jj_entry> without_a_probe(const std::vector<jj_entry> &log, std::mt19937 &rng) {
    std::vector<size_t> probes;
    for (size_t i = 0; i < log.size(); i++) if (log[i].event == JV_EVENT_SEND_PROBE) probes.push_back(i);
    if (probes.empty()) return {};
    size_t at = probes[rng() % probes.size()];
    const jj_entry &probe = log[at];
    auto is = [&](const jj_entry &e, uint32_t event) {
        return e.event == event && e.client == probe.client && e.place == probe.place;
    };
    size_t answer = at, before = 0;
    while (answer < log.size() && !is(log[answer], JV_EVENT_ANSWER_PROBE)) answer++;
    if (answer == log.size()) return {};
    if (log[answer].shown_param == JV_REPORT_NTON || log[answer].shown_param == JV_REPORT_BTOB) return {};
    for (size_t i = 0; i < answer; i++) {
        before += is(log[i], JV_EVENT_ANSWER_PROBE) || is(log[i], JV_EVENT_SEND_RELEASE);
        before -= is(log[i], JV_EVENT_TAKE_C);
    }
    size_t taken = answer;
    for (taken++; taken < log.size() && !(is(log[taken], JV_EVENT_TAKE_C) && before-- == 0);) taken++;
    std::vector<jj_entry> rest;
    bool is_granted = false;
    for (size_t i = 0; i < log.size(); i++) {
        if (i != at && i != answer && i != taken) rest.push_back(log[i]);
        is_granted = is_granted || (i > taken && log[i].event == JV_EVENT_SEND_GRANT && log[i].place == probe.place);
    }
    return is_granted ? rest : std::vector<jj_entry>{}; // else it may do no harm before the log ends
}
// Two Acquires of a client, of which home accepts the second first: the order of A over the blocks is asked, but where
// that of each block alone is.
static void out_of_order() {
    jinavoke::Judge judge({kClients, kBlock, kBlocks, JJ_WHOLE_CHANNEL}, {}, jinavoke::Clients::drops_clean);
    for (uint32_t block : {0u, 1u}) judge.see(JV_EVENT_SEND_ACQUIRE, 0, block, JV_NTOT);
    want(judge.said().empty(), "two Acquires: " + judge.said());
    jj_verdict v = judge.see(JV_EVENT_ACCEPT_ACQUIRE, 0, 1);
    want(v.status == JV_NOT_PERMITTED && v.rule == JJ_OUT_OF_ORDER, "an Acquire that overtakes another is permitted");
    std::cout << judge.said() << "\n";
    v = judge.see(JV_EVENT_ACCEPT_ACQUIRE, 0, 0);
    want(v.status == JV_NOT_PERMITTED && v.rule == JJ_OUT_OF_ORDER, "a judge says that again");
    for (auto clients : {jinavoke::Clients::exact, jinavoke::Clients::drops_clean}) {
        jinavoke::Judge each({kClients, kBlock, kBlocks, JJ_EACH_BLOCK}, {}, clients);
        for (uint32_t block : {0u, 1u}) each.see(JV_EVENT_SEND_ACQUIRE, 0, block, JV_NTOT);
        for (uint32_t block : {1u, 0u}) each.see(JV_EVENT_ACCEPT_ACQUIRE, 0, block);
        want(each.said().empty() && each.taken() == 4, "the order of each block: " + each.said());
    }
}
// What may not be beside a Probe of a client that has nothing. Client 0 acquires block 0, and home probes client 1,
// which has nothing; then the entries of a row, of which the last one breaks the rule.
static void idle_probes() {
    auto of = [](uint32_t event, uint32_t k, uint32_t param = 0) { return jj_event(event, k, 0, param); };
    auto answer = [&](uint32_t opcode, uint32_t param, uint32_t len) {
        jj_entry e = of(JV_EVENT_ANSWER_PROBE, 1);
        e.shown = 1; e.channel = JV_C; e.opcode = opcode; e.shown_param = param; e.len = len;
        return e;
    };
    const jj_entry probe = of(JV_EVENT_SEND_PROBE, 1, JV_TO_N), right = answer(JV_OP_PROBE_ACK, JV_REPORT_NTON, 0);
    const jj_entry grant = of(JV_EVENT_SEND_GRANT, 0), take = of(JV_EVENT_TAKE_C, 1);
    struct Row { const char *what; uint32_t rule; std::vector<jj_entry> entries; };
    const Row rows[] = {
        {"a Probe and its answer", JJ_NO_RULE, {probe, right, take, grant}},
        {"an answer that nobody saw", JJ_NO_RULE, {probe, of(JV_EVENT_ANSWER_PROBE, 1), take, grant}},
        {"a second Probe before the answer", JJ_CLIENT_HAS_NO_PROBE, {probe, probe}},
        {"a second Probe before the answer is taken", JJ_CLIENT_HAS_NO_PROBE, {probe, right, probe}},
        {"a second answer", JJ_PROBE_WAITS, {probe, right, right}},
        {"a Grant before the answer", JJ_NO_PROBE_IS_PENDING, {probe, grant}},
        {"a Grant before the answer is taken", JJ_NO_PROBE_IS_PENDING, {probe, right, grant}},
        {"a Probe beside a Grant", JJ_NO_GRANT_IS_PENDING, {grant, probe}},
        {"a block that is given up before the answer", JJ_NOTHING_IS_PENDING, {probe, of(JV_EVENT_DROP, 0)}},
        {"another report", JJ_OTHER_PARAM, {probe, answer(JV_OP_PROBE_ACK, JV_REPORT_TTON, 0)}},
        {"data of a client that has none", JJ_OTHER_PARAM,
         {probe, answer(JV_OP_PROBE_ACK_DATA, JV_REPORT_TTON, kBlock)}},
        {"a Release in the answer's place", JJ_OTHER_MESSAGE, {probe, answer(JV_OP_RELEASE, JV_BTON, 0)}},
        {"an answer that was not sent", JJ_MESSAGE_IS_ON_C, {probe, take}},
    };
    for (const Row &row : rows) {
        jinavoke::Judge judge({kClients, kBlock, kBlocks, JJ_WHOLE_CHANNEL}, {}, jinavoke::Clients::exact,
                              jinavoke::Probes::anyone);
        judge.see(JV_EVENT_SEND_ACQUIRE, 0, 0, JV_NTOT);
        for (uint32_t event : {JV_EVENT_ACCEPT_ACQUIRE, JV_EVENT_SEND_GET, JV_EVENT_SERVE, JV_EVENT_TAKE_DATA})
            judge.see(event, 0, 0);
        const uint64_t before = judge.taken();
        jj_verdict v = {};
        for (const jj_entry &e : row.entries) v = judge.see(e);
        want(v.rule == row.rule && judge.taken() - before == row.entries.size() - (row.rule != 0),
             std::string(row.what) + ": rule " + std::to_string(v.rule) + ": " + judge.said());
    }
}
// Runs of a home without a directory, whose clients drop clean copies, or do not.
static void without_a_directory(uint32_t runs, size_t length, bool drops) {
    const auto clients = drops ? jinavoke::Clients::drops_clean : jinavoke::Clients::exact;
    uint64_t refused = 0, left_out = 0, found = 0, dirty = 0, told = 0;
    for (uint32_t seed = 0; seed < runs; seed++) {
        std::mt19937 rng(seed);
        const Manner manner = {false, true, drops};
        Run run(seed, manner, Plant::nothing);
        run.to(length);
        std::string said = said_of(run.log, clients, jinavoke::Probes::anyone);
        std::string at_pins = said_at_pins(run.log, clients);
        want(said.empty(), "without a directory, run " + std::to_string(seed) + ": " + said);
        want(at_pins.empty(), "without a directory, run " + std::to_string(seed) + ", at the pins: " + at_pins);
        refused += !said_of(run.log, clients).empty();
        std::vector<jj_entry> damaged = without_a_probe(run.log, rng);
        left_out += !damaged.empty();
        found += !damaged.empty() && !said_of(damaged, clients, jinavoke::Probes::anyone).empty();
        Run lossy(seed, manner, Plant::dirty_drop);
        lossy.to(4 * length);
        dirty += lossy.dirty_drops != 0;
        told += lossy.dirty_drops && !said_of(lossy.log, clients, jinavoke::Probes::anyone).empty();
    }
    std::cout << runs << " runs without a directory, " << (drops ? "with drops" : "without drops")
              << ": each permitted, unless told above; " << refused << " refused by judges that are not told of it; of "
              << left_out << " without a Probe " << found << " refused, of " << dirty << " with a dirty drop " << told
              << "\n";
    want(refused * 10 > runs * 9, "Probes of clients that have nothing are permitted, and the judge is not told");
    want(found * 100 >= left_out * 97 && told * 100 >= dirty * 97, "what is planted beside such Probes is not found");
}
int main(int argc, char **argv) {
    out_of_order();
    idle_probes();
    const uint32_t runs = argc > 1 ? uint32_t(std::stoul(argv[1])) : 400;
    const size_t length = argc > 2 ? std::stoul(argv[2]) : 300;
    const auto exact = jinavoke::Clients::exact, drops = jinavoke::Clients::drops_clean;
    uint64_t entries = 0, refused = 0, refused_at_pins = 0, left_out = 0, found = 0;
    uint64_t dirty = 0, told = 0, told_at_pins = 0;
    for (uint32_t seed = 0; seed < runs; seed++) {
        std::mt19937 rng(seed);
        const Manner manner = {seed % 2 != 0};
        Run run(seed, manner, Plant::nothing);
        run.to(length);
        entries += run.log.size();
        std::string said = said_of(run.log, drops), at_pins = said_at_pins(run.log, drops);
        want(said.empty(), "run " + std::to_string(seed) + ": " + said);
        want(at_pins.empty(), "run " + std::to_string(seed) + ", at the pins: " + at_pins);
        refused += !said_of(run.log, exact).empty();
        refused_at_pins += !said_at_pins(run.log, exact).empty();
        std::vector<jj_entry> damaged = without_a_probe(run.log, rng);
        left_out += !damaged.empty();
        found += !damaged.empty() && !said_of(damaged, drops).empty();
        Run lossy(seed, manner, Plant::dirty_drop);
        lossy.to(4 * length);
        dirty += lossy.dirty_drops != 0;
        told += lossy.dirty_drops && !said_of(lossy.log, drops).empty();
        told_at_pins += lossy.dirty_drops && !said_at_pins(lossy.log, drops).empty();
    }
    std::cout << runs << " runs with drops, " << entries << " entries: each permitted, unless told above; " << refused
              << " and at the pins " << refused_at_pins << " refused by judges that are not told of drops\n"
              << left_out << " runs without a Probe of a client with a copy: " << found << " refused\n"
              << dirty << " runs in which a dirty copy was dropped: " << told << " refused, at the pins "
              << told_at_pins << "\n";
    want(refused * 10 > runs * 9 && refused_at_pins * 10 > runs * 9, "drops that no judge is told of are permitted");
    want(found * 100 >= left_out * 97, "a Probe that is left out is not found");
    want(told * 100 >= dirty * 97 && told_at_pins * 100 >= dirty * 90, "a dirty copy that is dropped is not found");
    for (bool drops : {true, false}) without_a_directory(runs, length, drops);
    return wrong != 0;
}
