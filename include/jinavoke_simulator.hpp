// jinavoke_simulator.hpp: what a home of jinavoke.hpp, which includes this, does in a simulator: the memory behind it
// and the window through which the banks see it, functional access, what is due, checkpoints, counts. docs/SIMULATOR.md
// leads through it. C++17, header only, tested and not proved.
#ifndef JINAVOKE_SIMULATOR_HPP
#define JINAVOKE_SIMULATOR_HPP
#include "jinavoke.hpp"

namespace jinavoke {

// ---- functional access, for a loader or a debugger

inline bool Home::poke(uint64_t address, const uint8_t *bytes, size_t len) {
    check_range(address, len);
    if (!window_) throw std::logic_error("jinavoke: a poke, and no memory of one's own behind a window");
    const size_t before = pokes_.size();
    for (size_t at = 0; at < len;) {
        const uint64_t place = address + at - options_.base;
        const size_t n = std::min(len - at, size_t(bus_.block_bytes - place % bus_.block_bytes));
        Poke it = {address + at, {bytes + at, bytes + at + n}};
        if (is_poked(it.address) || !is_poke_done(it)) pokes_.push_back(std::move(it));
        at += n;
    }
    is_awake_ = is_awake_ || pokes_.size() > before;
    return pokes_.size() == before;
}
inline void Home::peek(uint64_t address, uint8_t *bytes, size_t len) const {
    check_range(address, len);
    for (size_t at = 0; at < len;) {
        const uint64_t offset = (address + at - options_.base) % bus_.block_bytes;
        const size_t n = std::min(len - at, size_t(bus_.block_bytes - offset));
        const Bytes block = peeked(address + at - offset);
        std::copy_n(block.begin() + long(offset), n, bytes + at);
        at += n;
    }
}

// ---- checkpoint

// Not jv_flush, which answers each Probe as the model's client would. The clients are on the links: each Probe has to
// be sent to them, and they answer with what they stored.
inline bool Home::flush() {
    if (home_blocks_.empty() && is_quiet()) return true;
    uint32_t full = 0; // a bit for each bank that is not asked
    flushed_.resize(banks(), never);
    for (uint32_t bank = 0; bank < banks(); bank++)
        if (std::exchange(flushed_[bank], closed_[bank]) == closed_[bank]) full |= 1u << bank;
    for (size_t i = 0; i < home_blocks_.size(); i++) {
        const uint32_t block = home_blocks_[i], bank = bank_of(block);
        auto works = [&](const Open &o) { return o.block == block || o.victim == block; };
        if (full >> bank & 1 || std::any_of(open_.begin(), open_.end(), works)) continue;
        if (!begin_evict(block) && jv_open_block(cache_, bank, uint64_t(options_.numbers.registers) - 1).status == 0)
            full |= 1u << bank;
    }
    return false;
}
inline std::vector<uint8_t> Home::image() const {
    if (options_.memory) throw std::logic_error("jinavoke: an image, and a memory of one's own, which has the bytes");
    std::vector<uint8_t> bytes(pasts_.size() * bus_.block_bytes);
    jv_image(cache_, bytes.data(), bytes.size());
    return bytes;
}
inline void Home::save(const std::string &file) const {
    if (!home_blocks_.empty() || !is_quiet())
        throw std::logic_error("jinavoke: a checkpoint, and home holds " + words::number(home_blocks_.size())
            + " blocks" + (is_quiet() ? "" : ", and is not quiet") + ": flush() first");
    CheckpointWriter out(file);
    save_options(out);
    std::vector<uint64_t> counted;
    Counts::each_word(counts_, [&](uint64_t it) { counted.push_back(it); });
    out.numbers("state", std::array<uint64_t, 7>{cycle_, index_, faults_, waits_, inferred_, rooms_, requests_});
    std::ostringstream choices;
    choices << rng_;
    out.line("choices", choices.str());
    out.numbers("counts", counted);
    save_memory(out);
    out.done();
}
inline std::unique_ptr<Home> Home::restore(const std::string &file, const std::function<void(Options &)> &adapt) {
    CheckpointReader in(file);
    Options o = options_in(in);
    if (adapt) adapt(o);
    if (o.memory_bytes && !o.memory) in.fail("has a memory of one's own, and none is given");
    const std::vector<uint64_t> state = in.numbers("state", 7);
    const std::string choices = in.line("choices");
    const std::vector<uint64_t> counted = in.numbers("counts");
    const std::vector<uint8_t> image = load_memory(in, o);
    auto home = std::make_unique<Home>(o, image);
    home->cycle_ = state[0];
    home->index_ = uint32_t(state[1]);
    uint64_t *const counters[] = {&home->faults_, &home->waits_, &home->inferred_, &home->rooms_, &home->requests_};
    for (size_t i = 0; i < 5; i++) *counters[i] = state[i + 2];
    home->forget_due_ = home->cycle_ / 4096 * 4096 + 4096;
    std::istringstream(choices) >> home->rng_;
    size_t at = 0, words = 0;
    Counts::each_word(home->counts_, [&](uint64_t &) { words++; });
    if (words != counted.size()) in.fail("has counts of other clients");
    Counts::each_word(home->counts_, [&](uint64_t &it) { it = counted[at++]; });
    return home;
}

// ---- the memory behind the home, and the window through which the banks see it

inline void Home::check_memory(const Options &o, const std::vector<uint8_t> &image) {
    auto wrong = [](const std::string &why) { throw std::runtime_error("jinavoke: " + why); };
    if (!o.memory && o.memory_bytes) wrong("memory_bytes, and no memory of one's own");
    if (!o.memory) return;
    const uint64_t block = uint64_t(std::max<int64_t>(o.numbers.block_bytes, 1));
    if (!o.memory_bytes) wrong("a memory of one's own of 0 bytes (memory_bytes)");
    if (o.memory_bytes % block)
        wrong("a memory of " + words::number(o.memory_bytes) + " bytes, which are no blocks of "
            + words::number(block));
    if (o.base + (o.memory_bytes - 1) < o.base) wrong("a memory that goes past the last address");
    if (!image.empty()) wrong("an image beside a memory of one's own, which has its bytes");
}
inline std::vector<uint8_t> Home::read_all(const Options &o) {
    std::vector<uint8_t> bytes;
    if (o.memory_bytes > uint64_t(JV_MOST_MEMORY_BLOCKS) * JV_MOST_BLOCK_BYTES) return bytes; // no lawful numbers
    bytes.resize(size_t(o.memory_bytes), 0);
    o.memory->read(o.base, bytes.data(), bytes.size());
    return bytes;
}
inline uint64_t Home::blocks_of_memory() const {
    return options_.memory ? options_.memory_bytes / bus_.block_bytes : uint64_t(options_.numbers.memory_blocks);
}
inline uint32_t Home::bank_at(uint64_t address) const {
    return window_ ? window_->bank_of(place_in(address)) : bank_of(uint32_t(place_in(address)));
}
inline uint32_t Home::model_address(uint64_t address) const {
    return block_of(address) * bus_.block_bytes + uint32_t((address - options_.base) % bus_.block_bytes);
}
// The number of a block that is to be acquired in a client's name; nowhere, where it has to wait, and why. Through
// a window it is brought in first: the client acquires it, stores the memory's bytes, and releases it; nobody sees
// that on the links.
inline uint32_t Home::placed(Client &me, uint64_t address, uint32_t &why) {
    if (!window_) return block_of(address);
    why = Counts::brought_in;
    if (is_poked(address)) return Window::nowhere;
    uint32_t block = block_of(address);
    if (block == Window::nowhere) {
        if (is_first(me.number, address))
            block = window_->take(place_in(address), [&](uint32_t it) { return is_at_rest(it); });
        if (block == Window::nowhere) { why = Counts::window_full; return block; }
        changed(block);
    }
    waits_no_more(me.number, address);
    if (is_in_tick_ && window_->state(block) == Window::State::Asked) load_into(me, block, why);
    return window_->state(block) == Window::State::Ready ? block : Window::nowhere;
}
// Those that wait for a number of a bank and set get one in the order in which they came.
inline bool Home::is_first(uint32_t client, uint64_t address) {
    const uint64_t place = place_in(address);
    auto &queue = full_[window_->class_of(place)];
    const std::pair<uint32_t, uint64_t> it = {client, place};
    if (std::find(queue.begin(), queue.end(), it) == queue.end()) queue.push_back(it);
    return queue.front() == it;
}
inline void Home::waits_no_more(uint32_t client, uint64_t address) {
    if (full_.empty()) return;
    const uint64_t place = place_in(address);
    auto queue = full_.find(window_->class_of(place));
    if (queue == full_.end()) return;
    auto &all = queue->second;
    all.erase(std::remove(all.begin(), all.end(), std::pair<uint32_t, uint64_t>(client, place)), all.end());
    if (all.empty()) full_.erase(queue);
}
// No copy, no record, no message, not at home: another block may take its number.
inline bool Home::is_at_rest(uint32_t block) const {
    if (home_places_[block] != Window::nowhere || jv_outward_of(cache_, block).serial) return false;
    return std::none_of(clients_.begin(), clients_.end(), [&](const Client &me) {
        return jv_waits_for(cache_, me.number, block).serial || me.cleaning.count(block);
    });
}
// A number stands for another block: what was kept of the last one goes.
inline void Home::changed(uint32_t block) {
    for (Client &me : clients_) {
        me.probed.erase(block);
        me.gone.erase(block);
        me.blank.erase(block);
        me.kept.erase(block);
        me.granted.erase(std::remove(me.granted.begin(), me.granted.end(), block), me.granted.end());
        if (me.rooms[bank_of(block)] == block) me.rooms[bank_of(block)].reset();
    }
    fresh_[block] = 0;
    pasts_[block] = History{};
    const WindowLine line = {cycle_, bank_of(block), block, address_of(block)};
    for (Watch *w : watches_) w->window(line);
}
// Begins to bring a block's bytes in, where the model's memory has others at its number.
inline void Home::load_into(Client &me, uint32_t block, uint32_t &why) {
    Bytes bytes{};
    options_.memory->read(address_of(block), bytes.data(), bus_.block_bytes);
    if (std::equal(bytes.begin(), bytes.begin() + bus_.block_bytes, jv_memory_block(cache_, block).bytes))
        return window_->set(block, Window::State::Ready);
    jv_answer a = jv_acquire(cache_, me.number, block, JV_NTOT);
    if (a.status == JV_COPIES_FULL) make_room(me, bank_of(block));
    if (called(a.status)) { why = a.status; return; }
    note_inferred(JV_EVENT_SEND_ACQUIRE, a.bank, me.number, block, JV_NTOT);
    Message m;
    m.cycle = cycle_; m.client = me.number; m.address = address_of(block);
    push(me, me.to_a[a.bank], a, {jv_sent(&a), block, 0, true, due_on(JV_A, m)});
    window_->set(block, Window::State::Loading);
    loads_[block] = {block, me.number, bytes};
    me.dropping.insert(block);
}
inline bool Home::is_loading(uint32_t block, uint32_t client) const {
    auto it = loads_.find(block);
    return it != loads_.end() && it->second.client == client;
}
// The client has taken its Grant of a block that is brought in.
inline bool Home::is_loaded(uint32_t block) {
    loads_.at(block).is_granted = true;
    fill_in(loads_.at(block));
    return true;
}
inline void Home::step_loads() { // those for which there was no memory, or no room on C
    for (auto &it : loads_) if (it.second.is_granted) fill_in(it.second);
}
// Stores the memory's bytes, and gives the copy up; goes on with it later where the model has no memory, or no room.
inline void Home::fill_in(Load &it) {
    Client &me = clients_[it.client];
    const uint32_t bank = bank_of(it.block), first = it.block * bus_.block_bytes;
    const jv_answer copy = jv_copy(cache_, me.number, it.block);
    for (uint32_t at = 0; at < bus_.block_bytes; at += 8) {
        if (!std::memcmp(copy.bytes + at, &it.bytes[at], 8)) continue;
        if (called(jv_store(cache_, me.number, first + at, &it.bytes[at], 8, index_++).status)) return;
        Access x = {cycle_, bank, me.number, true, address_of(it.block) + at, 8, {}};
        std::copy_n(&it.bytes[at], 8, x.bytes.begin());
        note(JV_EVENT_STORE, bank, me.number, it.block, 0, nullptr, &x, true);
    }
    jv_answer a = jv_release(cache_, me.number, it.block, JV_TTON);
    if (called(a.status)) return;
    note_inferred(JV_EVENT_SEND_RELEASE, bank, me.number, it.block, JV_TTON);
    push(me, me.to_c[bank], a, {jv_sent(&a), it.block, 0, true});
    it.is_granted = false;
}
// The ReleaseAck of that is taken: the block is there, with the memory's bytes.
inline void Home::loaded(const Client &me, uint32_t block) {
    const Load &it = loads_.at(block);
    const Bytes now = newest(block);
    if (!std::equal(now.begin(), now.begin() + bus_.block_bytes, it.bytes.begin()))
        throw std::logic_error("jinavoke: block " + words::number(block) + " was brought in with other bytes");
    counts_.clients[me.number][Count::Brought]++;
    loads_.erase(block);
    window_->set(block, Window::State::Ready);
}
// Home's bytes of a block, or where it has none those on their way to the memory, or the memory's.
inline Bytes Home::newest(uint32_t block) const {
    const jv_answer home = jv_home_copy(cache_, block), out = jv_outward_of(cache_, block);
    const jv_answer memory = jv_memory_block(cache_, block);
    const jv_answer &from = home.len ? home : out.serial == JV_PUT ? out : memory;
    Bytes bytes{};
    std::copy(from.bytes, from.bytes + from.len, bytes.begin());
    return bytes;
}
inline void Home::unkeep(const Held &h) { // an Acquire that is given up waits for its block no longer
    if (!window_ || h.access || h.m.channel != JV_A) return;
    waits_no_more(h.m.client, h.m.address);
    const uint32_t block = block_of(h.m.address);
    if (block == Window::nowhere) return;
    window_->keep(block, false);
    window_->rest(block);
}
// Answers the Probes of a client that holds a block only to bring it in.
inline void Home::answer_hidden() {
    for (Client &me : clients_) for (size_t i = 0; i < me.probes.size();) {
        const Probe p = me.probes[i];
        jv_answer a = p.is_hidden ? jv_answer_probe(cache_, p.ticket) : refusal(JV_NOT_HEAD);
        if (p.is_hidden) called(a.status);
        if (a.status) { i++; continue; }
        note_inferred(JV_EVENT_ANSWER_PROBE, a.bank, me.number, p.block, a.param);
        push(me, me.to_c[a.bank], a, {jv_sent(&a), p.block, 0, true});
        me.probes.erase(me.probes.begin() + long(i));
        hidden_probes_--;
    }
}
// Whether the user's memory has these bytes, as far as it says.
inline bool Home::has_in_memory(uint32_t block, const uint8_t *bytes) {
    Bytes now{};
    try {
        options_.memory->read(address_of(block), now.data(), bus_.block_bytes);
    } catch (...) { return false; } // they are written, then
    return std::equal(now.begin(), now.begin() + bus_.block_bytes, bytes);
}
// Whether the user's memory has read or written what a request asks for.
inline bool Home::is_served_by_memory(Outward &out) {
    if (out.is_done || out.is_unchanged) return true;
    const uint64_t address = address_of(out.block);
    const uint32_t len = bus_.block_bytes;
    out.due = options_.memory->ready({out.since, address, len, out.bank, out.is_put}, cycle_);
    if (due_at(out.due) > cycle_) return false;
    if (out.is_put) options_.memory->write(address, jv_outward_of(cache_, out.block).bytes, len);
    else read_for(out.block, address, len);
    return out.is_done = true;
}
inline void Home::read_for(uint32_t block, uint64_t address, uint32_t len) {
    Bytes now{};
    options_.memory->read(address, now.data(), len);
    auto load = loads_.find(block);
    if (load != loads_.end()) load->second.bytes = now;
    else if (!std::equal(now.begin(), now.begin() + len, jv_memory_block(cache_, block).bytes))
        throw std::logic_error("jinavoke: the memory at " + words::address(address)
            + " was written behind the home: that is what poke is for");
}

// ---- checkpoint

inline std::vector<uint64_t> Home::words_of(const std::vector<Options::Range> &ranges) {
    std::vector<uint64_t> words;
    for (const Options::Range &it : ranges) for (uint32_t word : {it.link, it.from, it.to}) words.push_back(word);
    return words;
}
inline std::vector<Options::Range> Home::ranges_of(const std::vector<uint64_t> &words) {
    std::vector<Options::Range> ranges;
    for (size_t i = 0; i + 2 < words.size(); i += 3)
        ranges.push_back({uint32_t(words[i]), uint32_t(words[i + 1]), uint32_t(words[i + 2])});
    return ranges;
}
// Each option that is a number or a flag, in a fixed order.
template <class Self, class F> void Home::each_option(Self &o, F f) {
    jv_numbers &n = const_cast<jv_numbers &>(o.numbers);
    for (int64_t *it : {&n.version, &n.clients, &n.banks, &n.block_bytes, &n.sets, &n.ways, &n.registers, &n.copies,
                        &n.memory_blocks}) f(*it);
    f(o.base); f(o.beat_bytes); f(o.sources); f(o.sinks); f(o.has_taps); f(o.silent_branch); f(o.silent_tip);
    f(o.acquire_perm); f(o.cleans); f(o.gives_more); f(o.keeps_log); f(o.patience); f(o.slack); f(o.pace);
    f(o.memory_cycles); f(o.evict_every); f(o.seed); f(o.last); f(o.memory_bytes);
    for (auto &it : o.latencies) f(it);
}
inline void Home::save_options(CheckpointWriter &out) const {
    std::vector<uint64_t> numbers;
    each_option(options_, [&](const auto &it) { numbers.push_back(uint64_t(it)); });
    out.numbers("options", numbers);
    out.numbers("cached", words_of(options_.cached));
    out.numbers("uncached", words_of(options_.uncached));
}
inline Options Home::options_in(CheckpointReader &in) {
    Options o;
    size_t count = 0, at = 0;
    each_option(o, [&](const auto &) { count++; });
    const std::vector<uint64_t> numbers = in.numbers("options", count);
    each_option(o, [&](auto &it) { it = static_cast<std::decay_t<decltype(it)>>(numbers[at++]); });
    bool is_block = o.numbers.block_bytes >= 8 && o.numbers.block_bytes <= JV_MOST_BLOCK_BYTES;
    if (!is_block || o.numbers.memory_blocks < 1 || o.numbers.memory_blocks > JV_MOST_MEMORY_BLOCKS)
        in.fail("has numbers of no cache");
    o.cached = ranges_of(in.numbers("cached"));
    o.uncached = ranges_of(in.numbers("uncached"));
    return o;
}
// Each block of the memory that is not 0, by its address: of one's own, those that it says.
template <class F> void Home::each_block(F f) const {
    const uint32_t len = bus_.block_bytes;
    Bytes bytes{};
    auto tell = [&](uint64_t address) {
        if (std::any_of(bytes.begin(), bytes.begin() + len, [](uint8_t it) { return it != 0; })) f(address, bytes);
    };
    const std::vector<uint8_t> all = options_.memory ? std::vector<uint8_t>() : image();
    for (size_t at = 0; at < all.size(); at += len) {
        std::copy_n(all.begin() + long(at), len, bytes.begin());
        tell(options_.base + at);
    }
    if (options_.memory) for (const auto &it : options_.memory->ranges()) {
        const uint64_t last = options_.base + options_.memory_bytes, from = std::max(it.first, options_.base);
        for (uint64_t at = from - (from - options_.base) % len; at < std::min(it.second, last); at += len) {
            options_.memory->read(at, bytes.data(), len);
            tell(at);
        }
    }
}
inline void Home::save_memory(CheckpointWriter &out) const {
    uint64_t count = 0;
    each_block([&](uint64_t, const Bytes &) { count++; });
    out.numbers("blocks", std::array<uint64_t, 1>{count});
    each_block([&](uint64_t address, const Bytes &bytes) { out.block(address, bytes.data(), bus_.block_bytes); });
}
// Writes the blocks of a file into the memory of one's own; without one they are the image.
inline std::vector<uint8_t> Home::load_memory(CheckpointReader &in, const Options &o) {
    const uint64_t count = in.numbers("blocks", 1)[0], len = uint64_t(o.numbers.block_bytes);
    std::vector<uint8_t> image;
    if (!o.memory) image.resize(size_t(uint64_t(o.numbers.memory_blocks) * len), 0);
    Bytes bytes{};
    for (uint64_t i = 0; i < count; i++) {
        const uint64_t address = in.block(bytes.data(), size_t(len)), at = address - o.base;
        if (o.memory) { o.memory->write(address, bytes.data(), size_t(len)); continue; }
        if (at >= image.size() || image.size() - at < len) in.fail("has a block outside the memory");
        std::copy_n(bytes.begin(), len, image.begin() + long(at));
    }
    return image;
}

// ---- functional access

inline void Home::check_range(uint64_t address, size_t len) const {
    const uint64_t bytes = blocks_of_memory() * bus_.block_bytes, at = address - options_.base;
    if (address < options_.base || at > bytes || len > bytes - at)
        throw std::out_of_range("jinavoke: " + words::number(len) + " bytes at " + words::address(address)
            + ", outside the memory");
}
inline Bytes Home::peeked(uint64_t address) const { // of a block
    const uint32_t block = block_of(address);
    Bytes bytes{};
    if (block == Window::nowhere || (window_ && window_->state(block) != Window::State::Ready)) {
        options_.memory->read(address, bytes.data(), bus_.block_bytes);
        return bytes;
    }
    for (uint32_t k = 0; k < clients(); k++) {
        const jv_answer copy = jv_copy(cache_, k, block);
        if (copy.serial < JV_COPY_CLEAN_TIP) continue;
        std::copy(copy.bytes, copy.bytes + copy.len, bytes.begin());
        return bytes;
    }
    return newest(block);
}
inline bool Home::is_poked(uint64_t address) const {
    return std::any_of(pokes_.begin(), pokes_.end(), [&](const Poke &it) {
        return place_in(it.address) == place_in(address);
    });
}
inline void Home::step_pokes() {
    for (size_t i = 0; i < pokes_.size();) {
        if (!is_poke_done(pokes_[i])) { i++; continue; }
        pokes_.erase(pokes_.begin() + long(i));
        is_awake_ = true;
    }
}
// Writes the memory once the block rests; until then home takes it back.
inline bool Home::is_poke_done(const Poke &it) {
    const uint32_t block = block_of(it.address);
    if (block != Window::nowhere && !is_at_rest(block)) {
        if (home_places_[block] != Window::nowhere && closed_[bank_of(block)] + changes_[bank_of(block)] != it.asked)
            begin_evict(block);
        it.asked = closed_[bank_of(block)] + changes_[bank_of(block)];
        return false;
    }
    if (block != Window::nowhere && window_->is_kept(block)) return false;
    options_.memory->write(it.address, it.bytes.data(), it.bytes.size());
    const PokeLine line = {cycle_, bank_at(it.address), it.address, &it.bytes};
    for (Watch *w : watches_) w->poke(line);
    if (block == Window::nowhere) return true;
    window_->forget(block);
    window_->rest(block);
    return true;
}

// ---- for an event queue

inline uint64_t Home::latency_on(uint32_t channel, uint32_t client, uint64_t address) const {
    return options_.latency ? options_.latency(channel, client, address) : options_.latencies[channel];
}
// The cycle in which a message that was sent in its `cycle` comes.
inline uint64_t Home::due_on(uint32_t channel, const Message &m) const {
    return due_at(m.cycle + latency_on(channel, m.client, m.address));
}
inline uint64_t Home::due_at(uint64_t cycle) const {
    if (cycle > cycle_) timers_.push(cycle);
    return cycle;
}
inline void Home::push(Client &me, Lane &lane, const jv_answer &a, Up &&up) {
    lane.ups.push_back(std::move(up));
    me.busy |= 1u << a.bank;
}
inline void Home::opened(Open &&o) {
    open_.push_back(std::move(o));
    counts_[HomeCount::MostRegisters] = std::max(counts_[HomeCount::MostRegisters], ++registers_);
}
inline void Home::close(uint32_t bank) { // a register
    registers_--;
    closed_[bank]++;
}
inline void Home::wake(uint32_t block) { // the register that works on it
    for (Open &o : open_) if (o.block == block || o.victim == block) {
        o.is_asleep = false;
        if (o.victim == block) o.victim = Window::nowhere;
    }
}
inline void Home::answered(uint32_t client, uint32_t block) { // home took the answer to a Probe of it
    for (Open &o : open_) {
        if ((o.block != block && o.victim != block) || !(o.pending >> client & 1)) continue;
        o.pending &= ~(1u << client);
        if (!o.pending) o.is_asleep = false;
    }
}
inline void Home::skip_to(uint64_t cycle) { // nothing is due until then
    counts_[HomeCount::Cycles] += cycle - cycle_;
    cycle_ = cycle;
}
// The cycle in which a wait will be told as too long, as things stand.
inline uint64_t Home::next_late() const {
    uint64_t due = never;
    auto look = [&](uint64_t since) { // they are looked for in one of 64 cycles
        const uint64_t at = std::max(since + options_.patience, cycle_ + 1);
        due = std::min(due, (at + 63) / 64 * 64);
    };
    for (uint32_t k = 0; k < wires_; k++) {
        const Link &link = links_[k];
        if (!link.b.empty() && link.b.front().cycle <= cycle_) look(link.b_since);
        if (d(k)) look(link.d_since);
        if (link.c.is_open()) look(link.c_since);
    }
    for (const Client &me : clients_) {
        if (is_agent(me.number)) continue;
        for (const Probe &p : me.probes) if (p.is_taken && !p.is_hidden) look(p.since);
        for (const Grant &g : me.grants) if (g.is_taken && !g.is_acknowledged) look(g.since);
        for (const Held &h : me.held) {
            look(h.since);
            if (h.since + options_.patience > cycle_) due = std::min(due, h.since + options_.patience);
        }
    }
    return due;
}

// ---- what is counted

inline uint32_t Home::called(uint32_t status) { // a step of the banks was asked for: its status
    counts_[HomeCount::Calls]++;
    if (!status) return status;
    counts_.polls[std::min<size_t>(status, ClientCounts::statuses - 1)]++;
    if (status == JV_NO_MEMORY) is_awake_ = true; // it is asked for again
    return status;
}
inline void Home::count_event(uint32_t kind, uint32_t block) {
    switch (kind) {
    case JV_EVENT_SEND_ACQUIRE: case JV_EVENT_SEND_RELEASE: case JV_EVENT_SEND_PROBE: case JV_EVENT_SEND_GRANT:
        in_flight_++;
        break;
    case JV_EVENT_ACCEPT_ACQUIRE: case JV_EVENT_TAKE_C: case JV_EVENT_TAKE_GRANT_ACK:
    case JV_EVENT_TAKE_RELEASE_ACK:
        in_flight_--;
        break;
    case JV_EVENT_SEND_GET: in_flight_++; crossings_++; counts_[HomeCount::Fetches]++; break;
    case JV_EVENT_TAKE_DATA: in_flight_--; crossings_--; comes_home(block); break;
    case JV_EVENT_SEND_PUT: in_flight_++; crossings_++; counts_[HomeCount::Writebacks]++; leaves_home(block); break;
    case JV_EVENT_TAKE_PUT_ACK: in_flight_--; crossings_--; rests(block); break;
    case JV_EVENT_DROP: leaves_home(block); rests(block); break;
    default: return;
    }
    counts_[HomeCount::MostMessages] = std::max(counts_[HomeCount::MostMessages], in_flight_);
    counts_[HomeCount::MostNumbers] = std::max(counts_[HomeCount::MostNumbers], numbers_in_use());
}
inline void Home::comes_home(uint32_t block) {
    home_places_[block] = uint32_t(home_blocks_.size());
    home_blocks_.push_back(block);
}
inline void Home::leaves_home(uint32_t block) {
    const uint32_t place = std::exchange(home_places_[block], Window::nowhere), last = home_blocks_.back();
    home_blocks_.pop_back();
    if (last == block) return;
    home_blocks_[place] = last;
    home_places_[last] = place;
}
inline void Home::count_acquire(const Message &m) {
    static const Count kinds[] = {Count::AcquireNtoB, Count::AcquireNtoT, Count::AcquireBtoT};
    ClientCounts &me = counts_.clients[m.client];
    if (m.opcode == JV_OP_ACQUIRE_BLOCK) me[kinds[m.param]]++; else me[Count::AcquirePerm]++;
}
inline void Home::count_c(const Message &m) {
    static const Count answers[] = {Count::AnswerTtoB, Count::AnswerTtoN, Count::AnswerBtoN, Count::AnswerBtoB,
                                    Count::AnswerBtoB, Count::AnswerNtoN};
    static const Count releases[] = {Count::ReleaseTtoB, Count::ReleaseTtoN, Count::ReleaseBtoN,
                                     Count::ReleaseTtoT, Count::ReleaseBtoB, Count::ReleaseNtoN};
    ClientCounts &me = counts_.clients[m.client];
    switch (m.opcode) {
    case JV_OP_PROBE_ACK: me[answers[m.param]]++; break;
    case JV_OP_PROBE_ACK_DATA: me[m.param == JV_REPORT_TTOB ? Count::AnswerDataTtoB : Count::AnswerDataTtoN]++; break;
    case JV_OP_RELEASE: me[releases[m.param]]++; break;
    default:
        me[m.param == JV_TTOB ? Count::ReleaseDataTtoB : m.param == JV_TTON ? Count::ReleaseDataTtoN
                                                                            : Count::ReleaseDataTtoT]++;
    }
}
inline void Home::count_grant(const Down &down) { // its last beat was taken
    if (!down.m.is_grant()) return;
    ClientCounts &me = counts_.clients[down.m.client];
    const bool is_tip = down.m.param == JV_TO_T;
    if (down.m.len) me[is_tip ? Count::GrantDataToT : Count::GrantDataToB]++;
    else me[is_tip ? Count::GrantToT : Count::GrantToB]++;
    if (down.asked) me.latency.add(cycle_ - *down.asked);
}
// A hit is an access that is not the first since the block was granted to the client.
inline void Home::count_access(const Access &x, uint32_t block) {
    ClientCounts &me = counts_.clients[x.client];
    const uint16_t bit = uint16_t(1u << x.client);
    const bool is_hit = !(fresh_[block] & bit);
    fresh_[block] &= uint16_t(~bit);
    me[x.is_store ? Count::Stores : Count::Loads]++;
    if (is_hit) me[x.is_store ? Count::StoreHits : Count::LoadHits]++;
}

} // namespace jinavoke
#endif
