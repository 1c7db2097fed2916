// jinavoke_memory.hpp: a memory of the user's own behind a home of jinavoke.hpp, of any size, and the window through
// which the banks see it. docs/SIMULATOR.md leads through it. C++17, header only, tested and not proved.
#ifndef JINAVOKE_MEMORY_HPP
#define JINAVOKE_MEMORY_HPP
#include "jinavoke.h"
#include <algorithm>
#include <array>
#include <cstdint>
#include <cstring>
#include <deque>
#include <map>
#include <stdexcept>
#include <string>
#include <unordered_map>
#include <utility>
#include <vector>

namespace jinavoke {

struct MemoryRequest { // of home: a Get, or a PutFullData
    uint64_t cycle = 0;   // in which it was sent
    uint64_t address = 0; // of the block
    uint32_t len = 0;     // its bytes
    uint32_t bank = 0;
    bool is_write = false;
};

// A memory of the user's own. Home reads and writes it in tick() and advance_to() alone, and in poke and peek. What it
// throws there goes through them; nothing is lost, and the next cycle asks again.
struct Memory {
    virtual ~Memory() = default;
    virtual void read(uint64_t address, uint8_t *bytes, size_t len) = 0;
    virtual void write(uint64_t address, const uint8_t *bytes, size_t len) = 0;
    // In which cycle a request is answered: now, or a later one, in which it is asked for again. It is first asked for
    // `memory_cycles` after it was sent.
    virtual uint64_t ready(const MemoryRequest &, uint64_t now) { return now; }
    // The addresses whose bytes a checkpoint keeps, each from the first to one behind the last: none where the memory
    // is kept by other means. What is 0 takes no room there.
    virtual std::vector<std::pair<uint64_t, uint64_t>> ranges() const { return {}; }
};

// A memory that takes room for the pages that were written alone, and is 0 elsewhere.
class PagedMemory : public Memory {
  public:
    static constexpr size_t page_bytes = 4096;
    void read(uint64_t address, uint8_t *bytes, size_t len) override {
        each_part(address, len, [&](uint64_t page, size_t at, size_t from, size_t n) {
            auto it = pages_.find(page);
            if (it == pages_.end()) std::memset(bytes + from, 0, n);
            else std::memcpy(bytes + from, it->second.data() + at, n);
        });
    }
    void write(uint64_t address, const uint8_t *bytes, size_t len) override {
        each_part(address, len, [&](uint64_t page, size_t at, size_t from, size_t n) {
            auto it = pages_.try_emplace(page).first;
            std::memcpy(it->second.data() + at, bytes + from, n);
        });
    }
    std::vector<std::pair<uint64_t, uint64_t>> ranges() const override {
        std::vector<std::pair<uint64_t, uint64_t>> all;
        for (const auto &it : pages_) all.emplace_back(it.first * page_bytes, (it.first + 1) * page_bytes);
        std::sort(all.begin(), all.end());
        return all;
    }
    size_t pages() const { return pages_.size(); }

  private:
    template <class F> static void each_part(uint64_t address, size_t len, F f) {
        for (size_t from = 0; from < len;) {
            const uint64_t here = address + from;
            const size_t at = size_t(here % page_bytes), n = std::min(len - from, page_bytes - at);
            f(here / page_bytes, at, from, n);
            from += n;
        }
    }
    std::unordered_map<uint64_t, std::array<uint8_t, page_bytes>> pages_;
};

// Which block of the memory each number of the banks stands for. A block keeps the bank and the set that its own number
// would have, so that the numbers of a bank and set are its choice.
class Window {
  public:
    static constexpr uint32_t nowhere = ~uint32_t(0);
    enum class State : uint8_t { Unused, Asked, Loading, Ready };
    // `blocks` are those of the memory. Throws std::runtime_error where the banks have no such window.
    Window(const jv_numbers &n, uint64_t blocks) : banks_(uint32_t(n.banks)), sets_(uint32_t(n.sets)) {
        const uint64_t classes = std::max<uint64_t>(uint64_t(banks_) * sets_, 1), most = uint64_t(n.memory_blocks);
        if (blocks <= most) throw std::logic_error("jinavoke: the window is the whole memory");
        if (most % classes || most / classes < uint64_t(n.ways) + 1)
            throw std::runtime_error("jinavoke: a window of " + std::to_string(most) + " blocks (memory_blocks): a "
                "multiple of " + std::to_string(classes) + ", which is banks * sets, and for each of these one block "
                "more than ways: at least " + std::to_string(classes * (uint64_t(n.ways) + 1)));
        resting_.resize(size_t(classes));
        slots_.resize(size_t(most));
        for (uint32_t k = 0; k < most; k++) resting_[class_of(k)].push_back(k);
    }
    uint32_t bank_of(uint64_t block) const {
        uint32_t bank = 0;
        if (banks_ == 1) return 0;
        for (; block; block /= banks_) bank ^= uint32_t(block % banks_);
        return bank;
    }
    uint32_t set_of(uint64_t block) const { return uint32_t(block / banks_ % sets_); }
    uint32_t find(uint64_t block) const { // its number, or nowhere
        if (block == last_block_) return last_;
        auto it = numbers_.find(block);
        if (it == numbers_.end()) return nowhere;
        last_block_ = block;
        return last_ = it->second;
    }
    uint64_t block_of(uint32_t number) const { return slots_.at(number).block; }
    State state(uint32_t number) const { return slots_.at(number).state; }
    bool is_kept(uint32_t number) const { return slots_.at(number).is_kept; }
    // A number for a block that has none: of its bank and set the one that came to rest first, where it still rests.
    // Nowhere, where none does.
    template <class IsAtRest> uint32_t take(uint64_t block, IsAtRest is_at_rest) {
        std::deque<uint32_t> &list = resting_[class_of(block)];
        for (size_t left = list.size(); left; left--) {
            const uint32_t number = list.front();
            list.pop_front();
            Slot &slot = slots_[number];
            slot.is_listed = false;
            if (slot.is_kept) { rest(number); continue; } // a message waits for its block
            if (!is_at_rest(number)) continue; // it is listed again once it comes to rest
            forget(number);
            slot = {block, State::Asked, false, true};
            numbers_[block] = number;
            used_++;
            return number;
        }
        return nowhere;
    }
    void set(uint32_t number, State state) { slots_.at(number).state = state; }
    void keep(uint32_t number, bool is_kept) { slots_.at(number).is_kept = is_kept; }
    // A number has come to rest: it stands for its block until another takes it.
    void rest(uint32_t number) {
        Slot &slot = slots_.at(number);
        if (std::exchange(slot.is_listed, true)) return;
        resting_[class_of(number)].push_back(number);
    }
    // A number that rests stands for no block.
    void forget(uint32_t number) {
        Slot &slot = slots_.at(number);
        if (slot.state == State::Unused) return;
        numbers_.erase(slot.block);
        last_block_ = ~uint64_t(0);
        slot.state = State::Unused;
        used_--;
    }
    uint64_t used() const { return used_; } // how many numbers stand for a block
    size_t class_of(uint64_t block) const { return size_t(bank_of(block)) * sets_ + set_of(block); } // bank and set

  private:
    struct Slot {
        uint64_t block = ~uint64_t(0);
        State state = State::Unused;
        bool is_listed = true; // among those that rest
        bool is_kept = false;  // for a message that waits
    };
    uint32_t banks_, sets_;
    std::vector<Slot> slots_; // by number
    std::unordered_map<uint64_t, uint32_t> numbers_; // by block
    std::vector<std::deque<uint32_t>> resting_; // by bank and set: those that may be at rest, the first one first
    uint64_t used_ = 0;
    mutable uint64_t last_block_ = ~uint64_t(0);
    mutable uint32_t last_ = nowhere;
};

} // namespace jinavoke
#endif
