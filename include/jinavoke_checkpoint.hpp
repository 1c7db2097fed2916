// jinavoke_checkpoint.hpp: the file that keeps a home of jinavoke.hpp, written and read. docs/SIMULATOR.md says what it
// keeps. C++17, header only, tested and not proved.
//
// The file: a first line with the version; lines NAME NUMBER.. in a fixed order; a line `blocks N`, and N times the
// address of a block in eight bytes, the lowest first, with the block's bytes; a last line `checksum` with the sum of
// all bytes before it (FNV-1a of 64 bits, in 16 hexadecimal digits).
#ifndef JINAVOKE_CHECKPOINT_HPP
#define JINAVOKE_CHECKPOINT_HPP
#include <array>
#include <cstdint>
#include <cstdio>
#include <cstring>
#include <fstream>
#include <iterator>
#include <sstream>
#include <stdexcept>
#include <string>
#include <vector>

namespace jinavoke {

class CheckpointSum {
  public:
    void add(const char *bytes, size_t len) {
        for (size_t i = 0; i < len; i++) sum_ = (sum_ ^ uint8_t(bytes[i])) * 0x100000001b3;
    }
    std::string text() const {
        char text[20];
        std::snprintf(text, sizeof text, "%016llx", static_cast<unsigned long long>(sum_));
        return text;
    }

  private:
    uint64_t sum_ = 0xcbf29ce484222325;
};

static constexpr const char *checkpoint_head = "jinavoke checkpoint ";
static constexpr int checkpoint_version = 1;

// Writes beside the file, and gives it its name once it is whole.
class CheckpointWriter {
  public:
    explicit CheckpointWriter(const std::string &file)
        : file_(file), beside_(file + ".part"), out_(beside_, std::ios::binary) {
        put(checkpoint_head + std::to_string(checkpoint_version) + "\n");
    }
    ~CheckpointWriter() { if (!is_done_) std::remove(beside_.c_str()); }
    void line(const std::string &name, const std::string &words) { put(name + " " + words + "\n"); }
    template <class List> void numbers(const std::string &name, const List &list) {
        std::string words = std::to_string(std::size(list));
        for (auto it : list) words += " " + std::to_string(it);
        line(name, words);
    }
    void block(uint64_t address, const uint8_t *bytes, size_t len) {
        char head[8];
        for (int i = 0; i < 8; i++) head[i] = char(address >> (8 * i));
        put(std::string(head, 8) + std::string(reinterpret_cast<const char *>(bytes), len));
    }
    void done() { // throws std::runtime_error where the file could not be written whole
        const std::string last = "checksum " + sum_.text() + "\n";
        out_.write(last.data(), long(last.size()));
        out_.close();
        if (!out_ || std::rename(beside_.c_str(), file_.c_str()))
            throw std::runtime_error("jinavoke: " + file_ + " cannot be written");
        is_done_ = true;
    }

  private:
    void put(const std::string &text) {
        sum_.add(text.data(), text.size());
        out_.write(text.data(), long(text.size()));
        if (!out_) throw std::runtime_error("jinavoke: " + file_ + " cannot be written");
    }
    std::string file_, beside_;
    std::ofstream out_;
    CheckpointSum sum_;
    bool is_done_ = false;
};

// Reads a file whole; throws std::runtime_error where it is none, of another version, cut short or damaged.
class CheckpointReader {
  public:
    explicit CheckpointReader(const std::string &file) : file_(file) {
        std::ifstream in(file, std::ios::binary);
        text_.assign(std::istreambuf_iterator<char>(in), std::istreambuf_iterator<char>());
        if (!in) fail("cannot be read");
        const std::string head = checkpoint_head, version = std::to_string(checkpoint_version);
        if (text_.compare(0, head.size(), head)) fail("is no checkpoint");
        const size_t end = text_.find('\n');
        if (end == std::string::npos) fail("is cut short");
        const std::string its = text_.substr(head.size(), end - head.size());
        if (its != version) fail("is a checkpoint of version " + its + ", and this is version " + version);
        check_sum();
        at_ = end + 1;
    }
    // The words behind a name that stands next.
    std::string line(const std::string &name) {
        const size_t end = text_.find('\n', at_);
        const std::string line = text_.substr(at_, end == std::string::npos ? end : end - at_);
        if (end == std::string::npos || line.compare(0, name.size() + 1, name + " ")) fail("has no line " + name);
        at_ = end + 1;
        return line.substr(name.size() + 1);
    }
    std::vector<uint64_t> numbers(const std::string &name) {
        std::istringstream words(line(name));
        uint64_t count = 0, it = 0;
        std::vector<uint64_t> list;
        words >> count;
        while (words >> it) list.push_back(it);
        if (list.size() != count || !words.eof()) fail("has other numbers than it says: " + name);
        return list;
    }
    std::vector<uint64_t> numbers(const std::string &name, size_t count) {
        std::vector<uint64_t> list = numbers(name);
        if (list.size() != count) fail("has " + std::to_string(list.size()) + " numbers, and not "
            + std::to_string(count) + ": " + name);
        return list;
    }
    uint64_t block(uint8_t *bytes, size_t len) { // its address
        if (text_.size() - at_ < len + 8) fail("is cut short");
        uint64_t address = 0;
        for (int i = 0; i < 8; i++) address |= uint64_t(uint8_t(text_[at_ + size_t(i)])) << (8 * i);
        std::memcpy(bytes, text_.data() + at_ + 8, len);
        at_ += len + 8;
        return address;
    }
    [[noreturn]] void fail(const std::string &why) const { throw std::runtime_error("jinavoke: " + file_ + " " + why); }

  private:
    void check_sum() {
        const std::string name = "checksum ";
        const size_t len = name.size() + 17;
        if (text_.size() < len || text_.compare(text_.size() - len, name.size(), name) || text_.back() != '\n')
            fail("is cut short");
        CheckpointSum sum;
        sum.add(text_.data(), text_.size() - len);
        const std::string its = text_.substr(text_.size() - 17, 16);
        if (its != sum.text()) fail("is damaged: its checksum is " + its + ", and its bytes have " + sum.text());
        text_.resize(text_.size() - len);
    }
    std::string file_, text_;
    size_t at_ = 0;
};

} // namespace jinavoke
#endif
