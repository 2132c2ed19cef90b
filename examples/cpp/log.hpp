// Reads a log of version 2 and writes its transcript, as much of both as odometry has use for: add, thin, near, nears and sync.
#pragma once
#include <corv/map.hpp>

#include <charconv>
#include <istream>
#include <optional>
#include <stdexcept>
#include <string>
#include <string_view>
#include <vector>

// One line. Which of its fields are in use goes by the word.
struct Command {
    std::string caller, word;
    std::vector<corv::Point> points;      // add, thin
    std::vector<corv::Place> places;      // near, nears
    std::uint32_t k = 0;                  // near, nears
    std::optional<std::uint64_t> within;  // near
};

// The fields of a line, from left to right.
class Fields {
public:
    explicit Fields(std::string_view line) : left_(line) {}

    bool none() const { return left_.empty(); }

    std::string_view word() {
        auto word = left_.substr(0, left_.find(' '));
        left_.remove_prefix(std::min(left_.size(), word.size() + 1));
        return word;
    }

    template <class Number>
    Number number() {
        auto text = word();
        Number number{};
        auto [end, fault] = std::from_chars(text.data(), text.data() + text.size(), number);
        if (fault != std::errc() || end != text.data() + text.size()) throw std::runtime_error("bad number");
        return number;
    }

    corv::Place place() {
        auto x = number<std::int64_t>(), y = number<std::int64_t>();
        return {x, y, number<std::int64_t>()};
    }

    corv::Point point() {
        auto [x, y, z] = place();
        return {x, y, z, number<std::uint16_t>()};
    }

    void expect(std::string_view due) {
        if (word() != due) throw std::runtime_error("no header");
    }

private:
    std::string_view left_;
};

class LogReader {
public:
    std::uint32_t voxel = 0, large = 0;

    // Reads the header.
    explicit LogReader(std::istream &in) : in_(in) {
        next_line();
        Fields fields(line_);
        for (auto word : {"ikdmap", "2", "voxel"}) fields.expect(word);
        voxel = fields.number<std::uint32_t>();
        fields.expect("large");
        large = fields.number<std::uint32_t>();
    }

    // Reads the next command, if there is one.
    bool next(Command &command) {
        if (!next_line()) return false;
        Fields fields(line_);
        command = Command();
        command.caller = fields.word();
        command.word = command.caller == "sync" ? "sync" : fields.word();
        if (command.word == "add" || command.word == "thin") {
            while (!fields.none()) command.points.push_back(fields.point());
        } else if (command.word == "near" || command.word == "nears") {
            command.k = fields.number<std::uint32_t>();
            do command.places.push_back(fields.place());
            while (command.word == "nears" && !fields.none());
            if (!fields.none() && fields.word() == "within") command.within = fields.number<std::uint64_t>();
        } else if (command.word != "sync") {
            throw std::runtime_error("odometry has no use for `" + command.word + "`");
        }
        return true;
    }

private:
    bool next_line() {
        while (std::getline(in_, line_))
            if (!line_.empty() && line_[0] != '#') return true;
        return false;
    }

    std::istream &in_;
    std::string line_;
};

// A line of the transcript, which grows from left to right.
class Reply {
public:
    explicit Reply(std::string head) : line_(std::move(head)) {}

    Reply &word(std::string_view text) {
        (line_ += ' ') += text;
        return *this;
    }

    template <class Number>
    Reply &number(Number number) {
        char digits[24];
        auto end = std::to_chars(digits, digits + sizeof digits, number).ptr;
        return word({digits, static_cast<std::size_t>(end - digits)});
    }

    Reply &hits(const corv::Hit *first, std::size_t count) {
        for (auto hit = first; hit != first + count; ++hit) {
            auto &[x, y, z, intensity] = hit->point;
            word("|").number(hit->number).number(x).number(y).number(z).number(intensity).square(*hit);
        }
        return *this;
    }

    Reply &totals(const corv::Totals &totals) {
        return number(totals.updates).word("live").number(totals.live).word("suspended").number(totals.suspended);
    }

    const std::string &line() { return line_ += '\n'; }

private:
    // The squared distance, which may have more than 64 bits.
    void square(const corv::Hit &hit) {
        if (hit.dist2_high == 0) {
            number(hit.dist2_low);
            return;
        }
        std::string digits;
        for (auto left = corv::squared_distance(hit); left != 0; left /= 10) digits.insert(digits.begin(), char('0' + int(left % 10)));
        word(digits);
    }

    std::string line_;
};

// The line to an update, or to what was asked for, of which these are the hits.
inline std::string reply(const Command &command, std::uint64_t mark, const corv::Hits &hits) {
    Reply reply(command.caller);
    reply.word(command.places.empty() ? "ok" : command.word).number(mark);
    auto first = hits.all.data();
    for (std::size_t place = 0; place < command.places.size(); first += hits.counts[place++]) {
        if (command.word == "nears") reply.word("/");
        reply.hits(first, hits.counts[place]);
    }
    return reply.line();
}
