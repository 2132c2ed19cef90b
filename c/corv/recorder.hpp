// A flight recorder, for C++17: what happened to a map, as a log that `mapper run --serial` and `mapper check` read.
//
//     std::ofstream file("flight.log", std::ios::binary);
//     corv::Recorder recorder(file);
//     ...
//     map.thin(scan);
//     recorder.record(map);  // after each scan, in the map's thread
//
// Replayed, the log leads to the map as it was when it was last recorded. Questions that are put behind it, as lines, get the replies
// that the map gave then; only the counts of updates may differ, since an update of no point or box has no line, and one of more than
// 262,144 has several.
#ifndef CORV_RECORDER_HPP
#define CORV_RECORDER_HPP
#include "map.hpp"

#include <cstdint>
#include <ios>
#include <ostream>
#include <vector>

namespace corv {

/// Writes a map's updates to a stream. A log has 65,536 lines at most: what comes after is refused with CORV_TOO_MANY_UPDATES, and so it
/// is time to renew the map and to begin another log, which has no need of the first one, since a renewed map's updates begin with its points.
class Recorder {
public:
    /// Nothing is written yet. The stream stays the caller's, and outlives the recorder.
    explicit Recorder(std::ostream &out) : out_(&out) {}

    /// Another log begins, in a stream of its own: the next map that is recorded is another one, as after a renewal.
    void begin(std::ostream &out) {
        out_ = &out;
        next_ = 0;
        failed_ = false;
    }

    /// Writes what was done to the map since it was last recorded, in whole lines, and flushes the stream. A map of fewer updates than
    /// were written is another one, and refused with CORV_BAD_NUMBER. Where the map refuses it, or there is no memory, what isn't written yet
    /// is so the next time. Where the stream fails, it throws std::ios_base::failure, and then throws at each call until another log is
    /// begun, since it isn't known what of the last lines was written: what is behind the last line feed is to be left out when that
    /// log is read.
    void record(Map &map) {
        if (failed_) throw std::ios_base::failure("corv: the recorder's stream has failed");
        auto end = map.totals().updates;
        if (end < next_) throw Refused(CORV_BAD_NUMBER);
        while (next_ < end) {
            auto next = map.log(next_, bytes_);
            write();
            next_ = next;
        }
    }

    /// How many of the map's updates are written.
    std::uint64_t recorded() const noexcept { return next_; }

private:
    void write() {
        failed_ = true;
        out_->write(bytes_.data(), static_cast<std::streamsize>(bytes_.size()));
        out_->flush();
        if (!*out_) throw std::ios_base::failure("corv: the recorder's stream has failed");
        failed_ = false;
    }

    std::ostream *out_;
    std::vector<char> bytes_;
    std::uint64_t next_ = 0;
    bool failed_ = false;
};

}  // namespace corv

#endif
