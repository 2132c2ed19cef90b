// An hour's drive on a map that goes on by itself: scans of 10 Hz by a clock that runs as fast as it can, each thinned into the map, and
// what lies far behind deleted. Beside it goes a plain map, a table of voxels, and both are asked.
//
//     hour [SCANS [POINTS [RENEWED]]]
//
// SCANS (36,000) of POINTS (1,150) each; the map is renewed once RENEWED (3,000,000) points were submitted to one of its Maps. How long
// the updates took, and how much memory there was at ten places of the drive, is printed. The status is 1 where an answer is wrong, or
// where it was renewed less than three times though the points are enough for it, also after some more scans.
#include <corv/endless.hpp>

#include <algorithm>
#include <array>
#include <chrono>
#include <cmath>
#include <cstdio>
#include <cstdlib>
#include <ctime>
#include <fstream>
#include <random>
#include <string>
#include <thread>
#include <tuple>
#include <unistd.h>
#include <unordered_map>
#include <vector>

using Clock = std::chrono::steady_clock;
using Hits = std::vector<corv::EndlessHit>;
using Items = std::vector<corv::EndlessItem>;

static const std::int64_t voxel = 500, far_away = std::int64_t{1} << 40;

static bool is_in(const corv::Box &box, const corv::Point &point) {
    return box.lo.x <= point.x && point.x < box.hi.x && box.lo.y <= point.y && point.y < box.hi.y && box.lo.z <= point.z &&
           point.z < box.hi.z;
}

static bool operator==(const corv::Point &left, const corv::Point &right) {
    return left.x == right.x && left.y == right.y && left.z == right.z && left.intensity == right.intensity;
}

static std::uint64_t square(std::int64_t number) { return static_cast<std::uint64_t>(number * number); }

struct Hash {
    std::size_t operator()(const std::array<std::int64_t, 3> &at) const noexcept {
        std::uint64_t mixed = 0;
        for (auto each : at) mixed = (mixed ^ mixed >> 31 ^ static_cast<std::uint64_t>(each)) * 0x9E3779B97F4A7C15u;
        return static_cast<std::size_t>(mixed ^ mixed >> 32);
    }
};

// What a map holds into which points are only thinned, voxel by voxel.
class PlainMap {
public:
    // Of the voxel the live point nearest to the centre stays, then by x, y and z, then by number.
    void thin(const corv::Point &point) {
        auto &cell = cells_[{low(point.x), low(point.y), low(point.z)}];
        corv::EndlessItem best{point, points_++, false};
        for (auto &rival : cell)
            if (!rival.suspended && rank(rival) < rank(best)) best = rival;
        cell.erase(std::remove_if(cell.begin(), cell.end(), [](auto &item) { return !item.suspended; }), cell.end());
        cell.push_back(best);
    }

    void remove(const corv::Box &box) {
        drop([&](auto &item) { return is_in(box, item.point); });
    }

    void expire(std::uint64_t number) {
        drop([&](auto &item) { return item.number < number; });
    }

    void set_suspended(const corv::Box &box, bool suspended) {
        for (auto &[key, cell] : cells_)
            for (auto &item : cell)
                if (is_in(box, item.point)) item.suspended = suspended;
    }

    Hits nearest(const corv::Place &place, std::size_t k) const {
        Hits hits;
        for (auto &[key, cell] : cells_)
            for (auto &item : cell) {
                auto &[x, y, z, intensity] = item.point;
                auto dist2 = square(x - place.x) + square(y - place.y) + square(z - place.z);
                if (!item.suspended) hits.push_back({item.point, 0, dist2, item.number});
            }
        auto rank = [](auto &hit) { return std::tie(hit.dist2_low, hit.point.x, hit.point.y, hit.point.z, hit.number); };
        auto last = hits.begin() + static_cast<std::ptrdiff_t>(std::min(k, hits.size()));
        std::partial_sort(hits.begin(), last, hits.end(), [&](auto &left, auto &right) { return rank(left) < rank(right); });
        hits.erase(last, hits.end());
        return hits;
    }

    Items items() const {
        Items items;
        for (auto &[key, cell] : cells_) items.insert(items.end(), cell.begin(), cell.end());
        std::sort(items.begin(), items.end(), [](auto &left, auto &right) { return left.number < right.number; });
        return items;
    }

    std::uint64_t points() const { return points_; }

private:
    static std::int64_t low(std::int64_t at) { return at - ((at % voxel) + voxel) % voxel; }

    static std::tuple<std::uint64_t, std::int64_t, std::int64_t, std::int64_t, std::uint64_t> rank(const corv::EndlessItem &item) {
        auto &[x, y, z, intensity] = item.point;
        auto off = [](std::int64_t at) { return square(2 * (at - low(at)) - voxel); };
        return {off(x) + off(y) + off(z), x, y, z, item.number};
    }

    template <class Test>
    void drop(Test test) {
        for (auto at = cells_.begin(); at != cells_.end();) {
            auto &cell = at->second;
            cell.erase(std::remove_if(cell.begin(), cell.end(), test), cell.end());
            at = cell.empty() ? cells_.erase(at) : std::next(at);
        }
    }

    std::unordered_map<std::array<std::int64_t, 3>, Items, Hash> cells_;
    std::uint64_t points_ = 0;
};

// A street with walls on both sides, seen by a lidar that makes 10 metres a second.
class Street {
public:
    explicit Street(std::size_t points) : points_(points) {}

    static corv::Place robot(int scan) {
        return {1000 * std::int64_t{scan}, static_cast<std::int64_t>(4000 * std::sin(scan / 40.0)), 1800};
    }

    void scan(int scan, std::vector<corv::Point> &into) {
        into.clear();
        auto at = robot(scan);
        while (into.size() < points_) into.push_back(draw(3) ? ground(at) : wall(at));
    }

private:
    std::int64_t draw(std::uint32_t end) { return random_() % end; }

    corv::Point ground(const corv::Place &at) {
        auto x = at.x + draw(80000) - 40000, y = at.y + draw(50000) - 25000;
        return {x, y, draw(60) - 30, static_cast<std::uint16_t>(draw(200))};
    }

    // Houses of 20 metres, each as far from the street as its place in the row says.
    corv::Point wall(const corv::Place &at) {
        auto x = at.x + draw(80000) - 40000;
        auto side = draw(2) ? 1 : -1;
        auto off = 10000 + (x / 20000 * 7919 + side) % 6 * 700;
        return {x, side * off + draw(40) - 20, draw(9000), static_cast<std::uint16_t>(200 + draw(800))};
    }

    std::size_t points_;
    std::mt19937 random_{2026};
};

// How long an update took, on the clock and on its thread's processor, in milliseconds.
struct Took {
    double clock, processor;
};

static double processor_now() {
    timespec now{};
    clock_gettime(CLOCK_THREAD_CPUTIME_ID, &now);
    return 1e3 * static_cast<double>(now.tv_sec) + 1e-6 * static_cast<double>(now.tv_nsec);
}

// The memory that is resident, in megabytes.
static double resident() {
    std::ifstream file("/proc/self/statm");
    double pages = 0;
    file >> pages >> pages;
    return pages * static_cast<double>(sysconf(_SC_PAGESIZE)) / (1 << 20);
}

static void print_row(const char *name, const std::vector<Took> &took) {
    if (took.empty()) return;
    std::vector<double> clock, processor;
    for (auto &each : took) clock.push_back(each.clock), processor.push_back(each.processor);
    std::sort(clock.begin(), clock.end());
    std::sort(processor.begin(), processor.end());
    auto at = [](auto &sorted, double share) { return sorted[static_cast<std::size_t>(share * static_cast<double>(sorted.size() - 1))]; };
    std::printf("%-26s %7zu %8.2f %8.2f %8.2f %8.2f %8.2f %8.2f\n", name, took.size(), at(clock, 0.5), at(clock, 0.99), clock.back(),
                at(processor, 0.5), at(processor, 0.99), processor.back());
}

class Drive {
public:
    Drive(int scans, std::size_t points, std::uint32_t renewed)
        : scans_(scans), points_(points), renewed_(renewed), street_(points), map_(voxel, 1500, {renewed, 900000}) {}

    // Whether all answers were right.
    bool run() {
        std::printf("%10s %12s %10s %10s %9s %6s\n", "scans", "points", "live", "suspended", "renewals", "MB");
        for (int scan = 0; scan < scans_ || (lacks_renewals() && scan < 20 * scans_); ++scan) {
            step(scan);
            // On a machine that is busy with other things the second thread is given time.
            if (scan >= scans_) std::this_thread::sleep_for(std::chrono::milliseconds(5));
            if (scan % std::max(1, scans_ / 100) == 0) ask_near(Street::robot(scan));
            if ((scan + 1) % std::max(1, scans_ / 10) == 0) tell_memory(scan + 1);
        }
        return ask_all() && wrong_ == 0;
    }

    std::uint64_t renewals() const { return map_.renewals(); }

    // Whether it was renewed less than three times, though there are points enough for that.
    bool lacks_renewals() const { return static_cast<std::uint64_t>(scans_) * points_ > 4 * renewed_ && renewals() < 3; }

    void tell_times() const {
        std::printf("\n%-26s %7s %26s %26s\n", "updates", "", "on the clock, ms", "of the processor, ms");
        std::printf("%-26s %7s %8s %8s %8s %8s %8s %8s\n", "", "", "middle", "99 %", "longest", "middle", "99 %", "longest");
        print_row("in the first map", first_);
        print_row("between renewals", between_);
        print_row("while one is under way", renewing_);
        print_row("that take the new map", taking_);
        std::printf("asked %d times: %d wrong\n", asked_, wrong_);
    }

private:
    // Of each tenth scan what is 60 metres behind is deleted, now and then a car is hidden that comes back, and what is 9 seconds old goes.
    void step(int scan) {
        auto [x, y, z] = Street::robot(scan);
        street_.scan(scan, scanned_);
        timed([&] { map_.thin(scanned_); });
        for (auto &point : scanned_) plain_.thin(point);
        if (scan % 10 == 9) {
            corv::Box behind{{-far_away, -far_away, -far_away}, {x - 60000, far_away, far_away}};
            timed([&] { map_.remove({&behind, 1}); });
            plain_.remove(behind);
        }
        if (scan % 300 == 100) car_ = {{x + 5000, -6000, -1000}, {x + 17000, 6000, 3000}};
        if (scan % 300 == 100 || scan % 300 == 140) {
            bool suspended = scan % 300 == 100;
            timed([&] { suspended ? map_.suspend({&car_, 1}) : map_.restore({&car_, 1}); });
            plain_.set_suspended(car_, suspended);
        }
        if (scan % 50 == 49 && scan > 90) {
            auto number = points_ * static_cast<std::uint64_t>(scan - 90);
            timed([&] { map_.expire(number); });
            plain_.expire(number);
        }
    }

    template <class Call>
    void timed(Call call) {
        auto before = map_.renewals();
        bool was_renewing = map_.is_renewing();
        auto clock = Clock::now();
        auto processor = processor_now();
        call();
        Took took{std::chrono::duration<double, std::milli>(Clock::now() - clock).count(), processor_now() - processor};
        bool renews = was_renewing || map_.is_renewing();
        (map_.renewals() != before ? taking_ : renews ? renewing_ : before ? between_ : first_).push_back(took);
    }

    void ask_near(const corv::Place &robot) {
        auto place = robot;
        place.x += asked_ * 7919 % 60000 - 30000;
        place.z = asked_ * 104729 % 4000;
        ask(place);
    }

    void ask(const corv::Place &place) {
        auto hits = map_.nearest(place, 8), right = plain_.nearest(place, 8);
        auto one = [](auto &a, auto &b) { return a.point == b.point && a.number == b.number && a.dist2_low == b.dist2_low; };
        ++asked_;
        if (std::equal(hits.begin(), hits.end(), right.begin(), right.end(), one)) return;
        ++wrong_;
        std::printf("a wrong answer at %lld %lld %lld\n", static_cast<long long>(place.x), static_cast<long long>(place.y),
                    static_cast<long long>(place.z));
    }

    // At a hundred places spread over what is held, and for all that is held.
    bool ask_all() {
        auto items = map_.items(), right = plain_.items();
        auto one = [](auto &a, auto &b) { return a.point == b.point && a.number == b.number && a.suspended == b.suspended; };
        bool is_so = std::equal(items.begin(), items.end(), right.begin(), right.end(), one) && !items.empty();
        if (!is_so) std::printf("what is held at the end is wrong\n");
        for (std::size_t each = 0; each < 100 && !right.empty(); ++each) {
            auto &point = right[right.size() * each / 100].point;
            ask({point.x + 130, point.y - 170, point.z + 90});
        }
        return is_so;
    }

    void tell_memory(int scans) {
        auto totals = map_.totals();
        std::printf("%10d %12llu %10u %10u %9llu %6.0f\n", scans, static_cast<unsigned long long>(totals.points), totals.live,
                    totals.suspended, static_cast<unsigned long long>(map_.renewals()), resident());
        std::fflush(stdout);
    }

    int scans_;
    std::uint64_t points_, renewed_;
    Street street_;
    corv::EndlessMap map_;
    PlainMap plain_;
    std::vector<corv::Point> scanned_;
    corv::Box car_{};
    std::vector<Took> first_, between_, renewing_, taking_;
    int asked_ = 0, wrong_ = 0;
};

int main(int count, char **words) try {
    auto word = [&](int at, std::uint64_t without) { return at < count ? std::stoull(words[at]) : without; };
    auto scans = word(1, 36000), points = word(2, 1150), renewed = word(3, 3000000);
    Drive drive(static_cast<int>(scans), points, static_cast<std::uint32_t>(renewed));
    bool is_right = drive.run();
    drive.tell_times();
    if (drive.lacks_renewals()) {
        std::printf("renewed only %llu times\n", static_cast<unsigned long long>(drive.renewals()));
        is_right = false;
    }
    return is_right ? 0 : 1;
} catch (const std::exception &fault) {
    std::fprintf(stderr, "hour: %s\n", fault.what());
    return 1;
}
