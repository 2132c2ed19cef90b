// How long it takes to freeze what a map holds and to ask the index, beside the map's own tree and nanoflann's tree; and a turn of odometry,
// which asks for each scan four times and then thins it, beside the same turn with nanoflann's tree built anew for each scan.
//
//     frozen [POINTS..]
//
// The scene is the ground and the walls of a town, as large as it takes for so many points with one in each voxel. A scan has 10,000 places
// within 40 m of the robot, in rings, off by a poor guess of the pose. Each is asked for its 5 nearest, on one thread. nanoflann (static,
// floats, leaves of 10) gives numbers and distances alone, and the map whole hits. Times are the least of several rounds. The sums of all
// squared distances have to be equal.
#include <corv/map.hpp>

#include <array>
#include <chrono>
#include <cstdio>
#include <cstdlib>
#include <functional>
#include <tuple>
#include <unordered_map>
#include <unordered_set>
#if __has_include(<nanoflann.hpp>)
#include <nanoflann.hpp>
#define HAS_NANOFLANN
#endif

using Clock = std::chrono::steady_clock;
using Voxel = std::array<std::int64_t, 3>;

constexpr std::size_t scan_size = 10000, turns = 10, times_asked = 4;

std::int64_t floor_div(std::int64_t a, std::int64_t b) { return a / b - (a % b < 0); }

struct VoxelHash {
    std::size_t operator()(const Voxel &v) const {
        std::uint64_t hash = 0;
        for (auto a : v) hash = (hash ^ static_cast<std::uint64_t>(a)) * 0x9E3779B97F4A7C15, hash ^= hash >> 29;
        return hash;
    }
};

Voxel voxel_of(const corv::Point &p, std::int64_t edge) { return {floor_div(p.x, edge), floor_div(p.y, edge), floor_div(p.z, edge)}; }

// A town: streets of 12 m between blocks of 30 m, whose walls are 9 m high.
class Town {
public:
    explicit Town(std::size_t points)
        : half_(static_cast<std::int64_t>(45000 * std::sqrt(double(points) / 33000))), robot_{half_ / 7, half_ / 9, 1500} {
        std::unordered_set<Voxel, VoxelHash> seen;
        for (std::size_t tries = 0; this->points.size() < points; ++tries) {
            if (tries > 20 * points) {
                tries = 0, edge = edge * 3 / 4;
                seen.clear(), this->points.clear();
            }
            auto p = on_surface();
            if (seen.insert(voxel_of(p, edge)).second) this->points.push_back(p);
        }
        // As scans come.
        std::stable_sort(this->points.begin(), this->points.end(), [](auto &a, auto &b) { return a.x / 4000 < b.x / 4000; });
    }

    // What a scan sees once the robot has gone a metre farther, in rings by elevation, each by azimuth.
    std::vector<corv::Point> next_scan() {
        robot_.x += 1000;
        std::vector<std::pair<std::tuple<double, double>, corv::Point>> seen;
        while (seen.size() < scan_size) {
            auto p = on_surface();
            auto x = double(p.x - robot_.x), y = double(p.y - robot_.y), z = double(p.z - robot_.z);
            if (std::abs(x) > 40000 || std::abs(y) > 40000) continue;
            seen.push_back({{std::floor(std::atan2(z, std::hypot(x, y)) * 120), std::atan2(y, x)}, p});
        }
        std::sort(seen.begin(), seen.end(), [](auto &a, auto &b) { return a.first < b.first; });
        std::vector<corv::Point> scan;
        for (auto &[place, p] : seen) scan.push_back(p);
        return scan;
    }

    std::vector<corv::Point> points;
    std::int64_t edge = 400;  // of the voxels

private:
    std::uint64_t draw() {
        state_ ^= state_ << 13, state_ ^= state_ >> 7, state_ ^= state_ << 17;
        return state_ >> 11;
    }
    std::int64_t below(std::int64_t r) { return static_cast<std::int64_t>(draw() % static_cast<std::uint64_t>(r)); }
    std::int64_t within(std::int64_t r) { return below(2 * r + 1) - r; }

    corv::Point on_surface() {
        constexpr std::int64_t block = 30000, pitch = 42000;
        auto noise = within(15) + within(15);
        if (below(100) < 45) {
            for (;;) {
                auto x = within(half_), y = within(half_);
                auto is_house = [&](std::int64_t a) { return a - floor_div(a, pitch) * pitch < block; };
                if (!is_house(x) || !is_house(y)) return {x, y, noise, 0};
            }
        }
        auto corner = [&] { return floor_div(within(half_), pitch) * pitch; };
        auto x = corner(), y = corner(), along = below(block), z = below(9000), far = below(2) * block + noise;
        return below(2) ? corv::Point{x + far, y + along, z, 0} : corv::Point{x + along, y + far, z, 0};
    }

    std::uint64_t state_ = 0x9E3779B97F4A7C15;
    std::int64_t half_;
    corv::Place robot_;
};

// The places of a scan as the pose is guessed at first, and less and less off.
std::vector<corv::Place> guessed(const std::vector<corv::Point> &scan, std::int64_t round) {
    std::vector<corv::Place> places;
    for (auto &p : scan) places.push_back({p.x + 80 / (round + 1), p.y - 40 / (round + 1), p.z + 20 / (round + 1)});
    return places;
}

double seconds(const std::function<void()> &work) {
    auto start = Clock::now();
    work();
    return std::chrono::duration<double>(Clock::now() - start).count();
}

double least_seconds(std::size_t rounds, const std::function<void()> &work) {
    double least = 1e9;
    for (std::size_t round = 0; round < rounds; ++round) least = std::min(least, seconds(work));
    return least;
}

std::uint64_t sum_of(const corv::Hits &hits) {
    std::uint64_t sum = 0;
    for (auto &hit : hits.all) sum += hit.dist2_low;
    return sum;
}

// Points for nanoflann, thinned as the map thins.
class Cloud {
public:
    Cloud(const std::vector<corv::Point> &points, std::int64_t edge) : edge_(edge) {
        for (auto &p : points) put(p);
    }

    void put(const corv::Point &p) {
        auto [at, is_new] = index_.try_emplace(voxel_of(p, edge_), points_.size());
        if (is_new) return points_.push_back(p);
        auto &held = points_[at->second];
        if (rank(p) < rank(held)) held = p;
    }

    std::size_t size() const { return points_.size(); }

    // For nanoflann.
    std::size_t kdtree_get_point_count() const { return floats_.size() / 3; }
    float kdtree_get_pt(std::size_t i, std::size_t axis) const { return floats_[3 * i + axis]; }
    template <class Box>
    bool kdtree_get_bbox(Box &) const { return false; }

#ifdef HAS_NANOFLANN
    void build() {
        floats_.clear();
        for (auto &p : points_) floats_.insert(floats_.end(), {float(p.x), float(p.y), float(p.z)});
        tree_.reset(new Tree(3, *this, nanoflann::KDTreeSingleIndexAdaptorParams(10)));
#if NANOFLANN_VERSION < 0x150
        tree_->buildIndex();
#endif
    }

    void nearest_each(const std::vector<corv::Place> &places, std::vector<std::pair<std::uint32_t, float>> &hits) const {
        hits.clear();
        for (auto &place : places) {
            float at[] = {float(place.x), float(place.y), float(place.z)}, dist2[5];
            std::uint32_t found[5];
            auto count = tree_->knnSearch(at, 5, found, dist2);
            for (std::size_t i = 0; i < count; ++i) hits.push_back({found[i], dist2[i]});
        }
    }

    // Where each place has 5 hits.
    std::uint64_t sum_of(const std::vector<corv::Place> &places, const std::vector<std::pair<std::uint32_t, float>> &hits) const {
        std::uint64_t sum = 0;
        for (std::size_t i = 0; i < hits.size(); ++i) {
            auto &p = points_[hits[i].first];
            auto &q = places[i / 5];
            sum += static_cast<std::uint64_t>((p.x - q.x) * (p.x - q.x) + (p.y - q.y) * (p.y - q.y) + (p.z - q.z) * (p.z - q.z));
        }
        return sum;
    }

private:
    using Tree = nanoflann::KDTreeSingleIndexAdaptor<nanoflann::L2_Simple_Adaptor<float, Cloud>, Cloud, 3, std::uint32_t>;
    std::unique_ptr<Tree> tree_;
#endif

private:
    std::tuple<std::int64_t, std::int64_t, std::int64_t, std::int64_t> rank(const corv::Point &p) const {
        auto off = [&](std::int64_t a) { return 2 * (a - floor_div(a, edge_) * edge_) - edge_; };
        return {off(p.x) * off(p.x) + off(p.y) * off(p.y) + off(p.z) * off(p.z), p.x, p.y, p.z};
    }

    std::int64_t edge_;
    std::unordered_map<Voxel, std::size_t, VoxelHash> index_;
    std::vector<corv::Point> points_;
    std::vector<float> floats_;
};

// A row: nanoseconds a point to build, and microseconds a place to ask.
void print_row(const char *name, std::size_t points, double build, double ask, std::uint64_t sum) {
    std::printf("%9zu  %-12s %8.0f %8.2f   %llu\n", points, name, 1e9 * build / double(points), 1e6 * ask / double(scan_size),
                static_cast<unsigned long long>(sum));
}

corv::Map grown(const Town &town) {
    corv::Map map(std::uint32_t(town.edge), 1000000);
    for (std::size_t i = 0; i < town.points.size(); i += 2000) map.add({town.points.data() + i, std::min<std::size_t>(2000, town.points.size() - i)});
    return map;
}

bool one_scan(Town &town, corv::Map &map, Cloud &cloud, double grown_in) {
    auto size = town.points.size(), rounds = std::size_t(size > 500000 ? 3 : 7);
    auto places = guessed(town.next_scan(), 0);
    corv::Hits hits;
    auto ask = least_seconds(rounds, [&] { map.nearest_each(places, 5, {}, hits); });
    auto due = sum_of(hits);
    print_row("our tree", size, grown_in, ask, due);
    std::optional<corv::Frozen> frozen;
    auto freeze = least_seconds(rounds, [&] { frozen = map.freeze(); });
    ask = least_seconds(rounds, [&] { frozen->nearest_each(places, 5, {}, hits); });
    print_row("our index", size, freeze, ask, sum_of(hits));
    bool is_same = sum_of(hits) == due;
#ifdef HAS_NANOFLANN
    std::vector<std::pair<std::uint32_t, float>> found;
    auto build = least_seconds(rounds, [&] { cloud.build(); });
    ask = least_seconds(rounds, [&] { cloud.nearest_each(places, found); });
    print_row("nanoflann", size, build, ask, cloud.sum_of(places, found));
    is_same = is_same && cloud.sum_of(places, found) == due;
#else
    (void)cloud;
#endif
    return is_same;
}

// A turn of each kind on the same scans: milliseconds, the mean. What is found is looked at, as odometry would.
bool some_turns(Town &town, corv::Map &map, Cloud &cloud) {
    auto plain = grown(town);
    double by_tree = 0, by_index = 0, by_other = 0;
    std::uint64_t sums[3] = {};
    corv::Hits hits;
    for (std::size_t turn = 0; turn < turns; ++turn) {
        auto scan = town.next_scan();
        std::vector<std::vector<corv::Place>> guesses;
        for (std::size_t round = 0; round < times_asked; ++round) guesses.push_back(guessed(scan, std::int64_t(round)));
        by_tree += seconds([&] {
            for (auto &places : guesses) plain.nearest_each(places, 5, {}, hits), sums[0] += sum_of(hits);
            plain.thin(scan);
        });
        by_index += seconds([&] {
            auto frozen = map.freeze();
            for (auto &places : guesses) frozen.nearest_each(places, 5, {}, hits), sums[1] += sum_of(hits);
            map.thin(scan);
        });
#ifdef HAS_NANOFLANN
        std::vector<std::pair<std::uint32_t, float>> found;
        by_other += seconds([&] {
            cloud.build();
            for (auto &places : guesses) cloud.nearest_each(places, found), sums[2] += cloud.sum_of(places, found);
            for (auto &p : scan) cloud.put(p);
        });
#else
        (void)cloud;
#endif
    }
    std::printf("%9zu  turn, ms: our tree %.1f, our index %.1f", town.points.size(), 1e3 * by_tree / turns, 1e3 * by_index / turns);
#ifdef HAS_NANOFLANN
    std::printf(", nanoflann %.1f", 1e3 * by_other / turns);
    bool is_same = sums[2] == sums[0] && cloud.size() == map.totals().live;
#else
    (void)by_other;
    bool is_same = true;
#endif
    std::printf("   %llu\n", static_cast<unsigned long long>(sums[0]));
    return is_same && sums[1] == sums[0];
}

int main(int argc, char **argv) try {
    std::vector<std::size_t> sizes;
    for (int i = 1; i < argc; ++i) sizes.push_back(std::strtoull(argv[i], nullptr, 10));
    if (sizes.empty()) sizes = {10000, 33000, 108000, 1000000};
#ifndef HAS_NANOFLANN
    std::fprintf(stderr, "frozen: nanoflann.hpp isn't here, so the map is measured alone\n");
#endif
    std::printf("%9s  %-12s %8s %8s   %s\n", "points", "", "build ns", "ask us", "sum");
    bool is_same = true;
    for (auto size : sizes) {
        Town town(size);
        std::optional<corv::Map> map;
        auto grown_in = seconds([&] { map = grown(town); });
        Cloud cloud(town.points, town.edge);
        is_same = one_scan(town, *map, cloud, grown_in) && is_same;
        is_same = some_turns(town, *map, cloud) && is_same;
    }
    if (is_same) return 0;
    std::fprintf(stderr, "frozen: sums differ\n");
    return 1;
} catch (const std::exception &fault) {
    std::fprintf(stderr, "frozen: %s\n", fault.what());
    return 1;
}
