// What metres.hpp and threads.hpp add to map.hpp. Prints what isn't so, and ends with status 1 where there is something.
#include <corv/metres.hpp>
#include <corv/threads.hpp>

#include <array>
#include <cstdio>
#include <limits>
#include <random>
#include <string_view>

static int faults = 0;

static void holds(int line, const char *fact, bool is_so) {
    if (is_so) return;
    std::printf("line %d: not so: %s\n", line, fact);
    faults++;
}
#define HOLDS(fact) holds(__LINE__, #fact, (fact))

static bool at(const corv::Point &point, std::int64_t x, std::int64_t y, std::int64_t z, int intensity) {
    return point.x == x && point.y == y && point.z == z && point.intensity == intensity;
}

static std::vector<corv::Place> drawn(unsigned seed, std::size_t count) {
    std::mt19937 draw(seed);
    auto number = [&] { return static_cast<std::int64_t>(draw() % 40000) - 20000; };
    std::vector<corv::Place> places;
    for (std::size_t i = 0; i < count; ++i) places.push_back({number(), number(), number()});
    return places;
}

static corv::Map drawn_map() {
    corv::Map map(500, 1500);
    std::vector<corv::Point> points;
    for (auto &place : drawn(1, 5000)) points.push_back({place.x, place.y, place.z, 1});
    map.add(points);
    return map;
}

static bool same(const corv::Hits &left, const corv::Hits &right) {
    auto one = [](const corv::Hit &a, const corv::Hit &b) {
        return a.number == b.number && a.dist2_high == b.dist2_high && a.dist2_low == b.dist2_low &&
               at(a.point, b.point.x, b.point.y, b.point.z, b.point.intensity);
    };
    return left.counts == right.counts && std::equal(left.all.begin(), left.all.end(), right.all.begin(), right.all.end(), one);
}

static void metres_are_rounded_and_what_is_none_is_counted() {
    constexpr float nan = std::numeric_limits<float>::quiet_NaN(), inf = std::numeric_limits<float>::infinity();
    const float numbers[][4] = {{1, 2, -3, 0.5f}, {nan, 0, 0, 0}, {0, inf, 0, 0}, {0, 0, 1.2e9f, 0},
                                {0, 0, 0, 2},     {0, 0, 0, nan}, {0, 0, 0, -1}};
    corv::Scan scan;
    corv::put_all(scan, numbers[0], 7, 4, 3, 65535);
    HOLDS(scan.points.size() == 4 && scan.not_finite == 2 && scan.out_of_range == 1 && scan.cut == 3);
    HOLDS(at(scan.points[0], 1000, 2000, -3000, 32768) && at(scan.points[1], 0, 0, 0, 65535));
    HOLDS(at(scan.points[2], 0, 0, 0, 0) && at(scan.points[3], 0, 0, 0, 0));
    HOLDS((scan.from == std::vector<std::uint32_t>{0, 4, 5, 6}) && scan.places[0].z == -3000);
    scan.clear();
    scan.put(0.0005, 0.0015, -0.0025), scan.put(1.2346, 1099511627.776, 1099511627.777);
    HOLDS(scan.points.size() == 1 && at(scan.points[0], 0, 2, -2, 0) && scan.out_of_range == 1);
    scan.put(1e306, 0, 0);
    HOLDS(scan.not_finite == 1);
    scan.put(-1.2e9, 0, 0), scan.put(0, 1.2e9, 0), scan.put(0, 0, -1.2e9), scan.put(0.0015, 0.0025, 0.0005);
    HOLDS(scan.out_of_range == 4 && scan.points.size() == 2 && at(scan.points[1], 2, 2, 0, 0) && scan.from[1] == 6);
    corv::Scan edge;
    edge.put(1099511627.776, -1099511627.776, 0);
    HOLDS(edge.points.size() == 1 && at(edge.points[0], corv::farthest, -corv::farthest, 0, 0));
    auto [x, y, z] = corv::metres(corv::Place{1500, -1, 0});
    HOLDS(x == 1.5 && y == -0.001 && z == 0);
    HOLDS(corv::metres<float>(corv::Point{1, 2, 3, 9})[1] == 0.002f);
}

// As of PCL and Eigen, which needn't be here.
struct PointXYZI { float x, y, z, intensity; };
struct PointXYZ { float x, y, z; };
struct Matrix3Xf {
    std::vector<std::array<float, 3>> columns;
    long rows() const { return 3; }
    long cols() const { return static_cast<long>(columns.size()); }
    float operator()(long row, long column) const { return columns[column][row]; }
};

static void clouds_and_matrices_are_taken() {
    corv::Scan scan;
    corv::put_cloud(scan, std::vector<PointXYZI>{{1, 2, 3, 40}}, 10);
    corv::put_cloud(scan, std::vector<PointXYZ>{{1, 2, 3}});
    corv::put_columns(scan, Matrix3Xf{{{4, 5, 6}, {7, 8, 9}}});
    HOLDS(scan.points.size() == 4 && at(scan.points[0], 1000, 2000, 3000, 400) && at(scan.points[1], 1000, 2000, 3000, 0));
    HOLDS(at(scan.points[3], 7000, 8000, 9000, 0) && scan.from.back() == 3);
}

static void threads_answer_what_one_does() {
    auto map = drawn_map();
    auto view = map.view();
    auto frozen = view.freeze();
    for (std::size_t count : {0, 1, 63, 64, 65, 129, 1000}) {
        auto places = drawn(2, count);
        for (auto within : {std::optional<std::uint64_t>(), std::optional<std::uint64_t>(1500)}) {
            corv::Hits one, several;
            view.nearest_each(places, 5, within, one);
            for (unsigned threads : {0, 1, 2, 3, 4, 9}) {
                corv::nearest_each(view, places, 5, within, several, threads);
                HOLDS(same(one, several));
                corv::nearest_each(frozen, places, 5, within, several, threads);
                HOLDS(same(one, several));
            }
        }
    }
    auto places = drawn(3, 500);
    places[400].x = INT64_MAX;
    corv::Hits hits;
    try {
        corv::nearest_each(view, places, 5, {}, hits, 4);
        HOLDS(false);
    } catch (const corv::Refused &refused) {
        HOLDS(refused.status() == CORV_OUT_OF_RANGE && hits.all.empty() && hits.counts.empty());
    }
}

static void a_loop_goes_from_place_to_place() {
    auto map = drawn_map();
    auto places = drawn(4, 100);
    corv::Hits hits;
    map.nearest_each(places, 5, 1500, hits);
    std::size_t place = 0;
    for (auto each : hits) {
        auto one = map.nearest(places[place++], 5, 1500);
        HOLDS(each.size() == one.size() && (one.empty() || each[0].number == one[0].number));
    }
    HOLDS(place == places.size());
    corv::Hit memory[10];
    std::uint32_t counts[2];
    HOLDS(map.nearest_each({places.data(), 2}, 5, {}, memory, 10, counts) == 10 && counts[1] == 5);
    HOLDS(map.nearest_each({places.data(), 0}, 5, {}, nullptr, 0, nullptr) == 0);
}

// Readers see what was shown, never less than before, while the map goes on.
static void readers_have_the_newest_view() {
    const corv::Box all = {{-1000000, -1000000, -1000000}, {1000000, 1000000, 1000000}};
    corv::Map map(200, 16);
    corv::Newest newest(map);
    std::atomic<bool> done{false};
    std::array<bool, 3> is_so{};
    std::vector<std::thread> readers;
    for (auto &so : is_so)
        readers.emplace_back([&] {
            corv::Reader reader(newest);
            std::uint32_t before = 0;
            for (so = true; so && !done.load();) {
                auto now = reader.view().count(all);
                so = now >= before && now % 50 == 0;
                before = now;
            }
            so = so && reader.view().count(all) == 5000;
        });
    std::vector<corv::Point> points(50);
    for (int scan = 0; scan < 100; ++scan) {
        for (auto &point : points) point.x++;
        map.add(points);
        newest.show(map);
    }
    done.store(true);
    for (auto &reader : readers) reader.join();
    for (auto so : is_so) HOLDS(so);
    HOLDS(newest.version() == 100);
}

int main() {
    metres_are_rounded_and_what_is_none_is_counted();
    clouds_and_matrices_are_taken();
    threads_answer_what_one_does();
    a_loop_goes_from_place_to_place();
    readers_have_the_newest_view();
    return faults != 0;
}
