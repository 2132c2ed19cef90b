// What map.hpp adds to map.h: owners that are moved and never copied, refusals that are thrown, empty lists, and views in threads of
// their own. Prints what isn't so, and ends with status 1 where there is something.
#include <corv/map.hpp>

#include <array>
#include <cstdio>
#include <functional>
#include <thread>
#include <type_traits>

template <class Owner>
constexpr bool is_moved_alone = std::is_nothrow_move_constructible_v<Owner> && std::is_nothrow_move_assignable_v<Owner> &&
                                !std::is_copy_constructible_v<Owner> && !std::is_copy_assignable_v<Owner>;
static_assert(is_moved_alone<corv::Map> && is_moved_alone<corv::View> && is_moved_alone<corv::Frozen> && is_moved_alone<corv::Job> &&
              is_moved_alone<corv::Built>);

static int faults = 0;

static void holds(int line, const char *fact, bool is_so) {
    if (is_so) return;
    std::printf("line %d: not so: %s\n", line, fact);
    faults++;
}
#define HOLDS(fact) holds(__LINE__, #fact, (fact))

// The status of the refusal that a call is met with.
static std::int32_t status_of(const std::function<void()> &call) {
    try {
        call();
        return CORV_DONE;
    } catch (const corv::Refused &refused) {
        return refused.status();
    }
}

static const corv::Box all = {{-1000000, -1000000, -1000000}, {1000000, 1000000, 1000000}};

static std::vector<corv::Point> row(std::int64_t count) {
    std::vector<corv::Point> points;
    for (std::int64_t x = 0; x < count; x++) points.push_back({x, 0, 0, 1});
    return points;
}

static void what_was_moved_from_is_empty() {
    corv::Map map(200, 1500);
    corv::Map other = std::move(map);
    HOLDS(status_of([&] { map.add(row(1)); }) == CORV_EMPTY);
    HOLDS(status_of([&] { map.count(all); }) == CORV_EMPTY);
    other.add(row(3));
    map = std::move(other);
    HOLDS(map.count(all) == 3);
    auto view = map.view();
    auto moved = std::move(view);
    HOLDS(status_of([&] { view.copy(); }) == CORV_EMPTY && moved.copy().count(all) == 3);
    auto frozen = moved.freeze();
    auto kept = std::move(frozen);
    HOLDS(status_of([&] { frozen.nearest({0, 0, 0}, 1); }) == CORV_EMPTY && status_of([&] { view.freeze(); }) == CORV_EMPTY);
    HOLDS(kept.copy().nearest({2, 0, 0}, 9).size() == 3);
}

static void refusals_are_thrown() {
    corv::Map map(200, 1500);
    std::vector<corv::Hit> hits(9);
    corv::Hits each{std::vector<corv::Hit>(9), {1, 2}};
    HOLDS(status_of([] { corv::Map(0, 1500); }) == CORV_BAD_NUMBER);
    HOLDS(status_of([&] { map.nearest({0, 0, 0}, 0, {}, hits); }) == CORV_BAD_NUMBER && hits.empty());
    HOLDS(status_of([&] { map.nearest({0, 0, 0}, 4000000000); }) == CORV_BAD_NUMBER);
    HOLDS(status_of([&] { map.nearest({0, 0, 0}, 1, UINT64_MAX); }) == CORV_BAD_NUMBER);
    HOLDS(status_of([&] { map.nearest({INT64_MIN, 0, 0}, 1); }) == CORV_OUT_OF_RANGE);
    HOLDS(status_of([&] { map.nearest_each(std::array{corv::Place{}, corv::Place{0, INT64_MAX, 0}}, 5, {}, each); }) == CORV_OUT_OF_RANGE);
    HOLDS(each.all.empty() && each.counts.empty());
    HOLDS(status_of([&] { map.inside(all, 0); }) == CORV_BAD_NUMBER);
    HOLDS(status_of([&] { map.detach(5); }) == CORV_BAD_NUMBER && !map.detach(4));
}

static void lists_may_be_empty() {
    corv::Map map(200, 1500);
    corv::Hits each;
    map.add(std::vector<corv::Point>());
    map.remove(std::vector<corv::Box>());
    map.add({nullptr, 0});
    map.nearest_each(std::vector<corv::Place>(), 5, {}, each);
    HOLDS(each.all.empty() && each.counts.empty() && map.totals().updates == 3);
    HOLDS(map.nearest({0, 0, 0}, 5).empty() && map.inside(all, 5).empty());
}

static void distances() {
    corv::Map map(200, 1500);
    map.add(std::array{corv::Point{std::int64_t{1} << 40, 0, 0, 9}});
    auto hits = map.nearest({-(std::int64_t{1} << 40), 0, 0}, 2);
    HOLDS(hits.size() == 1 && corv::squared_distance(hits[0]) == corv::Wide{1} << 82 && corv::distance(hits[0]) == std::ldexp(1, 41));
}

// Points by a fixed rule, over and over on the same places.
static std::vector<corv::Point> scattered(std::size_t count) {
    std::vector<corv::Point> points;
    std::uint64_t state = 7;
    auto next = [&] { return static_cast<std::int64_t>((state = state * 6364136223846793005u + 1442695040888963407u) >> 40 & 255); };
    for (std::size_t i = 0; i < count; i++) {
        auto x = next(), y = next(), z = next();
        points.push_back({x - 128, y - 128, z & 15, static_cast<std::uint16_t>(i)});
    }
    return points;
}

static std::int64_t dist2(const corv::Point &p, const corv::Place &q) {
    return (p.x - q.x) * (p.x - q.x) + (p.y - q.y) * (p.y - q.y) + (p.z - q.z) * (p.z - q.z);
}

static bool is_in(const corv::Box &box, const corv::Point &p) {
    return box.lo.x <= p.x && p.x < box.hi.x && box.lo.y <= p.y && p.y < box.hi.y && box.lo.z <= p.z && p.z < box.hi.z;
}

// Whether these are the points of the numbers that are wanted, in order, with their labels.
static bool are(const std::vector<corv::Item> &items, const std::vector<corv::Point> &points, const std::vector<bool> &is_suspended,
                const std::vector<std::uint32_t> &wanted) {
    if (items.size() != wanted.size()) return false;
    for (std::size_t i = 0; i < items.size(); i++) {
        const auto &p = points[wanted[i]];
        const auto &q = items[i].point;
        if (items[i].number != wanted[i] || items[i].suspended != is_suspended[wanted[i]]) return false;
        if (p.x != q.x || p.y != q.y || p.z != q.z || p.intensity != q.intensity) return false;
    }
    return true;
}

// The wanted numbers that a list has which begins at a number and has a length.
static std::vector<std::uint32_t> part(const std::vector<std::uint32_t> &wanted, std::uint32_t from, std::size_t most) {
    std::vector<std::uint32_t> some;
    for (auto n : wanted)
        if (n >= from && some.size() < most) some.push_back(n);
    return some;
}

// Lists of a map and of a view, whole and by pages, against a plain search; some of the points are suspended, and some dropped.
static void all_is_listed_by_number() {
    const auto points = scattered(9000);
    const corv::Box hidden = {{-40, -40, -40}, {40, 50, 40}}, gone = {{60, -200, -200}, {90, 200, 200}}, looked = {{-60, -9, 0}, {100, 77, 9}};
    const corv::Place center = {50, 10, 5};
    corv::Map map(200, 16);
    for (std::size_t i = 0; i < points.size(); i += 500) map.add({points.data() + i, 500});
    map.suspend(std::array{hidden});
    map.remove(std::array{gone});
    std::vector<std::uint32_t> kept, boxed, near;
    std::vector<bool> is_suspended;
    for (std::uint32_t n = 0; n < points.size(); n++) {
        const auto &p = points[n];
        is_suspended.push_back(is_in(hidden, p));
        if (is_in(gone, p)) continue;
        kept.push_back(n);
        if (is_suspended[n]) continue;
        if (is_in(looked, p)) boxed.push_back(n);
        if (dist2(p, center) <= 70 * 70) near.push_back(n);
    }
    HOLDS(boxed.size() > 256 && near.size() > 256 && kept.size() < points.size());
    auto is_listed = [&](auto &asked, std::uint32_t from, std::size_t most) {
        HOLDS(are(asked.items(from, most), points, is_suspended, part(kept, from, most)));
        HOLDS(are(asked.box_items(looked, from, most), points, is_suspended, part(boxed, from, most)));
        HOLDS(are(asked.ball_items(center, 70, from, most), points, is_suspended, part(near, from, most)));
    };
    auto view = map.view();
    map.remove(std::array{all});
    HOLDS(map.items().empty() && map.box_items(looked).empty() && map.ball_items(center, 70).empty());
    for (std::uint32_t from : {0u, 1u, 999u, 2999u, 3000u, UINT32_MAX})
        for (std::size_t most : {std::size_t{0}, std::size_t{1}, std::size_t{7}, std::size_t{2000}, SIZE_MAX}) is_listed(view, from, most);
    HOLDS(are(view.ball(center, 70, 256), points, is_suspended, part(near, 0, 256)));
    HOLDS(are(view.ball(center, 70, 3), points, is_suspended, part(near, 0, 3)));
}

static bool is_same(const std::vector<corv::Hit> &left, const std::vector<corv::Hit> &right) {
    return std::equal(left.begin(), left.end(), right.begin(), right.end(), [](const corv::Hit &a, const corv::Hit &b) {
        return a.number == b.number && a.dist2_low == b.dist2_low && a.dist2_high == b.dist2_high && a.point.x == b.point.x &&
               a.point.y == b.point.y && a.point.z == b.point.z && a.point.intensity == b.point.intensity;
    });
}

// Places among the points and farther and farther outside, to the corners of the space.
static std::vector<corv::Place> looked_from() {
    std::vector<corv::Place> places;
    std::int64_t far = 1;
    for (auto &point : scattered(300)) {
        places.push_back({point.x, point.y, point.z});
        if (places.size() % 7 == 0) {
            places.push_back({point.x < 0 ? -far : far, point.y < 0 ? -far : far, point.z < 8 ? -far : far});
            far = std::min<std::int64_t>(far * 2, std::int64_t{1} << 40);
        }
    }
    return places;
}

// An index against the view that it was made of: points that coincide, suspended and dropped ones, and a map that goes on.
static void an_index_answers_what_the_view_does() {
    const corv::Box hidden = {{-40, -40, -40}, {40, 50, 40}}, gone = {{60, -200, -200}, {90, 200, 200}}, part = {{-70, -60, -50}, {50, 60, 70}};
    const auto points = scattered(9000);
    const auto places = looked_from();
    for (std::size_t held : {0, 1, 12, 13, 25, 9000}) {
        corv::Map map(200, 16);
        for (std::size_t i = 0; i < held; i += 500) map.add({points.data() + i, std::min<std::size_t>(500, held - i)});
        map.suspend(std::array{hidden});
        map.remove(std::array{gone});
        auto view = map.view();
        auto frozen = map.freeze();
        map.restore(std::array{hidden});
        auto other = view.freeze(), in_part = view.freeze(part), in_none = view.freeze(corv::Box{}).copy();
        for (std::uint32_t k : {1, 2, 5, 16, 17, 256})
            for (auto within : {std::optional<std::uint64_t>(), std::optional<std::uint64_t>(0), std::optional<std::uint64_t>(30)}) {
                corv::Hits due, found;
                view.nearest_each(places, k, within, due);
                frozen.nearest_each(places, k, within, found);
                HOLDS(is_same(due.all, found.all) && due.counts == found.counts);
                for (auto index : {&other, &in_part, &in_none}) {
                    index->nearest_each(places, k, within, found);
                    HOLDS(is_same(due.all, found.all) && due.counts == found.counts);
                }
                for (std::size_t i = 0; i < places.size(); i += 50)
                    HOLDS(is_same(view.nearest(places[i], k, within), frozen.nearest(places[i], k, within)));
            }
    }
}

// Chains of points that are 10 mm apart, with longer ways between them, and points by themselves.
static void clusters_and_lonely_points() {
    corv::Map map(200, 1500);
    std::vector<corv::Point> points;
    for (std::int64_t chain = 0; chain < 300; chain++)
        for (std::int64_t i = 0; i <= chain % 3; i++) points.push_back({100 * chain + 10 * i, 0, 0, 0});
    map.add(points);
    map.suspend(std::array{corv::Box{{0, 0, 0}, {1, 1, 1}}});
    auto lonely = map.lonely(10, 256);
    auto clusters = map.clusters(10, 100);
    HOLDS(lonely.count == 99 && lonely.first.size() == 99 && lonely.first[0].number == 6 && lonely.first[98].number == 594);
    HOLDS(clusters.count == 299 && clusters.first.size() == 100);
    for (std::uint32_t i = 0; i < clusters.first.size(); i++) {
        std::uint32_t chain = i + 1;
        HOLDS(clusters.first[i].points == chain % 3 + 1 && clusters.first[i].number == chain / 3 * 6 + (chain % 3 == 0 ? 0 : chain % 3 == 1 ? 1 : 3));
    }
    HOLDS(map.lonely(9, 1).count == 599 && map.clusters(9, 1).count == 599 && map.clusters(100, 1).count == 1);
    HOLDS(status_of([&] { map.lonely(9, 0); }) == CORV_BAD_NUMBER && status_of([&] { map.clusters(UINT64_MAX, 1); }) == CORV_BAD_NUMBER);
    HOLDS(status_of([&] { map.ball({0, 0, 0}, 5, 257); }) == CORV_BAD_NUMBER);
    HOLDS(status_of([&] { map.ball_items({0, INT64_MAX, 0}, 5); }) == CORV_OUT_OF_RANGE);
}

// What a region leaves behind is what is in none of its places any more: each point of a grid is looked at.
static void a_region_follows() {
    corv::Region region(40, 5, 7, {0, 0, 0});
    HOLDS(status_of([] { corv::Region(40, 20, 7, {0, 0, 0}); }) == CORV_BAD_NUMBER);
    corv::Place robot = {0, 0, 0};
    auto is_inside = [](const corv::Region &r, const corv::Point &p) {
        auto side = static_cast<std::int64_t>(r.side());
        return is_in({r.lo(), {r.lo().x + side, r.lo().y + side, r.lo().z + side}}, p);
    };
    for (int step = 0; step < 40; step++) {
        robot = {robot.x + 3, robot.y - 2, robot.z + (step % 5) - 2};
        auto before = region;
        auto boxes = region.move(robot);
        bool is_so = boxes.size() <= 3;
        for (std::int64_t x = -60; x < 180; x += 3)
            for (std::int64_t y = -140; y < 60; y += 3)
                for (std::int64_t z = -60; z < 60; z += 3) {
                    corv::Point p = {x, y, z, 0};
                    auto times = std::count_if(boxes.begin(), boxes.end(), [&](const corv::Box &box) { return is_in(box, p); });
                    is_so = is_so && times == (is_inside(before, p) && !is_inside(region, p));
                }
        HOLDS(is_so);
    }
    HOLDS(status_of([&] { region.move({INT64_MAX, 0, 0}); }) == CORV_OUT_OF_RANGE);
}

// Each thread asks a view of its own; the map goes on meanwhile, and is gone before the last of them.
static void views_are_asked_beside_the_map() {
    std::vector<std::thread> threads;
    std::array<bool, 8> is_so{};
    {
        corv::Map map(200, 16);
        for (std::size_t scan = 0; scan < is_so.size(); scan++) {
            map.add(row(500));
            threads.emplace_back([view = map.view(), held = 500 * (scan + 1), &is_so = is_so[scan]]() mutable {
                is_so = true;
                for (std::int64_t x = 0; x < 500; x++) {
                    auto hits = view.nearest({x, 0, 0}, 1, 0);
                    is_so = is_so && view.count(all) == held && hits.size() == 1 && hits[0].point.x == x;
                }
            });
        }
    }
    for (auto &thread : threads) thread.join();
    for (auto so : is_so) HOLDS(so);
}

// Each thread asks a copy of its own. The map and the first index are gone before the last of them.
static void copies_of_an_index_are_asked_by_threads() {
    std::vector<std::thread> threads;
    std::array<bool, 4> is_so{};
    {
        corv::Map map(200, 1500);
        map.add(row(500));
        auto frozen = map.freeze();
        map.remove(std::array{all});
        for (auto &so : is_so)
            threads.emplace_back([mine = frozen.copy(), &so]() mutable {
                so = true;
                for (std::int64_t x = 0; x < 500; x++) {
                    auto hits = mine.nearest({x, 0, 0}, 1, 0);
                    so = so && hits.size() == 1 && hits[0].point.x == x;
                }
            });
    }
    for (auto &thread : threads) thread.join();
    for (auto so : is_so) HOLDS(so);
}

static void a_subtree_is_built_on_another_thread() {
    corv::Map map(200, 16);
    for (int scan = 0; scan < 9; scan++) map.add(row(500));
    auto job = map.detach(1);
    HOLDS(job.has_value());
    if (!job) return;
    std::optional<corv::Built> built;
    std::thread builder([&] { built = job->build(); });
    map.add(row(500));
    builder.join();
    HOLDS(status_of([&] { job->build(); }) == CORV_EMPTY);
    auto swapped = map.swap(*built);
    if (swapped == corv::Swapped::behind) {
        built->replay();
        swapped = map.swap(*built, true);
    }
    HOLDS(swapped == corv::Swapped::done && map.count(all) == 5000);
    HOLDS(status_of([&] { map.swap(*built); }) == CORV_EMPTY);
}

int main() {
    what_was_moved_from_is_empty();
    refusals_are_thrown();
    lists_may_be_empty();
    distances();
    all_is_listed_by_number();
    an_index_answers_what_the_view_does();
    clusters_and_lonely_points();
    a_region_follows();
    views_are_asked_beside_the_map();
    copies_of_an_index_are_asked_by_threads();
    a_subtree_is_built_on_another_thread();
    return faults != 0;
}
