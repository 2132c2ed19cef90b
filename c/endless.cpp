// What endless.hpp adds to map.hpp: a map that is renewed while it goes on. Drawn updates of all kinds are done on an EndlessMap with small
// limits and on a plain list, and all that is asked after each of them has to be the same, numbers included. Allocations are refused on
// both threads meanwhile. Linked with -Wl,--wrap=malloc,--wrap=realloc. Prints what isn't so, and ends with status 1 where there is
// something.
#include <corv/endless.hpp>

#include <algorithm>
#include <atomic>
#include <cstdio>
#include <cstdlib>
#include <deque>
#include <functional>
#include <random>
#include <thread>
#include <tuple>
#include <type_traits>

static_assert(std::is_nothrow_move_constructible_v<corv::EndlessView> && !std::is_copy_constructible_v<corv::EndlessView>);
static_assert(std::is_move_constructible_v<corv::EndlessMap> && !std::is_copy_constructible_v<corv::EndlessMap>);

static int faults = 0;

static void holds(int line, const char *fact, bool is_so) {
    if (is_so) return;
    std::printf("line %d: not so: %s\n", line, fact);
    faults++;
}
#define HOLDS(fact) holds(__LINE__, #fact, (fact))

// How many allocations are left on a thread until one is refused; below 0 none is.
struct Allocations {
    std::atomic<long> left{-1};
    std::atomic<long> refused{0};

    bool is_refused() {
        if (left.load() < 0 || left.fetch_sub(1) != 0) return false;
        ++refused;
        return true;
    }
};
static Allocations first_thread, other_threads;
static std::atomic<bool> others_have_memory{true};
static thread_local bool is_first_thread = false;

static bool is_refused() {
    if (is_first_thread) return first_thread.is_refused();
    return !others_have_memory || other_threads.is_refused();
}

extern "C" {
void *__real_malloc(std::size_t size);
void *__real_realloc(void *old, std::size_t size);
void *__wrap_malloc(std::size_t size) { return is_refused() ? nullptr : __real_malloc(size); }
void *__wrap_realloc(void *old, std::size_t size) { return is_refused() ? nullptr : __real_realloc(old, size); }
}

// Not inlined, so that no compiler takes a free for that of a new.
__attribute__((noinline)) void *operator new(std::size_t size) {
    if (auto memory = std::malloc(size)) return memory;
    throw std::bad_alloc();
}
__attribute__((noinline)) void operator delete(void *memory) noexcept { std::free(memory); }
__attribute__((noinline)) void operator delete(void *memory, std::size_t) noexcept { std::free(memory); }

static const std::int64_t voxel = 200;
static const corv::Box all = {{-1000000, -1000000, -1000000}, {1000000, 1000000, 1000000}};

static bool is_in(const corv::Box &box, const corv::Point &point) {
    return box.lo.x <= point.x && point.x < box.hi.x && box.lo.y <= point.y && point.y < box.hi.y && box.lo.z <= point.z &&
           point.z < box.hi.z;
}

static bool operator==(const corv::Point &left, const corv::Point &right) {
    return left.x == right.x && left.y == right.y && left.z == right.z && left.intensity == right.intensity;
}

static std::uint64_t square(std::int64_t number) { return static_cast<std::uint64_t>(number * number); }

// A map as a list by number.
struct Plain {
    std::vector<corv::EndlessItem> held;
    std::uint64_t updates = 0, points = 0;

    void add(const corv::Point &point) { held.push_back({point, points++, false}); }

    void thin(const corv::Point &point) {
        auto low = [](std::int64_t at) { return at - ((at % voxel) + voxel) % voxel; };
        corv::Place lo{low(point.x), low(point.y), low(point.z)};
        corv::Box cube{lo, {lo.x + voxel, lo.y + voxel, lo.z + voxel}};
        auto rank = [&](const corv::EndlessItem &item) {
            auto &[x, y, z, intensity] = item.point;
            auto dist2 = square(2 * (x - lo.x) - voxel) + square(2 * (y - lo.y) - voxel) + square(2 * (z - lo.z) - voxel);
            return std::make_tuple(dist2, x, y, z, item.number);
        };
        add(point);
        auto best = rank(held.back());
        for (auto &item : held)
            if (!item.suspended && is_in(cube, item.point)) best = std::min(best, rank(item));
        drop([&](auto &item) { return !item.suspended && is_in(cube, item.point) && item.number != std::get<4>(best); });
    }

    template <class Test>
    void drop(Test test) { held.erase(std::remove_if(held.begin(), held.end(), test), held.end()); }

    void set_suspended(const corv::Box &box, bool suspended) {
        for (auto &item : held)
            if (is_in(box, item.point)) item.suspended = suspended;
    }

    std::vector<corv::EndlessHit> nearest(const corv::Place &place, std::size_t k, std::optional<std::uint64_t> within) const {
        std::vector<corv::EndlessHit> hits;
        for (auto &item : held) {
            auto &[x, y, z, intensity] = item.point;
            auto dist2 = square(x - place.x) + square(y - place.y) + square(z - place.z);
            if (!item.suspended && (!within || dist2 <= *within * *within)) hits.push_back({item.point, 0, dist2, item.number});
        }
        auto rank = [](auto &hit) { return std::tie(hit.dist2_low, hit.point.x, hit.point.y, hit.point.z, hit.number); };
        std::sort(hits.begin(), hits.end(), [&](auto &left, auto &right) { return rank(left) < rank(right); });
        hits.resize(std::min(k, hits.size()));
        return hits;
    }
};

static bool same(const std::vector<corv::EndlessItem> &left, const std::vector<corv::EndlessItem> &right) {
    auto one = [](auto &a, auto &b) { return a.point == b.point && a.number == b.number && a.suspended == b.suspended; };
    return std::equal(left.begin(), left.end(), right.begin(), right.end(), one);
}

template <class Hits, class Others>
static bool same_hits(const Hits &left, const Others &right) {
    auto one = [](auto &a, auto &b) { return a.point == b.point && a.number == b.number && a.dist2_low == b.dist2_low && !a.dist2_high; };
    return std::equal(left.begin(), left.end(), right.begin(), right.end(), one);
}

// One update, for both. Points lie on few places, so that many lie at the same one.
struct Drawn {
    enum Kind { add, thin, remove, suspend, restore, expire } kind;
    std::vector<corv::Point> points;
    std::vector<corv::Box> boxes;
    std::uint64_t number;

    void do_on(corv::EndlessMap &map) const {
        switch (kind) {
            case add: return map.add(points);
            case thin: return map.thin(points);
            case remove: return map.remove(boxes);
            case suspend: return map.suspend(boxes);
            case restore: return map.restore(boxes);
            case expire: return map.expire(number);
        }
    }

    void do_on(Plain &plain) const {
        plain.updates++;
        for (auto &point : points) kind == add ? plain.add(point) : plain.thin(point);
        for (auto &box : boxes) {
            if (kind == remove) plain.drop([&](auto &item) { return is_in(box, item.point); });
            else plain.set_suspended(box, kind == suspend);
        }
        if (kind == expire) plain.drop([&](auto &item) { return item.number < number; });
    }
};

class Draw {
public:
    explicit Draw(unsigned seed) : random_(seed) {}

    std::uint64_t below(std::uint64_t end) { return random_() % end; }
    std::int64_t coordinate() { return static_cast<std::int64_t>(below(13)) * 70 - 420; }
    corv::Place place() { return {coordinate(), coordinate(), coordinate() / 3}; }

    corv::Box box(std::uint64_t widest) {
        auto lo = place();
        auto side = [&] { return static_cast<std::int64_t>(below(widest)); };
        return {lo, {lo.x + side(), lo.y + side(), lo.z + side()}};
    }

    Drawn update(const Plain &plain) {
        Drawn drawn{static_cast<Drawn::Kind>(below(6)), {}, {}, 0};
        // Where much is held more of it is dropped.
        if (plain.held.size() > 150 && below(2) == 0) drawn.kind = below(2) ? Drawn::remove : Drawn::expire;
        if (drawn.kind <= Drawn::thin)
            for (auto count = below(24); count > 0; count--) {
                auto [x, y, z] = place();
                drawn.points.push_back({x, y, z, static_cast<std::uint16_t>(below(9))});
            }
        else if (drawn.kind == Drawn::expire)
            drawn.number = plain.held.empty() || below(9) == 0 ? below(plain.points + 9)
                                                               : plain.held[below(1 + plain.held.size() / 3)].number;
        else
            for (auto count = below(4); count > 0; count--) drawn.boxes.push_back(box(drawn.kind == Drawn::remove ? 250 : 600));
        return drawn;
    }

private:
    std::mt19937 random_;
};

// Whether an EndlessMap or a view of it answers as the list does.
template <class Asked>
static bool is_same(Asked &asked, const Plain &plain, Draw &draw) {
    auto totals = asked.totals();
    if (totals.updates != plain.updates || totals.points != plain.points) return false;
    if (totals.live + totals.suspended != plain.held.size() || !same(asked.items(), plain.held)) return false;
    auto from = draw.below(plain.points + 2);
    std::vector<corv::EndlessItem> later, inside;
    auto box = draw.box(500);
    for (auto &item : plain.held) {
        if (item.number >= from) later.push_back(item);
        if (!item.suspended && is_in(box, item.point)) inside.push_back(item);
    }
    if (!same(asked.items(from), later) || asked.count(box) != inside.size()) return false;
    inside.resize(std::min<std::size_t>(inside.size(), 5));
    if (!same(asked.inside(box, 5), inside)) return false;
    std::vector<corv::Place> places{draw.place(), draw.place()};
    corv::EndlessHits hits;
    asked.nearest_each(places, 7, 300, hits);
    std::size_t at = 0;
    for (auto near : hits)
        if (!same_hits(near, plain.nearest(places[at++], 7, 300))) return false;
    return at == 2 && same_hits(asked.nearest(places[0], 4), plain.nearest(places[0], 4, {}));
}

static void a_moment() { std::this_thread::sleep_for(std::chrono::milliseconds(1)); }

// Views of a while ago, and what was held then.
using Views = std::deque<std::pair<corv::EndlessView, Plain>>;

static bool views_are_same(Views &views, corv::EndlessMap &map, const Plain &plain, Draw &draw) {
    bool is_so = true;
    if (draw.below(8) == 0) views.push_back({map.view(), plain});
    if (views.size() > 6) {
        is_so = is_same(views.front().first, views.front().second, draw);
        views.pop_front();
    }
    return is_so;
}

static void it_answers_as_a_list_through_renewals(unsigned seed, corv::EndlessOptions options) {
    Draw draw(seed);
    Plain plain;
    Views views;
    corv::EndlessMap map(voxel, 16, options);
    for (int step = 0; step < 5000 && (step < 300 || map.renewals() < 5); step++) {
        auto update = draw.update(plain);
        update.do_on(map);
        update.do_on(plain);
        auto is_so = is_same(map, plain, draw) && views_are_same(views, map, plain, draw);
        if (!is_so) std::printf("seed %u, step %d, after %d renewals\n", seed, step, static_cast<int>(map.renewals()));
        HOLDS(is_so);
        if (!is_so) return;
        if (step > 300 || draw.below(3) == 0) a_moment();
    }
    HOLDS(map.renewals() >= 5);
}

// Does an update where allocations are refused: as soon as one is, nothing is done, and the same is done once more.
static bool is_strong(const Drawn &update, corv::EndlessMap &map, const Plain &plain, Draw &draw) {
    first_thread.left = draw.below(2) ? static_cast<long>(draw.below(60)) : -1;
    other_threads.left = draw.below(2) ? static_cast<long>(draw.below(4000)) : -1;
    bool is_so = true;
    try {
        update.do_on(map);
        first_thread.left = -1;
    } catch (const std::bad_alloc &) {
        first_thread.left = -1;
        is_so = is_same(map, plain, draw);
        update.do_on(map);
    }
    return is_so;
}

static void refused_allocations_leave_it_as_it_was(unsigned seed) {
    Draw draw(seed);
    Plain plain;
    corv::EndlessMap map(voxel, 16, {150, 40});
    auto before = first_thread.refused.load() + other_threads.refused.load();
    for (int step = 0; step < 8000 && (step < 600 || map.renewals() < 5); step++) {
        auto update = draw.update(plain);
        auto is_so = is_strong(update, map, plain, draw);
        update.do_on(plain);
        is_so = is_so && is_same(map, plain, draw);
        HOLDS(is_so);
        if (!is_so) return;
        if (step > 600 || draw.below(3) == 0) a_moment();
    }
    other_threads.left = -1;
    HOLDS(map.renewals() >= 5);
    HOLDS(first_thread.refused + other_threads.refused > before + 100);
}

// Where the second thread has no memory the map goes on as it is, and is renewed when there is some again.
static void renewing_is_tried_again() {
    Draw draw(7);
    Plain plain;
    corv::EndlessMap map(voxel, 16, {150, 40});
    others_have_memory = false;
    for (int step = 0; step < 5000 && map.renewals() < 1; step++) {
        if (step == 200) {
            HOLDS(map.renewals() == 0);
            others_have_memory = true;
        }
        auto update = draw.update(plain);
        update.do_on(map);
        update.do_on(plain);
        a_moment();
    }
    HOLDS(map.renewals() == 1 && is_same(map, plain, draw));
    others_have_memory = true;
}

static std::int32_t status_of(const std::function<void()> &call) {
    try {
        call();
        return CORV_DONE;
    } catch (const corv::Refused &refused) {
        return refused.status();
    }
}

// Updates without a pause, each as much as the second thread has to do for it too.
// On a busy machine that may come too late, and then the full map waits for it.
static void it_is_renewed_without_a_pause() {
    Draw draw(11);
    corv::EndlessMap map(voxel, 16, {20000, 900000});
    std::vector<corv::Point> points;
    for (int i = 0; i < 300; i++) points.push_back({draw.coordinate(), draw.coordinate() * 40, draw.coordinate(), 1});
    std::uint64_t updates = 0;
    for (int turn = 0; turn < 40000 && map.renewals() < 3; turn++) {
        auto status = status_of([&] { map.thin(points); });
        HOLDS(status == CORV_DONE || status == CORV_TOO_MANY_POINTS);
        if (status == CORV_DONE) {
            updates++;
        } else {
            a_moment();
        }
    }
    HOLDS(map.renewals() == 3);
    HOLDS(map.totals().updates == updates && map.totals().points == 300 * updates);
    corv::EndlessMap other(voxel, 16);
    other.thin(points);
    auto first = other.items(), last = map.items();
    HOLDS(first.size() == last.size());
    // Of what lies at one place the point that came first stays.
    HOLDS(same(first, last));
}

static void until_renewed(corv::EndlessMap &map, std::uint64_t renewals) {
    for (int turn = 0; turn < 5000 && map.renewals() < renewals; turn++) {
        map.remove(std::vector<corv::Box>());
        a_moment();
    }
}

// What is suspended and what is live lies between each other in the order of numbers, and at the same places.
static void suspended_points_keep_their_order() {
    corv::EndlessMap map(voxel, 16, {1000, 30});
    Plain plain;
    Draw draw(3);
    auto both = [&](Drawn::Kind kind, std::vector<corv::Point> points, std::vector<corv::Box> boxes, std::uint64_t number = 0) {
        Drawn update{kind, std::move(points), std::move(boxes), number};
        update.do_on(map);
        update.do_on(plain);
    };
    for (std::int64_t x = 0; x < 8; x++) both(Drawn::add, {{x, 0, 0, 1}, {x, 0, 9, 2}}, {});
    both(Drawn::suspend, {}, {{{0, 0, 0}, {8, 1, 1}}});
    for (std::int64_t x = 0; x < 8; x++) both(Drawn::add, {{x, 0, 0, 3}}, {});
    both(Drawn::suspend, {}, {{{4, 0, 0}, {8, 1, 1}}});
    both(Drawn::add, {{6, 0, 0, 4}}, {});
    for (std::uint64_t renewals = 1; renewals < 4; renewals++) {
        until_renewed(map, renewals);
        plain.updates = map.totals().updates;
        HOLDS(map.renewals() == renewals && is_same(map, plain, draw));
        both(Drawn::expire, {}, {}, 5 * renewals);  // drops suspended and live ones, and keeps higher ones of both
        HOLDS(is_same(map, plain, draw));
    }
    both(Drawn::restore, {}, {all});
    HOLDS(is_same(map, plain, draw) && map.totals().suspended == 0);
    both(Drawn::expire, {}, {}, UINT64_MAX);
    HOLDS(is_same(map, plain, draw) && map.items().empty());
    both(Drawn::add, {{1, 2, 3, 4}}, {});
    HOLDS(is_same(map, plain, draw) && map.items()[0].number == plain.points - 1);
}

// A map of which nothing was dropped has nothing to renew.
static void what_only_grows_is_not_renewed() {
    corv::EndlessMap map(voxel, 16, {100, 900000});
    for (std::int64_t x = 0; x < 300; x++) {
        map.add(std::vector<corv::Point>{{x, 0, 0, 1}});
        if (x % 50 == 0) a_moment();
    }
    HOLDS(map.renewals() == 0 && !map.is_renewing());
    HOLDS(status_of([&] { map.nearest({INT64_MIN, 0, 0}, 1); }) == CORV_OUT_OF_RANGE);
    HOLDS(status_of([&] { map.add(std::vector<corv::Point>{{INT64_MIN, 0, 0, 1}}); }) == CORV_OUT_OF_RANGE);
    HOLDS(map.totals().points == 300 && map.totals().updates == 300);
}

// Where nothing can be renewed the map ends as a Map does, and goes on when it can be.
static void a_full_map_refuses_until_it_is_renewed() {
    corv::EndlessMap map(voxel, 16);
    std::vector<corv::Point> point{{1, 2, 3, 4}}, none;
    map.add(point);
    others_have_memory = false;
    std::uint64_t updates = 1;
    while (updates < 1100000 && status_of([&] { map.add(none); }) == CORV_DONE) updates++;
    HOLDS(updates == 1048576 && map.renewals() == 0);
    HOLDS(status_of([&] { map.thin(point); }) == CORV_TOO_MANY_UPDATES);
    HOLDS(map.totals().updates == updates && map.items().size() == 1);
    others_have_memory = true;
    int turn = 0;
    while (turn++ < 5000 && status_of([&] { map.thin(point); }) != CORV_DONE) a_moment();
    HOLDS(map.renewals() == 1 && map.totals().updates == updates + 1 && map.items()[0].number == 0);
}

static void many_points_are_refused_until_it_is_renewed() {
    corv::EndlessMap map(voxel, 1500, {4194304, 900000});
    std::vector<corv::Point> points(262144, corv::Point{1, 2, 3, 4}), more(100000, corv::Point{1, 2, 3, 5});
    for (int turn = 0; turn < 15; turn++) map.thin(points);
    map.thin({points.data(), 200000});
    HOLDS(status_of([&] { map.thin(more); }) == CORV_TOO_MANY_POINTS && map.totals().points == 4132160);
    int turn = 0;
    while (turn++ < 5000 && status_of([&] { map.thin(more); }) != CORV_DONE) a_moment();
    HOLDS(map.renewals() == 1 && map.totals().points == 4232160 && map.items().size() == 1);
    HOLDS(map.items()[0].number == 0 && map.items()[0].point.intensity == 4);
    map.expire(4232159);
    HOLDS(map.items().empty());
}

// It is moved, and destroyed, with the second thread at work.
static void it_is_moved_while_it_is_renewed() {
    Draw draw(5);
    Plain plain;
    corv::EndlessMap map(voxel, 16, {150, 20});
    for (int step = 0; step < 400; step++) {
        auto update = draw.update(plain);
        update.do_on(map);
        update.do_on(plain);
        if (step % 7 == 0) {
            corv::EndlessMap other(std::move(map));
            HOLDS(step || status_of([&] { map.add(update.points); }) == CORV_EMPTY);
            map = std::move(other);
        }
        if (step % 50 == 0) {
            corv::EndlessMap gone(voxel, 16, {1, 1});
            gone.add(std::vector<corv::Point>(100, corv::Point{1, 2, 3, 4}));
            gone.expire(99);
        }
    }
    HOLDS(is_same(map, plain, draw));
    until_renewed(map, map.renewals() + 1);
}

int main() {
    is_first_thread = true;
    for (unsigned seed = 1; seed <= 6; seed++) it_answers_as_a_list_through_renewals(seed, {150, 900000});
    for (unsigned seed = 7; seed <= 9; seed++) it_answers_as_a_list_through_renewals(seed, {4000000, 25});
    for (unsigned seed = 1; seed <= 4; seed++) refused_allocations_leave_it_as_it_was(seed);
    renewing_is_tried_again();
    it_is_renewed_without_a_pause();
    suspended_points_keep_their_order();
    what_only_grows_is_not_renewed();
    a_full_map_refuses_until_it_is_renewed();
    many_points_are_refused_until_it_is_renewed();
    it_is_moved_while_it_is_renewed();
    return faults != 0;
}
