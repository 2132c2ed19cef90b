// The map, for C++17: map.h with owners that free what they hold, moves in place of copies, and refusals that are thrown.
//
// An owner has its handle in memory of its own, so that it may be moved and the handle never is. What map.h asks of a caller is seen
// to here, except for this: one thread at a time calls a Map, View, Frozen, Job or Built, and one that goes to another thread goes there by a
// lock, or by that thread's start or join. So nothing here is const: a View or a copy of a Frozen is cheap, and each thread that asks has
// one of its own.
//
// Why exceptions: a scan that isn't taken in, and nobody looks, would leave a map with a hole, and C++17 has no type for a result
// that has to be looked at. What is no fault is no exception: that there is nothing to detach, and how a swap goes. Who builds
// without exceptions has map.h.
#ifndef CORV_MAP_HPP
#define CORV_MAP_HPP
#include "map.h"

#include <algorithm>
#include <cmath>
#include <cstddef>
#include <cstdint>
#include <memory>
#include <new>
#include <optional>
#include <stdexcept>
#include <utility>
#include <vector>

namespace corv {

using Place = corv_place;
using Point = corv_point;
using Box = corv_box;
using Hit = corv_hit;
using Item = corv_item;
using Cluster = corv_cluster;
using Totals = corv_totals;

/// A call was refused, and everything is as it was. Where there was no memory it is std::bad_alloc instead.
class Refused : public std::runtime_error {
public:
    explicit Refused(std::int32_t status) : std::runtime_error(text(status)), status_(status) {}

    /// The cause: one of CORV_EMPTY, which is so for what was moved from, CORV_BAD_NUMBER and so on.
    std::int32_t status() const noexcept { return status_; }

private:
    static const char *text(std::int32_t status) {
        switch (status) {
            case CORV_EMPTY: return "corv: it holds nothing, or was moved from";
            case CORV_FULL: return "corv: it holds something already";
            case CORV_BAD_NUMBER: return "corv: a number is not one that the call takes";
            case CORV_NO_ROOM: return "corv: an array is too short";
            case CORV_OUT_OF_RANGE: return "corv: a number of a place is out of range";
            case CORV_BAD_BOX: return "corv: a number of a box is out of range, or one of hi is below that of lo";
            case CORV_TOO_MANY_UPDATES: return "corv: too many updates";
            case CORV_TOO_MANY_POINTS: return "corv: too many points";
            case CORV_NO_LINE: return "corv: no line of a log says an update";
            default: return "corv: a call was refused";
        }
    }

    std::int32_t status_;
};

namespace detail {

inline void check(std::int32_t status) {
    if (status == CORV_NO_MEMORY) throw std::bad_alloc();
    if (status != CORV_DONE) throw Refused(status);
}

/// A handle where it stays, from its zeros to its release.
template <class Handle, void (*release)(Handle *)>
class Owned {
public:
    Handle *get() const {
        check(handle_ ? CORV_DONE : CORV_EMPTY);
        return handle_.get();
    }

private:
    struct Release {
        void operator()(Handle *handle) const noexcept {
            release(handle);
            delete handle;
        }
    };
    std::unique_ptr<Handle, Release> handle_{new Handle()};
};

/// The calls by which a map is asked, and those for a view.
struct MapCalls {
    using Handle = corv_map;
    static constexpr auto release = corv_map_free;
    static constexpr auto nearest = corv_map_nearest;
    static constexpr auto nearest_each = corv_map_nearest_each;
    static constexpr auto count = corv_map_count;
    static constexpr auto inside = corv_map_inside;
    static constexpr auto ball = corv_map_ball;
    static constexpr auto lonely = corv_map_lonely;
    static constexpr auto clusters = corv_map_clusters;
    static constexpr auto items = corv_map_items;
    static constexpr auto box_items = corv_map_box_items;
    static constexpr auto ball_items = corv_map_ball_items;
    static constexpr auto totals = corv_map_totals;
};

struct ViewCalls {
    using Handle = corv_view;
    static constexpr auto release = corv_view_free;
    static constexpr auto nearest = corv_view_nearest;
    static constexpr auto nearest_each = corv_view_nearest_each;
    static constexpr auto count = corv_view_count;
    static constexpr auto inside = corv_view_inside;
    static constexpr auto ball = corv_view_ball;
    static constexpr auto lonely = corv_view_lonely;
    static constexpr auto clusters = corv_view_clusters;
    static constexpr auto items = corv_view_items;
    static constexpr auto box_items = corv_view_box_items;
    static constexpr auto ball_items = corv_view_ball_items;
    static constexpr auto totals = corv_view_totals;
};

/// The calls by which a frozen index is searched.
struct FrozenCalls {
    using Handle = corv_frozen;
    static constexpr auto release = corv_frozen_free;
    static constexpr auto nearest = corv_frozen_nearest;
    static constexpr auto nearest_each = corv_frozen_nearest_each;
};

}  // namespace detail

/// The caller's values, one after the other in memory: a std::vector, a std::array, or a pointer and a count.
template <class T>
class List {
public:
    List(const T *first, std::size_t size) : first_(size ? first : &none), size_(size) {}
    template <class Values, class = decltype(std::declval<const Values &>().data())>
    List(const Values &values) : List(values.data(), values.size()) {}

    const T *data() const noexcept { return first_; }
    std::size_t size() const noexcept { return size_; }

private:
    // A pointer to nothing is no pointer that a call takes, and an empty vector may have one.
    static inline const T none{};
    const T *first_;
    std::size_t size_;
};

/// Values that are one after the other in memory, for a loop.
template <class T>
struct Range {
    const T *first, *last;

    const T *begin() const noexcept { return first; }
    const T *end() const noexcept { return last; }
    std::size_t size() const noexcept { return static_cast<std::size_t>(last - first); }
    const T &operator[](std::size_t at) const noexcept { return first[at]; }
};

/// The hits of several places: those of the first one, and right behind them the next one's. `counts` tells how many each has.
/// A loop over it goes from place to place, and has each one's hits.
template <class Hit>
struct HitsOf {
    std::vector<Hit> all;
    std::vector<std::uint32_t> counts;

    class Each {
    public:
        Each(const Hit *hit, const std::uint32_t *count) : hit_(hit), count_(count) {}
        Range<Hit> operator*() const noexcept { return {hit_, hit_ + *count_}; }
        Each &operator++() noexcept {
            hit_ += *count_++;
            return *this;
        }
        bool operator!=(const Each &other) const noexcept { return count_ != other.count_; }

    private:
        const Hit *hit_;
        const std::uint32_t *count_;
    };

    Each begin() const noexcept { return {all.data(), counts.data()}; }
    Each end() const noexcept { return {all.data() + all.size(), counts.data() + counts.size()}; }
};
using Hits = HitsOf<Hit>;

/// The distance of a hit in millimetres, as near as a double comes to it.
inline double distance(const Hit &hit) {
    return std::sqrt(std::ldexp(static_cast<double>(hit.dist2_high), 64) + static_cast<double>(hit.dist2_low));
}

#ifdef __SIZEOF_INT128__
__extension__ using Wide = unsigned __int128;

/// The squared distance of a hit, exactly.
inline Wide squared_distance(const Hit &hit) {
    return Wide{hit.dist2_high} << 64 | hit.dist2_low;
}
#endif

/// How many there are of what was looked for, and the first of them.
template <class T>
struct Found {
    std::uint32_t count = 0;
    std::vector<T> first;
};

/// A Map, a View or a Frozen, searched for the nearest points. Numbers out of their range are refused, and so are places.
template <class Calls>
class Searched {
public:
    /// The k nearest live points, from 1 to 256, or all where there are fewer; at most `within` millimetres away where that is given.
    std::vector<Hit> nearest(const Place &place, std::uint32_t k, std::optional<std::uint64_t> within = {}) {
        std::vector<Hit> hits;
        nearest(place, k, within, hits);
        return hits;
    }

    /// The same into a vector that is used again, which spares its memory from call to call.
    void nearest(const Place &place, std::uint32_t k, std::optional<std::uint64_t> within, std::vector<Hit> &hits) {
        hits.resize(room(k));
        std::size_t count = 0;
        auto status = Calls::nearest(get(), &place, k, reach(within), hits.data(), hits.size(), &count);
        hits.resize(count);
        detail::check(status);
    }

    /// The same for each of several places, in one call.
    void nearest_each(List<Place> places, std::uint32_t k, std::optional<std::uint64_t> within, Hits &hits) {
        auto &[all, counts] = hits;
        all.resize(std::max<std::size_t>(1, places.size() * room(k)));
        counts.resize(std::max<std::size_t>(1, places.size()));
        std::size_t count = 0;
        auto status = Calls::nearest_each(get(), places.data(), places.size(), k, reach(within), all.data(), all.size(),
                                          counts.data(), counts.size(), &count);
        all.resize(count);
        counts.resize(status == CORV_DONE ? places.size() : 0);
        detail::check(status);
    }

    /// The same into memory of the caller's: room for `size` hits, at least k for each place, and for a count for each. Returns how many
    /// hits there are.
    std::size_t nearest_each(List<Place> places, std::uint32_t k, std::optional<std::uint64_t> within, Hit *hits, std::size_t size,
                             std::uint32_t *counts) {
        Hit no_hit;
        std::uint32_t no_count;
        std::size_t count = 0;
        detail::check(Calls::nearest_each(get(), places.data(), places.size(), k, reach(within), size ? hits : &no_hit,
                                          std::max<std::size_t>(1, size), places.size() ? counts : &no_count,
                                          std::max<std::size_t>(1, places.size()), &count));
        return count;
    }

protected:
    typename Calls::Handle *get() const { return handle_.get(); }

    // Room for as many as a call can give; where k is refused, for what it would say.
    static std::size_t room(std::uint32_t k) { return std::clamp<std::uint32_t>(k, 1, 256); }

private:
    // What is too far for a signed number is too far for the call too.
    static std::int64_t reach(std::optional<std::uint64_t> within) {
        return within ? static_cast<std::int64_t>(std::min<std::uint64_t>(*within, INT64_MAX)) : -1;
    }

    detail::Owned<typename Calls::Handle, Calls::release> handle_;
};

/// What else is asked of a Map and of a View. Boxes out of their range are refused too.
template <class Calls>
class Asked : public Searched<Calls> {
public:
    /// How many live points are in a box.
    std::uint32_t count(const Box &box) {
        std::uint32_t live = 0;
        detail::check(Calls::count(get(), &box, &live));
        return live;
    }

    /// The live points in a box by number, or the first `most` of them, from 1 to 256.
    std::vector<Item> inside(const Box &box, std::uint32_t most) {
        return listed<Item>(room(most), [&](Item *items, std::size_t size, std::size_t *count) {
            return Calls::inside(get(), &box, most, items, size, count);
        });
    }

    /// The live points at most `r` millimetres from a place by number, or the first `most` of them, from 1 to 256.
    std::vector<Item> ball(const Place &place, std::uint64_t r, std::uint32_t most) {
        return listed<Item>(room(most), [&](Item *items, std::size_t size, std::size_t *count) {
            return Calls::ball(get(), &place, r, most, items, size, count);
        });
    }

    /// How many live points have no other live one within `r` millimetres, and the first `most` of them by number, from 1 to 256.
    Found<Item> lonely(std::uint64_t r, std::uint32_t most) {
        Found<Item> found;
        found.first = listed<Item>(room(most), [&](Item *items, std::size_t size, std::size_t *count) {
            return Calls::lonely(get(), r, most, &found.count, items, size, count);
        });
        return found;
    }

    /// How many clusters there are of live points, by steps of at most `r` millimetres, and the first `most` of them by their least
    /// numbers, from 1 to 256.
    Found<Cluster> clusters(std::uint64_t r, std::uint32_t most) {
        Found<Cluster> found;
        found.first = listed<Cluster>(room(most), [&](Cluster *clusters, std::size_t size, std::size_t *count) {
            return Calls::clusters(get(), r, most, &found.count, clusters, size, count);
        });
        return found;
    }

    /// All points, live and suspended, under the numbers from this one on, by number; the first `most`, where that is given.
    std::vector<Item> items(std::uint32_t from = 0, std::size_t most = SIZE_MAX) {
        auto held = totals();
        return listed<Item>(std::min(most, std::size_t{held.live} + held.suspended), [&](Item *items, std::size_t size, std::size_t *count) {
            return Calls::items(get(), from, items, size, count);
        });
    }

    /// All live points in a box, under the numbers from this one on, by number; the first `most`, where that is given.
    std::vector<Item> box_items(const Box &box, std::uint32_t from = 0, std::size_t most = SIZE_MAX) {
        return listed<Item>(std::min<std::size_t>(most, count(box)), [&](Item *items, std::size_t size, std::size_t *count) {
            return Calls::box_items(get(), &box, from, items, size, count);
        });
    }

    /// All live points at most `r` millimetres from a place, under the numbers from this one on, by number; the first `most`, where
    /// that is given. The vector grows with what is found.
    std::vector<Item> ball_items(const Place &place, std::uint64_t r, std::uint32_t from = 0, std::size_t most = SIZE_MAX) {
        std::vector<Item> all;
        while (all.size() < most) {
            auto wanted = std::min(most - all.size(), std::max<std::size_t>(1024, all.size()));
            auto next = listed<Item>(wanted, [&](Item *items, std::size_t size, std::size_t *count) {
                return Calls::ball_items(get(), &place, r, from, items, size, count);
            });
            all.insert(all.end(), next.begin(), next.end());
            if (next.size() < wanted) break;
            from = next.back().number + 1;
        }
        return all;
    }

    /// How many updates were made, and how many points are there.
    Totals totals() {
        Totals totals{};
        detail::check(Calls::totals(get(), &totals));
        return totals;
    }

protected:
    using Searched<Calls>::get;

private:
    using Searched<Calls>::room;

    // The front of an array for so many that a call writes. It is never of no length, since a call takes no null.
    template <class T, class Call>
    static std::vector<T> listed(std::size_t size, Call call) {
        std::vector<T> list(std::max<std::size_t>(1, size));
        std::size_t count = 0;
        auto status = call(list.data(), size, &count);
        list.resize(count);
        detail::check(status);
        return list;
    }
};

/// The live points of a map or a view as they were when it was made, for asking many times: each place is found sooner than in the map,
/// with the same answer. It follows no update. It takes 32 bytes a point, and as much again while it is made.
class Frozen : public Searched<detail::FrozenCalls> {
public:
    /// Another owner of the same points, for another thread.
    Frozen copy() {
        Frozen other;
        detail::check(corv_frozen_copy(get(), other.get()));
        return other;
    }

private:
    friend class Map;
    friend class View;
    Frozen() = default;
};

/// A map as it was when the view was made, for a thread that asks while the map goes on.
class View : public Asked<detail::ViewCalls> {
public:
    /// What is live in it, to be asked many times. In any thread.
    Frozen freeze() {
        Frozen frozen;
        detail::check(corv_view_freeze(get(), frozen.get()));
        return frozen;
    }

    /// The same, for places in the box, of which alone the points are laid. It keeps the view, and asks it where a nearer one may lie outside.
    Frozen freeze(const Box &box) {
        Frozen frozen;
        detail::check(corv_view_freeze_box(get(), &box, frozen.get()));
        return frozen;
    }

    /// Another view of the same, for another thread.
    View copy() {
        View other;
        detail::check(corv_view_copy(get(), other.get()));
        return other;
    }

private:
    friend class Map;
    View() = default;
};

/// A subtree, rebuilt, to be swapped in.
class Built {
public:
    /// Does the operations that the last swap, which was behind, handed it. In any thread.
    void replay() { detail::check(corv_built_replay(handle_.get())); }

private:
    friend class Job;
    friend class Map;
    Built() = default;
    detail::Owned<corv_built, corv_built_free> handle_;
};

/// A subtree that is handed out, to be rebuilt.
class Job {
public:
    /// Builds it, in any thread, and leaves the job empty.
    Built build() {
        Built built;
        detail::check(corv_job_build(handle_.get(), built.handle_.get()));
        return built;
    }

private:
    friend class Map;
    Job() = default;
    detail::Owned<corv_job, corv_job_free> handle_;
};

/// How a swap went: it is done; or more is left to be replayed first; or the subtree's place is there no more, and it is of no use.
enum class Swapped { done, behind, stale };

/// A map.
class Map : public Asked<detail::MapCalls> {
public:
    /// Has no points. Its voxels have edges of 1 to 1,000,000 mm. Subtrees of `large` nodes or more, 16 to 1,000,000, wait for `detach`, and
    /// updates rebuild what is smaller. Where nobody calls that, take 1,000,000.
    Map(std::uint32_t voxel, std::uint32_t large) { detail::check(corv_map_new(voxel, large, get())); }

    /// Has the view's points, under new numbers: the suspended points first, and then the live ones, each in their order.
    Map(View &view, std::uint32_t voxel, std::uint32_t large) {
        detail::check(corv_view_renew(view.get(), voxel, large, get()));
    }

    /// Writes the lines of a log that say the updates from this one on, counted from 0, in place of what the bytes held: those of as many
    /// whole updates as fit in twice as many bytes as there were, or in 4,096, and of one at least where there is one. Returns the first
    /// update that isn't written.
    std::uint64_t log(std::uint64_t from, std::vector<char> &bytes) {
        for (auto room = std::max<std::size_t>(2 * bytes.size(), 4096);; room *= 2) {
            bytes.resize(room);
            std::size_t count = 0;
            std::uint64_t next = from;
            auto status = corv_map_log(get(), from, bytes.data(), bytes.size(), &count, &next);
            bytes.resize(count);
            if (status == CORV_NO_ROOM) continue;
            detail::check(status);
            return next;
        }
    }

    /// Each point is put in, live, under the next number.
    void add(List<Point> points) { update(corv_map_add, points); }
    /// Each point takes the next number, and of its voxel's live points the one nearest to the centre stays.
    void thin(List<Point> points) { update(corv_map_thin, points); }
    /// What is live or suspended in the boxes is dropped for good.
    void remove(List<Box> boxes) { update(corv_map_delete, boxes); }
    /// What is live in the boxes is hidden.
    void suspend(List<Box> boxes) { update(corv_map_suspend, boxes); }
    /// What is suspended in the boxes is live again.
    void restore(List<Box> boxes) { update(corv_map_restore, boxes); }
    /// What has a number below this one is dropped for good.
    void expire(std::uint32_t number) { detail::check(corv_map_expire(get(), number)); }

    /// A view of the map as it is now.
    View view() {
        View view;
        detail::check(corv_map_view(get(), view.get()));
        return view;
    }

    /// What is live in the map now, to be asked many times before it changes.
    Frozen freeze() {
        Frozen frozen;
        detail::check(corv_map_freeze(get(), frozen.get()));
        return frozen;
    }

    /// Hands out a large subtree that is to be rebuilt, if there is one, under a slot from 1 to 4. Where the slot's one isn't swapped in
    /// yet, that is handed out once more, and what was built of it is stale.
    std::optional<Job> detach(std::uint32_t slot) {
        Job job;
        auto status = corv_map_detach(get(), slot, job.handle_.get());
        if (status == CORV_NOTHING_TO_DETACH) return std::nullopt;
        detail::check(status);
        return job;
    }

    /// Puts a built subtree in its place. Where it is behind, by more than 64 operations and not forced, it is to be replayed.
    Swapped swap(Built &built, bool force = false) {
        auto status = corv_map_swap(get(), built.handle_.get(), force);
        if (status == CORV_STALE) return Swapped::stale;
        if (status == CORV_BEHIND) return Swapped::behind;
        detail::check(status);
        return Swapped::done;
    }

private:
    template <class T>
    void update(std::int32_t (*call)(corv_map *, const T *, std::size_t), List<T> list) {
        detail::check(call(get(), list.data(), list.size()));
    }
};

/// A region that moves with a robot: a cube from whose faces a ball round the robot stays clear. A value, that may be copied.
class Region {
public:
    /// Begins with the place in its middle. The side is from 2 to 2,199,023,255,552 mm, twice the ball is below it, and the step is from 1
    /// to the side.
    Region(std::uint64_t side, std::uint64_t ball, std::uint64_t step, const Place &place) {
        detail::check(corv_region_begin(side, ball, step, &place, &region_));
    }

    /// Moves to the place, and returns what the region left behind, to be removed of the map: three boxes at most.
    std::vector<Box> move(const Place &place) {
        std::vector<Box> boxes(3);
        std::size_t count = 0;
        auto status = corv_region_move(&region_, &place, boxes.data(), boxes.size(), &count);
        boxes.resize(count);
        detail::check(status);
        return boxes;
    }

    /// Its corner with the least numbers, which may lie where no place does.
    const Place &lo() const noexcept { return region_.lo; }
    std::uint64_t side() const noexcept { return region_.side; }

private:
    corv_region region_{};
};

}  // namespace corv

#endif
