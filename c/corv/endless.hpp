// A map that goes on by itself, for C++17, header only. A Map ends after 4,194,304 submitted points or 1,048,576 updates; an EndlessMap
// is renewed on a second thread before it comes there, and so goes on for as long as what it holds fits one Map.
#ifndef CORV_ENDLESS_HPP
#define CORV_ENDLESS_HPP
#include "endless_answers.hpp"
#include "map.hpp"

#include <chrono>
#include <cstddef>
#include <cstdint>
#include <exception>
#include <future>
#include <list>
#include <new>
#include <optional>
#include <system_error>
#include <tuple>
#include <unordered_set>
#include <utility>
#include <vector>

namespace corv {

/// When an EndlessMap is renewed: once its Map has had this many points, or this many updates. Both leave room for what comes while the
/// new Map is made: a Map takes 4,194,304 points and 1,048,576 updates.
struct EndlessOptions {
    std::uint32_t points = 3000000;
    std::uint64_t updates = 900000;
};

namespace detail {

/// An update that is kept, to be done on the new Map too.
class Update {
public:
    Update(void (Map::*call)(List<Point>), List<Point> points)
        : with_points_(call), points_(points.data(), points.data() + points.size()) {}
    Update(void (Map::*call)(List<Box>), List<Box> boxes) : with_boxes_(call), boxes_(boxes.data(), boxes.data() + boxes.size()) {}
    explicit Update(std::uint64_t expired) : expired_(expired) {}

    void do_on(Numbered<Map> &map) const {
        if (with_points_) return (map.owner.*with_points_)(points_);
        if (with_boxes_) return (map.owner.*with_boxes_)(boxes_);
        map.owner.expire(map.numbers.below(expired_, map.owner.totals().points));
    }

private:
    void (Map::*with_points_)(List<Point>) = nullptr;
    void (Map::*with_boxes_)(List<Box>) = nullptr;
    std::vector<Point> points_;
    std::vector<Box> boxes_;
    std::uint64_t expired_ = 0;
};

struct PlaceHash {
    std::size_t operator()(const Place &place) const noexcept {
        auto mixed = static_cast<std::uint64_t>(place.x) * 0x9E3779B97F4A7C15u;
        mixed = (mixed ^ mixed >> 32 ^ static_cast<std::uint64_t>(place.y)) * 0xBF58476D1CE4E5B9u;
        mixed = (mixed ^ mixed >> 29 ^ static_cast<std::uint64_t>(place.z)) * 0x94D049BB133111EBu;
        return static_cast<std::size_t>(mixed ^ mixed >> 32);
    }
};

struct SamePlace {
    bool operator()(const Place &left, const Place &right) const noexcept {
        return left.x == right.x && left.y == right.y && left.z == right.z;
    }
};

/// Makes a Map of live and suspended points in the order of their numbers. corv_view_renew puts all suspended points first.
///
/// A suspension hides all that is live at a place, and a restoration shows all that is suspended there, so at one place each suspended
/// point came before each live one. What is suspended here is so by a box round its place alone, and before a live point comes there.
template <class Items>
Map in_order(const Items &items, std::uint32_t voxel, std::uint32_t large) {
    Map map(voxel, large);
    std::vector<Point> points;
    std::vector<Box> boxes;
    std::unordered_set<Place, PlaceHash, SamePlace> hidden;
    auto put = [&] {
        map.add(points);
        map.suspend(boxes);
        points.clear();
        boxes.clear();
        hidden.clear();
    };
    for (auto &item : items) {
        auto &[x, y, z, intensity] = item.point;
        Place place{x, y, z};
        if (!item.suspended && hidden.count(place)) put();
        points.push_back(item.point);
        if (item.suspended && hidden.insert(place).second) boxes.push_back({place, {x + 1, y + 1, z + 1}});
    }
    put();
    return map;
}

/// Rebuilds at once what got unbalanced in a Map that no other thread has.
inline void make_even(Map &map) {
    // More subtrees than a Map has slots for aren't expected; a bound, so that this ends whatever comes.
    for (int turn = 0; turn < 64; ++turn) {
        auto job = map.detach(1);
        if (!job) return;
        auto built = job->build();
        map.swap(built, true);
    }
}

/// Makes the Map that goes on from a view. On the second thread.
inline Numbered<Map> renewed(Numbered<View> from, std::uint32_t voxel, std::uint32_t large) {
    auto before = from.numbers.totals(from.owner.totals());
    auto items = from.owner.items();
    std::vector<std::uint64_t> numbers;
    numbers.reserve(items.size());
    for (auto &item : items) numbers.push_back(from.numbers.number(item.number));
    { View listed(std::move(from.owner)); }  // It ends here: while there is a view, the old Map's updates copy what it shows.
    auto map = in_order(items, voxel, large);
    make_even(map);
    auto updates = map.totals().updates;
    return {std::move(map), Numbers(std::move(numbers), updates, before)};
}

/// Does the kept updates on the new Map. On the second thread.
inline Numbered<Map> caught_up(Numbered<Map> map, std::list<Update> kept) {
    for (auto &update : kept) update.do_on(map);
    make_even(map.owner);
    return map;
}

inline Built replayed(Built built) {
    built.replay();
    return built;
}

/// Makes a call on a second thread. The values end there, and not where the answer is taken: to free them may take long.
template <class Call, class... Values>
auto on_second_thread(Call call, Values... values) {
    return std::async(std::launch::async, [call, values = std::make_tuple(std::move(values)...)]() mutable {
        return std::apply([&call](auto &...each) { return call(std::move(each)...); }, values);
    });
}

template <class T>
bool is_ready(const std::future<T> &future) {
    return future.wait_for(std::chrono::seconds(0)) == std::future_status::ready;
}

}  // namespace detail

/// A map that goes on by itself. It is a Map, and near the end of that it makes a new one from a view on a second thread, does there what
/// updates came meanwhile, and goes on with the new Map. It holds the same after that, and answers the same. It also rebuilds large
/// subtrees on a second thread, so there is nothing to detach. As a Map it is called by one thread at a time.
///
/// **Numbers.** A point's number is how many points `add` and `thin` had submitted before it since the EndlessMap was made, whether they
/// are still in the map or not: 0 for the first point, 64 bits, never given again, the same before and after a renewal. A refused update
/// takes no numbers. `expire(n)`, `items(n)`, the order of items and of hits that are equally far go by them.
///
/// **Time.** No update waits for the second thread. The one that goes on with the new Map does at most two kept updates on it first. Where
/// updates come about as fast as the second thread does them again, each update does two of the kept ones until none is left, and
/// takes as long as three.
///
/// **Memory.** While a renewal is under way there are two Maps, and the updates that came since it began.
///
/// **Faults.** A refused update changes nothing, as with a Map. Where the second thread has no memory, or there is no
/// thread, the renewal is given up and begun again some updates later. Only an update that comes when the Map has no room left is
/// Refused as CORV_TOO_MANY_POINTS or CORV_TOO_MANY_UPDATES: it may be tried again when a renewal has come to its end, and so
/// never where it has more than 4,194,304 points together with those in the map.
class EndlessMap : public detail::EndlessAsked<EndlessMap> {
public:
    /// Has no points. Its voxels have edges of 1 to 1,000,000 mm. Subtrees of `large` nodes or more, 16 to 1,000,000, are rebuilt on the
    /// second thread: 1,500 is a good choice.
    EndlessMap(std::uint32_t voxel, std::uint32_t large, EndlessOptions options = {})
        : voxel_(voxel), large_(large), options_(options), now_{Map(voxel, large), {}} {}

    EndlessMap(EndlessMap &&) = default;
    EndlessMap &operator=(EndlessMap &&) = default;

    /// Waits for what is under way on the second thread, which is at most what a renewal takes.
    ~EndlessMap() = default;

    /// Each point is put in, live, under the next number.
    void add(List<Point> points) { update(&Map::add, points); }
    /// Each point takes the next number, and of its voxel's live points the one nearest to the centre stays.
    void thin(List<Point> points) { update(&Map::thin, points); }
    /// What is live or suspended in the boxes is dropped for good.
    void remove(List<Box> boxes) { update(&Map::remove, boxes); }
    /// What is live in the boxes is hidden.
    void suspend(List<Box> boxes) { update(&Map::suspend, boxes); }
    /// What is suspended in the boxes is live again.
    void restore(List<Box> boxes) { update(&Map::restore, boxes); }

    /// What has a number below this one is dropped for good: exactly that, whatever was renewed or suspended since.
    void expire(std::uint64_t number) {
        before_update();
        auto kept = kept_while_renewing(number);
        done([&] { now_.owner.expire(now_.numbers.below(number, now_.owner.totals().points)); }, kept);
    }

    /// A view of the map as it is now.
    EndlessView view() { return EndlessView({now_.owner.view(), now_.numbers}); }

    /// How often it was renewed.
    std::uint64_t renewals() const noexcept { return renewals_; }

    /// Whether a renewal is under way.
    bool is_renewing() const noexcept { return making_.valid() || next_; }

private:
    friend class detail::EndlessAsked<EndlessMap>;
    using Kept = std::list<detail::Update>;
    template <class Owner>
    using Numbered = detail::Numbered<Owner>;

    // Kept updates that one update of the caller's does on the new Map, at most: one more than it adds to them.
    static constexpr std::size_t few = 2;
    // Calls from one that begins a renewal, if that fails, to one that begins it again.
    static constexpr std::uint64_t pause = 8;

    Numbered<Map> &asked() { return now_; }

    template <class T>
    void update(void (Map::*call)(List<T>), List<T> list) {
        before_update();
        auto kept = kept_while_renewing(call, list);
        done([&] { (now_.owner.*call)(list); }, kept);
    }

    // The update as a list of one, where the new Map has to have it too. It is copied before it is done, since that may be refused.
    template <class... Parts>
    Kept kept_while_renewing(const Parts &...parts) {
        Kept kept;
        if (is_renewing()) kept.emplace_back(parts...);
        return kept;
    }

    template <class Call>
    void done(Call call, Kept &kept) {
        try {
            call();
        } catch (const Refused &refused) {
            if (refused.status() == CORV_TOO_MANY_POINTS || refused.status() == CORV_TOO_MANY_UPDATES) {
                is_full_ = true;
                after_update();
            }
            throw;
        }
        kept_.splice(kept_.end(), kept);
        after_update();
    }

    // Both let the update go on where there is no memory, or no thread: what wasn't done is done at a later one.
    void before_update() {
        ++calls_;
        if (making_.valid() && detail::is_ready(making_)) take_made();
        if (next_) tried([this] { catch_up(); });
        tried([this] { put_in_place(); });
    }

    void after_update() {
        tried([this] { begin_renewal(); });
        tried([this] { give_out(); });
    }

    template <class Call>
    static void tried(Call call) {
        try {
            call();
        } catch (const std::bad_alloc &) {
        } catch (const std::system_error &) {  // there is no further thread
        }
    }

    // Renewing has to give room for an eighth of the points that the Map has had, or for any where it is full.
    bool is_due(const Totals &totals) const {
        auto dropped = totals.points - totals.live - totals.suspended;
        if (is_full_) return dropped > 0 || totals.updates >= options_.updates;
        return totals.updates >= options_.updates || (totals.points >= options_.points && dropped >= totals.points / 8);
    }

    void begin_renewal() {
        if (is_renewing() || calls_ < next_try_) return;
        auto &[map, numbers] = now_;
        if (!is_due(map.totals())) return;
        next_try_ = calls_ + pause;
        round_ = SIZE_MAX;
        auto make = [voxel = voxel_, large = large_](Numbered<View> from) { return detail::renewed(std::move(from), voxel, large); };
        making_ = detail::on_second_thread(make, Numbered<View>{map.view(), numbers});
    }

    // Takes what the second thread made. Where that failed, the renewal is given up.
    void take_made() {
        try {
            next_.emplace(making_.get());
        } catch (...) {
            kept_.clear();
        }
    }

    // With the new Map in hand: has the second thread do the kept updates, as long as each round leaves a quarter less of them than
    // the one before. What is left then is done here, a few at a time.
    void catch_up() {
        if (kept_.size() > 1 && kept_.size() <= round_ - round_ / 4) return begin_round();
        try {
            for (std::size_t turn = 0; turn < few && !kept_.empty(); ++turn, kept_.pop_front()) kept_.front().do_on(*next_);
        } catch (const std::exception &) {  // there is no memory, or the new Map is full too
            return give_up();
        }
        if (kept_.empty()) go_on();
    }

    void begin_round() {
        round_ = kept_.size();
        auto map = std::move(*next_);
        next_.reset();
        auto kept = std::move(kept_);
        kept_.clear();
        making_ = detail::on_second_thread(detail::caught_up, std::move(map), std::move(kept));
    }

    void give_up() {
        auto kept = std::move(kept_);
        kept_.clear();
        auto map = std::move(*next_);
        next_.reset();
        free_elsewhere(std::make_pair(std::move(map), std::move(kept)));
    }

    void go_on() {
        std::swap(now_, *next_);
        auto before = std::make_pair(std::move(*next_), std::move(building_));
        next_.reset();
        ++renewals_;
        next_try_ = 0;
        is_full_ = false;
        free_elsewhere(std::move(before));
    }

    // Puts what was rebuilt since in its place.
    void put_in_place() {
        if (!building_.valid() || !detail::is_ready(building_)) return;
        auto built = building_.get();
        switch (now_.owner.swap(built)) {
            case Swapped::done: break;
            case Swapped::stale: free_elsewhere(std::move(built)); break;
            case Swapped::behind: building_ = detail::on_second_thread(detail::replayed, std::move(built));
        }
    }

    // Hands the next unbalanced subtree out to be rebuilt, if none is out.
    void give_out() {
        if (building_.valid()) return;
        if (auto job = now_.owner.detach(1)) building_ = detail::on_second_thread([](Job job) { return job.build(); }, std::move(*job));
    }

    // Has another thread free what the value holds, which may take as long as many updates.
    template <class T>
    void free_elsewhere(T value) {
        freeing_.remove_if([](auto &one) { return detail::is_ready(one); });
        tried([&] { freeing_.push_back(detail::on_second_thread([](T) {}, std::move(value))); });
    }

    std::uint32_t voxel_, large_;
    EndlessOptions options_;
    Numbered<Map> now_;
    std::future<Built> building_;        // an unbalanced subtree of it
    std::future<Numbered<Map>> making_;  // the new Map, on the second thread
    std::optional<Numbered<Map>> next_;  // or in hand
    Kept kept_;                          // what is to be done on it
    std::list<std::future<void>> freeing_;
    std::uint64_t renewals_ = 0, calls_ = 0, next_try_ = 0;
    std::size_t round_ = 0;  // how many updates the last round did
    bool is_full_ = false;
};

}  // namespace corv

#endif
