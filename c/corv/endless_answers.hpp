// What is asked of a map that goes on, for C++17: the answers of a Map or a View under numbers of 64 bits. It comes with endless.hpp.
#ifndef CORV_ENDLESS_ANSWERS_HPP
#define CORV_ENDLESS_ANSWERS_HPP
#include "map.hpp"

#include <algorithm>
#include <cstddef>
#include <cstdint>
#include <memory>
#include <optional>
#include <utility>
#include <vector>

namespace corv {

/// A live point that was found, under its number of 64 bits. Its squared distance is dist2_high * 2^64 + dist2_low.
struct EndlessHit {
    Point point;
    std::uint64_t dist2_high, dist2_low, number;
};

/// A point of the map, under its number of 64 bits.
struct EndlessItem {
    Point point;
    std::uint64_t number;
    bool suspended;
};

using EndlessHits = HitsOf<EndlessHit>;

/// How many updates were made, and how many points they submitted, from the beginning on, and how many of those are live and suspended.
struct EndlessTotals {
    std::uint64_t updates, points;
    std::uint32_t live, suspended;
};

/// The distance of a hit in millimetres, as near as a double comes to it.
inline double distance(const EndlessHit &hit) { return distance(Hit{hit.point, hit.dist2_high, hit.dist2_low, 0}); }

#ifdef __SIZEOF_INT128__
/// The squared distance of a hit, exactly.
inline Wide squared_distance(const EndlessHit &hit) { return squared_distance(Hit{hit.point, hit.dist2_high, hit.dist2_low, 0}); }
#endif

namespace detail {

/// What the numbers of one Map are from the beginning on. They rise where those rise.
class Numbers {
public:
    Numbers() = default;

    /// Of a Map that has `renewed` under its first numbers, and had so many updates; from the beginning on there were those of the totals.
    Numbers(std::vector<std::uint64_t> renewed, std::uint64_t updates, const EndlessTotals &before)
        : renewed_(std::make_shared<const std::vector<std::uint64_t>>(std::move(renewed))),
          next_(before.points),
          updates_(before.updates - updates) {}

    std::uint64_t number(std::uint32_t of_map) const {
        auto count = renewed_ ? renewed_->size() : 0;
        return of_map < count ? (*renewed_)[of_map] : next_ + (of_map - count);
    }

    /// How many of the first `points` numbers of the Map are lower than this one from the beginning on.
    std::uint32_t below(std::uint64_t number, std::uint32_t points) const {
        auto count = renewed_ ? renewed_->size() : 0;
        if (number > next_) return static_cast<std::uint32_t>(std::min<std::uint64_t>(points, number - next_ + count));
        if (!renewed_) return 0;
        auto first = std::lower_bound(renewed_->begin(), renewed_->end(), number);
        return static_cast<std::uint32_t>(first - renewed_->begin());
    }

    EndlessTotals totals(const Totals &of_map) const {
        auto count = renewed_ ? renewed_->size() : 0;
        return {of_map.updates + updates_, next_ + (of_map.points - count), of_map.live, of_map.suspended};
    }

private:
    // Shared with the views, which may outlive the Map.
    std::shared_ptr<const std::vector<std::uint64_t>> renewed_;
    std::uint64_t next_ = 0;     // the number of the first point that came after those
    std::uint64_t updates_ = 0;  // what the Map's count of updates lacks, modulo 2^64: a renewal may take more updates than it spares
};

/// A Map or a View, and what its numbers are from the beginning on.
template <class Owner>
struct Numbered {
    Owner owner;
    Numbers numbers;
};

/// What is asked of an EndlessMap and of an EndlessView, under the numbers that go on.
template <class Self>
class EndlessAsked {
public:
    /// The k nearest live points, from 1 to 256, or all where there are fewer; at most `within` millimetres away where that is given.
    std::vector<EndlessHit> nearest(const Place &place, std::uint32_t k, std::optional<std::uint64_t> within = {}) {
        std::vector<EndlessHit> hits;
        nearest(place, k, within, hits);
        return hits;
    }

    /// The same into a vector that is used again.
    void nearest(const Place &place, std::uint32_t k, std::optional<std::uint64_t> within, std::vector<EndlessHit> &hits) {
        hits.clear();
        self().asked().owner.nearest(place, k, within, one_);
        put(one_, hits);
    }

    /// The same for each of several places, in one call.
    void nearest_each(List<Place> places, std::uint32_t k, std::optional<std::uint64_t> within, EndlessHits &hits) {
        hits.all.clear();
        hits.counts.clear();
        self().asked().owner.nearest_each(places, k, within, each_);
        put(each_.all, hits.all);
        hits.counts.assign(each_.counts.begin(), each_.counts.end());
    }

    /// How many live points are in a box.
    std::uint32_t count(const Box &box) { return self().asked().owner.count(box); }

    /// The live points in a box by number, or the first `most` of them, from 1 to 256.
    std::vector<EndlessItem> inside(const Box &box, std::uint32_t most) {
        auto &[owner, numbers] = self().asked();
        std::vector<EndlessItem> items;
        auto found = owner.inside(box, most);
        items.reserve(found.size());
        for (auto &item : found) items.push_back({item.point, numbers.number(item.number), false});
        return items;
    }

    /// All points, live and suspended, under the numbers from this one on, by number.
    std::vector<EndlessItem> items(std::uint64_t from = 0) {
        auto &[owner, numbers] = self().asked();
        std::vector<EndlessItem> items;
        auto found = owner.items(numbers.below(from, owner.totals().points));
        items.reserve(found.size());
        for (auto &item : found) items.push_back({item.point, numbers.number(item.number), item.suspended != 0});
        return items;
    }

    /// How many updates were made, and how many points are there.
    EndlessTotals totals() {
        auto &[owner, numbers] = self().asked();
        return numbers.totals(owner.totals());
    }

private:
    Self &self() { return static_cast<Self &>(*this); }

    void put(const std::vector<Hit> &from, std::vector<EndlessHit> &to) {
        auto &numbers = self().asked().numbers;
        to.reserve(from.size());
        for (auto &hit : from) to.push_back({hit.point, hit.dist2_high, hit.dist2_low, numbers.number(hit.number)});
    }

    std::vector<Hit> one_;
    Hits each_;
};

}  // namespace detail

/// An EndlessMap as it was when the view was made, for a thread that asks while the map goes on. Its numbers are the EndlessMap's, also
/// when that was renewed since.
class EndlessView : public detail::EndlessAsked<EndlessView> {
public:
    /// Another view of the same, for another thread.
    EndlessView copy() { return EndlessView({view_.owner.copy(), view_.numbers}); }

private:
    friend class EndlessMap;
    friend class detail::EndlessAsked<EndlessView>;
    explicit EndlessView(detail::Numbered<View> view) : view_(std::move(view)) {}
    detail::Numbered<View> &asked() { return view_; }

    detail::Numbered<View> view_;
};

}  // namespace corv

#endif
