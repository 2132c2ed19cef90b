// The map and several threads, for C++17, header only: a batch of places on several threads, and the newest view, shared.
#ifndef CORV_THREADS_HPP
#define CORV_THREADS_HPP
#include "map.hpp"

#include <algorithm>
#include <atomic>
#include <cstddef>
#include <cstdint>
#include <exception>
#include <functional>
#include <mutex>
#include <optional>
#include <thread>
#include <utility>
#include <vector>

namespace corv {

/// What `nearest_each` of a View or a Frozen returns, worked out on `threads` threads, this one among them, each with a copy of its own.
/// Where places are refused it is the first one's refusal that is thrown, and there are no hits.
template <class Owner>
void nearest_each(Owner &owner, List<Place> places, std::uint32_t k, std::optional<std::uint64_t> within, Hits &hits,
                  unsigned threads) {
    constexpr std::size_t least = 64;  // places that are worth a thread
    std::size_t parts = std::min<std::size_t>(threads, (places.size() + least - 1) / least);
    if (parts < 2 || k == 0 || k > 256) return owner.nearest_each(places, k, within, hits);
    std::vector<Owner> copies;
    for (std::size_t part = 1; part < parts; ++part) copies.push_back(owner.copy());
    hits.all.resize(places.size() * k);
    hits.counts.resize(places.size());
    std::vector<std::size_t> found(parts);
    std::vector<std::exception_ptr> faults(parts);
    auto first = [&](std::size_t part) { return places.size() * part / parts; };
    auto ask = [&](Owner &asked, std::size_t part) noexcept {
        try {
            auto at = first(part), count = first(part + 1) - at;
            found[part] = asked.nearest_each({places.data() + at, count}, k, within, hits.all.data() + at * k, count * k,
                                             hits.counts.data() + at);
        } catch (...) {
            faults[part] = std::current_exception();
        }
    };
    std::vector<std::thread> others;
    std::exception_ptr fault;
    try {
        others.reserve(parts);
        for (std::size_t part = 1; part < parts; ++part) others.emplace_back(ask, std::ref(copies[part - 1]), part);
        ask(owner, 0);
    } catch (...) {  // there is no further thread
        fault = std::current_exception();
    }
    for (auto &other : others) other.join();
    for (auto &each : faults)
        if (!fault) fault = each;
    std::size_t end = 0;
    for (std::size_t part = 0; !fault && part < parts; ++part) {
        auto from = hits.all.begin() + first(part) * k;
        if (auto to = hits.all.begin() + end; to != from) std::copy(from, from + found[part], to);
        end += found[part];
    }
    hits.all.resize(end);
    if (!fault) return;
    hits.counts.clear();
    std::rethrow_exception(fault);
}

/// The newest view of a map: one thread updates the map and shows it, and any threads ask for it. None of them waits for an update, or
/// for a search: the lock is taken for as long as a view is moved or copied.
class Newest {
public:
    explicit Newest(Map &map) : view_(map.view()) {}

    /// Shows what the map holds now. In the thread that updates it.
    void show(Map &map) {
        auto view = map.view();
        {
            std::lock_guard lock(mutex_);
            std::swap(view_, view);
            version_.fetch_add(1, std::memory_order_release);
        }
        // What is let go of here is the view before, where no reader has it any more, and not under the lock.
    }

    /// A view of what was shown last, for a thread of its own.
    View view() {
        std::lock_guard lock(mutex_);
        return view_.copy();
    }

    /// How often was shown.
    std::uint64_t version() const noexcept { return version_.load(std::memory_order_acquire); }

private:
    std::mutex mutex_;
    View view_;
    std::atomic<std::uint64_t> version_{0};
};

/// A thread's own way to the newest view. It takes a new view only where one was shown.
class Reader {
public:
    explicit Reader(Newest &newest) : newest_(newest), version_(newest.version()), view_(newest.view()) {}

    /// What was shown last, or later than that.
    View &view() {
        if (auto version = newest_.version(); version != version_) {
            view_ = newest_.view();
            version_ = version;
        }
        return view_;
    }

private:
    Newest &newest_;
    std::uint64_t version_;
    View view_;
};

}  // namespace corv

#endif
