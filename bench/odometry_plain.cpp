// The turn of examples/cpp/odometry.cpp on the plain tree of plain_tree.hpp: of the same logs, without `sync`, the same transcripts.
#include "log.hpp"
#include "plain_tree.hpp"

#include <chrono>
#include <cstdio>
#include <iostream>

using Clock = std::chrono::steady_clock;

class PlainMap {
public:
    explicit PlainMap(std::int64_t voxel) : voxel_(voxel) {}

    void add(const corv::Point &point) { put(tree_, next(point), 0); }

    // Of the point and the live ones in its voxel the one nearest to the centre stays.
    void thin(const corv::Point &point) {
        auto item = next(point);
        auto cube = voxel(item.at);
        Items rivals;
        find(tree_, cube, rivals);
        rivals.push_back(item);
        auto rank = [&](const Item &rival) { return std::make_tuple(to_centre(cube, rival.at), rival.at, rival.number); };
        auto best = *std::min_element(rivals.begin(), rivals.end(), [&](auto &a, auto &b) { return rank(a) < rank(b); });
        // Where the one that was there stays alone, there is nothing to do.
        if (best.number != item.number && rivals.size() == 2) return;
        if (rivals.size() > 1) drop(tree_, cube);
        put(tree_, best, 0);
    }

    void nearest(const corv::Place &place, std::size_t k, std::optional<std::uint64_t> within, corv::Hits &hits) const {
        Search search{{place.x, place.y, place.z}, k, within ? corv::Wide{*within} * *within : ~corv::Wide{0}, {}};
        search.found.reserve(k);
        search.visit(tree_);
        for (auto &[dist2, item] : search.found) {
            auto &[x, y, z] = item.at;
            auto high = static_cast<std::uint64_t>(dist2 >> 64), low = static_cast<std::uint64_t>(dist2);
            hits.all.push_back({{x, y, z, item.intensity}, high, low, item.number});
        }
        hits.counts.push_back(static_cast<std::uint32_t>(search.found.size()));
    }

    std::uint32_t live() const { return tree_ ? tree_->live : 0; }

private:
    Item next(const corv::Point &point) { return {{point.x, point.y, point.z}, point.intensity, next_++}; }

    Cube voxel(const At &at) const {
        Cube cube;
        for (int i = 0; i < 3; i++) {
            auto rest = at[i] % voxel_;
            cube.lo[i] = at[i] - (rest < 0 ? rest + voxel_ : rest);
            cube.hi[i] = cube.lo[i] + voxel_;
        }
        return cube;
    }

    static corv::Wide to_centre(const Cube &cube, const At &at) {
        corv::Wide sum = 0;
        for (int i = 0; i < 3; i++) sum += square(2 * at[i] - cube.lo[i] - cube.hi[i]);
        return sum;
    }

    std::int64_t voxel_;
    std::uint32_t next_ = 0;
    Tree tree_;
};

void turn(PlainMap &map, const Command &command, corv::Hits &hits) {
    hits.all.clear();
    hits.counts.clear();
    for (auto &point : command.points) command.word == "add" ? map.add(point) : map.thin(point);
    for (auto &place : command.places) map.nearest(place, command.k, command.within, hits);
}

int main() try {
    std::ios::sync_with_stdio(false);
    LogReader log(std::cin);
    PlainMap map(log.voxel);
    Command command;
    corv::Hits hits;
    std::uint64_t updates = 0;
    Clock::duration spent{};
    while (log.next(command)) {
        auto start = Clock::now();
        turn(map, command, hits);
        spent += Clock::now() - start;
        updates += command.places.empty();
        std::cout << reply(command, updates, hits);
    }
    std::cout << Reply("end").totals({updates, 0, map.live(), 0}).line() << std::flush;
    auto micros = std::chrono::duration_cast<std::chrono::microseconds>(spent).count();
    std::fprintf(stderr, "plain: the map took %lld us\n", static_cast<long long>(micros));
} catch (const std::exception &fault) {
    std::fprintf(stderr, "plain: %s\n", fault.what());
    return 1;
}
