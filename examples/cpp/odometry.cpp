// What odometry does with the map, scan by scan. The points nearest to a scan's are found on four threads, from which odometry would work
// out where the robot is, and then the scan is put into the map. Where many are searched for between two updates, a frozen index of the
// map is searched. Meanwhile another thread rebuilds what has become unbalanced.
//
//     odometry < LOG > TRANSCRIPT
//
// A line `nears` of the log is a scan whose nearest points are wanted, and a line `thin` or `add` one that is put into the map. What is
// printed is what `mapper run --serial` prints of the same log. Standard error says how long the map took, and how many rebuilt subtrees
// were swapped in.
#include "log.hpp"
#include <corv/threads.hpp>

#include <chrono>
#include <cstdio>
#include <future>
#include <iostream>
#include <optional>

using Clock = std::chrono::steady_clock;

// What is rebuilt while scans come, one subtree at a time. It changes how fast the map answers, and never what.
class Rebuild {
public:
    explicit Rebuild(corv::Map &map) : map_(map) {}

    // Before a scan and after it: what was built is put in its place, or else the next subtree is given out. Before a scan the queries
    // have left time to build, or to bring up to date, and nothing was done meanwhile. After a scan each swap would lack that scan.
    void step() {
        if (!built_.valid()) {
            if (auto job = map_.detach(1))
                built_ = std::async(std::launch::async, [job = std::move(*job)]() mutable { return job.build(); });
        } else if (built_.wait_for(std::chrono::seconds(0)) == std::future_status::ready) {
            put_in_place(built_.get());
        }
    }

    int swapped() const { return swapped_; }

private:
    void put_in_place(corv::Built built) {
        switch (map_.swap(built)) {
            case corv::Swapped::done: ++swapped_; break;
            case corv::Swapped::stale: break;
            case corv::Swapped::behind:  // Many points came meanwhile: they are put on the other thread too.
                built_ = std::async(std::launch::async, [built = std::move(built)]() mutable {
                    built.replay();
                    return std::move(built);
                });
        }
    }

    corv::Map &map_;
    std::future<corv::Built> built_;
    int swapped_ = 0;
};

// Queries between two updates. Freezing the map costs about what is saved by then searching an index for one place for each two to four
// points: so an index is made once one place for each four points was searched for, as while a scan's pose is found.
class Questions {
public:
    explicit Questions(corv::Map &map) : map_(map) {}

    void nearest(const Command &command, corv::Hits &hits) {
        asked_ += command.places.size();
        if (!frozen_ && asked_ > map_.totals().live / 4) {
            frozen_ = map_.freeze();
            ++made_;
        }
        if (frozen_) return corv::nearest_each(*frozen_, command.places, command.k, command.within, hits, threads);
        auto view = map_.view();
        corv::nearest_each(view, command.places, command.k, command.within, hits, threads);
    }

    // The map is about to change.
    void forget() {
        frozen_.reset();
        asked_ = 0;
    }

    int made() const { return made_; }

private:
    static constexpr unsigned threads = 4;
    corv::Map &map_;
    std::optional<corv::Frozen> frozen_;
    std::size_t asked_ = 0;
    int made_ = 0;
};

// Has the map do a command: what it finds is left in `hits`.
void turn(corv::Map &map, Rebuild &rebuild, Questions &questions, const Command &command, corv::Hits &hits) {
    if (command.word == "add" || command.word == "thin") {
        questions.forget();
        rebuild.step();
        command.word == "add" ? map.add(command.points) : map.thin(command.points);
        rebuild.step();
    } else if (command.word != "sync") {
        questions.nearest(command, hits);
    }
}

int main() try {
    std::ios::sync_with_stdio(false);
    LogReader log(std::cin);
    corv::Map map(log.voxel, log.large);
    Rebuild rebuild(map);
    Questions questions(map);
    Command command;
    corv::Hits hits;
    Clock::duration spent{};
    while (log.next(command)) {
        auto start = Clock::now();
        turn(map, rebuild, questions, command, hits);
        spent += Clock::now() - start;
        auto totals = map.totals();
        std::cout << (command.word == "sync" ? Reply("sync").totals(totals).line() : reply(command, totals.updates, hits));
    }
    std::cout << Reply("end").totals(map.totals()).line() << std::flush;
    auto micros = std::chrono::duration_cast<std::chrono::microseconds>(spent).count();
    std::fprintf(stderr, "odometry: the map took %lld us; frozen: %d; subtrees swapped in: %d\n", static_cast<long long>(micros),
                 questions.made(), rebuild.swapped());
} catch (const std::exception &fault) {
    std::fprintf(stderr, "odometry: %s\n", fault.what());
    return 1;
}
