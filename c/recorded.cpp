// What c/corv/recorder.hpp adds: a drive is recorded scan by scan, and questions are put behind it.
//
//     recorded LOG >ANSWERS
//
// The answers are the map's own, as the lines of the log's transcript have them, without how many updates there were. Prints what
// isn't so to standard error, and ends with status 1 where there is something.
#include <corv/recorder.hpp>

#include <cstdio>
#include <fstream>
#include <iostream>
#include <sstream>
#include <string>

static int faults = 0;

static void holds(int line, const char *fact, bool is_so) {
    if (is_so) return;
    std::fprintf(stderr, "line %d: not so: %s\n", line, fact);
    faults++;
}
#define HOLDS(fact) holds(__LINE__, #fact, (fact))

static constexpr std::int64_t farthest = 1099511627776;

// Numbers that look like any, and are the same in each run.
static std::int64_t drawn(std::int64_t below) {
    static std::uint64_t state = 1;
    state = state * 6364136223846793005u + 1442695040888963407u;
    return static_cast<std::int64_t>((state >> 33) % static_cast<std::uint64_t>(below));
}

static std::vector<corv::Point> scan(int at, std::size_t count) {
    std::vector<corv::Point> points(count);
    for (auto &point : points)
        point = {1000 * at + drawn(9000) - 4500, drawn(9000) - 4500, drawn(3000), static_cast<std::uint16_t>(drawn(65536))};
    return points;
}

static corv::Box cube(std::int64_t x, std::int64_t half) { return {{x - half, -half, -half}, {x + half, half, half}}; }

// A drive in which each kind of update is there, and each that has no line, several, or another number than it was given.
static void drive(corv::Map &map, corv::Recorder &recorder) {
    recorder.record(map);
    map.add(std::vector<corv::Point>());
    recorder.record(map);
    map.add(scan(0, 50));
    map.expire(UINT32_MAX);
    map.add(scan(0, 3 * 262144 / 2));
    map.add(std::vector<corv::Point>{{farthest, -farthest, farthest, 65535}});
    map.suspend(std::vector<corv::Box>{{{-farthest, -farthest, -farthest}, {farthest + 1, farthest + 1, farthest + 1}}});
    for (int at = 0; at < 60; at++) {
        map.thin(scan(at, 300));
        if (at % 7 == 3) map.suspend(std::vector<corv::Box>{cube(1000 * at, 800), cube(1000 * at - 4000, 500)});
        if (at % 11 == 5) map.restore(std::vector<corv::Box>{cube(1000 * at - 2000, 1500)});
        if (at % 13 == 8) map.remove(std::vector<corv::Box>{cube(1000 * (at - 20), 6000)});
        if (at % 17 == 9) map.expire(static_cast<std::uint32_t>(200 * at));
        recorder.record(map);
    }
    auto boxes = std::vector<corv::Box>(262145, cube(-90000, 1));
    boxes.back() = cube(20000, 900);
    map.remove(boxes);
    recorder.record(map);
    recorder.record(map);
}

static void put(std::ostream &line, const corv::Point &point, std::uint32_t number) {
    line << " | " << number << ' ' << point.x << ' ' << point.y << ' ' << point.z << ' ' << point.intensity;
}

// Asks the map and, by a line, the log.
static void ask(corv::Map &map, std::ostream &log, std::int64_t x) {
    log << "@1 near 5 " << x << " 10 20\n@1 box 40 " << x - 700 << " -700 -700 " << x + 700 << " 700 700\n";
    std::cout << "near";
    for (auto &hit : map.nearest({x, 10, 20}, 5)) {
        put(std::cout, hit.point, hit.number);
        std::cout << ' ' << hit.dist2_low;
    }
    auto box = cube(x, 700);
    std::cout << "\nbox " << map.count(box);
    for (auto &item : map.inside(box, 40)) put(std::cout, item.point, item.number);
    std::cout << '\n';
}

static void a_stream_that_fails() {
    corv::Map map(200, 1500);
    std::ostringstream sound, torn;
    corv::Recorder recorder(torn);
    torn.setstate(std::ios::badbit);
    map.add(scan(0, 3));
    for (int turn = 0; turn < 2; turn++) {
        bool thrown = false;
        try { recorder.record(map); } catch (const std::ios_base::failure &) { thrown = true; }
        HOLDS(thrown && recorder.recorded() == 0);
        torn.clear();
    }
    recorder.begin(sound);
    recorder.record(map);
    HOLDS(recorder.recorded() == 1 && sound.str().rfind("ikdmap 2 voxel 200 large 1500\n@1 add ", 0) == 0);
}

static void a_log_that_is_full() {
    corv::Map map(200, 1500);
    std::ostringstream out, another;
    corv::Recorder recorder(out);
    for (int at = 0; at < 65537; at++) map.expire(0);
    std::int32_t status = CORV_DONE;
    try { recorder.record(map); } catch (const corv::Refused &refused) { status = refused.status(); }
    HOLDS(status == CORV_TOO_MANY_UPDATES && recorder.recorded() == 65536);
    corv::Map other(200, 1500);
    try { recorder.record(other); } catch (const corv::Refused &refused) { status = refused.status(); }
    HOLDS(status == CORV_BAD_NUMBER && recorder.recorded() == 65536);
    map.add(scan(0, 100));
    auto view = map.view();
    corv::Map next(view, 200, 1500);
    recorder.begin(another);
    recorder.record(next);
    HOLDS(recorder.recorded() == next.totals().updates && next.totals().updates <= 3);
}

int main(int count, char **words) {
    if (count != 2) return 2;
    std::ofstream log(words[1], std::ios::binary);
    corv::Map map(200, 16);
    corv::Recorder recorder(log);
    drive(map, recorder);
    auto totals = map.totals();
    HOLDS(recorder.recorded() == totals.updates && totals.live > 0 && totals.suspended > 0);
    for (std::int64_t x = -5000; x < 65000; x += 1000) ask(map, log, x);
    std::cout << "end live " << totals.live << " suspended " << totals.suspended << '\n';
    HOLDS(log.flush().good() && std::cout.flush().good());
    a_stream_that_fails();
    a_log_that_is_full();
    return faults != 0;
}
