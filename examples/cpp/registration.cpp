// Odometry from nothing but scans, which is what the map is for. A lidar goes once round a made town. Each scan is put where it fits the
// map best, point to plane: for each of its points the map's 5 nearest are found, through which a plane goes, and the pose is moved
// until the points lie on their planes. As this is done several times for each scan, a frozen index of the map is searched. Then the
// scan is thinned into the map. At the end the way is compared with the true one. How many threads search changes the time, and no digit
// of the way.
//
//     registration [scans N] [noise MM] [threads N] [seed N] [finer N] [way FILE]
//
// `noise` is the lidar's, one standard deviation. With `finer 100` the map counts in hundredths of a millimetre, to see what whole ones
// cost. `way` writes each scan's true place, the one found and how far they are apart, and then the map's live points, in millimetres,
// for examples/cpp/draw_way.
#include <corv/metres.hpp>
#include <corv/threads.hpp>

#include <array>
#include <chrono>
#include <cmath>
#include <cstdio>
#include <fstream>
#include <limits>
#include <map>
#include <random>
#include <stdexcept>
#include <string>

struct Vec {
    double x = 0, y = 0, z = 0;

    Vec operator+(const Vec &v) const { return {x + v.x, y + v.y, z + v.z}; }
    Vec operator-(const Vec &v) const { return {x - v.x, y - v.y, z - v.z}; }
    Vec operator*(double s) const { return {x * s, y * s, z * s}; }
    double dot(const Vec &v) const { return x * v.x + y * v.y + z * v.z; }
    Vec cross(const Vec &v) const { return {y * v.z - z * v.y, z * v.x - x * v.z, x * v.y - y * v.x}; }
    double length() const { return std::sqrt(dot(*this)); }
};

// A rotation by its columns, and where the origin comes to.
struct Pose {
    Vec x{1, 0, 0}, y{0, 1, 0}, z{0, 0, 1}, at;

    Vec turned(const Vec &v) const { return x * v.x + y * v.y + z * v.z; }
    Vec operator()(const Vec &v) const { return turned(v) + at; }
    Pose operator*(const Pose &p) const { return {turned(p.x), turned(p.y), turned(p.z), (*this)(p.at)}; }
    Pose inverse() const {
        Pose p{{x.x, y.x, z.x}, {x.y, y.y, z.y}, {x.z, y.z, z.z}, {}};
        return {p.x, p.y, p.z, p.turned(at) * -1};
    }
    // The same with columns at right angles and of length 1, as far as they came off it. Otherwise that doubles from scan to scan.
    Pose squared() const {
        Vec a = x * (1 / x.length()), b = y - a * a.dot(y);
        b = b * (1 / b.length());
        return {a, b, a.cross(b), at};
    }
};

// The rotation about an axis by its length.
Pose turn(const Vec &axis) {
    double angle = axis.length();
    if (angle < 1e-12) return {};
    Vec unit = axis * (1 / angle);
    double c = std::cos(angle), s = std::sin(angle);
    auto turned = [&](const Vec &v) { return v * c + unit.cross(v) * s + unit * (unit.dot(v) * (1 - c)); };
    return {turned({1, 0, 0}), turned({0, 1, 0}), turned({0, 0, 1}), {}};
}

// A town: the ground, and houses and poles along a road that is an ellipse.
class Town {
public:
    Town() {
        std::mt19937 draw(7);
        auto between = [&](double lo, double hi) { return lo + (hi - lo) * (draw() / 4294967296.0); };
        for (double s = 0; s < 6.28; s += between(0.18, 0.28))
            for (double side : {-1.0, 1.0}) {
                auto pose = on_road(s);
                Vec house = pose({0, side * between(11, 16), 0}), pole = pose({between(-2, 2), side * between(5, 6), 0});
                put(house, between(2, 4), between(2, 4), between(4, 10));
                put(pole, 0.15, 0.15, between(3, 6));
            }
    }

    // Where the lidar is at an angle of the ellipse.
    static Pose on_road(double s) {
        double yaw = std::atan2(30 * std::sin(s), 50 * std::cos(s));
        Pose pose = turn({0, 0, yaw}) * turn({0.01 * std::sin(17 * s), 0.012 * std::sin(23 * s), 0});
        pose.at = {50 * std::sin(s), 30 * (1 - std::cos(s)), 1.8 + 0.03 * std::sin(31 * s)};
        return pose;
    }

    // The same at a scan. It sets out slowly, as nobody knows yet how fast it goes, and is round at the 240th.
    static Pose at_scan(int k) { return on_road(2 * M_PI * (k < 40 ? k * k / 80.0 : k - 20) / 220); }

    // A scan in metres, as the lidar has it: 24 rings of 480 beams. A beam that comes back from nothing is not a number.
    std::vector<std::array<float, 3>> scan(const Pose &pose, double noise, std::mt19937 &draw) const {
        std::vector<std::array<float, 3>> points;
        for (int ring = 0; ring < 24; ++ring)
            for (int beam = 0; beam < 480; ++beam) {
                double up = (-22 + 35.0 * ring / 23) * M_PI / 180, round = beam * M_PI / 240;
                Vec ray{std::cos(up) * std::cos(round), std::cos(up) * std::sin(round), std::sin(up)};
                double far = reach(pose.at, pose.turned(ray)), off = -6;
                for (int i = 0; i < 12; ++i) off += draw() / 4294967296.0;
                Vec hit = ray * (far < 70 ? far + noise * off : std::numeric_limits<double>::quiet_NaN());
                points.push_back({float(hit.x), float(hit.y), float(hit.z)});
            }
        return points;
    }

private:
    struct Block { Vec lo, hi; };

    void put(const Vec &at, double x, double y, double height) {
        blocks_.push_back({{at.x - x, at.y - y, 0}, {at.x + x, at.y + y, height}});
    }

    // How far a ray goes.
    double reach(const Vec &from, const Vec &ray) const {
        double far = ray.z < 0 ? -from.z / ray.z : 1e9;
        for (auto &[lo, hi] : blocks_) {
            double in = 0.5, out = far;
            for (auto axis : {&Vec::x, &Vec::y, &Vec::z}) {
                double a = (lo.*axis - from.*axis) / ray.*axis, b = (hi.*axis - from.*axis) / ray.*axis;
                in = std::max(in, std::min(a, b)), out = std::min(out, std::max(a, b));
            }
            if (in < out) far = in;
        }
        return far;
    }

    std::vector<Block> blocks_;
};

// How many of the map's units are a metre.
double a_metre = 1000;

Vec metres(const corv::Point &point) { return {double(point.x) / a_metre, double(point.y) / a_metre, double(point.z) / a_metre}; }

// The plane through points: a place on it, and its normal, which is 0 where they lie on no plane.
std::pair<Vec, Vec> plane(corv::Range<corv::Hit> hits) {
    Vec middle;
    for (auto &hit : hits) middle = middle + metres(hit.point) * (1.0 / double(hits.size()));
    double xx = 0, yy = 0, zz = 0, xy = 0, xz = 0, yz = 0;
    for (auto &hit : hits) {
        Vec v = metres(hit.point) - middle;
        xx += v.x * v.x, yy += v.y * v.y, zz += v.z * v.z, xy += v.x * v.y, xz += v.x * v.z, yz += v.y * v.z;
    }
    // The eigenvalues of the symmetric matrix of these, and the vector of the least one.
    double mean = (xx + yy + zz) / 3, a = xx - mean, b = yy - mean, c = zz - mean;
    double spread = std::sqrt((a * a + b * b + c * c + 2 * (xy * xy + xz * xz + yz * yz)) / 6);
    if (spread < 1e-9) return {middle, {}};
    double det = (a * (b * c - yz * yz) - xy * (xy * c - yz * xz) + xz * (xy * yz - b * xz)) / (spread * spread * spread);
    double angle = std::acos(std::clamp(det / 2, -1.0, 1.0)) / 3;
    double most = mean + 2 * spread * std::cos(angle), least = mean + 2 * spread * std::cos(angle + 2 * M_PI / 3);
    double other = 3 * mean - most - least;
    if (least > 0.1 * other || least > 0.02) return {middle, {}};
    Vec rows[] = {{xx - least, xy, xz}, {xy, yy - least, yz}, {xz, yz, zz - least}}, normal;
    for (int row = 0; row < 3; ++row)
        if (Vec v = rows[row].cross(rows[(row + 1) % 3]); v.length() > normal.length()) normal = v;
    return {middle, normal * (1 / normal.length())};
}

// The sums of least squares in six unknowns, the move and the turn, and what solves them.
class Squares {
public:
    void add(const Vec &move, const Vec &turn, double off, double weight) {
        const double row[] = {move.x, move.y, move.z, turn.x, turn.y, turn.z, -off};
        for (int i = 0; i < 6; ++i)
            for (int j = 0; j < 7; ++j) sums_[i][j] += weight * row[i] * row[j];
    }

    std::pair<Vec, Vec> solved() {
        for (int i = 0; i < 6; ++i) sums_[i][i] += 1e-9;
        for (int i = 0; i < 6; ++i)
            for (int k = 0; k < 6; ++k)
                if (double factor = sums_[k][i] / sums_[i][i]; k != i)
                    for (int j = i; j < 7; ++j) sums_[k][j] -= factor * sums_[i][j];
        auto at = [&](int i) { return sums_[i][6] / sums_[i][i]; };
        return {{at(0), at(1), at(2)}, {at(3), at(4), at(5)}};
    }

private:
    double sums_[6][7] = {};
};

// A scan as it lies in the map at a pose: every `step`th point of it.
void put(corv::Scan &scan, const std::vector<std::array<float, 3>> &points, const Pose &pose, std::size_t step) {
    scan.clear();
    for (std::size_t i = 0; i < points.size(); i += step) {
        Vec v = pose({points[i][0], points[i][1], points[i][2]}) * (a_metre / 1000);
        scan.put(v.x, v.y, v.z);
    }
}

// The pose at which the points lie best on the map, from a guess.
Pose fitted(corv::Frozen &map, const std::vector<std::array<float, 3>> &points, Pose pose, unsigned threads, std::size_t &asked) {
    static corv::Scan scan;
    static corv::Hits hits;
    for (int round = 0; round < 12; ++round) {
        put(scan, points, pose, 5);
        corv::nearest_each(map, scan.places, 5, std::uint64_t(1.5 * a_metre), hits, threads);
        asked += scan.places.size();
        Squares squares;
        auto point = scan.points.begin();
        for (auto near : hits) {
            Vec v = metres(*point++);
            if (near.size() < 5) continue;
            auto [middle, normal] = plane(near);
            double off = normal.dot(v - middle), weight = 1 / (1 + off * off / (round < 2 ? 0.04 : 0.0025));
            if (std::abs(off) < 0.5) squares.add(normal, (v - pose.at).cross(normal), off, weight);
        }
        auto [move, axis] = squares.solved();
        Vec at = pose.at + move;
        pose = turn(axis) * pose, pose.at = at;
        if (round > 2 && move.length() < 2e-4 && axis.length() < 2e-5) break;
    }
    return pose.squared();
}

// The words of the command line, over what is taken where they aren't given.
std::map<std::string, std::string> words_of(int argc, char **argv) {
    std::map<std::string, std::string> words{{"scans", "240"}, {"noise", "10"}, {"threads", "2"}, {"seed", "1"}, {"finer", "1"}, {"way", ""}};
    for (int i = 1; i < argc; i += 2) {
        if (i + 1 == argc || words.count(argv[i]) == 0) throw std::invalid_argument("[scans N] [noise MM] [threads N] [seed N] [finer N] [way FILE]");
        words[argv[i]] = argv[i + 1];
    }
    return words;
}

int main(int argc, char **argv) try {
    auto words = words_of(argc, argv);
    int scans = std::stoi(words["scans"]);
    double noise = std::stod(words["noise"]) / 1000;
    unsigned threads = unsigned(std::stoul(words["threads"]));
    a_metre = 1000 * std::stod(words["finer"]);
    std::ofstream way_file(words["way"]);
    auto check_way = [&] {
        if (!words["way"].empty() && !way_file.flush()) throw std::runtime_error("can't write " + words["way"]);
    };
    check_way();
    Town town;
    std::mt19937 draw(unsigned(std::stoul(words["seed"])));
    // Voxels of 0.3 m. No update waits for the rebuilding of 1,500 nodes or more; as an index is searched, nothing needs them balanced.
    corv::Map map(std::uint32_t(0.3 * a_metre), 1500);
    corv::Scan scan;
    Pose before = Town::at_scan(0), now = before;
    double squares = 0, worst = 0, way = 0, millis = 0;
    std::size_t asked = 0, nothing = 0;
    std::printf("scan   true x      y      z   found x      y      z   off in mm\n");
    for (int k = 0; k < scans; ++k) {
        Pose truth = Town::at_scan(k);
        auto points = town.scan(truth, noise, draw);
        auto start = std::chrono::steady_clock::now();
        if (k > 0) {
            auto frozen = map.freeze();
            auto guess = now * (before.inverse() * now);  // it goes on as it went
            way += (truth.at - Town::at_scan(k - 1).at).length();
            before = std::exchange(now, fitted(frozen, points, guess, threads, asked));
        }
        put(scan, points, now, 1);
        map.thin(scan.points);
        nothing += scan.not_finite;
        millis += std::chrono::duration<double, std::milli>(std::chrono::steady_clock::now() - start).count();
        double off = 1000 * (now.at - truth.at).length();
        squares += off * off, worst = std::max(worst, off);
        way_file << "scan " << 1000 * truth.at.x << ' ' << 1000 * truth.at.y << ' ' << 1000 * now.at.x << ' ' << 1000 * now.at.y << ' ' << off << '\n';
        if (k % 20 == 0 || k == scans - 1)
            std::printf("%4d  %7.3f %6.3f %6.3f  %8.3f %6.3f %6.3f  %8.1f\n", k, truth.at.x, truth.at.y, truth.at.z, now.at.x, now.at.y, now.at.z, off);
    }
    std::printf("over %.0f m: %.1f mm off in the mean square, %.1f at most; the map holds %u points of %u\n", way, std::sqrt(squares / scans), worst,
                map.totals().live, map.totals().points);
    for (auto &item : map.items()) {
        Vec v = metres(item.point) * 1000;
        way_file << "point " << std::rint(v.x) << ' ' << std::rint(v.y) << ' ' << std::rint(v.z) << '\n';
    }
    check_way();
    std::fprintf(stderr, "registration: %.1f ms a scan; %zu places asked; %zu beams came back from nothing\n", millis / scans, asked, nothing);
} catch (const std::exception &fault) {
    std::fprintf(stderr, "registration: %s\n", fault.what());
    return 1;
}
