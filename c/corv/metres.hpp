// Points in metres, as drivers and other libraries have them, for the map, which has whole millimetres. C++17, header only.
//
// A coordinate becomes the nearest millimetre, and of two the even one, as the tools of the repository do it. What isn't finite, or is
// farther out than a map can have it, is left out and counted: a lidar marks a beam that came back from nothing so.
#ifndef CORV_METRES_HPP
#define CORV_METRES_HPP
#include "map.hpp"

#include <algorithm>
#include <array>
#include <cmath>
#include <cstddef>
#include <cstdint>
#include <type_traits>
#include <utility>
#include <vector>

namespace corv {

/// The farthest that a number of a place may be from 0, in millimetres.
inline constexpr std::int64_t farthest = std::int64_t{1} << 40;

/// A scan in millimetres, to be filled again and again: its vectors keep their memory.
class Scan {
public:
    std::vector<Point> points;
    std::vector<Place> places;        // the same, to be asked for
    std::vector<std::uint32_t> from;  // which of the given points each one was
    std::size_t not_finite = 0;       // points that were left out, since a coordinate is not finite
    std::size_t out_of_range = 0;     // points that were left out, since a coordinate is out of range
    std::size_t cut = 0;              // intensities that were cut to 0 to 65,535, or no number and so 0

    void clear() {
        points.clear(), places.clear(), from.clear();
        not_finite = out_of_range = cut = 0;
        given_ = 0;
    }

    /// Takes the next point in.
    void put(double x, double y, double z, double intensity = 0) {
        auto index = given_++;
        const double at[] = {std::rint(x * 1000), std::rint(y * 1000), std::rint(z * 1000)};
        if (!std::isfinite(at[0]) || !std::isfinite(at[1]) || !std::isfinite(at[2])) {
            ++not_finite;
        } else if (is_far(at[0]) || is_far(at[1]) || is_far(at[2])) {
            ++out_of_range;
        } else {
            places.push_back({static_cast<std::int64_t>(at[0]), static_cast<std::int64_t>(at[1]), static_cast<std::int64_t>(at[2])});
            points.push_back({places.back().x, places.back().y, places.back().z, bright(intensity)});
            from.push_back(index);
        }
    }

private:
    static bool is_far(double at) { return std::abs(at) > static_cast<double>(farthest); }

    std::uint16_t bright(double intensity) {
        auto fits = intensity > 0 ? std::min(intensity, 65535.0) : 0;  // (what is no number is not above 0)
        if (fits != intensity) ++cut;
        return static_cast<std::uint16_t>(std::rint(fits));
    }

    std::uint32_t given_ = 0;
};

/// Takes `count` points in, which begin `stride` numbers apart: x, y, z, and where `intensity` isn't 0, the intensity, that many numbers
/// after x, times `scale`. KITTI's scans are put_all(scan, numbers, count, 4, 3, 65535).
template <class Real>
void put_all(Scan &scan, const Real *numbers, std::size_t count, std::size_t stride = 3, std::size_t intensity = 0, double scale = 1) {
    for (; count != 0; --count, numbers += stride) scan.put(numbers[0], numbers[1], numbers[2], intensity ? numbers[intensity] * scale : 0);
}

namespace detail {
template <class T, class = void>
struct HasIntensity : std::false_type {};
template <class T>
struct HasIntensity<T, std::void_t<decltype(std::declval<const T &>().intensity)>> : std::true_type {};
}  // namespace detail

/// Takes in a range of values with x, y, z, and an intensity where they have one, such as a pcl::PointCloud<pcl::PointXYZI>.
template <class Cloud>
void put_cloud(Scan &scan, const Cloud &cloud, double scale = 1) {
    for (const auto &point : cloud) {
        if constexpr (detail::HasIntensity<std::decay_t<decltype(point)>>::value) {
            scan.put(point.x, point.y, point.z, point.intensity * scale);
        } else {
            scan.put(point.x, point.y, point.z);
        }
    }
}

/// Takes in the columns of a matrix of 3 rows, or of 4 with intensities, such as an Eigen::Matrix3Xf, or a view of one.
template <class Matrix>
void put_columns(Scan &scan, const Matrix &matrix, double scale = 1) {
    for (decltype(matrix.cols()) at = 0; at < matrix.cols(); ++at)
        scan.put(matrix(0, at), matrix(1, at), matrix(2, at), matrix.rows() > 3 ? matrix(3, at) * scale : 0);
}

/// A point or place in metres: auto [x, y, z] = corv::metres(hit.point).
template <class Real = double, class At>
std::array<Real, 3> metres(const At &at) {
    auto one = [](std::int64_t number) { return static_cast<Real>(static_cast<double>(number) / 1000); };
    return {one(at.x), one(at.y), one(at.z)};
}

}  // namespace corv

#endif
