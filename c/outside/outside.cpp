// A program of somebody else's, which has nothing of this repository but what is installed.
#include <corv/map.hpp>

#include <cstdio>

int main() {
    corv::Map map(500, 1500);
    corv::Point scan[] = {{1000, 0, 0, 7}, {3000, 0, 0, 8}, {1010, 0, 0, 9}};
    map.thin({scan, 3});
    auto hits = map.nearest({0, 0, 0}, 5, 2000);
    std::printf("%zu %u %.0f\n", hits.size(), hits.at(0).number, corv::distance(hits.at(0)));
}
