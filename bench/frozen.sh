#!/usr/bin/env bash
# What a frozen index costs and saves, beside the map's own tree, and beside nanoflann's tree where nanoflann.hpp is installed.
#
#   bench/frozen.sh [LIBRARY]
#
# Prints, at 10,000 to 1,000,000 points, what it takes to build a point and to ask for the 5 nearest of a place, and how long a turn of
# odometry takes that asks for each scan four times and then thins it (bench/frozen.cpp tells of the scene). All is done on one thread, and
# all sums have to be equal. SIZES='33000' takes other numbers of points. Needs a C++ compiler, `rt` on the path for the kit's heap,
# and the library, which `rt lib` makes in crates/map_c; writes only to a folder that it removes.
set -euo pipefail

here=$(dirname "$0")
library=$(realpath "${1:-$here/../crates/map_c/out/libmap_c.a}")
heap=$(dirname "$(rt doc)")/c/liblibc_c.a
folder=$(mktemp -d)
trap 'rm -rf "$folder"' EXIT
# shellcheck disable=SC2086
${CXX:-c++} -std=c++17 ${CXXFLAGS:--O3} -I"$here/../c" "$here/frozen.cpp" "$library" "$heap" -o "$folder/frozen"
# shellcheck disable=SC2086
"$folder/frozen" ${SIZES:-}
