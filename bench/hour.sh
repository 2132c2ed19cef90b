#!/usr/bin/env bash
# An hour's drive on a map that goes on by itself (c/corv/endless.hpp), held against a plain map.
#
#   bench/hour.sh [LIBRARY]
#
# 36,000 scans of 1,150 points, 41 million in all, are thinned into it as fast as it can, and what is far behind is deleted. What is printed
# is how much memory there was at ten places of the drive, and how long the updates took: in the first map, before any renewal, and since.
# SCANS='3600', POINTS='1150' and RENEWED='300000' take other numbers. Needs a C++ compiler, `rt` on the path for the kit's heap, and the
# library, which tools/c_library makes in crates/map_c; writes only to a folder that it removes.
set -euo pipefail

here=$(dirname "$0")
library=$(realpath "${1:-$here/../crates/map_c/out/libmap_c.a}")
heap=$(dirname "$(rt doc)")/c/liblibc_c.a
folder=$(mktemp -d)
trap 'rm -rf "$folder"' EXIT
# shellcheck disable=SC2086
"${CXX:-c++}" -std=c++17 ${CXXFLAGS:--O2} -I"$here/../c" "$here/hour.cpp" "$library" "$heap" -pthread -o "$folder/hour"
time "$folder/hour" "${SCANS:-36000}" "${POINTS:-1150}" "${RENEWED:-3000000}"
