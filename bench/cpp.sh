#!/usr/bin/env bash
# How long odometry's turn takes through the C library, beside the same turn on a plain k-d tree in C++.
#
#   bench/cpp.sh [LIBRARY]
#
# A turn asks for the 5 nearest points of each of a scan's 2,000 points, and then thins the scan. Both programs get the same log and have
# to print the same transcript. The times are those that the map takes, without reading and printing, the least of three runs or of RUNS;
# SCANS='20' takes other numbers of scans. Ours asks on four threads and rebuilds on a fifth; how many subtrees were swapped in is told of
# the last run, and a drive in which none was is an error. The plain tree asks on one thread, its nodes aren't shared by versions, and it
# rebuilds what has become unbalanced within the scan. Needs bash 5, python3, a C++ compiler, `rt` on the path for the kit's heap, and the
# library, which `rt lib` makes in crates/map_c; writes only to a folder that it removes.
set -euo pipefail

here=$(dirname "$0")
library=$(realpath "${1:-$here/../crates/map_c/out/libmap_c.a}")
heap=$(dirname "$(rt doc)")/c/liblibc_c.a
folder=$(mktemp -d)
trap 'rm -rf "$folder"' EXIT
example=$here/../examples/cpp
"$example/build" "$library" "$heap" "$folder/ours"
${CXX:-c++} -std=c++17 ${CXXFLAGS:--O2} -I"$here/../c" -I"$example" "$here/odometry_plain.cpp" -o "$folder/plain"

# Runs one on the log, and keeps the microseconds that its map took: run_one PROGRAM
run_one() {
    "$folder/$1" <"$folder/log" >"$folder/$1.transcript" 2>"$folder/$1.notes"
    sed -n 's/.* the map took \([0-9]*\) us.*/\1/p' "$folder/$1.notes" >>"$folder/$1.times"
}

# The least of one's microseconds: least PROGRAM
least() { sort -n "$folder/$1.times" | head -n 1; }

# How many subtrees were swapped in, in the run of ours that ended last.
swapped_in() { sed -n 's/.*swapped in: \([0-9]*\)$/\1/p' "$folder/ours.notes"; }

printf '%8s %8s %12s %12s %6s %8s\n' scans live 'ours, ms' 'plain, ms' ratio swapped
for scans in ${SCANS:-20 60 200}; do
    "$example/drive_log" "$scans" 2000 500 1500 >"$folder/log"
    rm -f "$folder"/*.times
    for ((run = 0; run < ${RUNS:-3}; run++)); do
        run_one ours
        run_one plain
        cmp "$folder/ours.transcript" "$folder/plain.transcript"
    done
    awk -v scans="$scans" -v ours="$(least ours)" -v plain="$(least plain)" -v swapped="$(swapped_in)" '
        END { printf "%8d %8d %12.2f %12.2f %6.2f %8d\n", scans, $4, ours / scans / 1000, plain / scans / 1000, ours / plain, swapped }' \
        "$folder/ours.transcript"
    [ "$(swapped_in)" -gt 0 ] || { echo "cpp.sh: no subtree was swapped in over $scans scans" >&2; exit 1; }
done
