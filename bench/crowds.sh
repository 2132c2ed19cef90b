#!/usr/bin/env bash
# How long clusters and lonely points take, in sparse and in dense maps, beside plain searches of the plain tree and beside a grid.
#
#   bench/crowds.sh [PROGRAM]
#
# The points are those of scans, 2,000 a metre, and joined by steps of 300, 1,000 and 3,000 millimetres: a ball as wide as such a step
# holds 3, 37 and 665 of 100,000 points. `plain` grows clusters by a search of the plain tree round each point, `cells` by a grid as
# wide as the step, as the point cloud libraries do. They do the same works in turn, RUNS times each (3), and have to print the same
# checksums; the least times are printed, in milliseconds, and `-` where all pairs that lie near would take minutes. SIZES='10000'
# takes other numbers of points. Needs bash 5 and rustc, and writes only to a folder that it removes.
set -euo pipefail

here=$(dirname "$0")
program=$(realpath "${1:-$here/../crates/map_bench/out/map_bench}")
folder=$(mktemp -d)
trap 'rm -rf "$folder"' EXIT
rustc --edition 2021 -O -o "$folder/plain" "$here/plain.rs"

# Runs a program and appends its microseconds to a list, and its checksum to that of all: run_one LIST PROGRAM WORK..
run_one() {
    local list=$1
    shift
    "$@" >>"$folder/sums" 2>>"$folder/$list"
}

# The least milliseconds of a list, or a stroke: least LIST
least() { if [ -e "$folder/$1" ]; then sort -n "$folder/$1" | head -n 1 | awk '{ printf "%.1f", $1 / 1000 }'; else printf -- '-'; fi; }

# One row: measure WORK POINTS STEP
measure() {
    rm -f "$folder"/{sums,ours,plain_tree,cells}
    for ((run = 0; run < ${RUNS:-3}; run++)); do
        run_one ours "$program" "$1" "$2" "$3"
        if [ "$1" = lonely ] || [ "$2" -lt 1000000 ] || [ "$3" -lt 3000 ]; then
            run_one plain_tree "$folder/plain" "$1" "$2" "$3"
            if [ "$1" = clusters ]; then run_one cells "$folder/plain" cells "$2" "$3"; fi
        fi
    done
    [ "$(sed 's/^[a-z]* //' "$folder/sums" | sort -u | wc -l)" = 1 ] || { echo "the checksums of $* differ" >&2; exit 1; }
    printf '%-9s %8d %6d %10s %10s %10s\n' "$1" "$2" "$3" "$(least ours)" "$(least plain_tree)" "$(least cells)"
}

printf '%-9s %8s %6s %10s %10s %10s\n' work points step ours plain cells
for points in ${SIZES:-10000 100000 1000000}; do
    for step in 300 1000 3000; do
        measure clusters "$points" "$step"
        measure lonely "$points" "$step"
    done
done
