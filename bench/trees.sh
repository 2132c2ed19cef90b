#!/usr/bin/env bash
# How fast trees are built, asked and changed, beside the tree of plain.rs in plain Rust, and where versions are held beside the same
# tree with nodes that versions share.
#
#   bench/trees.sh [PROGRAM]
#
# The programs get the same points, do the same works in turn, three times each or RUNS times, and have to print the same checksums;
# the least times and the ratios of ours to the others' are printed. SIZES='10000' takes other numbers of points. Needs bash 5 and
# rustc, and writes only to a folder that it removes.
set -euo pipefail

here=$(dirname "$0")
program=$(realpath "${1:-$here/../crates/map_bench/out/map_bench}")
folder=$(mktemp -d)
trap 'rm -rf "$folder"' EXIT
rustc --edition 2021 -O -o "$folder/plain" "$here/plain.rs"
rustc --edition 2021 -O --cfg shared -o "$folder/shared" "$here/plain.rs"

# Runs the programs, that with shared nodes where versions are held: run_all WORK POINTS ASKED
run_all() {
    for ((run = 0; run < ${RUNS:-3}; run++)); do
        "$program" "$@" >>"$folder/sums" 2>>"$folder/ours"
        "$folder/plain" "$@" >>"$folder/sums" 2>>"$folder/alone"
        case $1 in held | thin | odometry) "$folder/shared" "$@" >>"$folder/sums" 2>>"$folder/with_versions" ;; esac
    done
    [ "$(sort -u "$folder/sums" | wc -l)" = 1 ] || { echo "the checksums of $* differ" >&2; exit 1; }
}

# The least of one's microseconds, or nothing: least PROGRAM
least() {
    if [ -e "$folder/$1" ]; then sort -n "$folder/$1" | head -n 1; fi
}

# Prints the least of each one's microseconds in a unit of so many: print_row NAME POINTS UNIT
print_row() {
    awk -v name="$1" -v points="$2" -v unit="$3" -v ours="$(least ours)" -v plain="$(least alone)" -v shared="$(least with_versions)" \
        'BEGIN {
            printf "%-16s %8d %10.2f %10.2f %6.2f", name, points, ours / unit, plain / unit, ours / plain
            if (shared) printf " %10.2f %6.2f", shared / unit, ours / shared
            printf "\n"
        }'
}

# One row: measure WORK ASKED UNIT NAME
measure() {
    for points in ${SIZES:-10000 100000 1000000}; do
        rm -f "$folder"/{sums,ours,alone,with_versions}
        run_all "$1" "$points" "$2"
        print_row "$4" "$points" "$3"
    done
}

printf '%-16s %8s %10s %10s %6s %10s %6s\n' work points ours plain ratio versions ratio
measure build 0 1000 'build, ms'
measure ask 100000 100000 'ask, us each'
measure after 100000 100000 'after, us each'
measure scans 0 1000 'scans, ms'
measure held 0 1000 'held, ms'
measure turn 0 1000 'turn, ms'
measure box 10000 10000 'box, us each'
measure thin 0 1000 'thin, ms'
measure odometry 0 1000 'odometry, ms'
echo
for points in ${SIZES:-1000000}; do
    printf 'longest step in us at %s points, ours:  %s\n' "$points" "$("$program" longest "$points" 400000)"
    printf 'longest step in us at %s points, plain: %s\n' "$points" "$("$folder/plain" longest "$points" 400000)"
done
cat <<'LEGEND'

build   a tree is built by medians
ask     that tree is asked for the 5 nearest, 100,000 times
after   a tree that grew as by scans is asked, all over the places that the scans saw
scans   points are added in scans of 2,000, and each tenth time the slab that was left is deleted
held    the same, while the version before each scan is held. The plain tree holds no versions: its work is that of scans. The one with
        shared nodes does, here and below
turn    as scans, and before a scan is added each of its points is asked for its 5 nearest
box     cubes of a metre are deleted from a tree that was built, 10,000 times
thin    scans are thinned in voxels of half a metre, with the slabs as above. Ours is the state of a map here: it keeps a history
        and a version
odometry the same, and before a scan is thinned each of its points is asked for its 5 nearest
longest of 200 more scans that are added, the longest of each step: what is done to a detached subtree (build) holds nobody up
        where a second thread does it, and `together` is what one scan takes where none does

Both build subtrees below 1,000,000 nodes anew in place, put a scan in one pass, and leave out subtrees without a live item
when they search.
Both admit the same coordinates, in 8 bytes each, and keep an intensity with each point.
LEGEND
