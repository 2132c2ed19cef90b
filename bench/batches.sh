#!/usr/bin/env bash
# How long a scan of queries takes at once, by how many processors, beside single calls and beside the plain tree.
#
#   bench/batches.sh [PROGRAM]
#
# Trees of 100,000 and 1,000,000 points are asked for the 5 nearest of 20, 2,000 and 65,536 places, and all answers are kept: by single
# calls, and at once by 1, 2 and 4 processors. Both programs do the same works in turn, RUNS times each (7), and have to print the
# same checksums; the least times are printed, in milliseconds, then the most memory that each way takes beyond that of a tree that
# nobody asks, in megabytes, and at last odometry's turn with single calls and with a scan's queries at once. Needs bash 5, GNU time,
# taskset and rustc, and writes only to a folder that it removes.
set -euo pipefail

here=$(dirname "$0")
program=$(realpath "${1:-$here/../crates/map_bench/out/map_bench}")
folder=$(mktemp -d)
trap 'rm -rf "$folder"' EXIT
rustc --edition 2021 -O -o "$folder/plain" "$here/plain.rs"
plain=$folder/plain

# Runs a work of one of the programs by some processors and appends its microseconds and kilobytes to a list: run_one LIST PROCESSORS PROGRAM WORK..
run_one() {
    local list=$1 processors=$2
    shift 2
    /usr/bin/time -o "$folder/memory" -f %M taskset -c "$processors" "$@" >>"$folder/sums" 2>"$folder/micros"
    echo "$(cat "$folder/micros") $(cat "$folder/memory")" >>"$folder/$list"
}

# The least milliseconds of a list, and the most megabytes beyond those of another: least LIST, held LIST OTHER
least() { sort -n "$folder/$1" | head -n 1 | awk '{ printf "%.2f", $1 / 1000 }'; }
held() { sort -nk2 "$folder/$1" "$folder/$2" | tail -n 1 | awk -v before="$(sort -nk2 "$folder/$2" | tail -n 1 | cut -d' ' -f2)" '{ printf "%.1f", ($2 - before) / 1024 }'; }

# One row: measure POINTS QUERIES
measure() {
    local processors
    rm -f "$folder"/{sums,none,singly,one,two,four,plain_singly,plain_four}
    run_one none 0 "$program" singly "$1" 0
    rm "$folder/sums"
    for ((run = 0; run < ${RUNS:-7}; run++)); do
        run_one singly 0 "$program" singly "$1" "$2"
        run_one plain_singly 0 "$plain" singly "$1" "$2"
        run_one one 0 "$program" nears "$1" "$2"
        run_one two 0,1 "$program" nears "$1" "$2"
        run_one four 0-3 "$program" nears "$1" "$2"
        run_one plain_four 0-3 "$plain" nears "$1" "$2"
    done
    [ "$(sed 's/^[a-z]* //' "$folder/sums" | sort -u | wc -l)" = 1 ] || { echo "the checksums of $* differ" >&2; exit 1; }
    printf '%8d %8d %9s %9s %9s %9s %9s %9s %9s %9s\n' "$1" "$2" "$(least singly)" "$(least one)" "$(least two)" "$(least four)" \
        "$(least plain_singly)" "$(least plain_four)" "$(held singly none)" "$(held four none)"
}

printf '%8s %8s %9s %9s %9s %9s %9s %9s %9s %9s\n' points queries single 'at once 1' 2 4 plain 'plain 4' 'MB single' 'MB 4'
for points in ${SIZES:-100000 1000000}; do
    for queries in 20 2000 65536; do measure "$points" "$queries"; done
done
printf '\n%8s %9s %9s %9s %9s\n' points odometry 'at once' plain 'at once'
for points in ${SIZES:-100000 1000000}; do
    rm -f "$folder"/{sums,ours,ours_each,theirs,theirs_each}
    for ((run = 0; run < 3; run++)); do
        run_one ours 0-3 "$program" odometry "$points" 0
        run_one ours_each 0-3 "$program" batches "$points" 0
        run_one theirs 0-3 "$plain" odometry "$points" 0
        run_one theirs_each 0-3 "$plain" batches "$points" 0
    done
    [ "$(sed 's/^[a-z]* //' "$folder/sums" | sort -u | wc -l)" = 1 ] || { echo "the checksums of odometry differ" >&2; exit 1; }
    printf '%8d %9s %9s %9s %9s\n' "$points" "$(least ours)" "$(least ours_each)" "$(least theirs)" "$(least theirs_each)"
done
