#!/usr/bin/env bash
# How steady a map is that a scanner, a reader and workers share, beside the tree of plain.rs behind a lock that readers share.
#
#   bench/steady.sh [PROGRAM]
#
# All get the same points, take in the same scans and have to print the same checksum of answers at the end. They are run in turn,
# three times each, and of each figure the middle one is printed. SIZES='100000' takes other numbers of points, RUNS=1 another
# number of runs. Needs bash 5 and rustc, and writes only to a folder that it removes.
set -euo pipefail

here=$(dirname "$0")
program=$(realpath "${1:-$here/../crates/map_bench/out/map_bench}")
folder=$(mktemp -d)
trap 'rm -rf "$folder"' EXIT
rustc --edition 2021 -O -o "$folder/plain" "$here/plain.rs"

# Runs a program once: run_one NAME PROGRAM WORK POINTS WORKERS
run_one() {
    local name=$1
    shift
    "$@" 2>>"$folder/$name" | sed 's/.* sum //' >>"$folder/sums"
}

# Runs all programs in turn: run_all POINTS
run_all() {
    run_one two_workers "$program" steady "$1" 2
    run_one one_worker "$program" steady "$1" 1
    run_one inline "$program" inline "$1" 0
    run_one unhelped "$program" unhelped "$1" 0
    run_one plain_inline "$folder/plain" inline "$1" 0
    run_one plain_thread "$folder/plain" steady "$1" 1
}

# Prints the row of what a program told, in milliseconds, and the queries' first two figures in microseconds: print_row POINTS NAME
print_row() {
    awk -v points="$1" -v name="$2" '
        # The middle one of what was told of a kind, in its column.
        function middle(kind, column,   count, i, j, held) {
            count = told[kind]
            for (i = 1; i <= count; i++) {
                held = figures[kind, column, i]
                for (j = i; j > 1 && sorted[j - 1] > held; j--) sorted[j] = sorted[j - 1]
                sorted[j] = held
            }
            return sorted[int((count + 1) / 2)]
        }
        # Nothing is told of steps that there were none of.
        function ms(kind, column) {
            return middle(kind, 2) > 0 ? sprintf("%.2f", middle(kind, column) / 1000) : "-"
        }
        { told[$1]++; for (i = 2; i <= NF; i++) figures[$1, i, told[$1]] = $i + 0 }
        END {
            printf "%8d %-13s", points, name
            printf " %9s %8s %8s %8s", ms("scan", 3), ms("scan", 4), ms("scan", 6), ms("deletion", 6)
            printf " %9.1f %8.1f %8s %8s", middle("query", 3), middle("query", 4), ms("query", 5), ms("query", 6)
            printf " %9s %8s %8s %8s %8s\n", ms("detach", 4), ms("detach", 6), ms("swap", 4), ms("swap", 6), ms("log", 6)
        }' "$folder/$2"
}

printf '%22s %-36s %-36s %s\n' '' ' update, ms' ' query' ' call of a worker, ms'
printf '%8s %-13s' points program
printf ' %9s %8s %8s %8s' median '99 %' longest deletion
printf ' %9s %8s %8s %8s' 'median us' '99 % us' '99.9 ms' longest
printf ' %9s %8s %8s %8s %8s\n' 'det. 99 %' longest 'swap 99' longest log
for points in ${SIZES:-100000 1000000}; do
    rm -f "$folder"/{sums,two_workers,one_worker,inline,unhelped,plain_inline,plain_thread}
    for ((run = 0; run < ${RUNS:-3}; run++)); do
        run_all "$points"
    done
    [ "$(sort -u "$folder/sums" | wc -l)" = 1 ] || { echo "the checksums at $points points differ" >&2; exit 1; }
    for name in two_workers one_worker inline unhelped plain_inline plain_thread; do
        print_row "$points" "$name"
    done
done
cat <<'LEGEND'

A map grows by scans of 2,000 points to so many. Then it takes 300 scans more, one every 10 ms, or once the one before is done, and
after each tenth what is left is deleted. Beside it a reader, on a thread of its own, asks for the 5 nearest points all over the map
without a pause.

two_workers   ours: subtrees from 1,500 nodes on are rebuilt by two workers, each on a thread of its own
one_worker    the same with one worker
inline        ours, without workers: the updates rebuild uneven subtrees, up to 1,000,000 nodes
unhelped      ours, without workers: nobody builds subtrees from 1,500 nodes on anew
plain_inline  the plain tree, whose updates rebuild uneven subtrees, up to 1,000,000 nodes
plain_thread  the plain tree: subtrees from 1,500 nodes on are listed under the lock by a thread, built outside, brought up to date
              outside until nothing is left to be done, and put in under the lock

update        what a scan took its caller: the median of 300, the 99th percentile and the longest; and the longest deletion
query         what a query took the reader, with its waiting: the median and the 99th percentile in microseconds, the 99.9th and the
              longest in milliseconds
call          what a worker's call took, with its waiting for the lock, and with what it does between two turns of it: to detach a
              subtree, to swap it in, each at the 99th percentile and at the longest, and to tell what was done to it meanwhile, at
              the longest. A dash is where there was none

Queries of ours take no lock. Each query of the plain tree takes a lock that readers share, and each update and each call takes it
alone. There are up to four threads at a time: with fewer processors left than that, the longest is what a thread waits for one.
LEGEND
