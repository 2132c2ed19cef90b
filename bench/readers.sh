#!/usr/bin/env bash
# How readers fare beside a writer: the shared map, whose readers wait for nobody, beside the tree of plain.rs behind a lock that
# readers share.
#
#   bench/readers.sh [PROGRAM]
#
# Both programs get the same points, add the same scans and ask at the same places, in turn, three times each, and have to print
# the same checksums. SIZES='100000' takes other numbers of points, READERS='4' other numbers of readers. Needs bash 5 and rustc,
# and writes only to a folder that it removes.
set -euo pipefail

here=$(dirname "$0")
program=$(realpath "${1:-$here/../crates/map_bench/out/map_bench}")
folder=$(mktemp -d)
trap 'rm -rf "$folder"' EXIT
rustc --edition 2021 -O -o "$folder/plain" "$here/plain.rs"

# Runs both programs: run_both WORK POINTS READERS
run_both() {
    rm -f "$folder"/{sums,ours,theirs}
    for _ in 1 2 3; do
        "$program" "$@" >>"$folder/sums" 2>>"$folder/ours"
        "$folder/plain" "$@" >>"$folder/sums" 2>>"$folder/theirs"
    done
    [ "$(sort -u "$folder/sums" | wc -l)" = 1 ] || { echo "the checksums of $* differ" >&2; exit 1; }
}

# The most queries a second, the least longest query and the least time of the writer: best FILE
best() {
    awk 'NR == 1 || $1 > queries { queries = $1 }
         NR == 1 || $2 < longest { longest = $2 }
         NR == 1 || $3 < each { each = $3 }
         END { print queries, longest, each }' "$1"
}

# Prints ours, the plain one's and their ratio in three columns: print_row WORK POINTS READERS
print_row() {
    echo "$@" "$(best "$folder/ours")" "$(best "$folder/theirs")" | awk '{
        printf "%-8s %8d %7d", $1, $2, $3
        printf "  %9d %9d %7s", $4, $7, ($7 > 0 ? sprintf("%.2f", $4 / $7) : "-")
        printf "  %9.2f %9.2f %7.2f", $5 / 1000, $8 / 1000, $5 / $8
        printf "  %9.2f %9.2f %7.2f\n", $6 / 1000, $9 / 1000, $6 / $9
    }'
}

printf '%25s  %-27s  %-27s  %s\n' '' 'queries a second' 'longest query, ms' 'writer, ms a scan'
printf '%-8s %8s %7s' work points readers
for _ in 1 2 3; do printf '  %9s %9s %7s' ours plain ratio; done
echo
for points in ${SIZES:-100000 1000000}; do
    for work in readers paced; do
        for readers in ${READERS:-1 4}; do
            run_both "$work" "$points" "$readers"
            print_row "$work" "$points" "$readers"
        done
    done
done
cat <<'LEGEND'

A map grows by scans of 2,000 points to so many. Then a writer adds a hundred scans more, and deletes what is left after each tenth;
so many readers, each with a thread of its own, ask for the 5 nearest points all over the map until they see the last update. Each
column has its best of three runs.

readers  the writer makes no pause
paced    the writer sleeps for 50 ms before each scan
queries  of all readers together
longest  the longest that any reader took for one query, with its waiting
writer   what a scan took the writer, beside the readers and without its sleep

Ours publishes a version after each update, which readers ask for without waiting. The plain tree is changed in place: each of its
queries and updates takes a lock, which readers share. Where its writer makes no pause, it mostly has the lock again before a
reader that was woken comes to it, so readers stand still.
Both build subtrees below 1,000,000 nodes anew in the update. With more threads than processors, the longest query has what a
thread waits for its processor.
LEGEND
