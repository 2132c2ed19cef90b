#!/usr/bin/env bash
# How long the worst scans take, beside scans of drawn points: as many points an update as there may be, in rising order or all
# at one place, where subtrees of 16, 1,500 or 1,000,000 nodes and more aren't rebuilt. Nanoseconds a point, and the ratio to
# drawn points.
#
#   bench/worst.sh [PROGRAM]
#
# COUNTS='262144' takes other numbers of points. Needs bash 5.
set -euo pipefail

here=$(dirname "$0")
program=$(realpath "${1:-$here/../crates/map_bench/out/map_bench}")

# Prints nanoseconds a point, the least of three: each LIE POINTS LARGE
each() {
    for _ in 1 2 3; do "$program" "$@" 2>&1 >/dev/null; done | sort -n | awk -v points="$2" 'NR == 1 { printf "%d", 1000 * $1 / points }'
}

printf '%8s %8s %8s %8s %8s\n' points large drawn rising equal
for points in ${COUNTS:-262144 4194304}; do
    for large in 16 1500 1000000; do
        drawn=$(each drawn "$points" "$large")
        rising=$(each rising "$points" "$large")
        equal=$(each equal "$points" "$large")
        awk -v p="$points" -v l="$large" -v d="$drawn" -v r="$rising" -v e="$equal" \
            'BEGIN { printf "%8d %8d %8d %8d %8d   %.2f %.2f\n", p, l, d, r, e, r / d, e / d }'
    done
done
