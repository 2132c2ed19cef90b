#!/usr/bin/env bash
# How long `check` takes for a transcript, and the most memory that it holds at a time, beside the run that printed it.
#
#   bench/check.sh [PROGRAM]
#
# The logs are those of `make` with 20, 50, 100 and 200 scans; a million points in 2,000 `add` lines with a query after each; 65,536 commands of
# eight callers; and 4,194,304 points, as many as a log may have, once drawn and once in ascending x. Each is run by `run --serial`, and what that
# prints is checked, in turn; times are the least of three runs of processor time, of the longest two of one. Each verdict has to be `legal`.
# RUNS=1 takes one run of each. Needs bash 5, python3 and GNU time.
set -euo pipefail

program=$(realpath "${1:-$(dirname "$0")/../crates/mapper_cli/out/mapper_cli}")
folder=$(mktemp -d)
trap 'rm -rf "$folder"' EXIT
log=$folder/log transcript=$folder/transcript

# Writes a drawn log: drawn KIND ADDS POINTS QUERIES
drawn() {
    python3 - "$log" "$@" <<'PYTHON'
import random, sys

path, kind, adds, points, queries = sys.argv[1], sys.argv[2], *map(int, sys.argv[3:])
draw = random.Random(adds)
numbers = [str(draw.randint(-999_999, 999_999)) for _ in range(200_000)]

def scan(number):
    if kind == "rising":
        return " ".join("%d %d %d" % (number * points + x, x % 7, x % 5) for x in range(points))
    start = draw.randrange(len(numbers) - 3 * points)
    return " ".join(numbers[start:start + 3 * points])

with open(path, "w") as log:
    log.write("ikdmap 1 voxel 200 large 1500\n")
    for number in range(adds):
        caller = number % 8 + 1 if kind == "callers" else 1
        log.write("@%d add %s\n" % (caller, scan(number)))
        if number * queries // adds != (number + 1) * queries // adds:
            log.write("@%d near 5 %s\n" % (caller, " ".join(draw.choice(numbers) for _ in range(3))))
PYTHON
}

# Runs a command on standard input and adds its seconds of a processor and its kilobytes to a list: cost LIST COMMAND..
cost() { /usr/bin/time -a -f '%U %S %M' -o "$1" "${@:2}"; }

# The least seconds and the most megabytes of a list.
told() { awk '{ s = $1 + $2; if (NR == 1 || s < least) least = s; if ($3 > most) most = $3 } END { print least, most / 1024 }' "$1"; }

# One row: measure NAME RUNS
measure() {
    local size
    size=$(stat -c %s "$log")
    rm -f "$folder"/{run,check}
    for ((turn = 0; turn < ${RUNS:-$2}; turn++)); do
        cost "$folder/run" "$program" run --serial <"$log" >"$transcript"
        cat "$log" "$transcript" | cost "$folder/check" "$program" check "$size" >"$folder/verdict"
        [ "$(<"$folder/verdict")" = legal ] || { echo "check of $1: $(<"$folder/verdict")" >&2; exit 1; }
    done
    read -r run_seconds run_memory < <(told "$folder/run")
    read -r check_seconds check_memory < <(told "$folder/check")
    awk -v name="$1" -v rs="$run_seconds" -v rm="$run_memory" -v cs="$check_seconds" -v cm="$check_memory" \
        'BEGIN { printf "%-34s %8.2f %8.2f %6.2f %9.1f %9.1f %6.2f\n", name, rs, cs, cs / rs, rm, cm, cm / rm }'
}

printf '%-34s %8s %8s %6s %9s %9s %6s\n' log 'run s' 'check s' ratio 'run MB' 'check MB' ratio
for scans in 20 50 100 200; do
    "$program" make "$scans" >"$log" </dev/null
    measure "make $scans" 3
done
drawn plain 2000 500 2000; measure '1,000,000 points, 2,000 queries' 3
drawn callers 32768 10 32768; measure '65,536 commands of 8 callers' 3
drawn plain 1024 4096 1000; measure '4,194,304 points' 1
drawn rising 65536 64 0; measure '4,194,304 points, rising by 64' 1
