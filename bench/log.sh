#!/usr/bin/env bash
# How fast the program takes a log in, beside `wc -w` on the same file, and the most memory that it holds at a time.
#
#   bench/log.sh [PROGRAM]
#
# The logs of version 1 have 1, 16 and 128 MB: `add` lines of 2,000 points, then four `near` lines. Coordinates have up to 6
# digits, as in a map of some hundred metres, and in the largest up to 9, since a log has at most 4,194,304 points. Those of
# version 2 have the same points, each with an intensity, and the same queries, and are longer by that. Reading and
# parsing by themselves are measured on the same log with a fault in a last line, which is refused when all of it was
# parsed; the whole run also puts every point into the tree, and is done once. The times of reading and of `wc -w` are the least of
# 25, 11 and 5 runs in turn. VERSIONS='2' measures one version alone. Needs bash 5, python3 and GNU time.
set -euo pipefail

program=$(realpath "${1:-$(dirname "$0")/../crates/mapper_cli/out/mapper_cli}")
folder=$(mktemp -d)
trap 'rm -rf "$folder"' EXIT
log=$folder/log

# A log of a version, in version 1 of so many bytes and few more, with coordinates up to a reach: write_log VERSION BYTES REACH
write_log() {
    python3 - "$log" "$@" <<'PYTHON'
import random, sys

path, version, size, reach = sys.argv[1], *map(int, sys.argv[2:])
draw, draw_intensity = random.Random(size), random.Random(size + 1)
numbers = [str(draw.randint(-reach, reach)) for _ in range(200_000)]
intensities = [str(draw_intensity.randint(0, 65_535)) for _ in numbers]
with open(path, "w") as log:
    left = size - log.write("ikdmap %d voxel 200 large 1500\n" % version)
    while left > 0:
        start = draw.randrange(len(numbers) - 6_000)
        fields = numbers[start:start + 6_000]
        left -= len("@1 add " + " ".join(fields) + "\n")
        if version == 2:
            points = zip(fields[::3], fields[1::3], fields[2::3], intensities[start:start + 2_000])
            fields = [field for point in points for field in point]
        log.write("@1 add " + " ".join(fields) + "\n")
    for _ in range(4):
        log.write("@1 near 5 %d %d %d\n" % tuple(draw.randint(-reach, reach) for _ in range(3)))
PYTHON
}

# Appends the seconds of one run on a file to a list: time_run FILE LIST COMMAND..
time_run() {
    local file=$1 list=$2 start end
    shift 2
    start=$EPOCHREALTIME
    "$@" < "$file" > "$folder/out" 2> "$folder/notes" || true
    end=$EPOCHREALTIME
    echo "$start $end" >> "$list"
}

# The least of a list: least LIST
least() {
    awk '{ s = $2 - $1; if (NR == 1 || s < least) least = s } END { print least }' "$1"
}

# The most kilobytes held in a run on a file: most_memory FILE
most_memory() {
    /usr/bin/time -f %M -o "$folder/memory" "$program" run < "$1" > "$folder/out" 2> "$folder/notes" || true
    tail -n 1 "$folder/memory"
}

# One row: measure VERSION BYTES REACH RUNS
measure() {
    write_log "$1" "$2" "$3"
    cp "$log" "$folder/faulty"
    echo '@1 add' >> "$folder/faulty"
    rm -f "$folder"/{wc,parse,run}
    for ((run = 0; run < $4; run++)); do
        time_run "$log" "$folder/wc" wc -w
        time_run "$folder/faulty" "$folder/parse" "$program" run
    done
    time_run "$log" "$folder/run" "$program" run
    awk -v bytes="$(stat -c %s "$log")" -v adds="$(grep -c ' add ' "$log")" \
        -v wc="$(least "$folder/wc")" -v parse="$(least "$folder/parse")" -v held="$(most_memory "$folder/faulty")" \
        -v run="$(least "$folder/run")" -v all="$(most_memory "$log")" \
        'BEGIN { mb = bytes / 1e6; printf "%6.1f %9d %9.1f %10.1f %6.2f %8.2f %9.1f %8.2f\n", mb, 2000 * adds, mb / wc, mb / parse, parse / wc, held * 1024 / bytes, mb / run, all * 1024 / bytes }'
}

for version in ${VERSIONS:-1 2}; do
    echo "version $version"
    printf '%6s %9s %9s %10s %6s %8s %9s %8s\n' MB points 'wc MB/s' 'parse MB/s' ratio 'RSS/log' 'run MB/s' 'RSS/log'
    measure "$version" 1000000 999999 25
    measure "$version" 16000000 999999 11
    measure "$version" 128000000 999999999 5
done
