#!/usr/bin/env bash
# How long the program takes for generated scans, and the most memory that it holds at a time, beside a plain tree, changed in
# place, and beside the same tree with nodes that versions share.
#
#   bench/drive.sh [PROGRAM]
#
# `drive N` makes N scans of 2,000 points, runs them in order and prints one line of sums, which drive.rs, on the tree of
# plain.rs, has to print too. The log that `make N` prints is then run as any other, in its order and not; its last line
# has to have the counts of `drive N`. Each time is the least of three runs, in seconds, with the most megabytes held in
# any of them. DRIVES='20' and LOGS='20' take other numbers of scans. Needs bash 5, GNU time and rustc, and writes only to
# a folder that it removes.
set -euo pipefail

here=$(dirname "$0")
program=$(realpath "${1:-$here/../crates/mapper_cli/out/mapper_cli}")
folder=$(mktemp -d)
trap 'rm -rf "$folder"' EXIT
rustc --edition 2021 -O -o "$folder/plain" "$here/plain.rs"
rustc --edition 2021 -O --cfg shared -o "$folder/versions" "$here/plain.rs"

# Runs a command three times on a file and prints the row: measure NAME FILE COMMAND..
measure() {
    local name=$1 file=$2
    shift 2
    rm -f "$folder"/{costs,out,lines}
    for _ in 1 2 3; do
        /usr/bin/time -a -f '%e %M' -o "$folder/costs" "$@" < "$file" > "$folder/out"
        tail -n 1 "$folder/out" >> "$folder/lines"
    done
    awk -v name="$name" '
        NR == 1 || $1 < least { least = $1 }
        $2 > most { most = $2 }
        END { printf "%-22s %9.2f %9.1f\n", name, least, most / 1024 }' "$folder/costs"
    [ "$(sort -u "$folder/lines" | wc -l)" = 1 ] || { echo "the last lines of $name differ" >&2; exit 1; }
}

# The counts of live and suspended points in a line.
counts_of() { sed 's/.* \(live [0-9]* suspended [0-9]*\).*/\1/' "$1"; }

printf '%-22s %9s %9s\n' words seconds MB
for scans in ${DRIVES:-20 60 200}; do
    measure "drive $scans" /dev/null "$program" drive "$scans"
    cp "$folder/out" "$folder/drive$scans"
    for tree in plain versions; do
        measure "  $tree" /dev/null "$folder/$tree" drive "$scans" 0
        cmp "$folder/out" "$folder/drive$scans"
    done
done
for scans in ${LOGS:-200}; do
    measure "make $scans" /dev/null "$program" make "$scans"
    cp "$folder/out" "$folder/log"
    [ -e "$folder/drive$scans" ] || "$program" drive "$scans" > "$folder/drive$scans"
    for words in 'run --serial' run; do
        measure "$words < make $scans" "$folder/log" "$program" $words
        tail -n 1 "$folder/out" > "$folder/end"
        [ "$(counts_of "$folder/end")" = "$(counts_of "$folder/drive$scans")" ] ||
            { echo "$words and drive $scans end with other counts" >&2; exit 1; }
    done
done
