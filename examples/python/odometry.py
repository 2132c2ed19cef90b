#!/usr/bin/env python3
"""What odometry does with the map, as examples/cpp/odometry.cpp has it: the points nearest to each scan's are found, and then the scan
is put into the map. Meanwhile a second thread rebuilds what has become unbalanced.

    odometry.py < LOG > TRANSCRIPT

The log is read first, as arrays. What is printed is what `mapper run --serial` prints of it. How long the map took is printed on
standard error.
"""

import array
import sys
import time

import corv


def commands(lines):
    """The commands of a log: caller, word, rows, k and a greatest distance."""
    for line in lines:
        if line.strip() and not line.startswith("#"):
            caller, *fields = line.split()
            word = fields.pop(0) if fields else caller
            k = int(fields.pop(0)) if word in ("near", "nears") else None
            within = int(fields.pop()) if "within" in fields[-2:] else None
            numbers = array.array("q", map(int, fields[:-1] if within is not None else fields))
            yield caller, word, numbers and corv.rows(numbers, 4 if k is None else 3), k, within


def main():
    """Runs the log on standard input."""
    lines = sys.stdin.read().splitlines()
    words = lines[0].split()
    map, hits, out, spent = corv.Map(int(words[3]), int(words[5])), corv.Hits(), [], 0
    given = [*commands(lines[1:])]
    with corv.Rebuilder(map) as rebuilder:
        for caller, word, rows, k, within in given:
            start = time.perf_counter()
            if k is not None:
                map.nearest(rows, k, within, out=hits)
            elif word != "sync":
                rebuilder.step()
                (map.add if word == "add" else map.thin)(rows)
                rebuilder.step()
            spent += time.perf_counter() - start
            out.append(reply(caller, word, map.totals(), k and hits))
    out.append(reply("end", "sync", map.totals(), None))
    print("\n".join(out))
    print(f"odometry.py: the map took {spent * 1e6:.0f} us; subtrees swapped in: {rebuilder.swapped}", file=sys.stderr)


def reply(caller, word, totals, hits):
    """The line to a command."""
    if word == "sync":
        return f"{caller} {totals.updates} live {totals.live} suspended {totals.suspended}"
    if hits is None:
        return f"{caller} ok {totals.updates}"
    fields = [caller, word, str(totals.updates)]
    for place in hits:
        fields += ["/"] * (word == "nears") + ["| %d %d %d %d %d %d" % hit for hit in place]
    return " ".join(fields)


if __name__ == "__main__":
    main()
