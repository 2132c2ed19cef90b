#!/usr/bin/env python3
"""How much faster several threads of Python ask than one, since the interpreter is let go in a call: threads.py [POINTS [PLACES]]

First threads of this program's own, each with a view and as many places as the one had; then one call with `threads=`.
"""

import array
import random
import sys
import threading
import time

import corv

POINTS, PLACES = map(int, [*sys.argv[1:], "200000", "2000"][:1] + [*sys.argv[2:], "2000"][:1])
TURNS = 10


def drawn(count):
    """This many places in a box of 200 by 200 by 6 metres."""
    draw = random.Random(count)
    return corv.rows(array.array("q", (draw.randint(-far, far) for _ in range(count) for far in (100_000, 100_000, 3_000))), 3)


def ask(view, places, **named):
    """Asks many times over."""
    hits = corv.Hits()
    for _ in range(TURNS):
        view.nearest(places, 5, out=hits, **named)


def timed(work):
    """The least of eight times, in milliseconds a turn, and how many processors were at work then."""
    times = []
    for _ in range(8):
        start, busy = time.perf_counter(), time.process_time()
        work()
        took = time.perf_counter() - start
        times.append((1e3 * took / TURNS, (time.process_time() - busy) / took))
    return min(times)


def together(view, places, count):
    """Asks on this many threads, each all of the places."""
    threads = [threading.Thread(target=ask, args=(view.copy(), places)) for _ in range(count)]
    for thread in threads:
        thread.start()
    for thread in threads:
        thread.join()


def main():
    """Prints the table."""
    map, places = corv.Map(), drawn(PLACES)
    map.add(drawn(POINTS))
    view = map.view()
    one, busy = timed(lambda: ask(view, places))
    print(f"{PLACES} places in {POINTS} points, on one thread: {one:.2f} ms, {busy:.2f} processors")
    for count in (2, 3, 4):
        took, busy = timed(lambda: together(view, places, count))
        print(f"{count} threads, each as many: {took:.2f} ms, {count * one / took:.2f} times as many a second, {busy:.2f} processors")
    for count in (2, 3, 4):
        took, busy = timed(lambda: ask(view, places, threads=count))
        print(f"one call with threads={count}: {took:.2f} ms, {one / took:.2f} times as fast, {busy:.2f} processors")


if __name__ == "__main__":
    main()
