"""What is left of a log's points at its end: the updates alone, in little room and with no tree.

It knows nothing of queries, nor of what is gone. drawing/held.py reads the same updates for pictures.
"""

import itertools
import math
from array import array

# What a number's point is.
GONE, LIVE, SUSPENDED = range(3)
# How many points are handed out at a time.
PIECE = 65_536
# No two voxels of a map have the same key: they are fewer than this on each axis.
MOST_VOXELS = 2**42


class Fold:
    """The points of a map under their numbers, and in which voxel they are."""

    def __init__(self, voxel):
        self.voxel = voxel
        self.updates = 0
        # Of each number: x, y, z and the intensity, and what its point is.
        self.numbers = array("q")
        self.states = bytearray()
        # The last number in each voxel, and of each number the one before it in the same voxel, or -1. Those that are gone may
        # be among them. Voxels are looked up from the first update on that asks for them.
        self.last = {}
        self.before = array("q")

    def update(self, update):
        """Does the next update of the history."""
        self.updates += 1
        if update.points:
            self.numbers.extend(update.points.numbers)
            self.states.extend(bytes([LIVE]) * len(update.points))
        if update.word == "thin":
            self.thin(len(self.states) - len(update.points))
        for box in update.boxes:
            self.change(update.word, box, update.region)
        if update.below:
            self.states[: update.below] = bytes(min(update.below, len(self.states)))

    def thin(self, first):
        """Thins each point from this number on in turn: of those in its voxel the nearest to the voxel's centre stays alone."""
        self.look_up(first)
        keys = self.keys(first)
        self.before.extend(itertools.repeat(-1, len(self.states) - first))
        last = self.last
        for number, key in enumerate(keys, first):
            if key in last:
                self.compete(number, key)
            last[key] = number

    def compete(self, number, key):
        """Leaves one live point of a new one and those in its voxel, and forgets those that are gone."""
        held = [other for other in self.chain(key) if self.states[other] != GONE]
        rivals = [other for other in held if self.states[other] == LIVE] + [number]
        nearest = min(rivals, key=self.rank)
        for other in rivals:
            if other != nearest:
                self.states[other] = GONE
        at = -1
        for other in held:
            if self.states[other] != GONE:
                self.before[other] = at
                at = other
        self.before[number] = at

    def rank(self, number):
        """What live points of a voxel are ordered by: the distance from its centre, the place, and the number."""
        place = self.place(number)
        to_centre = sum((2 * (at % self.voxel) - self.voxel) ** 2 for at in place)
        return to_centre, *place, number

    def chain(self, key):
        """The numbers in a voxel, those that are gone among them."""
        number = self.last.get(key, -1)
        while number >= 0:
            yield number
            number = self.before[number]

    def look_up(self, end):
        """Has all numbers below this one in their voxels."""
        first = len(self.before)
        self.before.extend(itertools.repeat(-1, end - first))
        for number, key in enumerate(self.keys(first, end), first):
            self.before[number] = self.last.get(key, -1)
            self.last[key] = number

    def keys(self, first, end=None):
        """The keys of the voxels of the points from one number on."""
        rest = iter(self.numbers[4 * first : None if end is None else 4 * end])
        edge = self.voxel
        return (((x // edge) * MOST_VOXELS + y // edge) * MOST_VOXELS + z // edge for x, y, z, _ in zip(rest, rest, rest, rest))

    def change(self, word, box, region):
        """What becomes of the points in an update's box: those that its region holds now are spared."""
        becomes = {"suspend": SUSPENDED, "restore": LIVE}.get(word, GONE)
        for number in self.held_in(box):
            if not (region and region.holds(self.place(number))):
                self.states[number] = becomes

    def place(self, number):
        """Where a point is."""
        return self.numbers[4 * number : 4 * number + 3]

    def held_in(self, box):
        """The numbers of what is held in a box."""
        self.look_up(len(self.states))
        edges = [range(low // self.voxel, (high - 1) // self.voxel + 1) for low, high in zip(*box)]
        # A small box is looked up voxel by voxel; for a large one all points are looked at, and for one without a voxel, since it
        # may be long.
        if 0 < math.prod(map(len, edges)) < len(self.last):
            keys = ((x * MOST_VOXELS + y) * MOST_VOXELS + z for x, y, z in itertools.product(*edges))
            near = itertools.chain.from_iterable(map(self.chain, keys))
            return [number for number in near if self.states[number] != GONE and box.holds(self.place(number))]
        (left, front, low), (right, back, high) = box
        rest = iter(self.numbers)
        return [
            number
            for number, (state, x, y, z, _) in enumerate(zip(self.states, rest, rest, rest, rest))
            if left <= x < right and front <= y < back and low <= z < high and state != GONE
        ]

    def live(self):
        """The live points in the order of their numbers, in pieces: four numbers each, side by side."""
        for first in range(0, len(self.states), PIECE):
            states = self.states[first : first + PIECE]
            piece = self.numbers[4 * first : 4 * (first + PIECE)]
            if states.count(LIVE) < len(states):
                rest = iter(piece)
                kept = itertools.compress(zip(rest, rest, rest, rest), [state == LIVE for state in states])
                piece = array("q", itertools.chain.from_iterable(kept))
            if piece:
                yield piece

    def count(self, state):
        """How many points are so."""
        return self.states.count(state)
