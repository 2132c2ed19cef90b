"""What a map holds: a plain reading of every update and every query, in the order of the numbers, with no tree."""

import heapq
import itertools
import math
from collections import defaultdict
from typing import NamedTuple

from .log import Box, Place
from .searches import Cells, Hit, Row, dist2


class Gone(NamedTuple):
    """The place of a point that is gone for good: by the update of this mark, and by its word."""

    place: Place
    mark: int
    word: str


class Held:
    """The points that are held, each under its number, and those that are gone."""

    def __init__(self, voxel):
        self.voxel = voxel
        self.live = {}
        self.suspended = {}
        self.gone = []
        self.next = 0
        self.mark = 0
        # The numbers of the held points by the voxel that they lie in.
        self.cells = defaultdict(set)

    def update(self, update):
        """Does the next update of the history."""
        self.mark += 1
        for point in update.points:
            if update.word == "thin":
                self.thin(point)
            else:
                self.hold(self.next, point)
            self.next += 1
        for box in update.boxes:
            for number, point in self.held_in(box):
                if not (update.region and update.region.holds(point.place)):
                    self.change(update.word, number, point.place)
        for number in [number for number in (*self.live, *self.suspended) if number < update.below]:
            self.drop(number, self.point(number).place, update.word)

    def hold(self, number, point):
        """Holds a live point."""
        self.live[number] = point
        self.cells[self.cell(point.place)].add(number)

    def drop(self, number, place, word):
        """A held point is gone for good."""
        self.live.pop(number, None)
        self.suspended.pop(number, None)
        self.cells[self.cell(place)].discard(number)
        self.gone.append(Gone(place, self.mark, word))

    def change(self, word, number, place):
        """What becomes of a held point that is in an update's box."""
        if word in ("delete", "erase", "pose"):
            self.drop(number, place, word)
        elif word == "suspend" and number in self.live:
            self.suspended[number] = self.live.pop(number)
        elif word == "restore" and number in self.suspended:
            self.live[number] = self.suspended.pop(number)

    def thin(self, point):
        """Of a new point and the live ones in its voxel, the one nearest to the voxel's centre stays alone."""
        cell = self.cell(point.place)
        self.hold(self.next, point)
        rivals = []
        for number in self.cells[cell]:
            if number in self.live:
                place, intensity = self.live[number]
                rivals.append(Hit(self.to_centre(cell, place), place, number, intensity))
        for loser in sorted(rivals)[1:]:
            self.drop(loser.number, loser.place, "thin")

    def cell(self, place):
        """The voxel that a place lies in, counted from the origin's."""
        return tuple(at // self.voxel for at in place)

    def to_centre(self, cell, place):
        """Four times the squared distance from a place to a voxel's centre."""
        return sum((2 * at - (2 * low + 1) * self.voxel) ** 2 for at, low in zip(place, cell))

    def held_in(self, box):
        """The held points in a box, with their numbers."""
        edges = [range(low // self.voxel, (high - 1) // self.voxel + 1) for low, high in zip(*box)]
        # A small box is looked up voxel by voxel, a large one by all voxels that are in use; so is one without a voxel, since it
        # may be long.
        if 0 < math.prod(map(len, edges)) < len(self.cells):
            cells = [cell for cell in itertools.product(*edges) if cell in self.cells]
        else:
            cells = self.cells
        held = ((number, self.point(number)) for cell in cells for number in self.cells[cell])
        return [(number, point) for number, point in held if box.holds(point.place)]

    def point(self, number):
        """The point that is held under a number."""
        return self.live[number] if number in self.live else self.suspended[number]

    def nearest(self, query):
        """The hits of a query, nearest first."""
        x, y, z = query.place
        # Most are no hits, so they are plain tuples, which take half the time.
        near = (
            ((at[0] - x) ** 2 + (at[1] - y) ** 2 + (at[2] - z) ** 2, at, number, intensity)
            for number, (at, intensity) in self.live.items()
        )
        if query.reach is not None:
            near = (hit for hit in near if hit[0] <= query.reach**2)
        return [Hit(*hit) for hit in heapq.nsmallest(query.most, near)]

    def nearest_each(self, query):
        """The hits at each place of a query."""
        row = Row(self.live)
        return [row.nearest(place, query.most) for place in query.places]

    def live_in(self, box):
        """The live points in a box, with their numbers, which rise."""
        return sorted((number, point) for number, point in self.held_in(box) if number in self.live)

    def inside(self, query):
        """The live points in a query's box, with their numbers, which rise."""
        return self.live_in(query.box)

    def ball(self, query):
        """The live points in a query's ball, with their numbers, which rise."""
        lo, hi = (Place(*(at + reach for at in query.place)) for reach in (-query.reach, query.reach + 1))
        near = self.live_in(Box(lo, hi))
        return [(number, point) for number, point in near if dist2(point.place, query.place) <= query.reach**2]

    def lonely(self, query):
        """The live points that have no other one within a query's reach, with their numbers, which rise."""
        return [(number, self.live[number]) for number in Cells(self.live, query.reach).lonely()]

    def clusters(self, query):
        """The numbers of the live points of each cluster by a query's reach."""
        return Cells(self.live, query.reach).clusters()
