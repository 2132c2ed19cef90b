"""Searches that would take too long by looking at all points for each place: many places at once, and what is joined."""

import heapq
import itertools
import math
from bisect import bisect_left, insort
from collections import defaultdict
from typing import NamedTuple

from .log import Place


class Hit(NamedTuple):
    """A live point near a place; hits are ordered as their parts are, of which no two have the same number."""

    dist2: int
    place: Place
    number: int
    intensity: int


def dist2(one, other):
    """The squared distance between two places."""
    return (one[0] - other[0]) ** 2 + (one[1] - other[1]) ** 2 + (one[2] - other[2]) ** 2


class Row:
    """Live points in the order of their places, so that those of about the same x stand side by side."""

    def __init__(self, live):
        self.points = sorted((place, number, intensity) for number, (place, intensity) in live.items())

    def nearest(self, place, most):
        """The hits at a place, nearest first: points are looked at until all further ones are too far off by their x alone."""
        hits = []
        for off2, hit in self.outwards(place):
            if len(hits) == most and off2 > hits[-1].dist2:
                break
            insort(hits, hit)
            del hits[most:]
        return hits

    def outwards(self, place):
        """The points as hits at a place, each with the squared distance on x, from the least one on."""
        middle = bisect_left(self.points, (place,))
        return heapq.merge(
            (self.off(at, place) for at in range(middle, len(self.points))),
            (self.off(at, place) for at in range(middle - 1, -1, -1)),
        )

    def off(self, at, place):
        """One of the points as a hit at a place, with the squared distance on x."""
        found, number, intensity = self.points[at]
        return (found.x - place.x) ** 2, Hit(dist2(found, place), found, number, intensity)


class Cells:
    """Live points by the cells of a grid that is so fine that any two points in one cell are joined, that is within reach."""

    def __init__(self, live, reach):
        self.reach2 = reach**2
        # Two places in one cell differ by less than its edge on each axis.
        self.edge = math.isqrt(self.reach2 // 3) + 1
        self.points = defaultdict(dict)
        for number in sorted(live):
            place = live[number].place
            self.points[tuple(at // self.edge for at in place)][number] = place
        self.extents = {cell: extent(points.values()) for cell, points in self.points.items()}
        self.steps = [step for step in itertools.product(range(-2, 3), repeat=3) if any(step) and self.may_reach(step)]

    def may_reach(self, step):
        """Tells whether the nearest places of two cells so many cells apart are joined."""
        return sum(((abs(cells) - 1) * self.edge + 1) ** 2 for cells in step if cells) <= self.reach2

    def beside(self, cell):
        """The cells in use of which some place may be joined to one in this cell."""
        x, y, z = cell
        return [at for dx, dy, dz in self.steps if (at := (x + dx, y + dy, z + dz)) in self.points]

    def touch(self, cell, other):
        """Tells whether some point in one cell is joined to one in the other."""
        near, far = self.towards(cell, other), self.towards(other, cell)
        return any(dist2(one, two) <= self.reach2 for one in near for two in far)

    def towards(self, cell, other):
        """The places of the points in a cell that are near enough to what the points in another cell reach."""
        return [place for place in self.points[cell].values() if gap2(place, self.extents[other]) <= self.reach2]

    def lonely(self):
        """The numbers of the points that are joined to no other, which rise."""
        alone = [cell for cell, points in self.points.items() if len(points) == 1]
        alone = [cell for cell in alone if not any(self.touch(cell, other) for other in self.beside(cell))]
        return sorted(number for cell in alone for number in self.points[cell])

    def clusters(self):
        """The numbers of the points of each cluster, from the least one on, and so the clusters."""
        left, clusters = set(self.points), []
        while left:
            cells = [left.pop()]
            for cell in cells:
                touched = [other for other in self.beside(cell) if other in left and self.touch(cell, other)]
                left.difference_update(touched)
                cells += touched
            clusters.append(sorted(number for cell in cells for number in self.points[cell]))
        return sorted(clusters)


def extent(places):
    """The least and the greatest coordinate of places on each axis."""
    return [(min(at), max(at)) for at in zip(*places)]


def gap2(place, reached):
    """The squared distance from a place to the nearest one of an extent."""
    return sum(max(low - at, 0, at - high) ** 2 for at, (low, high) in zip(place, reached))
