"""Points of a log, and many of them in little room."""

import json
from array import array
from collections.abc import Sequence
from itertools import chain
from typing import NamedTuple

MOST_INTENSITY = 65_535
# The farthest coordinate from 0, by the log's version. Boxes reach one farther, and queries four times as far.
FARTHEST = {1: 1_000_000_000, 2: 2**40}


class Place(NamedTuple):
    """A place in whole millimetres."""

    x: int
    y: int
    z: int


class Point(NamedTuple):
    """What was seen: where, and with which intensity, which is 0 in version 1."""

    place: Place
    intensity: int = 0


class Points(Sequence):
    """A list of points, kept as four numbers each, side by side: x, y, z and the intensity. That takes an eighth of the room."""

    def __init__(self, numbers):
        self.numbers = numbers

    @classmethod
    def of(cls, points):
        """The same points as a list has."""
        return cls(array("q", chain.from_iterable((*place, intensity) for place, intensity in points)))

    @classmethod
    def spelled(cls, text, version):
        """The points that a text spells in a log of this version, read at once; none where anything is wrong with it."""
        size = 4 if version == 2 else 3
        numbers = numbers_in(text)
        if not numbers or len(numbers) % size:
            return None
        columns = [numbers[axis::size] for axis in range(size)] + [array("q", bytes(8 * (len(numbers) // 3)))] * (size == 3)
        *places, intensities = columns
        if any(min(column) < -FARTHEST[version] or max(column) > FARTHEST[version] for column in places):
            return None
        if min(intensities) < 0 or max(intensities) > MOST_INTENSITY:
            return None
        return cls(numbers if size == 4 else side_by_side(columns))

    def __len__(self):
        return len(self.numbers) // 4

    def __getitem__(self, at):
        return [*self][at]

    def __iter__(self):
        rest = iter(self.numbers)
        return (Point(Place(x, y, z), intensity) for x, y, z, intensity in zip(rest, rest, rest, rest))

    def __eq__(self, other):
        return [*self] == [*other]


def numbers_in(text):
    """The numbers that a text spells, parted by single spaces; none where anything is wrong with it.

    JSON's whole numbers are those of a log, but for -0.
    """
    if text.translate(None, b"0123456789- ") or b"-0" in text:
        return None
    try:
        return array("q", json.loads(b"[" + text.replace(b" ", b",") + b"]"))
    except (ValueError, OverflowError):
        return None


def side_by_side(columns):
    """Columns of the same length as one array, row by row."""
    numbers = array("q", bytes(8 * len(columns) * len(columns[0])))
    for axis, column in enumerate(columns):
        numbers[axis :: len(columns)] = column
    return numbers
