"""What questions answer: views of the memory that the library wrote, with numpy where it is there."""

import array
import ctypes
import threading
from collections import namedtuple

from . import _library
from ._points import numpy

Hit = namedtuple("Hit", "number x y z intensity squared")
Hit.__doc__ = "A live point that was found, under its number, and its squared distance."
Item = namedtuple("Item", "number x y z intensity suspended")
Item.__doc__ = "A point of the map, under its number: live, or suspended."
Cluster = namedtuple("Cluster", "number points")
Cluster.__doc__ = "A cluster: the least number in it, and how many points it has."
Found = namedtuple("Found", "count first")
Found.__doc__ = "How many there are of what was looked for, and the first of them."


def blank(kind, count):
    """Memory for `count` structs, at least one: what has their address, and itself."""
    size = max(1, count) * ctypes.sizeof(kind)
    if numpy is not None:
        memory = numpy.empty(size, numpy.uint8)
        return memory.__array_interface__["data"][0], memory
    memory = (kind * max(1, count))()
    return ctypes.addressof(memory), memory


class Answer:
    """The structs from the front of a memory. Its arrays are views of it: a later call into the same answer changes them."""

    kind = None

    def _columns(self, form, at):
        """A column of the structs, whose field begins `at` bytes in."""
        size = ctypes.sizeof(self.kind)
        if numpy is not None:
            return numpy.ndarray(self._found, form, self._memory, at, (size,))
        width = ctypes.sizeof({"u4": ctypes.c_uint32, "u2": ctypes.c_uint16}.get(form, ctypes.c_int64))
        code = {"u4": "I", "u2": "H", "u8": "Q", "i8": "q"}[form]
        return memoryview(self._memory).cast("B").cast(code)[at // width : self._found * size // width : size // width]

    @property
    def numbers(self):
        """The points' numbers."""
        return self._columns("u4", self.kind.number.offset)

    @property
    def x(self):
        return self._columns("i8", 0)

    @property
    def y(self):
        return self._columns("i8", 8)

    @property
    def z(self):
        return self._columns("i8", 16)

    @property
    def intensities(self):
        """The points' intensities."""
        return self._columns("u2", _library.Point.intensity.offset)

    @property
    def points(self):
        """The points as rows x, y, z; a list of them without numpy."""
        if numpy is None:
            return [*zip(self.x, self.y, self.z)]
        return numpy.ndarray((self._found, 3), "i8", self._memory, 0, (ctypes.sizeof(self.kind), 8))


class Items(Answer):
    """Points by their numbers: `numbers`, `points`, `intensities`, `suspended`, and `x`, `y`, `z`, one after the other.

    items[i] is the i-th of them, and a loop goes through them all.
    """

    kind = _library.Item

    def __init__(self, most):
        self._address, self._memory = blank(self.kind, most)
        self._found = 0

    @property
    def suspended(self):
        """Which points are suspended: an array of bool, or a list without numpy."""
        suspended = self._columns("u4", self.kind.suspended.offset)
        return suspended != 0 if numpy is not None else [*map(bool, suspended)]

    def __len__(self):
        return self._found

    def __iter__(self):
        columns = (self.numbers, self.x, self.y, self.z, self.intensities)
        return map(Item, *(column.tolist() for column in columns), self._suspended_list())

    def __getitem__(self, index):
        columns = (self.numbers, self.x, self.y, self.z, self.intensities)
        return Item(*(int(column[index]) for column in columns), bool(self.suspended[index]))

    def _suspended_list(self):
        return self.suspended if numpy is None else self.suspended.tolist()


class Clusters:
    """Room for as many clusters as a call can give."""

    def __init__(self):
        self._memory = (_library.Cluster * 256)()
        self._address, self._found = ctypes.addressof(self._memory), 0


class Hits(Answer):
    """The hits of places, one place's behind the other's.

    `counts` tells how many each place has; `numbers`, `points`, `intensities`, `squared`, and `x`, `y`, `z` are of all hits. hits[i]
    is a list of the i-th place's. Given as `out` to a call, its memory is used again, and its arrays are overwritten.
    """

    kind = _library.Hit

    def __init__(self):
        self._room = self._places = -1
        self._lock = threading.RLock()
        self._reserve(0, 1)

    def _reserve(self, places, k):
        """Takes memory for the hits of `places` places, unless there is enough. It has none of them yet."""
        if places * k > self._room or places > self._places:
            self._room, self._places = max(1, places * k), max(1, places)
            self._address, self._memory = blank(self.kind, self._room)
            self._counts_address, self._counts = blank(ctypes.c_uint32, self._places)
        self._found, self._asked, self._k = 0, 0, k

    @property
    def counts(self):
        """How many hits each place has."""
        if numpy is not None:
            return self._counts.view("u4")[: self._asked]
        return memoryview(self._counts).cast("B").cast("I")[: self._asked]

    @property
    def starts(self):
        """Where each place's hits begin, and where the last one's end."""
        if numpy is not None:
            return numpy.concatenate(([0], numpy.cumsum(self.counts, dtype=numpy.int64)))
        starts = array.array("q", [0])
        for count in self.counts:
            starts.append(starts[-1] + count)
        return starts

    @property
    def squared(self):
        """The squared distances, exactly: of 64 bits, or Python's own whole numbers where one is greater."""
        low, high = (self._columns("u8", field.offset) for field in (self.kind.dist2_low, self.kind.dist2_high))
        if numpy is None:
            return [(above << 64) + below for above, below in zip(high, low)]
        return (high.astype(object) << 64) + low.astype(object) if high.any() else low

    @property
    def distances(self):
        """The distances in millimetres, as floats."""
        if numpy is None:
            return array.array("d", (square**0.5 for square in self.squared))
        return numpy.sqrt(self.squared.astype(numpy.float64))

    def dense(self, values, fill=0):
        """An array of all hits, such as `points`, with a row of k for each place; `fill` is where a place has fewer. With numpy alone."""
        if numpy is None:
            raise RuntimeError("corv: dense rows are numpy's, which isn't there")
        values = numpy.asarray(values)
        if self._found == self._asked * self._k:
            return values.reshape(self._asked, self._k, *values.shape[1:])
        rows = numpy.full((self._asked, self._k, *values.shape[1:]), fill, values.dtype)
        rows[numpy.arange(self._k) < self.counts[:, None]] = values
        return rows

    def __len__(self):
        return self._asked

    def __iter__(self):
        found, ends = self._between(0, self._found), self.starts.tolist()
        return (found[first:end] for first, end in zip(ends, ends[1:]))

    def __getitem__(self, index):
        if not -len(self) <= index < len(self):
            raise IndexError("corv: there is no such place")
        return self._between(*self.starts.tolist()[index % len(self) :][:2])

    def _between(self, first, end):
        """The hits from one on and before another."""
        low, high = (self._columns("u8", field.offset) for field in (self.kind.dist2_low, self.kind.dist2_high))
        columns = (self.numbers, self.x, self.y, self.z, self.intensities, low, high)
        rows = zip(*(column[first:end].tolist() for column in columns))
        return [Hit(*row, (above << 64) + below) for *row, below, above in rows]
