"""Points, places and boxes of the caller's, as memory that the library reads: with numpy where it is there."""

import array
import ctypes
import math
import operator
import sys
from collections import namedtuple

from ._library import BadNumber, OutOfRange, Point

try:
    import numpy
except ImportError:
    numpy = None

FARTHEST = 1 << 40
MOST_INTENSITY = 65_535
LITTLE = sys.byteorder == "little"
NO_FLOATS = "millimetres are whole numbers, and these aren't: corv.metres(..) takes metres"
WANTED_INTENSITIES = "corv: as many intensities are wanted as there are points"


class Memory(namedtuple("Memory", "address count keep")):
    """Values one after the other in memory, and what keeps them there: given to a call itself, it is kept until the call is done."""

    _as_parameter_ = property(lambda self: self.address)


Scan = namedtuple("Scan", "points kept not_finite out_of_range cut")
Scan.__doc__ = """Points that were metres: rows x, y, z, intensity. Which rows they were, where some were left out, and None otherwise.
How many were left out since a coordinate is not finite, and since one is out of range; how many intensities were cut to 0 to 65,535."""


def points_of(values):
    """Points, from rows of three or four."""
    rows = rows_of(values, (3, 4))
    if numpy is None:
        return plain_points(rows)
    if rows.shape[1] == 4 and (rows[:, 3].view(numpy.uint64) > MOST_INTENSITY).any():
        raise OutOfRange(f"corv: an intensity is not one of 0 to {MOST_INTENSITY}")
    if rows.shape[1] == 3 or not LITTLE:
        wide = numpy.zeros((len(rows), 4), numpy.int64)
        wide[:, : rows.shape[1]] = rows
        if not LITTLE:
            wide[:, 3] <<= 48
        rows = wide
    # A row of four numbers is a point: its intensity is the last one's lower 16 bits, and the others are padding.
    return memory(rows)


def plain_points(rows):
    """The same without numpy."""
    points = (Point * max(1, len(rows)))()
    flat = memoryview(points).cast("B").cast("q")
    width, given = rows.width, rows.flat
    for axis in range(3):
        flat[axis::4] = array.array("q", given[axis::width] or [0])
    if width == 4 and len(rows):
        try:
            memoryview(points).cast("B").cast("H")[12::16] = array.array("H", given[3::4])
        except OverflowError:
            raise OutOfRange(f"corv: an intensity is not one of 0 to {MOST_INTENSITY}") from None
    return Memory(ctypes.addressof(points), len(rows), points)


def places_of(values):
    """Places, from rows of three; of rows of four the intensity is left away."""
    rows = rows_of(values, (3, 4))
    if numpy is None:
        if rows.width == 4:
            rows = Rows(narrow(rows.flat), 3)
        return memory(rows)
    return memory(rows if rows.shape[1] == 3 else numpy.ascontiguousarray(rows[:, :3]))


def narrow(flat):
    """The first three of each four."""
    three = array.array("q", bytes(len(flat) // 4 * 24))
    for axis in range(3):
        three[axis::3] = array.array("q", flat[axis::4])
    return three


def boxes_of(values):
    """Boxes, from rows of six, or of two corners."""
    if numpy is not None:
        values = as_array(values)
        if values.shape[-2:] == (2, 3):
            values = values.reshape(*values.shape[:-2], 6)
    elif buffer_of(values) is None:
        values = [*values]
        if len(values) == 2 and all(is_row(value) and len(value) == 3 for value in values):
            values = [values]
        values = [(*value[0], *value[1]) if is_row(value) and len(value) == 2 else value for value in values]
    return memory(rows_of(values, (6,)))


def one_box(box):
    """The memory of one box."""
    boxes = boxes_of(box)
    if boxes.count != 1:
        raise ValueError("corv: one box is wanted")
    return boxes


def one_place(place):
    """The memory of one place."""
    places = places_of(place)
    if places.count != 1:
        raise ValueError("corv: one place is wanted")
    return places


def is_row(value):
    """Tells whether it is no number."""
    return hasattr(value, "__len__")


class Rows:
    """Rows of `width` numbers without numpy, one behind the other."""

    def __init__(self, flat, width):
        self.flat, self.width = flat, width

    def __len__(self):
        return len(self.flat) // self.width


def rows_of(values, widths):
    """Rows of 64-bit numbers, which are the caller's own where they can be."""
    if isinstance(values, Scan):
        values = values.points
    if isinstance(values, Rows):
        return values
    if numpy is None:
        return plain_rows(values, widths)
    given = as_array(values)
    if given.size == 0:
        return numpy.zeros((0, widths[0]), numpy.int64)
    if given.ndim == 1:
        given = given[None]
    if given.ndim != 2 or given.shape[1] not in widths:
        raise ValueError(f"corv: rows of {' or '.join(map(str, widths))} numbers are wanted, not the shape {given.shape}")
    if given.dtype.kind == "f":
        raise TypeError(f"corv: {NO_FLOATS}")
    if given.dtype.kind not in "iu":
        raise TypeError(f"corv: whole numbers are wanted, not {given.dtype}")
    if given.dtype == numpy.uint64 and (given > FARTHEST + 1).any():
        raise OutOfRange("corv: " + OutOfRange.__doc__)
    return numpy.require(given, numpy.int64, ["C", "A"])


def as_array(values):
    """The array of values. Where a number of a list has more than 64 bits, numpy would make floats or objects of them."""
    given = numpy.asarray(values)
    if given.dtype.kind in "fO" and given.size and not hasattr(values, "dtype"):
        if any(isinstance(number, int) and abs(number) >> 63 for number in numpy.asarray(values, object).flat):
            raise OutOfRange("corv: " + OutOfRange.__doc__)
    return given


def buffer_of(values):
    """A view of values that are in a buffer; None where they aren't."""
    try:
        return memoryview(values)
    except TypeError:
        return None


def plain_rows(values, widths):
    """The same without numpy: from a two-dimensional memoryview of 64-bit numbers, or from a sequence of rows."""
    view = buffer_of(values)
    if view is not None and view.ndim == 2 and view.itemsize == 8 and view.format in ("q", "l") and view.c_contiguous:
        width, flat = view.shape[1], view.cast("B").cast("q")
    else:
        given = list(values) if view is None else view.tolist()
        if given and not is_row(given[0]):
            given = [given]
        width = len(given[0]) if given else widths[0]
        if any(len(row) != width for row in given):
            raise ValueError("corv: the rows have different lengths")
        try:
            flat = array.array("q", (number for row in given for number in row))
        except TypeError:
            raise TypeError(f"corv: {NO_FLOATS}") from None
        except OverflowError:
            raise OutOfRange("corv: " + OutOfRange.__doc__) from None
    if width not in widths:
        raise ValueError(f"corv: rows of {' or '.join(map(str, widths))} numbers are wanted, not of {width}")
    return Rows(flat, width)


def memory(rows):
    """The memory of rows. None has an address too, since the library takes no null."""
    if not len(rows):
        empty = ctypes.c_int64()
        return Memory(ctypes.addressof(empty), 0, empty)
    if numpy is not None:
        return Memory(rows.__array_interface__["data"][0], len(rows), rows)
    view = memoryview(rows.flat)
    whole = ctypes.c_int64 * len(rows.flat)
    kept = whole.from_buffer_copy(view) if view.readonly else whole.from_buffer(view)
    if ctypes.addressof(kept) % 8:
        kept = whole.from_buffer_copy(view)
    return Memory(ctypes.addressof(kept), len(rows), kept)


def rows(flat, width):
    """Numbers one after the other in memory, such as array.array("q"), as rows: a memoryview that the calls take."""
    view = memoryview(flat).cast("B")
    return view.cast("q", (len(view) // (8 * width), width))


def unsigned(number, bits, what):
    """A whole number that fits in `bits` bits; ctypes would cut it."""
    number = operator.index(number)
    if not 0 <= number < 1 << bits:
        raise BadNumber(f"corv: {what} can't be {number}")
    return number


def metres(values, intensity=None, scale=1):
    """Rows x, y, z or x, y, z, intensity in metres as points in whole millimetres: the nearest, and of two the even one.

    Rows with a coordinate that isn't finite, or that is out of range, are left out and counted. Intensities are those of the rows
    or given apart, and are multiplied by `scale` (65535 where 1 is the brightest); what is below 0 or above 65,535 is cut, and what is
    no number is 0. With numpy the rows may also be a structured array with fields x, y, z, and intensity, as ROS reads its clouds.
    """
    if numpy is None:
        return plain_metres(values, intensity, scale)
    given = numpy.asarray(values)
    if given.dtype.names:
        fields = ["x", "y", "z", *(name for name in given.dtype.names if name == "intensity")]
        given = numpy.stack([given[name].ravel().astype(numpy.float64) for name in fields], axis=1)
    if given.size == 0:
        given = given.reshape(0, 3)
    if given.ndim == 1:
        given = given[None]
    if given.ndim != 2 or given.shape[1] not in (3, 4):
        raise ValueError(f"corv: rows of 3 or 4 numbers are wanted, not the shape {given.shape}")
    at = given[:, :3].astype(numpy.float64)
    with numpy.errstate(over="ignore"):
        at *= 1000
    numpy.rint(at, out=at)
    farthest = numpy.abs(at).max(axis=1, initial=0)  # (not a number where one of the three is none)
    finite = numpy.isfinite(farthest)
    good = farthest <= FARTHEST
    if intensity is None:
        intensity = given[:, 3] if given.shape[1] == 4 else None
    left_out = len(at) - int(numpy.count_nonzero(good))
    kept = numpy.flatnonzero(good) if left_out else None
    points = numpy.zeros((len(at) - left_out, 4), numpy.int64)
    points[:, :3] = at if kept is None else at[kept]
    cut = 0
    if intensity is not None:
        bright = numpy.asarray(intensity).astype(numpy.float64) * scale
        if bright.shape != (len(at),):
            raise ValueError(WANTED_INTENSITIES)
        bright = bright if kept is None else bright[kept]
        fits = numpy.clip(numpy.nan_to_num(bright, nan=0, posinf=MOST_INTENSITY, neginf=0), 0, MOST_INTENSITY)
        cut = int(numpy.count_nonzero(fits != bright))
        points[:, 3] = numpy.rint(fits)
    not_finite = len(at) - int(numpy.count_nonzero(finite))
    return Scan(points, kept, not_finite, left_out - not_finite, cut)


def plain_metres(values, intensity, scale):
    """The same without numpy."""
    points, kept, not_finite, out_of_range, cut = array.array("q"), [], 0, 0, 0
    view = buffer_of(values)
    given = list(values) if view is None else view.tolist()
    if given and not is_row(given[0]):
        given = [given]
    if intensity is not None and len(intensity) != len(given):
        raise ValueError(WANTED_INTENSITIES)
    for index, row in enumerate(given):
        if len(row) not in (3, 4):
            raise ValueError(f"corv: rows of 3 or 4 numbers are wanted, not of {len(row)}")
        at = [1000 * float(number) for number in row[:3]]
        if not all(map(math.isfinite, at)):
            not_finite += 1
            continue
        at = [round(number) for number in at]
        if max(map(abs, at)) > FARTHEST:
            out_of_range += 1
            continue
        bright = float(intensity[index] if intensity is not None else row[3] if len(row) > 3 else 0) * scale
        fits = max(0, min(bright, MOST_INTENSITY)) if bright == bright else 0
        cut += fits != bright
        points.extend((*at, round(fits)))
        kept.append(index)
    return Scan(rows(points, 4) if points else [], None if len(kept) == len(given) else kept, not_finite, out_of_range, cut)
