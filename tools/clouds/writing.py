"""Points of a map written as PCD and PLY files, in metres from an origin.

Points come in pieces, each an array of four numbers a point, in millimetres, and the intensity.
"""

import itertools
import struct

from .origin import NONE, spelled

# From so many millimetres on, two neighbouring ones may have the same nearest number of 32 bits.
SHORT_LIMIT = 16_384_000


def origin_for(pieces):
    """An origin from which 32 bits keep every millimetre of the points, where there is one.

    On each axis it is 0 where that will do, else the whole metre nearest to the middle.
    """
    spans = zip(*extents(pieces))
    return tuple(0 if fits(low, high, 0) else round((low + high) / 2000) for low, high in spans)


def fits(low, high, zero):
    """Tells whether 32 bits keep every millimetre from low to high, counted from this many metres."""
    return -SHORT_LIMIT < low - 1000 * zero and high - 1000 * zero < SHORT_LIMIT


def extents(pieces):
    """The least and the greatest coordinates of points; those of the origin where there are none."""
    found = [([min(piece[axis::4]) for axis in range(3)], [max(piece[axis::4]) for axis in range(3)]) for piece in pieces]
    if not found:
        return NONE, NONE
    least, greatest = zip(*found)
    return [*map(min, zip(*least))], [*map(max, zip(*greatest))]


def lost(piece, origin):
    """How many points of a piece lose their millimetre in 32 bits for each number."""
    lost_points = set()
    for axis, zero in enumerate(origin):
        if fits(min(piece[axis::4]), max(piece[axis::4]), zero):
            continue
        due = [at - 1000 * zero for at in piece[axis::4]]
        shape = struct.Struct(f"<{len(due)}f")
        told = shape.unpack(shape.pack(*(at / 1000 for at in due)))
        lost_points.update(row for row, (at, metres) in enumerate(zip(due, told)) if round(1000 * metres) != at)
    return len(lost_points)


def pcd(count, binary, wide, origin):
    """The header of a PCD file of this many points, whose coordinates have 64 bits where it is to be wide, else 32."""
    size = 8 if wide else 4
    comment = "" if origin == NONE else f"# {spelled(origin)}\n"
    return f"""# .PCD v0.7 - Point Cloud Data file format
{comment}VERSION 0.7
FIELDS x y z intensity
SIZE {size} {size} {size} 4
TYPE F F F F
COUNT 1 1 1 1
WIDTH {count}
HEIGHT 1
VIEWPOINT 0 0 0 1 0 0 0
POINTS {count}
DATA {"binary" if binary else "ascii"}
"""


def ply(count, binary, wide, origin):
    """The header of a PLY file, in the same way."""
    kind = "double" if wide else "float"
    comment = "" if origin == NONE else f"comment {spelled(origin)}\n"
    return f"""ply
format {"binary_little_endian" if binary else "ascii"} 1.0
{comment}element vertex {count}
property {kind} x
property {kind} y
property {kind} z
property float intensity
end_header
"""


def rows(piece, binary, wide, origin):
    """A row for each point of a piece: its place and its intensity, in bytes or in a line of text."""
    metres = [[(at - 1000 * zero) / 1000 for at in piece[axis::4]] for axis, zero in enumerate(origin)]
    table = zip(*metres, piece[3::4])
    if binary:
        return b"".join(itertools.starmap(struct.Struct("<dddf" if wide else "<ffff").pack, table))
    return "".join(map("%.3f %.3f %.3f %d\n".__mod__, table))
