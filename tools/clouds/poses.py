"""Where the scanner was: poses of KITTI's form and of TUM's, and KITTI's file of where the scanner is on its car."""

import math
from itertools import combinations
from operator import mul
from typing import NamedTuple

from .columns import CloudFault

# How far from 1 the length of a direction may be, and how far from 0 the product of two at right angles.
THOUSANDTH = 0.001


class Pose(NamedTuple):
    """How a place is moved: three rows of a rotation, each with the length to add, in metres."""

    x: tuple[float, float, float, float]
    y: tuple[float, float, float, float]
    z: tuple[float, float, float, float]

    def moved(self, x, y, z):
        """Where a place comes to."""
        return tuple(row[0] * x + row[1] * y + row[2] * z + row[3] for row in self)

    def after(self, first):
        """Moves by another one first."""
        # A column of a rotation is a direction, to which no length is added.
        columns = [(*column, last) for column, last in zip(zip(*first), (0, 0, 0, 1))]
        return Pose(*(tuple(sum(map(mul, row, column)) for column in columns) for row in self))


def read_poses(content, form):
    """The poses of a file, one a line: of a form, or of that whose count of numbers the first one has where none is given.

    Empty lines and those that begin with # are left out.
    """
    lines = [(number, line.split()) for number, line in enumerate(content.split(b"\n"), 1)]
    lines = [(number, fields) for number, fields in lines if fields and not fields[0].startswith(b"#")]
    if form is None:
        form = "tum" if lines and len(lines[0][1]) == 8 else "kitti"
    count, read = POSES[form]
    return [read(number, numbers_in(number, fields, count)) for number, fields in lines]


def read_calibration(content):
    """What takes a place from the scanner to the camera, whose poses KITTI has: the line `Tr:` of a file `calib.txt`."""
    for number, line in enumerate(content.split(b"\n"), 1):
        if line.startswith(b"Tr:"):
            return by_rows(number, numbers_in(number, line.split()[1:], 12))
    raise CloudFault("there is no line Tr:")


def numbers_in(number, fields, count):
    """The numbers of a line, of which there have to be `count`."""
    if len(fields) != count:
        raise CloudFault(f"line {number}: {len(fields)} numbers where a pose has {count}")
    try:
        numbers = list(map(float, fields))
    except ValueError as fault:
        raise CloudFault(f"line {number}: {fault}") from None
    if not all(map(math.isfinite, numbers)):
        raise CloudFault(f"line {number}: a number is not finite")
    return numbers


def by_rows(number, numbers):
    """The pose of a line in KITTI's form: twelve numbers, row by row."""
    pose = Pose(*(tuple(numbers[at : at + 4]) for at in (0, 4, 8)))
    rows = [row[:3] for row in pose]
    (a, b, c), (d, e, f), (g, h, i) = rows
    for row in rows:
        if abs(math.hypot(*row) - 1) > THOUSANDTH:
            raise CloudFault(f"line {number}: it is no rotation: a row has the length {math.hypot(*row):.6g}")
    if any(abs(sum(map(mul, one, two))) > THOUSANDTH for one, two in combinations(rows, 2)):
        raise CloudFault(f"line {number}: it is no rotation: two rows are not at right angles")
    if a * (e * i - f * h) + b * (f * g - d * i) + c * (d * h - e * g) < 0:
        raise CloudFault(f"line {number}: it is no rotation: it takes right to left")
    return pose


def by_quaternion(number, numbers):
    """The pose of a line in TUM's form: the time, which is not looked at, the place, and the rotation as a quaternion."""
    _, *place, x, y, z, w = numbers
    length = math.hypot(x, y, z, w)
    if abs(length - 1) > THOUSANDTH:
        raise CloudFault(f"line {number}: it is no rotation: its quaternion has the length {length:.6g}")
    x, y, z, w = (part / length for part in (x, y, z, w))
    rows = [
        (1 - 2 * (y * y + z * z), 2 * (x * y - z * w), 2 * (x * z + y * w)),
        (2 * (x * y + z * w), 1 - 2 * (x * x + z * z), 2 * (y * z - x * w)),
        (2 * (x * z - y * w), 2 * (y * z + x * w), 1 - 2 * (x * x + y * y)),
    ]
    return Pose(*((*row, at) for row, at in zip(rows, place)))


# How many numbers a line of a form has, and how they are read.
POSES = {"kitti": (12, by_rows), "tum": (8, by_quaternion)}
