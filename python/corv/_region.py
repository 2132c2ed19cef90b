"""The region that moves with a robot."""

import ctypes

from . import _library
from ._library import LIBRARY, byref, check
from ._points import one_place, unsigned


class Region:
    """A region that moves with a robot: a cube from whose faces a ball round the robot stays clear.

    It begins with the place in its middle. The side is from 2 to 2,199,023,255,552 mm, twice the ball is below it, and the step, by which
    it moves, is from 1 to the side. A value, that may be copied.
    """

    def __init__(self, side, ball, step, place):
        numbers = (unsigned(side, 64, "a side"), unsigned(ball, 64, "a ball"), unsigned(step, 64, "a step"))
        self._region = _library.Region()
        check(LIBRARY.corv_region_begin(*numbers, one_place(place), byref(self._region)))

    def move(self, place):
        """Moves to the place, and returns the boxes that the region left behind, three at most, for `delete`: rows of two corners."""
        boxes, found = (ctypes.c_int64 * 18)(), ctypes.c_size_t()
        check(LIBRARY.corv_region_move(byref(self._region), one_place(place), boxes, 3, byref(found)))
        return [(tuple(boxes[at : at + 3]), tuple(boxes[at + 3 : at + 6])) for at in range(0, 6 * found.value, 6)]

    @property
    def box(self):
        """The region as a box, whose corners may lie where no place does."""
        lo, side = (self._region.lo.x, self._region.lo.y, self._region.lo.z), self._region.side
        return lo, tuple(at + side for at in lo)

    def __copy__(self):
        other = Region.__new__(Region)
        other._region = _library.Region.from_buffer_copy(self._region)
        return other
