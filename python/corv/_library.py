"""The shared library: c/corv/map.h as ctypes has it, and refusals as exceptions."""

import ctypes
import enum
import os
from ctypes import POINTER, byref, c_bool, c_char_p, c_int32, c_int64, c_size_t, c_uint16, c_uint32, c_uint64, c_void_p
from pathlib import Path

SERIES = "0.1"  # the library's versions that have what is here


class Handle(ctypes.Structure):
    _fields_ = [("at", c_void_p), ("full", c_bool)]


class Point(ctypes.Structure):
    _fields_ = [("x", c_int64), ("y", c_int64), ("z", c_int64), ("intensity", c_uint16)]


class Hit(ctypes.Structure):
    _fields_ = [("point", Point), ("dist2_high", c_uint64), ("dist2_low", c_uint64), ("number", c_uint32)]


class Item(ctypes.Structure):
    _fields_ = [("point", Point), ("number", c_uint32), ("suspended", c_uint32)]


class Cluster(ctypes.Structure):
    _fields_ = [("number", c_uint32), ("points", c_uint32)]


class Place(ctypes.Structure):
    _fields_ = [("x", c_int64), ("y", c_int64), ("z", c_int64)]


class Region(ctypes.Structure):
    _fields_ = [("lo", Place), ("side", c_uint64), ("ball", c_uint64), ("step", c_uint64)]


class Totals(ctypes.Structure):
    _fields_ = [("updates", c_uint64), ("points", c_uint32), ("live", c_uint32), ("suspended", c_uint32)]


class Status(enum.IntEnum):
    """What a call answers."""

    DONE = 0
    NO_MEMORY = 1
    EMPTY = 2
    FULL = 3
    BAD_NUMBER = 4
    NO_ROOM = 5
    OUT_OF_RANGE = 6
    BAD_BOX = 7
    TOO_MANY_UPDATES = 8
    TOO_MANY_POINTS = 9
    NOTHING_TO_DETACH = 10
    STALE = 11
    BEHIND = 12
    NO_LINE = 13


class Error(Exception):
    """A call was refused, and everything is as it was. Where there was no memory it is MemoryError instead."""


class Closed(Error, ValueError):
    """It was closed, or what it held was taken."""


class BadNumber(Error, ValueError):
    """A number is not one that the call takes."""


class OutOfRange(Error, ValueError):
    """A number of a place is out of range."""


class BadBox(Error, ValueError):
    """A number of a box is out of range, or one of the upper corner is below that of the lower."""


class TooManyUpdates(Error, OverflowError):
    """The map has 1,048,576 updates, or its log would have more than 65,536 lines."""


class TooManyPoints(Error, OverflowError):
    """More than 4,194,304 points would have been submitted."""


class NoLine(Error, ValueError):
    """No line of a log says an update."""


CAUSES = {
    Status.EMPTY: Closed,
    Status.BAD_NUMBER: BadNumber,
    Status.OUT_OF_RANGE: OutOfRange,
    Status.BAD_BOX: BadBox,
    Status.TOO_MANY_UPDATES: TooManyUpdates,
    Status.TOO_MANY_POINTS: TooManyPoints,
    Status.NO_LINE: NoLine,
}


def check(status):
    """Raises what a status stands for."""
    if status == Status.DONE:
        return
    if status == Status.NO_MEMORY:
        raise MemoryError("corv: there was no memory")
    cause = CAUSES.get(status, Error)
    raise cause(f"corv: {cause.__doc__}" if cause is not Error else f"corv: status {status}")


def signatures():
    """The arguments of each call that the package makes, by its name. Those that free answer nothing, and the others a status."""
    handle, u32, u64, i64, size, array = POINTER(Handle), c_uint32, c_uint64, c_int64, c_size_t, c_void_p
    answer = [array, size, POINTER(c_size_t)]  # where it is written, the room there, and how much of it was written
    nearest_each = [array, size, u32, i64, array, size, *answer]
    asked = {
        "count": [array, POINTER(u32)],
        "lonely": [u64, u32, POINTER(u32), *answer],
        "clusters": [u64, u32, POINTER(u32), *answer],
        "items": [u32, *answer],
        "box_items": [array, u32, *answer],
        "ball_items": [array, u64, u32, *answer],
        "totals": [POINTER(Totals)],
    }
    return {
        **{f"{kind}_{call}": [handle, *words] for call, words in asked.items() for kind in ("map", "view")},
        **{f"{kind}_nearest_each": [handle, *nearest_each] for kind in ("map", "view", "frozen")},
        **{f"map_{call}": [handle, array, size] for call in ("add", "thin", "delete", "suspend", "restore")},
        **{"map_new": [u32, u32, handle], "map_expire": [handle, u32], "map_detach": [handle, u32, handle]},
        **{"map_log": [handle, u64, *answer, POINTER(u64)]},
        **{"region_begin": [u64, u64, u64, array, POINTER(Region)], "region_move": [POINTER(Region), array, *answer]},
        **{call: [handle, handle] for call in ("map_view", "view_copy", "job_build", "map_freeze", "view_freeze", "frozen_copy")},
        **{"view_freeze_box": [handle, array, handle], "view_renew": [handle, u32, u32, handle], "built_replay": [handle], "map_swap": [handle, handle, u32]},
        **{f"{kind}_free": [handle] for kind in ("map", "view", "frozen", "job", "built")},
    }


def name_of_library():
    """The library that CORV_LIBRARY names; or the one that pip put next to the package, or tools/install below it; or the system's."""
    here = Path(__file__).resolve()
    installed = [top / "lib/libcorv.so" for top in [*here.parents][4:5]]
    found = [str(name) for name in (here.with_name("libcorv.so"), *installed) if name.exists()]
    return os.environ.get("CORV_LIBRARY") or [*found, f"libcorv.so.{SERIES}"][0]


def load():
    """The library, and its version."""
    name = name_of_library()
    try:
        library = ctypes.CDLL(name)
        library.corv_version.restype = c_char_p
    except (OSError, AttributeError) as fault:
        raise ImportError(f"corv: the map's library isn't there: {fault}") from None
    version = library.corv_version().decode()
    if not version.startswith(f"{SERIES}."):
        raise ImportError(f"corv: this package is for version {SERIES} of the library, and {name} has {version}")
    for call, words in signatures().items():
        function = getattr(library, f"corv_{call}")
        function.argtypes, function.restype = words, None if call.endswith("_free") else c_int32
    return library, version


LIBRARY, VERSION = load()
