"""The origin that a cloud's coordinates are counted from, in whole metres, as a comment in its header has it."""

import re

from .columns import CloudFault

NONE = (0, 0, 0)
# No point of a log is farther out, in metres.
FARTHEST = 1_099_511_628
COMMENT = re.compile(rb"(?:#|comment) cloud_from: origin (0|-?[1-9]\d{0,9}) (0|-?[1-9]\d{0,9}) (0|-?[1-9]\d{0,9}) metres")
BEGIN = (b"# cloud_from:", b"comment cloud_from:")


def whole_metres(text):
    """Reads one of an origin's coordinates."""
    if abs(int(text)) > FARTHEST:
        raise ValueError("no point is so far out")
    return int(text)


def spelled(origin):
    """What the comment says."""
    return "cloud_from: origin %d %d %d metres" % origin


def origin_in(header, default):
    """The origin in a comment of a header, or this one where there is none."""
    for number, line in enumerate(header.split(b"\n"), 1):
        line = line.rstrip()
        if line.startswith(BEGIN):
            found = COMMENT.fullmatch(line)
            if not found:
                raise CloudFault(f"line {number}: it is no origin as cloud_from writes it")
            return tuple(map(int, found.groups()))
    return default


def counted_from(origin, points):
    """Points whose coordinates are counted from an origin, as they are."""
    if origin == NONE:
        return points
    east, north, up = origin
    return ((x + east, y + north, z + up, intensity) for x, y, z, intensity in points)
