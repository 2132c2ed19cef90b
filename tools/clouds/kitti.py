"""KITTI's scans."""

import struct

from .columns import CloudFault
from .origin import counted_from


def read_bin(content, _intensity, origin):
    """The points of a scan, as x, y, z and the reflectance, counted from an origin: four numbers of 32 bits each, and no more."""
    if len(content) % 16:
        raise CloudFault(f"byte {len(content) // 16 * 16}: {len(content) % 16} bytes where a point has 16")
    return counted_from(origin, struct.iter_unpack("<4f", content))
