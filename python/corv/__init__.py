"""A robot's point map that is proved, in whole millimetres.

    import corv

    map = corv.Map(voxel=500)                          # one point stays in each voxel of half a metre
    map.thin(corv.metres(cloud))                       # an (n, 3) or (n, 4) array of floats, in metres
    hits = map.nearest([[0, 0, 0]], k=5, within=2000)  # the 5 nearest within 2 metres
    hits.numbers, hits.points, hits.squared            # arrays: one place's hits behind the other's
    map.items().points                                 # all its points

Points are rows x, y, z or x, y, z, intensity of whole numbers, places are rows x, y, z, and boxes rows of the lowest corner and
the one behind the highest. With numpy they are arrays, and those of 64-bit numbers are read where they are; without it they are
sequences of rows, or two-dimensional memoryviews.

`large` changes speed alone: with a Rebuilder take 1500, and without one 1_000_000, which is the default.

Calls let other threads of Python run. A map, view or frozen index takes one call at a time, and others wait; so each thread that asks
has a view of its own, by `view.copy()`, or an index, by `frozen.copy()`. What a process had before a fork isn't to be called after it, in the child.
"""

from ._library import VERSION as __version__
from ._library import BadBox, BadNumber, Closed, Error, NoLine, OutOfRange, TooManyPoints, TooManyUpdates
from ._beside import Rebuilder, Recorder
from ._map import Built, Frozen, Job, Log, Map, Swapped, Totals, View
from ._points import FARTHEST, Scan, metres, rows
from ._region import Region
from ._answers import Cluster, Found, Hit, Hits, Item, Items

__all__ = [
    *("Map", "View", "Frozen", "Job", "Built", "Rebuilder", "Swapped", "Totals", "Hits", "Hit", "Items", "Item", "Found", "Cluster", "Region", "Log", "Recorder"),
    *("metres", "rows", "Scan", "FARTHEST"),
    *("Error", "Closed", "BadNumber", "BadBox", "OutOfRange", "TooManyPoints", "TooManyUpdates", "NoLine", "__version__"),
]
