"""The map and its views, and its subtrees that are rebuilt while it goes on."""

import ctypes
import enum
import threading
import weakref
from collections import namedtuple
from concurrent.futures import ThreadPoolExecutor

from . import _library
from ._answers import Cluster, Clusters, Found, Hits, Items
from ._library import LIBRARY, Handle, Status, byref, check
from ._points import boxes_of, one_box, one_place, places_of, points_of, unsigned

Totals = namedtuple("Totals", "updates points live suspended")
Totals.__doc__ = "How many updates were made, how many points they submitted, and how many of those are live and how many suspended."


Log = namedtuple("Log", "text next")
Log.__doc__ = "Lines of a log, as bytes, and the first update that they don't say."


class Swapped(enum.Enum):
    """How a swap went: it is done; or more is left to be replayed first; or the subtree's place is there no more."""

    DONE = Status.DONE
    STALE = Status.STALE
    BEHIND = Status.BEHIND


class Owner:
    """A handle where it stays, from its zeros to its release. It takes one call at a time, and is never copied."""

    _kind = None

    def __init__(self):
        handle = self._handle = Handle()
        # Its own thread may come back to it, from a handler of a signal: never within a call.
        self._lock = threading.RLock()
        self._release = weakref.finalize(self, getattr(LIBRARY, f"corv_{self._kind}_free"), handle)
        self._release.atexit = False

    def _call(self, call, *words):
        """Makes a call, and raises why it is refused."""
        with self._lock:
            check(getattr(LIBRARY, f"corv_{self._kind}_{call}")(self._handle, *words))

    def close(self):
        """Lets go of what it holds. What is called after it is refused as Closed."""
        with self._lock:
            getattr(LIBRARY, f"corv_{self._kind}_free")(self._handle)

    def __enter__(self):
        return self

    def __exit__(self, *fault):
        self.close()

    def __reduce__(self):
        raise TypeError(f"corv: a {type(self).__name__} can't be copied")


class Searched(Owner):
    """A map, a view or a frozen index, searched for the nearest points."""

    def nearest(self, places, k=1, within=None, *, threads=1, out=None):
        """The k nearest live points to each place, from 1 to 256, or all where there are fewer; at most `within` millimetres away.

        By distance, then by x, y and z, then by number. `out` is an answer whose memory is used again.
        """
        given, hits = places_of(places), Hits() if out is None else out
        k, within = unsigned(k, 32, "k"), -1 if within is None else unsigned(within, 63, "a distance")
        with hits._lock:
            hits._reserve(given.count, min(k, 256))
            parts = min(threads, -(-given.count // 64))
            if parts > 1:
                found = self._nearest_in_parts(given, k, within, parts, hits)
            else:
                found = self._nearest(given, 0, given.count, k, within, hits)
            hits._found, hits._asked = found, given.count
        return hits

    def _nearest(self, given, first, count, k, within, hits):
        """Has the hits of `count` places from the first on written where they have room in any case, and returns how many."""
        found = ctypes.c_size_t()
        at = hits._address + ctypes.sizeof(hits.kind) * first * min(k, 256)
        room = (max(1, count * min(k, 256)), hits._counts_address + 4 * first, max(1, count), byref(found))
        self._call("nearest_each", given.address + 24 * first, count, k, within, at, *room)
        return found.value

    def _nearest_in_parts(self, given, k, within, parts, hits):
        """The same of all places on several threads, each with a view of its own, all of one version; then the parts are moved together."""
        firsts = [given.count * part // parts for part in range(parts + 1)]

        def ask(part):
            with views[part] as view:
                return view._nearest(given, firsts[part], firsts[part + 1] - firsts[part], k, within, hits)

        with self._lock:
            views = [self._another() for _ in range(parts)]
        with ThreadPoolExecutor(parts - 1) as pool:
            others = [pool.submit(ask, part) for part in range(1, parts)]
            found = [ask(0), *(other.result() for other in others)]
        end, size = found[0], ctypes.sizeof(hits.kind)
        for first, count in zip(firsts[1:], found[1:]):
            if end != first * k:
                ctypes.memmove(hits._address + end * size, hits._address + first * k * size, count * size)
            end += count
        return end


class Asked(Searched):
    """What else is asked of a map and of a view."""

    def freeze(self):
        """What is live in it now, to be asked many times: each place is found sooner, with the same answer. It follows no update."""
        frozen = Frozen()
        self._call("freeze", frozen._handle)
        return frozen

    def count(self, box):
        """How many live points are in a box: its lowest corner, and the one behind its highest."""
        live = ctypes.c_uint32()
        self._call("count", one_box(box), byref(live))
        return live.value

    def items(self, start=0, most=None):
        """All points, live and suspended, under the numbers from this one on, by number; the first `most`, where that is given."""
        with self._lock:
            held = self.totals()
            return self._list("items", held.live + held.suspended, most, unsigned(start, 32, "a number"))

    def inside(self, box, start=0, most=None):
        """The same of the live points in a box."""
        given = one_box(box)
        with self._lock:
            return self._list("box_items", self.count(box), most, given, unsigned(start, 32, "a number"))

    def ball(self, place, radius, start=0, most=None):
        """The same of the live points at most `radius` millimetres from a place."""
        given, radius, start = one_place(place), unsigned(radius, 64, "a radius"), unsigned(start, 32, "a number")
        with self._lock:
            # How many there are isn't known before: room for few is tried first, and for all that is live where they fill it.
            few = self._list("ball_items", 1024, most, given, radius, start)
            if len(few) < 1024 or most is not None and most <= 1024:
                return few
            return self._list("ball_items", self.totals().live, most, given, radius, start)

    def _list(self, call, room, most, *words):
        """Makes a call that writes items, of which there are `room` at most, or as many as are wanted."""
        room = room if most is None else min(room, unsigned(most, 32, "most"))
        items, found = Items(room), ctypes.c_size_t()
        self._call(call, *words, items._address, room, byref(found))
        items._found = found.value
        return items

    def lonely(self, radius, most=256):
        """How many live points have no other live one within `radius` mm, and the first `most` of them by number, from 1 to 256."""
        return self._found("lonely", Items(256), radius, most)

    def clusters(self, radius, most=256):
        """How many clusters there are of live points, by steps of at most `radius` millimetres, and the first `most` of them by their
        least numbers, from 1 to 256."""
        count, clusters = self._found("clusters", Clusters(), radius, most)
        return Found(count, [Cluster(cluster.number, cluster.points) for cluster in clusters._memory[: clusters._found]])

    def _found(self, call, answer, radius, most):
        """Makes a call that says how many there are, and writes the first of them where there is room for 256."""
        count, found = ctypes.c_uint32(), ctypes.c_size_t()
        self._call(call, unsigned(radius, 64, "a radius"), unsigned(most, 32, "most"), byref(count), answer._address, 256, byref(found))
        answer._found = found.value
        return Found(count.value, answer)

    def totals(self):
        """How many updates were made, and how many points are there."""
        totals = _library.Totals()
        self._call("totals", byref(totals))
        return Totals(totals.updates, totals.points, totals.live, totals.suspended)

    def __len__(self):
        return self.totals().live


class Frozen(Searched):
    """The live points of a map or a view as they were when it was made. It takes 32 bytes a point, and as much again while it is made."""

    _kind = "frozen"

    def copy(self):
        """Another owner of the same points, for another thread."""
        other = Frozen()
        self._call("copy", other._handle)
        return other

    _another = copy


class View(Asked):
    """A map as it was when the view was made, for a thread that asks while the map goes on."""

    _kind = "view"

    def freeze(self, box=None):
        """The same, or that for places in a box, of which alone the points are laid. It keeps the view, and asks it where a nearer one may
        lie outside."""
        if box is None:
            return super().freeze()
        frozen = Frozen()
        self._call("freeze_box", one_box(box), frozen._handle)
        return frozen

    def copy(self):
        """Another view of the same, for another thread."""
        other = View()
        self._call("copy", other._handle)
        return other

    _another = copy

    def renew(self, voxel=500, large=1_000_000):
        """Makes a map of the view's points, to go on with where a map comes to its limits. In any thread.

        It has new numbers: the suspended points have those from 0 on, and behind them come the live ones, each kind in its order.
        """
        map = Map.__new__(Map)
        Owner.__init__(map)
        self._call("renew", unsigned(voxel, 32, "an edge"), unsigned(large, 32, "large"), map._handle)
        return map


class Map(Asked):
    """A map. It has no points at first; of the points that are thinned one stays in each voxel.

    Voxels have edges of 1 to 1,000,000 mm. Subtrees of `large` nodes or more, 16 to 1,000,000, are rebuilt by a Rebuilder, if there is
    one, and by updates only where the tree comes to its bounds. Without a Rebuilder take 1,000,000, or questions get slower.
    """

    _kind = "map"

    def __init__(self, voxel=500, large=1_000_000):
        super().__init__()
        check(LIBRARY.corv_map_new(unsigned(voxel, 32, "an edge"), unsigned(large, 32, "large"), self._handle))

    def add(self, points):
        """Each point is put in, live, under the next number."""
        self._update("add", points_of(points))

    def thin(self, points):
        """Each point takes the next number, and of its voxel's live points the one nearest to the centre stays."""
        self._update("thin", points_of(points))

    def delete(self, boxes):
        """What is live or suspended in the boxes is dropped for good."""
        self._update("delete", boxes_of(boxes))

    def suspend(self, boxes):
        """What is live in the boxes is hidden."""
        self._update("suspend", boxes_of(boxes))

    def restore(self, boxes):
        """What is suspended in the boxes is live again."""
        self._update("restore", boxes_of(boxes))

    def expire(self, number):
        """What has a number below this one is dropped for good."""
        self._call("expire", unsigned(number, 32, "a number"))

    def _update(self, call, given):
        self._call(call, given, given.count)

    def log(self, start=0):
        """The lines of a log, as bytes, that say the updates from this one on, counted from 0; and the first update that they don't say.

        Logs that begin where the one before ended are one log. It has 65,536 lines at most: the update that would be behind these is refused
        where a log begins with it, as TooManyUpdates, and otherwise the log ends before it.
        """
        parts, room, first = [], 1 << 16, unsigned(start, 64, "an update")
        with self._lock:
            while True:
                text, found, upto = ctypes.create_string_buffer(room), ctypes.c_size_t(), ctypes.c_uint64()
                status = LIBRARY.corv_map_log(self._handle, first, text, room, byref(found), byref(upto))
                if status == Status.NO_ROOM:
                    room *= 2
                    continue
                if status not in (Status.NO_LINE, Status.TOO_MANY_UPDATES) or first == start:
                    check(status)
                if status != Status.DONE or upto.value == first:
                    return Log(b"".join(parts), first)
                parts.append(text.raw[: found.value])
                first = upto.value

    def view(self):
        """A view of the map as it is now."""
        view = View()
        self._call("view", view._handle)
        return view

    _another = view

    def detach(self, slot=1):
        """Hands out a large subtree that is to be rebuilt, under a slot from 1 to 4; None where there is none."""
        job = Job()
        with self._lock:
            status = LIBRARY.corv_map_detach(self._handle, unsigned(slot, 32, "a slot"), job._handle)
        if status == Status.NOTHING_TO_DETACH:
            return None
        check(status)
        return job

    def swap(self, built, force=False):
        """Puts a built subtree in its place. Where it is behind, by more than 64 operations and not forced, it is to be replayed."""
        with self._lock, built._lock:
            status = LIBRARY.corv_map_swap(self._handle, built._handle, bool(force))
        if status not in (Status.STALE, Status.BEHIND):
            check(status)
        return Swapped(status)


class Job(Owner):
    """A subtree that is given out, to be rebuilt."""

    _kind = "job"

    def build(self):
        """Builds it, in any thread, and leaves the job empty."""
        built = Built()
        self._call("build", built._handle)
        return built


class Built(Owner):
    """A subtree, rebuilt, to be swapped in."""

    _kind = "built"

    def replay(self):
        """Does the operations that the last swap, which was behind, handed it, in any thread."""
        self._call("replay")
