"""What goes with a map, from scan to scan: a thread that rebuilds, and a file that records."""

from concurrent.futures import ThreadPoolExecutor

from ._map import Swapped


class Rebuilder:
    """Rebuilds large subtrees of a map that got unbalanced, on a thread of its own: `step()` before and after each update puts in
    place what was built.

    It changes how fast the map answers, and never what.
    """

    def __init__(self, map):
        self._map, self._pool, self._doing, self.swapped = map, ThreadPoolExecutor(1), None, 0

    def step(self):
        """Never waits for the thread. What was refused there, for lack of memory, is raised here, and begun again by the next step."""
        if self._doing is None:
            job = self._map.detach()
            self._doing = job and self._pool.submit(job.build)
        elif self._doing.done():
            done, self._doing = self._doing, None
            built = done.result()
            how = self._map.swap(built)
            self.swapped += how is Swapped.DONE
            if how is Swapped.BEHIND:
                self._doing = self._pool.submit(replayed, built)

    def close(self):
        """Ends the thread."""
        self._pool.shutdown()

    def __enter__(self):
        return self

    def __exit__(self, *fault):
        self.close()


def replayed(built):
    """Replays a built subtree, and hands it back."""
    built.replay()
    return built


class Recorder:
    """Writes what happens to a map to a file that is open for bytes, as a log: by `record(map)` after each scan.

    Replayed, the log leads to the map as it was when it was last recorded. It has 65,536 lines at most; what would be behind these is
    refused as TooManyUpdates, and so it is time to renew the map, and to record the new one with a recorder of its own.
    """

    def __init__(self, file):
        self._file, self._failed, self.recorded = file, False, 0

    def record(self, map):
        """Writes what was done to the map since it was last recorded, in whole lines, and flushes the file.

        Where the file fails, so does each later call: it isn't known what of the last lines was written.
        """
        if self._failed:
            raise OSError("corv: the recorder's file has failed")
        text, recorded = map.log(self.recorded)
        self._failed = True
        written = self._file.write(text)
        if written is not None and written < len(text):
            raise OSError("corv: the recorder's file took a part of what was written")
        self._file.flush()
        self._failed, self.recorded = False, recorded
