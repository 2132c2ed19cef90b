"""What the package makes of points: metres, arrays where numpy is there, buffers where it isn't."""

import array
import os
import subprocess
import sys
import unittest

import corv
from corv._points import numpy

from .test_map import cloud, nearest


class Metres(unittest.TestCase):
    """Metres become the nearest millimetres, and what is none is counted."""

    def test_rounding(self):
        self.assertEqual(rows(corv.metres([(0.0005, 0.0015, -0.0025), (1.2346, 0, -0.0)]).points), [[0, 2, -2, 0], [1235, 0, 0, 0]])

    def test_what_is_left_out(self):
        nan, inf = float("nan"), float("inf")
        given = [(1, 1, 1, 0.5), (nan, 0, 0, 0), (0, inf, nan, 0), (0, 0, 1.2e9, 0), (2, 2, 2, 2), (3, 3, 3, nan), (4, 4, 4, -1)]
        scan = corv.metres(given, scale=65_535)
        self.assertEqual((scan.not_finite, scan.out_of_range, scan.cut), (2, 1, 3))
        self.assertEqual([*scan.kept], [0, 4, 5, 6])
        self.assertEqual([row[3] for row in rows(scan.points)], [32_768, 65_535, 0, 0])
        self.assertIsNone(corv.metres([(1.0, 2, 3)]).kept)
        self.assertEqual(rows(corv.metres((1.0, 2, 3)).points), [[1000, 2000, 3000, 0]])
        self.assertEqual(rows(corv.metres([(1.0, 2, 3)], [7]).points), [[1000, 2000, 3000, 7]])

    def test_a_scan_is_points_and_places(self):
        map = corv.Map()
        scan = corv.metres([(1.0, 2.0, 3.0, 9.0)])
        map.thin(scan)
        self.assertEqual([*map.nearest(scan)], [[corv.Hit(0, 1000, 2000, 3000, 9, 0)]])
        two = map.nearest(corv.metres([(1.0, 2.0, 3.0, 9.0), (1.0, 2.0, 4.0, 9.0)]))
        self.assertEqual([*two.squared], [0, 1_000_000])
        map.thin(corv.metres([]))
        self.assertEqual(map.totals().updates, 2)


def rows(points):
    return [[int(number) for number in row] for row in points.tolist()]


@unittest.skipIf(numpy is None, "there is no numpy here")
class Arrays(unittest.TestCase):
    """With numpy arrays are read where they are, and answers are views."""

    def test_arrays_are_read_where_they_are(self):
        from corv._points import boxes_of, places_of, points_of

        for width, read in [(4, points_of), (3, places_of), (6, boxes_of)]:
            given = numpy.zeros((5, width), numpy.int64)
            given.flags.writeable = False
            self.assertEqual(read(given).address, given.__array_interface__["data"][0])
        crooked = numpy.frombuffer(bytearray(49), numpy.int64, 6, offset=1).reshape(2, 3)
        self.assertEqual(places_of(crooked).address % 8, 0)

    def test_other_layouts(self):
        want = [nearest([(n, *p) for n, p in enumerate(cloud(3, 50))], (0, 0, 0), 7, None)]
        whole = numpy.array(cloud(3, 50), numpy.int64)
        for given in (whole.astype("i4"), numpy.asfortranarray(whole), numpy.repeat(whole, 2, 0)[::2], whole.astype(">i8"), whole.astype("u8").astype("i8")):
            map = corv.Map()
            map.add(given)
            self.assertEqual([*map.nearest(numpy.zeros(3, "i2"), 7)], want)

    def test_views_and_dense_rows(self):
        map = corv.Map()
        map.add(numpy.arange(12).reshape(4, 3) * 1000)
        hits = map.nearest(numpy.array([[0, 1000, 2000], [9000, 10000, 11000], [50000] * 3]), 2, 6000)
        self.assertEqual(hits.counts.tolist(), [2, 2, 0])
        self.assertEqual(hits.dense(hits.numbers, 99).tolist(), [[0, 1], [3, 2], [99, 99]])
        self.assertEqual(hits.dense(hits.points).shape, (3, 2, 3))
        self.assertEqual(hits.squared.dtype, numpy.uint64)
        self.assertTrue(numpy.shares_memory(hits.points, hits._memory) and numpy.shares_memory(hits.numbers, hits._memory))
        hits = map.nearest([[0, 0, 0]] * 3, 2, out=hits)
        self.assertTrue(numpy.shares_memory(hits.dense(hits.numbers), hits.numbers))

    def test_structured_arrays(self):
        cloud = numpy.array([(1, 2, 0.5, 3), (4, 5, 0, 6)], [("x", "f4"), ("y", "f4"), ("intensity", "f4"), ("z", "f8")])
        self.assertEqual(rows(corv.metres(cloud, scale=100).points), [[1000, 2000, 3000, 50], [4000, 5000, 6000, 0]])

    def test_unsigned_numbers_that_are_too_great(self):
        with self.assertRaises(corv.OutOfRange):
            corv.Map().add(numpy.array([[1 << 63, 0, 0]], numpy.uint64))

    def test_without_numpy(self):
        hide = "import sys; sys.modules['numpy'] = None; import unittest; unittest.main('corv.tests', argv=['corv', '-q'])"
        path = os.pathsep.join(sys.path)
        done = subprocess.run([sys.executable, "-c", hide], capture_output=True, text=True, env={**os.environ, "PYTHONPATH": path})
        self.assertEqual(done.returncode, 0, done.stderr)


@unittest.skipIf(numpy is not None, "there is numpy here")
class Plain(unittest.TestCase):
    """Without numpy buffers of 64-bit numbers are read where they are."""

    def test_buffers(self):
        from corv._points import places_of

        flat = array.array("q", [1, 2, 3, 4, 5, 6])
        self.assertEqual(places_of(corv.rows(flat, 3)).address, flat.buffer_info()[0])
        map = corv.Map()
        map.add(corv.rows(flat, 3))
        map.add(corv.rows(bytes(64), 4))
        crooked = corv.rows(memoryview(bytearray(49))[1:], 3)
        self.assertEqual((places_of(crooked).address % 8, places_of(crooked).count), (0, 2))
        narrow = memoryview(array.array("i", [1, 2, 3, 4, 5, 6])).cast("B").cast("i", (2, 3))
        self.assertEqual([*places_of(narrow).keep], [1, 2, 3, 4, 5, 6])
        hits = map.nearest([(0, 0, 0)], 2)
        self.assertEqual((hits.points, hits.numbers.tolist()), ([(0, 0, 0), (0, 0, 0)], [2, 3]))
        self.assertEqual(map.count(corv.rows(flat, 6)), 1)
        map.delete(corv.rows(array.array("q", [1, 2, 3, 2, 3, 4, 0, 0, 0, 1, 1, 1]), 6))
        self.assertEqual([item.number for item in map.items()], [1])

    def test_metres_of_buffers(self):
        floats = memoryview(array.array("d", [1, 2, 3, 4, 5, 6])).cast("B").cast("d", (2, 3))
        self.assertEqual(rows(corv.metres(floats).points), [[1000, 2000, 3000, 0], [4000, 5000, 6000, 0]])

    def test_dense_rows_need_numpy(self):
        hits = corv.Map().nearest([])
        with self.assertRaises(RuntimeError):
            hits.dense(hits.numbers)
