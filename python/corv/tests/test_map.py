"""The package beside a plain list of points, with numpy where it is there and without it.

    python3 -m unittest corv.tests -q
"""

import array
import copy
import io
import pickle
import random
import threading
import time
import unittest

import corv

ALL = [[-corv.FARTHEST] * 3, [corv.FARTHEST + 1] * 3]

def live(points):
    """Points as items, none suspended."""
    return [corv.Item(*point, False) for point in points]

def cloud(seed, count, far=20_000):
    draw = random.Random(seed)
    return [(*(draw.randint(-far, far) for _ in range(3)), draw.randint(0, 65_535)) for _ in range(count)]

def nearest(points, place, k, within):
    """What a plain list answers: points are (number, x, y, z, intensity)."""
    found = [(sum((a - b) ** 2 for a, b in zip(point[1:4], place)), point[1:4], point[0], point) for point in points]
    found = sorted(hit for hit in found if within is None or hit[0] <= within**2)
    return [corv.Hit(*point, squared) for squared, _, _, point in found[:k]]

class Answers(unittest.TestCase):
    """What a map answers is what a list does."""

    def setUp(self):
        self.map = corv.Map(voxel=500)
        self.cloud = cloud(1, 400)
        self.map.add(self.cloud)
        self.points = [(number, *point) for number, point in enumerate(self.cloud)]

    def test_the_nearest(self):
        places = [point[:3] for point in cloud(2, 130, 25_000)]
        for k, within in [(1, None), (5, 2_000), (5, 6_000), (300, None), (2, 0)]:
            if k > 256:
                with self.assertRaises(corv.BadNumber):
                    self.map.nearest(places, k, within)
                continue
            want = [nearest(self.points, place, k, within) for place in places]
            for threads in (1, 3):
                hits = self.map.nearest(places, k, within, threads=threads)
                self.assertEqual([*hits], want)
                self.assertEqual([*hits.counts], [*map(len, want)])

    def test_threads_ask_views_of_their_own(self):
        made, view = [], self.map.view()
        view._another = lambda: made.append((threading.get_ident(), view._lock._is_owned())) or view.copy()
        for threads, places, count in [(1, 500, 0), (3, 500, 3), (3, 65, 2), (3, 64, 0), (0, 500, 0)]:
            made.clear()
            view.nearest([(0, 0, 0)] * places, 2, threads=threads)
            self.assertEqual(made, [(threading.get_ident(), True)] * count)

    def test_a_frozen_index_is_asked_in_the_view_s_place(self):
        self.map.suspend([[[-9_000] * 3, [5_000] * 3]])
        places = [point[:3] for point in cloud(3, 130, 25_000)]
        with self.map.view() as view:
            frozen, of_box = view.freeze(), view.freeze([[-8_000] * 3, [9_000] * 3])
            want = [*view.nearest(places, 5, 6_000)]
            with self.assertRaises(corv.BadBox):
                view.freeze([[0] * 3, [-1] * 3])
        self.map.delete([ALL])
        self.assertEqual([*self.map.freeze().nearest(places, 5)], [[]] * len(places))
        other = frozen.copy()
        frozen.close()
        for threads in (1, 3):
            for index in (other, of_box):
                self.assertEqual([*index.nearest(places, 5, 6_000, threads=threads)], want)
        with self.assertRaises(corv.Closed):
            frozen.nearest(places)

    def test_hits_are_used_again(self):
        hits = self.map.nearest([(0, 0, 0)] * 50, 8)
        address = hits._address
        self.map.nearest([(9, 0, 0)] * 50, 8, out=hits)
        self.assertEqual(hits._address, address)
        again = self.map.nearest([(5, 0, 0)] * 3, 2, out=hits)
        self.assertIs(again, hits)
        self.assertEqual((hits._address, len(hits)), (address, 3))
        self.assertEqual([*hits], [nearest(self.points, (5, 0, 0), 2, None)] * 3)
        hits = self.map.nearest([(0, 0, 0)], 200)
        self.map.nearest([(5, 0, 0)] * 100, 1, out=hits)
        self.assertEqual([*hits], [nearest(self.points, (5, 0, 0), 1, None)] * 100)

    def test_boxes(self):
        box = [[-9_000, -9_000, -9_000], [5_000, 20_000, 5_000]]
        inside = [point for point in self.points if all(lo <= at < hi for lo, hi, at in zip(*box, point[1:4]))]
        self.assertEqual(self.map.count(box), len(inside))
        self.assertEqual([*self.map.inside(box, most=20)], live(inside[:20]))
        self.assertEqual([*self.map.inside(box)], live(inside))
        self.assertEqual([*self.map.view().inside(box, inside[5][0], 9)], live(inside[5:14]))
        self.map.suspend([box])
        self.assertEqual((self.map.totals().suspended, self.map.count(ALL)), (len(inside), 400 - len(inside)))
        items = [corv.Item(*point, point in inside) for point in self.points]
        for held in (self.map, self.map.view()):
            self.assertEqual([*held.items()], items)
            self.assertEqual([*held.items(100, 7)], items[100:107])
            self.assertEqual([held.items()[at] for at in (0, -1)], [items[0], items[-1]])
            for at in (400, -401):
                with self.assertRaises(IndexError):
                    held.items()[at]
            self.assertEqual((len(held.items(most=0)), len(held.items(400))), (0, 0))
        self.map.restore([ALL])
        self.map.delete([[*box[0], *box[1]]])
        self.map.expire(100)
        left = [point for point in self.points if point not in inside and point[0] >= 100]
        self.assertEqual([*self.map.inside(ALL)], live(left))
        self.assertEqual(len(self.map), len(left))

    def test_balls(self):
        for radius in (0, 3_000, 12_000, 1 << 42):
            within = [point for point in self.points if sum(at**2 for at in point[1:4]) <= radius**2]
            self.assertEqual([*self.map.ball((0, 0, 0), radius)], live(within))
            self.assertEqual([*self.map.view().ball((0, 0, 0), radius, 100, 3)], live([point for point in within if point[0] >= 100][:3]))
        many = corv.Map()
        many.add([(at, 0, 0) for at in range(3000)])
        for most, count in [(None, 2501), (1024, 1024), (1025, 1025), (2600, 2501)]:
            self.assertEqual([*many.ball((0, 0, 0), 2500, most=most).numbers], [*range(count)])

    def test_neighbours(self):
        lone = corv.Map()
        lone.add([(0, 0, 0), (5, 0, 0), (100, 0, 0), (104, 0, 0), (108, 0, 0), (1000, 0, 0), (2000, 0, 0)])
        for held in (lone, lone.view()):
            count, first = held.lonely(5)
            self.assertEqual((count, [*first.numbers]), (2, [5, 6]))
            self.assertEqual((held.lonely(5, 1).count, len(held.lonely(5, 1).first)), (2, 1))
            self.assertEqual(held.clusters(5), (4, [(0, 2), (2, 3), (5, 1), (6, 1)]))
            self.assertEqual(held.clusters(5, 2), corv.Found(4, [corv.Cluster(0, 2), corv.Cluster(2, 3)]))

    def test_a_region_moves(self):
        region = corv.Region(side=1_000, ball=100, step=300, place=(0, 0, 0))
        self.assertEqual(region.box, ((-500,) * 3, (500,) * 3))
        other = copy.copy(region)
        self.assertEqual(region.move((0, 0, 0)), [])
        left = region.move((450, 0, 0))
        self.assertEqual(left, [((-500, -500, -500), (-200, 500, 500))])
        self.assertEqual((region.box, other.box), (((-200, -500, -500), (800, 500, 500)), ((-500,) * 3, (500,) * 3)))
        map = corv.Map()
        map.add([(-300, 0, 0), (0, 0, 0)])
        map.delete(left)
        self.assertEqual([*map.items().numbers], [1])

    def test_a_renewed_map_holds_the_same(self):
        self.map.suspend([[[-9_000] * 3, [5_000] * 3]])
        with self.map.view() as view:
            again = view.renew(voxel=300)
        before, after = self.map.totals(), again.totals()
        self.assertEqual(after[2:], before[2:])
        self.assertLess(after.updates, 40)
        in_order = sorted(self.map.items(), key=lambda item: (not item.suspended, item.number))
        self.assertEqual([(n, *item[1:]) for n, item in enumerate(in_order)], [tuple(item) for item in again.items()])

    def test_a_log(self):
        small = corv.Map(voxel=500)
        small.add([(1, 2, 3, 4)])
        small.delete([(0, 0, 0, 9, 9, 9)])
        text, end = small.log()
        self.assertEqual(text.decode().split(), "ikdmap 2 voxel 500 large 1000000 @1 add 1 2 3 4 @1 delete 0 0 0 9 9 9".split())
        self.assertEqual((end, small.log(2), small.log(1).text.split()[1]), (2, (b"", 2), b"delete"))
        with self.assertRaises(corv.BadNumber):
            small.log(3)
        small.add(cloud(4, 8_000))
        small.expire(1)
        text, end = small.log()
        self.assertEqual((end, text.count(b"\n"), len(text) > 1 << 17), (4, 5, True))

    def test_a_recorder_writes_what_a_log_says(self):
        written = io.BytesIO()
        file, beside = io.BufferedWriter(written, 1 << 24), corv.Map()
        recorder = corv.Recorder(file)
        for scan in range(5):
            beside.thin(cloud(scan, 3_000))
            beside.suspend([[[0] * 3, [5_000 * scan] * 3]])
            recorder.record(beside)
        recorder.record(beside)
        self.assertEqual((written.getvalue(), recorder.recorded), beside.log())
        file.close()
        beside.restore([ALL])
        for cause in (ValueError, OSError):
            with self.assertRaises(cause):
                recorder.record(beside)

    def test_a_recorder_whose_file_takes_a_part_has_failed(self):
        class Short(io.BytesIO):
            def write(self, text):
                return super().write(text[:9])

        recorder = corv.Recorder(Short())
        for _ in range(2):
            with self.assertRaises(OSError):
                recorder.record(self.map)
        self.assertEqual(recorder.recorded, 0)

    def test_a_log_ends_where_it_has_all_its_lines(self):
        many = corv.Map()
        for number in range(65_540):
            many.expire(1)
        text, end = many.log()
        self.assertEqual((text.count(b"\n"), end), (1 + 65_536, 65_536))
        with self.assertRaises(corv.TooManyUpdates):
            many.log(end)

    def test_thinning_leaves_one_point_in_a_voxel(self):
        thin = corv.Map(voxel=20_001)
        thin.thin(self.cloud)
        voxels = {tuple(at // 20_001 for at in point[:3]) for point in self.cloud}
        self.assertEqual((len(thin), thin.totals().points), (len(voxels), 400))

    def test_far_apart(self):
        far = corv.Map()
        far.add([(corv.FARTHEST,) * 3])
        hits = far.nearest([(-corv.FARTHEST,) * 3], 3)
        self.assertEqual([*hits.squared], [3 << 82])
        self.assertEqual(hits[0][0].squared, 3 << 82)
        self.assertAlmostEqual(hits.distances[0] / (3**0.5 * (1 << 41)), 1)

    def test_a_view_stays(self):
        view = self.map.view()
        self.map.delete([ALL])
        self.map.close()
        with view.copy() as other:
            view.close()
            self.assertEqual((len(other), [*other.nearest([(0, 0, 0)], 2)]), (400, [nearest(self.points, (0, 0, 0), 2, None)]))

    def test_nothing_at_all(self):
        empty = corv.Map()
        empty.add([])
        empty.delete([])
        hits = self.map.nearest([], 5)
        self.assertEqual((len(hits), [*hits], empty.totals().updates), (0, [], 2))
        self.assertEqual([*empty.nearest([(0, 0, 0)], 5)], [[]])
        self.assertEqual(len(empty.inside(ALL)), 0)

    def test_what_is_rebuilt_beside_it_changes_no_answer(self):
        beside = corv.Map(voxel=500, large=16)
        with corv.Rebuilder(beside) as rebuilder:
            for scan in range(60):
                beside.add([(number, 0, 0, 1) for number in range(scan * 50, scan * 50 + 50)])
                rebuilder.step()
                if rebuilder._doing:
                    threading.Event().wait(0.002)
            self.assertGreater(rebuilder.swapped, 0)
        self.assertEqual([hit.x for hit in beside.nearest([(2_000, 0, 0)], 3)[0]], [2_000, 1_999, 2_001])

    def test_a_rebuilder_replays_what_is_behind(self):
        beside = corv.Map(voxel=500, large=16)
        beside.add([(number, 0, 0) for number in range(200)])
        beside.delete([((0, 0, 0), (150, 1, 1))])
        with corv.Rebuilder(beside) as rebuilder:
            rebuilder.step()
            for number in range(100):
                beside.suspend([((150, 0, 0), (200, 1, 1))])
                beside.restore([((150, 0, 0), (200, 1, 1))])
            for swapped in (0, 1):
                rebuilder._doing.result()
                rebuilder.step()
                self.assertEqual(rebuilder.swapped, swapped)

    def test_a_rebuilder_goes_on_after_a_refusal(self):
        def refuse():
            raise MemoryError

        with corv.Rebuilder(corv.Map()) as rebuilder:
            rebuilder._doing = rebuilder._pool.submit(refuse)
            while not rebuilder._doing.done():
                threading.Event().wait(0.001)
            with self.assertRaises(MemoryError):
                rebuilder.step()
            rebuilder.step()

class Refusals(unittest.TestCase):
    """Each cause is an exception of its own, and leaves the map as it was."""

    def setUp(self):
        self.map = corv.Map()
        self.map.add([(1, 2, 3)])

    def tearDown(self):
        self.assertEqual(self.map.totals() if self.map else None, (1, 1, 1, 0) if self.map else None)

    def refused(self, cause, call, *words, **named):
        with self.assertRaises(cause):
            call(*words, **named)

    def test_numbers(self):
        for words in [(0,), (1_000_001,), (500, 15), ((1 << 32) + 500,), (-1,)]:
            self.refused(corv.BadNumber, corv.Map, *words)
        for radius in (-1, (1 << 42) + 1, 1 << 64):
            self.refused(corv.BadNumber, self.map.ball, (0, 0, 0), radius)
        self.refused(corv.BadNumber, self.map.items, -1)
        for words in [(0,), ((1 << 32) + 500,), (500, -1), (500, (1 << 32) + 1_500)]:
            self.refused(corv.BadNumber, self.map.view().renew, *words)
        for k, within in [(0, None), (257, None), ((1 << 32) + 1, None), (-1, None), (1, -1), (1, 1 << 62), (1, 1 << 70)]:
            self.refused(corv.BadNumber, self.map.nearest, [(0, 0, 0)], k, within)
        for most in (0, 257, -1, (1 << 32) + 1):
            self.refused(corv.BadNumber, self.map.lonely, 5, most)
            self.refused(corv.BadNumber, self.map.clusters, 5, most)
        for call in (self.map.items, lambda **most: self.map.inside(ALL, **most), lambda **most: self.map.ball((0, 0, 0), 5, **most)):
            self.refused(corv.BadNumber, call, most=-1)
            self.refused(corv.BadNumber, call, start=1 << 32)
        far = 1 << 64
        for numbers in [(1, 0, 1), (10, 5, 1), (10, 1, 0), (10, 1, 11), (-1, 1, 1), (far + 10, 1, 1), (10, far + 1, 1), (10, 1, far + 1)]:
            self.refused(corv.BadNumber, corv.Region, *numbers, (0, 0, 0))
        self.refused(corv.OutOfRange, corv.Region(10, 1, 1, (0, 0, 0)).move, (0, 0, corv.FARTHEST + 1))
        self.refused(corv.BadNumber, self.map.expire, -1)
        self.refused(corv.BadNumber, self.map.detach, 5)
        self.refused(TypeError, self.map.nearest, [(0, 0, 0)], 1.5)

    def test_places(self):
        for far in (corv.FARTHEST + 1, -corv.FARTHEST - 1, 1 << 62):
            self.refused(corv.OutOfRange, self.map.add, [(0, 0, 0), (0, far, 0)])
            self.refused(corv.OutOfRange, self.map.nearest, [(0, 0, 0), (0, far, 0)])
        for intensity in (-1, 65_536, 1 << 40):
            self.refused(corv.OutOfRange, self.map.add, [(0, 0, 0, intensity)])
        for wide in (1 << 63, -(1 << 63) - 1, 1 << 70):
            self.refused(corv.OutOfRange, self.map.add, [(0, 0, 0), (-1, wide, 0)])
        self.refused(corv.BadBox, self.map.delete, [((0, 0, 0), (1, 1, -1))])
        self.refused(corv.BadBox, self.map.count, ((0, 0, 0), (1, 1, corv.FARTHEST + 2)))

    def test_shapes(self):
        for rows in ([(1, 2)], [(1, 2, 3, 4, 5)], [[(1, 2, 3)]], 5):
            self.refused((ValueError, TypeError), self.map.add, rows)
        with self.assertRaisesRegex(TypeError, "corv.metres"):
            self.map.add([(0.5, 0.0, 0.0)])
        self.refused(ValueError, self.map.count, [ALL, ALL])
        self.refused(ValueError, self.map.ball, [(0, 0, 0)] * 2, 5)
        for rows in ([(1.0, 2.0)], [(1.0, 2.0, 3.0, 4.0, 5.0)], [(1.0, 2, 3), (1.0, 2)]):
            self.refused(ValueError, corv.metres, rows)
        self.refused(ValueError, corv.metres, [(1.0, 2.0, 3.0)], [1, 2])

    def test_what_was_closed(self):
        with self.map as map:
            pass
        self.refused(corv.Closed, map.add, [(0, 0, 0)])
        self.refused(corv.Closed, map.view)
        self.refused(corv.Closed, map.nearest, [(0, 0, 0)])
        map.close()
        self.map = None

    def test_each_status_has_its_cause(self):
        from corv._library import Status, check

        causes = {
            Status.NO_MEMORY: MemoryError,
            Status.EMPTY: corv.Closed,
            Status.BAD_NUMBER: corv.BadNumber,
            Status.OUT_OF_RANGE: corv.OutOfRange,
            Status.BAD_BOX: corv.BadBox,
            Status.TOO_MANY_UPDATES: corv.TooManyUpdates,
            Status.TOO_MANY_POINTS: corv.TooManyPoints,
            Status.NO_LINE: corv.NoLine,
        }
        check(Status.DONE)
        for status in [*Status][1:]:
            with self.assertRaises(Exception) as raised:
                check(status)
            self.assertIs(type(raised.exception), causes.get(status, corv.Error))

    def test_it_is_not_copied(self):
        self.refused(TypeError, copy.copy, self.map)
        self.refused(TypeError, pickle.dumps, self.map.view())

    def test_too_many_points(self):
        many = corv.Map()
        for _ in range(4):
            many.thin(corv.rows(bytes(24 << 20), 3))
        self.refused(corv.TooManyPoints, many.thin, [(0, 0, 0)])
        self.assertEqual(many.totals(), (4, 1 << 22, 1, 0))

class Threads(unittest.TestCase):
    """Threads ask views of their own while the map goes on."""

    def test_threads(self):
        map, faults, threads = corv.Map(large=16), [], []

        def ask(view, held):
            for at in range(0, 500, 5):
                hits = view.nearest([(at, 0, 0)], 1, 0)
                if view.count(ALL) != held or hits[0][0].x != at:
                    faults.append(at)

        for scan in range(6):
            map.add([(at, 0, 0, 1) for at in range(500)])
            threads.append(threading.Thread(target=ask, args=(map.view(), 500 * (scan + 1))))
            threads[-1].start()
        map.close()
        for thread in threads:
            thread.join()
        self.assertEqual(faults, [])

    def test_other_threads_run_within_a_call(self):
        rows = array.array("q", (number * 7_919 % 1_000_003 for number in range(300_000)))
        map, span, seen = corv.Map(), [], []

        def add():
            span.append(time.perf_counter())
            map.add(corv.rows(rows, 3))
            span.append(time.perf_counter())

        work = threading.Thread(target=add)
        work.start()
        while work.is_alive():
            seen.append(time.perf_counter())
        quarter = (span[1] - span[0]) / 4
        self.assertTrue(any(span[0] + quarter < at < span[1] - quarter for at in seen))

    def test_one_map_in_several_threads_takes_one_call_at_a_time(self):
        map = corv.Map(large=16)
        work = [threading.Thread(target=lambda: [(map.add([(at, 0, 0)]), map.nearest([(at, 0, 0)])) for at in range(200)]) for _ in range(4)]
        for thread in work:
            thread.start()
        for thread in work:
            thread.join()
        self.assertEqual(map.totals(), (800, 800, 800, 0))

if __name__ == "__main__":
    unittest.main()
