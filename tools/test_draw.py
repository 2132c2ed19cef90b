#!/usr/bin/env python3
"""What tools/draw reads, folds and compares, and the picture that it makes."""

import subprocess
import unittest
import xml.dom.minidom
from pathlib import Path

from drawing.log import LogFault, Place, Point, read_log
from drawing.picture import COLOURS, LAST, REGION, draw
from drawing.searches import Cells, Hit, Row, dist2
from drawing.transcript import compare, run, serial_marks
from drawing.verdict import verdict

TOP = Path(__file__).resolve().parent.parent
HEADER = "ikdmap 1 voxel 200 large 1500\n"
WIDE = "ikdmap 2 voxel 200 large 1500\n"

# Two callers' updates, either of which may come first.
CALLERS = HEADER + "@1 add 1 0 0\n@2 add 2 0 0\n@2 near 2 0 0 0\nsync\n@1 box 9 0 0 0 9 9 9\n"
IN_ORDER = """@1 ok 1
@2 ok 2
@2 near 2 | 0 1 0 0 1 | 1 2 0 0 4
sync 2 live 2 suspended 0
@1 box 2 2 | 0 1 0 0 | 1 2 0 0
end 2 live 2 suspended 0
"""
FIRST_POINTS = [Point(Place(-14504, -5800, 41)), Point(Place(16195, -26688, -2788))]
NONE = "suspended 0"
TURNED = """@1 ok 2
@2 ok 1
@2 near 1 | 0 2 0 0 4
sync 2 live 2 suspended 0
@1 box 2 2 | 0 2 0 0 | 1 1 0 0
end 2 live 2 suspended 0
"""

# What is asked of a scan, each with its transcript.
SCAN = WIDE + """@1 nears 2 0 0 0 1 1 1
@1 add 1 0 0 9 5 0 0 8
@1 nears 1 0 0 0 6 0 0
"""
SCANNED = """@1 nears 0 / /
@1 ok 1
@1 nears 1 / | 0 1 0 0 9 1 / | 1 5 0 0 8 1
end 1 live 2 suspended 0
"""
NEIGHBOURS = WIDE + """@1 add 0 0 0 1 3 0 0 1 6 0 0 1 20 0 0 1 24 0 0 1
@1 ball 5 3 3 0 0
@1 lonely 5 3
@1 clusters 5 3
@1 clusters 1 4
"""
JOINED = """@1 ok 1
@1 ball 1 3 | 0 0 0 0 1 | 1 3 0 0 1 | 2 6 0 0 1
@1 lonely 1 2 | 3 20 0 0 1 | 4 24 0 0 1
@1 clusters 1 3 | 0 3 | 3 1 | 4 1
@1 clusters 1 2 | 0 3
end 1 live 5 suspended 0
"""
TWINS = WIDE + """@1 clusters 1 0
@1 add 7 7 7 1 7 7 7 2
@1 lonely 5 0
@1 clusters 5 0
"""
TWO = """@1 clusters 0 0
@1 ok 1
@1 lonely 1 0
@1 clusters 1 1 | 0 2
end 1 live 2 suspended 0
"""
# A cube that moves by 30 on x, and what it leaves.
MOVE = WIDE + """@1 add 0 0 0 1 -45 0 0 2 45 0 0 3
@1 pose 100 20 30 0 0 0
@1 pose 100 20 30 30 0 0
@1 near 3 0 0 0
"""
MOVED = """@1 ok 1
@1 ok 2
@1 ok 3
@1 near 3 | 0 0 0 0 1 0 | 2 45 0 0 3 2025
end 3 live 2 suspended 0
"""


def made(scans):
    """The log that the word `make` writes of so many scans, by a generator of its own."""
    state, lines = 1, ["ikdmap 1 voxel 500 large 1500"]
    for scan in range(scans):
        points = []
        for count, low in [(60_001, 1000 * scan - 30_000), (60_001, -30_000), (6_001, -3_000)] * 2_000:
            state = (state * 1_664_525 + 1_013_904_223) % 2**32
            points.append(str(low + state // 65_536 % count))
        at = 1000 * scan
        lines += ["@1 thin " + " ".join(points), f"@1 near 5 {at} 0 0", f"@2 near 5 {at} 0 0 within 2000"]
        if scan % 10 == 9:
            lines.append(f"@1 delete {at - 60_000} -30000 -3000 {at - 30_000} 30001 3001")
        lines.append("sync")
    return "\n".join(lines) + "\n"


def drawn_points(count, extent, state):
    """So many live points within an extent, by the same kind of generator, under numbers that aren't all used."""
    live = {}
    for number in range(count):
        place = []
        for _ in range(3):
            state = (state * 1_664_525 + 1_013_904_223) % 2**32
            place.append(state // 65_536 % (2 * extent + 1) - extent)
        live[3 * number + 1] = Point(Place(*place), number % 7)
    return live


def by_definition(live, reach):
    """The lonely points and the clusters: each pair of points is looked at, and steps are taken until they lead no farther."""
    joined = {one: {two for two in live if dist2(live[one].place, live[two].place) <= reach**2} for one in live}
    clusters = []
    for number in live:
        reached = {number}
        while (further := set().union(*(joined[one] for one in reached))) != reached:
            reached = further
        if min(reached) == number:
            clusters.append(sorted(reached))
    return [one for one in live if joined[one] == {one}], clusters


def differences(log, transcript):
    """How a transcript differs from its log."""
    return compare(read_log(log.encode()), transcript)[1]


def picture(log):
    """The picture of a log's run."""
    log = read_log(log.encode())
    return draw(log, run(log, serial_marks(log)))


class Logs(unittest.TestCase):
    """What is read of a log."""

    def test_a_faulty_log_is_refused_with_its_first_fault(self):
        for log, told in [
            ("", "line 1: no header"),
            ("# no more\n", "line 2: no header"),
            ("ikdmap 3 voxel 200 large 1500", "line 1: no header"),
            ("ikdmap 02 voxel 200 large 1500", "line 1: no header"),
            ("ikdmap 1 voxel 0 large 1500", "line 1: out of range"),
            ("ikdmap 1 voxel 200 large 15", "line 1: out of range"),
            ("ikdmap 1 voxel +5 large x", "line 1: bad number"),
            (HEADER + "sync\n" * 65_537, "line 65538: too many commands"),
            (HEADER + "sync now", "line 2: wrong count"),
            (HEADER + "add 1 2 3", "line 2: unknown command"),
            (HEADER + "sync\r\n", "line 2: unknown command"),
            (HEADER + "# scan\n@9 add 1 2 3", "line 3: bad caller"),
            (HEADER + "@1", "line 2: unknown command"),
            (HEADER + "@1 drop 1 2 3", "line 2: unknown command"),
            (HEADER + "@1 sync", "line 2: unknown command"),
            (HEADER + "@1 add 1 2", "line 2: wrong count"),
            (HEADER + "@1 add 1  2", "line 2: bad number"),
            (HEADER + "@1 near 1 0 0 0 upto 5", "line 2: wrong count"),
            (HEADER + "@1 add" + " 0 0 0" * 262_145, "line 2: too many points"),
            (HEADER + "@1 add 007 0 0", "line 2: bad number"),
            (HEADER + "@1 add -0 0 0", "line 2: bad number"),
            (HEADER + "@1 add 1 2 3\r\n", "line 2: bad number"),
            (HEADER + "@1 add 0 1" + "0" * 5_000 + " x", "line 2: out of range"),
            (HEADER + "@1 near 257 0 0 0", "line 2: out of range"),
            (HEADER + "@1 near 1 0 0 0 within 4000000001", "line 2: out of range"),
            (HEADER + "@1 delete 0 0 0 9 9 1000000002", "line 2: out of range"),
            (HEADER + "@1 box 5 0 0 0 -1 9 9", "line 2: inverted box"),
            (HEADER + "@1 delete 0 0 0 9 -1 9 x", "line 2: wrong count"),
            (HEADER + "@1 delete 0 0 0 9 -1 9 x 0 0 0 0 0", "line 2: inverted box"),
        ]:
            self.check_refusal(log, told)

    def test_each_version_has_its_own_limits(self):
        for log, told in [
            (HEADER + "@1 add 1000000001 0 0", "line 2: out of range"),
            (HEADER + "@1 add 1 2 3 4", "line 2: wrong count"),
            (HEADER + "@1 expire 2", "line 2: unknown command"),
            (WIDE + "@1 expire", "line 2: wrong count"),
            (WIDE + "@1 expire 1 2", "line 2: wrong count"),
            (WIDE + "@1 expire 02", "line 2: bad number"),
            (WIDE + "@1 expire -1", "line 2: out of range"),
            (WIDE + "@1 expire 4194305", "line 2: out of range"),
            (HEADER + "@1 near 1 0 0 -1000000001", "line 2: out of range"),
            (WIDE + "@1 add 1 2 3", "line 2: wrong count"),
            (WIDE + "@1 thin 1 2 3", "line 2: wrong count"),
            (WIDE + "@1 erase 1 2 3 4", "line 2: wrong count"),
            (WIDE + "@1 near 1 0 0 0 7", "line 2: wrong count"),
            (WIDE + "@1 add" + " 0 0 0 0" * 262_145, "line 2: too many points"),
            (WIDE + "@1 add 1 2 3 65536", "line 2: out of range"),
            (WIDE + "@1 add 1 2 3 -1", "line 2: out of range"),
            (WIDE + "@1 add 1 2 3 x", "line 2: bad number"),
            (WIDE + "@1 thin 0 -1099511627777 0 x", "line 2: out of range"),
            (WIDE + "@1 near 1 0 0 0 within 4398046511105", "line 2: out of range"),
            (WIDE + "@1 delete 0 0 0 9 9 1099511627778", "line 2: out of range"),
            (WIDE + "@1 box 5 0 0 -1099511627777 9 9 9", "line 2: out of range"),
            (WIDE + "@1 box 5 0 0 0 9 9 -1", "line 2: inverted box"),
        ]:
            self.check_refusal(log, told)

    def test_what_is_asked_of_a_scan_has_limits_of_its_own(self):
        for arguments, cause in [
            ("nears", "wrong count"),
            ("nears 1", "wrong count"),
            ("nears x 0 0", "wrong count"),
            ("nears 1 0 0 0 0", "wrong count"),
            ("nears x" + " 0 0 0" * 262_145, "too many points"),
            ("nears x 0 0 1099511627777", "bad number"),
            ("nears 0 x 0 0", "out of range"),
            ("nears 257 0 0 0", "out of range"),
            ("nears 1 0 0 0 0 1099511627777 x", "out of range"),
            ("nears 1 0 0 0 0 x 1099511627777", "bad number"),
            ("nears 256" + " 0 0 0" * 65_536 + " 0 0 x", "bad number"),
            ("nears 256" + " 0 0 0" * 65_537, "too many hits"),
            ("ball 1 2 0 0", "wrong count"),
            ("ball x 2 0 0 0 0", "wrong count"),
            ("ball 0 x 0 0 0", "out of range"),
            ("ball 1 02 0 0 1099511627777", "bad number"),
            ("ball 1 -1 x 0 0", "out of range"),
            ("ball 1 4398046511105 0 0 0", "out of range"),
            ("ball 1 0 0 -1099511627777 x", "out of range"),
            ("lonely 1", "wrong count"),
            ("lonely x 2 3", "wrong count"),
            ("lonely 257 x", "out of range"),
            ("lonely 1 +2", "bad number"),
            ("lonely 1 4398046511105", "out of range"),
            ("clusters", "wrong count"),
            ("clusters 0 -", "out of range"),
            ("clusters 1 -", "bad number"),
            ("clusters 256 -1", "out of range"),
            ("Clusters 1 1", "unknown command"),
        ]:
            self.check_refusal(WIDE + "@1 " + arguments, "line 2: " + cause)
        for arguments in ("nears 1 0 0 0", "ball 1 1 0 0 0", "lonely 1 1", "clusters 1 1", "nears", "lonely x"):
            self.check_refusal(HEADER + "@1 " + arguments, "line 2: unknown command")

    def test_a_pose_has_limits_of_its_own(self):
        for arguments, cause in [
            ("pose 100 20 30 0 0", "wrong count"),
            ("pose x 50 30 0 0 0 0", "wrong count"),
            ("pose", "wrong count"),
            ("pose 100 50 30 0 0 0", "out of range"),
            ("pose 2 1 1 0 0 0", "out of range"),
            ("pose 101 51 x 0 0 0", "out of range"),
            ("pose 1 x 1 0 0 0", "out of range"),
            ("pose 2199023255553 x 1 0 0 0", "out of range"),
            ("pose -100 x 1 0 0 0", "out of range"),
            ("pose 100 -1 x 0 0 0", "out of range"),
            ("pose 100 9223372036854775808 1 0 0 0", "out of range"),
            ("pose 100 20 0 x 0 0", "out of range"),
            ("pose 100 20 101 x 0 0", "out of range"),
            ("pose 100 20 30 0 -1099511627777 x", "out of range"),
            ("pose x 50 30 0 0 0", "bad number"),
            ("pose 100 020 30 0 0 0", "bad number"),
            ("pose 100 20 +30 0 0 1099511627777", "bad number"),
            ("pose 100 20 30 0 0 x", "bad number"),
            ("poses 100 20 30 0 0 0", "unknown command"),
        ]:
            self.check_refusal(WIDE + "@1 " + arguments, "line 2: " + cause)
        self.check_refusal(HEADER + "@1 pose 100 20 30 0 0 0", "line 2: unknown command")

    def test_regions_begin_and_move_as_their_callers_do(self):
        for poses, lo in [
            ("@1 pose 100 20 30 0 0 0", (-50, -50, -50)),
            ("@1 pose 7 3 7 0 -1 10", (-3, -4, 7)),
            ("@1 pose 2 0 1 1 1 1", (0, 0, 0)),
            # A face is touched where the ball ends in it; each axis is looked at by itself.
            ("@1 pose 100 20 30 0 0 0\n@1 pose 100 20 30 29 -29 -30", (-50, -50, -80)),
            ("@1 pose 100 20 30 0 0 0\n@1 pose 100 20 30 30 -30 900", (-20, -80, -20)),
            # A pose is one step, also where its caller is far out of the region.
            ("@1 pose 100 20 30 0 0 0\n" + "@1 pose 100 20 30 900 0 0\n" * 3, (40, -50, -50)),
            # Other rules begin another region, and so does a return to the first ones; other callers have their own.
            ("@1 pose 100 20 30 0 0 0\n@1 pose 100 20 31 40 0 0", (-10, -50, -50)),
            ("@1 pose 100 20 30 0 0 0\n@1 pose 100 21 30 7 0 0\n@1 pose 100 20 30 40 0 0", (-10, -50, -50)),
            ("@1 pose 100 20 30 0 0 0\n@2 pose 102 20 30 7 0 0\n@1 pose 100 20 30 40 0 0", (-20, -50, -50)),
            ("@1 pose 100 20 30 0 0 0\n@2 pose 100 20 30 40 0 0", (-10, -50, -50)),
        ]:
            with self.subTest(poses=poses):
                self.assertEqual(read_log((WIDE + poses).encode()).commands[-1].region.lo, lo)

    def test_the_limits_of_a_pose_are_read(self):
        far = 2**40
        longest = f"@8 pose {2**41} {far - 1} {2**41} {far} {-far} {far}\n"
        first, second = read_log((WIDE + longest + longest).encode()).commands
        self.assertEqual((first.caller, first.region, first.boxes), (8, ((0, -2 * far, 0), (2 * far, 0, 2 * far)), []))
        self.assertEqual((second.region, second.boxes), (first.region, []))

    def test_the_room_for_hits_is_counted_over_all_lines(self):
        self.check_refusal(WIDE + "@1 nears 256" + " 0 0 0" * 65_536 + "\n@1 near 1 0 0 0", "line 3: too many hits")
        lists = "@1 nears 256" + " 0 0 0" * 65_535 + "\n"
        self.check_refusal(WIDE + lists + "@2 near 256 0 0 0\n@1 near 1 0 0 0\n", "line 4: too many hits")
        self.check_refusal(WIDE + lists + "@1 nears 1" + " 0 0 0" * 17, "line 3: too many hits")
        self.check_refusal(WIDE + lists + "@1 nears 1" + " 0 0 0" * 16 + "\nsync\n@1 near 1 0 0 x", "line 5: bad number")
        self.check_refusal(WIDE + lists + "@1 near 16 0 0 0\n" * 17, "line 19: too many hits")

    def check_refusal(self, log, told):
        """A log is refused with this text."""
        with self.subTest(log=log[:70]):
            with self.assertRaises(LogFault) as raised:
                read_log(log.encode())
            self.assertEqual(str(raised.exception), told, log[:70])

    def test_the_limits_themselves_are_read(self):
        for header, far in [(HEADER, 10**9), (WIDE, 2**40)]:
            intensity = " 65535" if header == WIDE else ""
            added = f"@1 add {far} {-far} 0{intensity}\n@1 near 1 {far} 0 {-far} within {4 * far}\n"
            log = read_log(f"{header}{added}@1 box 5 {-far} 0 0 {far + 1} 9 {far + 1}\n".encode())
            with self.subTest(header=header):
                self.assertEqual(log.commands[0].points, [((far, -far, 0), 65_535 if intensity else 0)])
                self.assertEqual((log.commands[1].place, log.commands[1].reach), ((far, 0, -far), 4 * far))
                self.assertEqual(log.commands[2].box, ((-far, 0, 0), (far + 1, 9, far + 1)))

    def test_the_limits_of_what_is_asked_of_a_scan_are_read(self):
        far = 2**40
        asked = f"@8 nears 256 {far} 0 {-far} 0 0 0\n@8 ball 256 {4 * far} {-far} {far} 0\n"
        nears, ball, lonely, clusters = read_log(
            (WIDE + asked + f"@8 lonely 1 0\n@8 clusters 256 {4 * far}\n").encode()
        ).commands
        self.assertEqual((nears.caller, nears.most, nears.places), (8, 256, [(far, 0, -far), (0, 0, 0)]))
        self.assertEqual((ball.caller, ball.most, ball.reach, ball.place), (8, 256, 4 * far, (-far, far, 0)))
        self.assertEqual((lonely.most, lonely.reach, clusters.most, clusters.reach), (1, 0, 256, 4 * far))
        self.assertEqual(len(read_log((WIDE + "@1 nears 1" + " 0 0 0" * 262_144).encode()).commands[0].places), 262_144)

    def test_comments_empty_lines_and_a_last_line_without_an_end_are_read(self):
        log = read_log(b"# a\n\nikdmap 1 voxel 200 large 1500\n#\n@1 erase -1 0 2\nsync")
        self.assertEqual(len(log.commands), 2)
        self.assertEqual(log.commands[0].boxes, [((-1, 0, 2), (0, 1, 3))])

    def test_the_first_points_of_one_scan_are_the_known_ones(self):
        log = read_log(made(1).encode())
        self.assertEqual(log.commands[0].points[:2], FIRST_POINTS)
        self.assertEqual((log.voxel, len(log.commands), len(log.commands[0].points)), (500, 4, 2_000))

    def test_ten_scans_have_one_deletion(self):
        deletion = "@1 delete -51000 -30000 -3000 -21000 30001 3001"
        self.assertEqual([line for line in made(10).splitlines() if "delete" in line], [deletion])


class Transcripts(unittest.TestCase):
    """What is told of a transcript."""

    def test_the_examples_do_not_differ(self):
        logs = sorted(TOP.glob("examples/*.log"))
        self.assertTrue(logs)
        for log in logs:
            with self.subTest(log=log.name):
                self.assertEqual(differences(log.read_text(), log.with_suffix(".transcript").read_text()), [])

    def test_callers_may_come_in_either_order(self):
        self.assertEqual(differences(CALLERS, IN_ORDER), [])
        self.assertEqual(differences(CALLERS, TURNED), [])

    def test_a_changed_line_is_told(self):
        for old, new, told in [
            ("| 1 2 0 0 4\n", "| 1 2 0 0 5\n", "line 3: `1 2 0 0 5` where `1 2 0 0 4` is due"),
            (" | 1 2 0 0 4\n", "\n", "line 3: `nothing more` where `1 2 0 0 4` is due"),
            ("| 0 1 0 0 |", "| 1 2 0 0 |", "line 5: `1 2 0 0` where `0 1 0 0` is due"),
            ("box 2 2", "box 2 3", "line 5: `@1 box 2 3` where `@1 box 2 2` is due"),
            ("sync 2 live 2", "sync 2 live 3", f"line 4: `sync 2 live 3 {NONE}` where `sync 2 live 2 {NONE}` is due"),
            ("end 2 live 2", "end 2 live 1", f"line 6: `end 2 live 1 {NONE}` where `end 2 live 2 {NONE}` is due"),
        ]:
            with self.subTest(told=told):
                self.assertEqual(differences(CALLERS, IN_ORDER.replace(old, new)), [told])

    def test_illegal_marks_are_told(self):
        for old, new, told in [
            ("@1 ok 1", "@1 ok 2", ["line 2: mark 2 is that of the update in line 1 too"]),
            ("@2 near 2", "@2 near 1", ["line 3: mark 1 where 2 is the least"]),
            ("@2 near 2", "@2 near 3", ["line 3: mark 3 where 2 is the most"]),
            ("@1 box 2", "@1 box 1", ["line 5: mark 1 where 2 is the least"]),
            ("@1 box 2", "@1 box 3", ["line 5: mark 3 where 2 is the most"]),
            ("@1 ok 1", "@1 ok 0", ["line 1: mark 0 where 1 is the least"]),
            ("sync 2", "sync 1", ["line 4: mark 1 where 2 updates stand before"]),
            ("end 2", "end 3", ["line 6: mark 3 where 2 updates stand before"]),
        ]:
            with self.subTest(told=told):
                self.assertEqual(differences(CALLERS, IN_ORDER.replace(old, new)), told)

    def test_intensities_are_told_and_have_no_part_in_any_order(self):
        log = WIDE + """@1 add 0 0 5 9 0 5 0 3 0 0 5 1
@1 near 9 0 0 0
@1 box 9 0 0 0 1 6 6
@1 thin 100 100 100 8 100 100 100 7
@1 box 9 0 0 0 200 200 200
@1 erase 100 100 100
"""
        transcript = """@1 ok 1
@1 near 1 | 0 0 0 5 9 25 | 2 0 0 5 1 25 | 1 0 5 0 3 25
@1 box 1 3 | 0 0 0 5 9 | 1 0 5 0 3 | 2 0 0 5 1
@1 ok 2
@1 box 2 1 | 3 100 100 100 8
@1 ok 3
end 3 live 0 suspended 0
"""
        self.assertEqual(differences(log, transcript), [])
        for old, new, told in [
            (" 9 25", " 25", "line 2: `0 0 0 5 25` where `0 0 0 5 9 25` is due"),
            ("2 0 0 5 1 25", "2 0 0 5 9 25", "line 2: `2 0 0 5 9 25` where `2 0 0 5 1 25` is due"),
            ("2 0 0 5 1\n", "2 0 0 5\n", "line 3: `2 0 0 5` where `2 0 0 5 1` is due"),
            ("3 100 100 100 8", "4 100 100 100 7", "line 5: `4 100 100 100 7` where `3 100 100 100 8` is due"),
        ]:
            with self.subTest(told=told):
                self.assertEqual(differences(log, transcript.replace(old, new)), [told])

    def test_what_expires_is_gone_and_later_points_are_not(self):
        log = WIDE + (
            "@1 add 1 0 0 9 2 0 0 9 3 0 0 9\n@1 suspend 1 0 0 2 1 1\n@1 expire 2\n@1 restore 0 0 0 9 9 9\n"
            "@1 near 3 0 0 0\n@1 expire 4194304\n@1 add 4 0 0 8\n@1 near 3 0 0 0\n@1 expire 3\n"
        )
        transcript = (
            "@1 ok 1\n@1 ok 2\n@1 ok 3\n@1 ok 4\n@1 near 4 | 2 3 0 0 9 9\n@1 ok 5\n@1 ok 6\n@1 near 6 | 3 4 0 0 8 16\n@1 ok 7\n"
            "end 7 live 1 suspended 0\n"
        )
        self.assertEqual(differences(log, transcript), [])

    def test_what_is_asked_of_a_scan_is_answered(self):
        for log, transcript in ((SCAN, SCANNED), (NEIGHBOURS, JOINED), (TWINS, TWO)):
            with self.subTest(log=log):
                self.assertEqual(differences(log, transcript), [])

    def test_a_changed_answer_about_a_scan_is_told(self):
        for log, transcript, old, new, told in [
            (SCAN, SCANNED, "0 / /", "0 /", "line 1: `@1 nears 0 /` where `@1 nears 0 / /` is due"),
            (SCAN, SCANNED, "1 / | 0", "1 | 0", "line 3: `@1 nears 1` where `@1 nears 1 /` is due"),
            (SCAN, SCANNED, "9 1 /", "9 1", "line 3: `0 1 0 0 9 1` where `0 1 0 0 9 1 /` is due"),
            (SCAN, SCANNED, "5 0 0 8 1", "5 0 0 8 2", "line 3: `1 5 0 0 8 2` where `1 5 0 0 8 1` is due"),
            (NEIGHBOURS, JOINED, "ball 1 3", "ball 1 2", "line 2: `@1 ball 1 2` where `@1 ball 1 3` is due"),
            (NEIGHBOURS, JOINED, "2 6 0 0 1", "2 6 0 0", "line 2: `2 6 0 0` where `2 6 0 0 1` is due"),
            (NEIGHBOURS, JOINED, " | 4 24 0 0 1", "", "line 3: `nothing more` where `4 24 0 0 1` is due"),
            (NEIGHBOURS, JOINED, "0 3 | 3 1", "0 2 | 3 1", "line 4: `0 2` where `0 3` is due"),
            (NEIGHBOURS, JOINED, "1 2 | 0 3\n", "1 2 | 0 3 | 3 2\n", "line 5: `3 2` where `nothing more` is due"),
            (TWINS, TWO, "clusters 0", "lonely 0", "line 1: no line of the form `@1 clusters MARK ..`"),
            (TWINS, TWO, "lonely 1", "lonely 0", "line 3: mark 0 where 1 is the least"),
            (TWINS, TWO, "clusters 1", "clusters 2", "line 4: mark 2 where 1 is the most"),
        ]:
            with self.subTest(told=told):
                self.assertEqual(differences(log, transcript.replace(old, new)), [told])

    def test_what_a_region_leaves_is_gone(self):
        self.assertEqual(differences(MOVE, MOVED), [])
        told = "line 4: `1 -45 0 0 2 2025` where `2 45 0 0 3 2025` is due"
        self.assertEqual(differences(MOVE, MOVED.replace("| 2 45", "| 1 -45 0 0 2 2025 | 2 45")), [told])
        told = f"line 5: `end 3 live 3 {NONE}` where `end 3 live 2 {NONE}` is due"
        self.assertEqual(differences(MOVE, MOVED.replace("live 2", "live 3")), [told])

    def test_a_region_takes_what_is_suspended_and_spares_what_it_has_not_held(self):
        log = WIDE + (
            "@1 pose 100 20 30 0 0 0\n@2 add -50 0 0 0 -21 49 -50 0 -20 0 0 0 -51 0 0 0 50 0 0 0 -21 50 0 0\n"
            "@2 suspend -50 0 0 -49 1 1\nsync\n@1 pose 100 20 30 30 0 0\nsync\n@3 box 9 -90 -90 -90 90 90 90\n"
            "@3 pose 100 20 30 40 0 0\n@3 pose 100 21 30 90 0 0\n@3 pose 100 21 30 200 0 0\n@3 box 9 -90 -90 -90 90 90 90\n"
        )
        transcript = (
            "@1 ok 1\n@2 ok 2\n@2 ok 3\nsync 3 live 5 suspended 1\n@1 ok 4\nsync 4 live 4 suspended 0\n"
            "@3 box 4 4 | 2 -20 0 0 0 | 3 -51 0 0 0 | 4 50 0 0 0 | 5 -21 50 0 0\n@3 ok 5\n@3 ok 6\n@3 ok 7\n"
            "@3 box 7 3 | 2 -20 0 0 0 | 3 -51 0 0 0 | 5 -21 50 0 0\nend 7 live 3 suspended 0\n"
        )
        self.assertEqual(differences(log, transcript), [])

    def test_a_pose_is_an_update_of_its_caller(self):
        log = WIDE + "@1 pose 100 20 30 0 0 0\n@1 pose 100 20 30 30 0 0\n@2 add -45 0 0 7\n@2 near 1 0 0 0\n"
        for told, hit, live in [("123", " | 0 -45 0 0 7 2025", 1), ("132", "", 0), ("231", "", 0)]:
            first, second, added = told
            with self.subTest(marks=told):
                transcript = f"@1 ok {first}\n@1 ok {second}\n@2 ok {added}\n@2 near 3{hit}\nend 3 live {live} {NONE}\n"
                self.assertEqual(differences(log, transcript), [])
        transcript = f"@1 ok 2\n@1 ok 1\n@2 ok 3\n@2 near 3 | 0 -45 0 0 7 2025\nend 3 live 1 {NONE}\n"
        self.assertEqual(differences(log, transcript), ["line 2: mark 1 where 3 is the least"])
        told = "line 1: no line of the form `@1 ok MARK ..`"
        self.assertEqual(differences(WIDE + "@1 pose 2 0 1 0 0 0\n", f"@1 pose 0\nend 0 live 0 {NONE}\n"), [told])

    def test_another_callers_answer_may_be_from_before_an_update_or_after_it(self):
        for asked, before, after in [
            ("nears 1 0 0 0 9 0 0", "nears 0 / /", "nears 1 / | 0 5 0 0 7 25 / | 0 5 0 0 7 16"),
            ("ball 1 5 0 0 0", "ball 0 0", "ball 1 1 | 0 5 0 0 7"),
            ("lonely 1 5", "lonely 0 0", "lonely 1 1 | 0 5 0 0 7"),
            ("clusters 1 5", "clusters 0 0", "clusters 1 1 | 0 1"),
        ]:
            for told in (before, after):
                with self.subTest(told=told):
                    log = WIDE + f"@1 add 5 0 0 7\n@2 {asked}\n"
                    self.assertEqual(differences(log, f"@1 ok 1\n@2 {told}\nend 1 live 1 {NONE}\n"), [])

    def test_what_is_suspended_or_gone_joins_nothing(self):
        log = WIDE + (
            "@1 add 0 0 0 0 3 0 0 0 6 0 0 0\n@1 suspend 3 0 0 4 1 1\n@1 clusters 3 3\n@1 lonely 3 3\n@1 ball 3 3 3 0 0\n"
            "@1 nears 1 3 0 0\n@1 restore 3 0 0 4 1 1\n@1 clusters 3 3\n@1 erase 3 0 0\n@1 clusters 3 3\n"
        )
        transcript = (
            "@1 ok 1\n@1 ok 2\n@1 clusters 2 2 | 0 1 | 2 1\n@1 lonely 2 2 | 0 0 0 0 0 | 2 6 0 0 0\n"
            "@1 ball 2 2 | 0 0 0 0 0 | 2 6 0 0 0\n@1 nears 2 / | 0 0 0 0 0 9\n@1 ok 3\n@1 clusters 3 1 | 0 3\n@1 ok 4\n"
            "@1 clusters 4 2 | 0 1 | 2 1\nend 4 live 2 suspended 0\n"
        )
        self.assertEqual(differences(log, transcript), [])

    def test_a_long_box_with_no_width_is_empty(self):
        log = WIDE + f"@1 add 0 0 0 0\n@1 box 1 0 {-(2**40)} 0 0 {2**40} 9\n"
        self.assertEqual(differences(log, f"@1 ok 1\n@1 box 1 0\nend 1 live 1 {NONE}\n"), [])

    def test_a_distance_may_be_that_of_the_farthest_corners(self):
        far = 2**40
        log = WIDE + f"@1 add {far} {far} {far} 0\n@1 near 1 {-far} {-far} {-far}\n"
        hit = f"0 {far} {far} {far} 0 14507109835375550096474112"
        self.assertEqual(differences(log, f"@1 ok 1\n@1 near 1 | {hit}\nend 1 live 1 {NONE}\n"), [])

    def test_an_update_has_a_mark_above_its_callers_earlier_ones(self):
        log = HEADER + "@1 add 0 0 0\n@1 add 0 0 0\n"
        told = differences(log, "@1 ok 2\n@1 ok 1\nend 2 live 2 suspended 0\n")
        self.assertEqual(told, ["line 2: mark 1 where 3 is the least"])

    def test_lines_of_another_form_are_told(self):
        for transcript, told in [
            ("", "0 lines where 6 are due"),
            (IN_ORDER.rstrip("\n"), "the last line has no end"),
            (IN_ORDER + "end\n", "7 lines where 6 are due"),
            (IN_ORDER.replace("@1 ok 1", "@3 ok 1"), "line 1: no line of the form `@1 ok MARK ..`"),
            (IN_ORDER.replace("@1 ok 1", "@1 ok 01"), "line 1: no line of the form `@1 ok MARK ..`"),
        ]:
            with self.subTest(told=told):
                self.assertEqual(differences(CALLERS, transcript), [told])


class Verdicts(unittest.TestCase):
    """What is found of a transcript's bytes, in the order in which it is looked for."""

    def test_the_first_thing_that_is_wrong_is_told(self):
        log = read_log(CALLERS.encode())
        many = "@1 ok " + "1" * 1_000
        for old, new, due in [
            ("", "", "legal"),
            (IN_ORDER, TURNED, "legal"),
            (IN_ORDER, "", "illegal line 1"),
            ("@1 ok 1", "@1 ok 01", "illegal line 1"),
            ("@1 ok 1", many, "illegal line 1"),
            ("@2 ok 2", "@2 ok", "illegal line 2"),
            ("@2 near 2", "@2 near 65537", "illegal line 3"),
            ("@1 box 2", "\n@1 box 2", "illegal line 5"),
            ("end 2 live 2 suspended 0\n", "end 2 live 2 suspended 0", "illegal line 6"),
            ("end 2 live 2 suspended 0\n", "end 2 live 2 suspended 0\nend", "illegal line 7"),
            ("@2 ok 2", "@2 ok 1", "illegal marks"),
            ("@2 near 2", "@2 near 1", "illegal marks"),
            ("@2 near 2", "@2 near 65536", "illegal marks"),
            ("sync 2", "sync 1", "illegal marks"),
            ("@1 ok 1", "@1 ok 1 ", "illegal reply 1"),
            ("| 0 1 0 0 1 |", "| 0 1 0 0 2 |", "illegal reply 3"),
            ("end 2 live 2", "end 2 live 3", "illegal reply 6"),
        ]:
            with self.subTest(old=old, new=new):
                self.assertEqual(verdict(log, IN_ORDER.replace(old, new, 1).encode()), due)
        self.assertEqual(verdict(log, b"\xff" + IN_ORDER.encode()), "illegal line 1")


class Searches(unittest.TestCase):
    """What searches find that don't look at each point for each place."""

    def test_each_place_gets_what_a_look_at_all_points_gives(self):
        for extent in (1, 6, 90):
            live = drawn_points(120, extent, extent)
            row = Row(live)
            for place in [point.place for point in drawn_points(30, extent + 5, 7).values()]:
                hits = sorted(Hit(dist2(at, place), at, number, shade) for number, (at, shade) in live.items())
                for most in (1, 5, 200):
                    self.assertEqual(row.nearest(place, most), hits[:most])

    def test_what_is_joined_is_what_a_look_at_all_pairs_gives(self):
        for count, extent in ((0, 1), (1, 1), (40, 2), (60, 9), (60, 40)):
            live = drawn_points(count, extent, count)
            for reach in (0, 1, 2, 3, 4, 5, 7, 12, 30, 2**42):
                with self.subTest(count=count, extent=extent, reach=reach):
                    cells = Cells(live, reach)
                    self.assertEqual((cells.lonely(), cells.clusters()), by_definition(live, reach))

    def test_many_points_are_searched_soon(self):
        """A row of 20,000 points, and two heaps of them that are just out of reach: pair by pair they would take minutes."""
        row = {number: Point(Place(5 * number, 0, 0)) for number in range(20_000)}
        self.assertEqual(Cells(row, 5).clusters(), [[*range(20_000)]])
        self.assertEqual(Cells(row, 4).lonely(), [*range(20_000)])
        pair = {number: Point(Place(number % 2 * 1_000, number // 2 % 90, number // 180)) for number in range(20_000)}
        self.assertEqual([len(numbers) for numbers in Cells(pair, 999).clusters()], [10_000, 10_000])


class Pictures(unittest.TestCase):
    """What is drawn."""

    def test_each_kind_of_point_and_box_is_drawn(self):
        log = HEADER + "@1 add 0 0 0 9 0 0 18 0 0\n@1 delete 0 0 0 5 5 5\n@1 suspend 9 0 0 12 5 5\n@1 near 2 0 5 0\n"
        drawn = picture(log)
        for kind in ('class="live"', 'class="suspended"', '<path stroke="hsl', '"delete"', '"suspend"', '"asked"'):
            self.assertEqual(drawn.count(kind), 1, kind)
        self.assertNotIn('"restore"', drawn)

    def test_what_later_updates_deleted_has_another_colour(self):
        drawn = picture(HEADER + "@1 add 0 0 0 9 0 0\n@1 erase 0 0 0\n@1 erase 9 0 0\n")
        self.assertEqual(drawn.count('<path stroke="hsl'), 2)

    def test_intensities_are_shades_of_what_is_live(self):
        drawn = picture(WIDE + "@1 add 0 0 0 700 9 0 0 52000 18 0 0 700 27 0 0 9\n@1 suspend 27 0 0 28 1 1\n")
        pale, dark = drawn.index("hsl(211,24%,76%)"), drawn.index("hsl(211,66%,20%)")
        self.assertLess(pale, dark)
        self.assertEqual(drawn.count("<path stroke="), 2)
        self.assertEqual(drawn.count('class="suspended"'), 1)
        self.assertIn(">live, of intensity 700 to 52,000</text>", drawn)
        self.assertNotIn('class="live"', drawn)

    def test_the_larger_clusters_have_colours_of_their_own(self):
        added = WIDE + "@1 add 0 0 0 1 5 0 0 9 500 0 0 1 505 0 0 1 510 0 0 1 999 0 0 3\n"
        log = added + "@1 clusters 1 500\n@1 clusters 9 5\n@1 erase 5 0 0\n"
        drawn = picture(log)
        self.assertEqual([drawn.count(f'<path stroke="{colour}"') for colour in COLOURS[:3]], [1, 1, 0])
        self.assertIn(">the largest of 3 clusters, of 3, 2 points</text>", drawn)
        self.assertIn(">live, of intensity 3 to 3</text>", drawn)
        # Where nothing is left of a cluster, or none has two points, nothing is told of it.
        self.assertIn(">the largest of 3 clusters, of 3 points</text>", picture(log + "@1 erase 0 0 0\n"))
        self.assertNotIn("clusters", picture(log + "@1 clusters 1 4\n"))

    def test_lonely_points_and_balls_are_marked_as_asked(self):
        added = WIDE + "@1 add 0 0 0 1 5 0 0 9 900 0 0 1\n"
        drawn = picture(added + "@1 ball 1 400 5 0 0\n@1 ball 2 400 5 0 0\n@1 lonely 2 5\n@1 lonely 2 6\n@1 lonely 2 900\n")
        self.assertEqual(drawn.count('<path class="asked" d="M'), 1)
        self.assertEqual(drawn.count("a416 416"), 2)
        self.assertEqual(drawn.count('<path class="asked lonely"'), 1)
        for name in ("asked, and hits", "lonely"):
            self.assertEqual(drawn.count(f">{name}</text>"), 1, name)
        # A ball that is wider than the picture has no outline in it.
        self.assertNotIn('class="asked', picture(added + "@1 ball 1 9000 0 0 0\n@1 lonely 1 900\n"))

    def test_regions_are_outlines_and_the_last_ones_are_stronger(self):
        drawn = picture(MOVE + "@1 pose 100 20 30 60 0 0\n@2 pose 40 5 5 0 0 0\n@2 pose 40 5 5 0 0 0\n")
        self.assertEqual(drawn.count(f'<rect stroke="{REGION}" stroke-width="1"'), 4)
        self.assertEqual(drawn.count(f'<rect stroke="{LAST}" stroke-width="2"'), 2)
        self.assertEqual(drawn.count(">regions of poses, and the last one of each caller</text>"), 1)
        self.assertIn(", 2 deleted,", drawn)
        self.assertNotIn("regions", picture(MOVE.replace("pose 100 20 30 ", "near 1 ")))

    def test_each_place_of_a_list_is_marked_with_its_hits(self):
        drawn = picture(WIDE + "@1 add 0 0 0 1 500 0 0 1\n@1 nears 1 0 900 0 500 900 0 500 900 7\n")
        rings, spokes = drawn.count("a3 3") // 2, drawn.count("L")
        self.assertEqual((rings, spokes), (2, 2))

    def test_extreme_maps_are_drawn(self):
        for commands in ("", "@1 near 1 0 0 0\n", "@1 add 5 5 5\n", "@1 add 0 -1000000000 0 0 1000000000 0\n"):
            with self.subTest(commands=commands):
                xml.dom.minidom.parseString(picture(HEADER + commands))
        far = "@1 add 0 -1099511627776 0 0 0 1099511627776 0 65535\n"
        widest = "4398046511104"
        asked = f"@1 ball 1 {widest} 0 0 0\n@1 ball 1 0 0 0 0\n@1 lonely 1 0\n@1 clusters 1 {widest}\n@1 nears 1 0 0 0\n"
        pose = "@1 pose 2199023255552 0 1 0 1099511627776 0\n"
        for commands in ("", "@1 add 5 5 5 0\n", far, asked, far + asked, pose, far + pose, "@1 nears 1 0 1099511627776 0\n"):
            with self.subTest(commands=commands):
                xml.dom.minidom.parseString(picture(WIDE + commands))

    def test_the_readmes_picture_is_small_and_is_that_of_twenty_scans(self):
        """Otherwise it has to be drawn anew: ./mapper make 20 > LOG, and tools/draw LOG > docs/map.svg."""
        kept = (TOP / "docs/map.svg").read_text()
        self.assertLess(len(kept), 200_000)
        self.assertTrue(kept == picture(made(20)), "docs/map.svg is not the picture of twenty scans")


class Statuses(unittest.TestCase):
    """How the program ends."""

    def draw(self, *words, out=subprocess.PIPE):
        """Runs the program, and returns its status and what it told."""
        words = [TOP / "tools/draw", *words]
        ended = subprocess.run(words, cwd=TOP, stdout=out, stderr=subprocess.PIPE, text=True, check=False)
        return ended.returncode, ended.stderr

    def test_no_difference_is_0(self):
        self.assertEqual(self.draw("examples/ties.log", "examples/ties.transcript"), (0, ""))

    def test_a_difference_is_1(self):
        status, told = self.draw("examples/first.log", "examples/ties.transcript")
        self.assertEqual((status, told), (1, "draw: examples/ties.transcript: 7 lines where 3 are due\n"))

    def test_a_refused_log_is_2(self):
        told = "draw: examples/first.transcript: line 1: no header\n"
        self.assertEqual(self.draw("examples/first.transcript"), (2, told))
        self.assertEqual(self.draw("none"), (2, "draw: none: No such file or directory\n"))
        self.assertEqual(self.draw("examples/first.log", "none"), (2, "draw: none: No such file or directory\n"))

    def test_a_picture_that_cant_be_written_is_1(self):
        with open("/dev/full", "w") as full:
            told = "draw: standard output: No space left on device\n"
            self.assertEqual(self.draw("examples/first.log", out=full), (1, told))


if __name__ == "__main__":
    unittest.main()
