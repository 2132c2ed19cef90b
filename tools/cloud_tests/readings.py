"""What becomes of numbers that a log can't have, and of options."""

import struct
from unittest import mock

from clouds.columns import CloudFault
from clouds.commands import Writer
from clouds.poses import read_poses
from drawing.log import MOST_IN_A_LINE, Rules, read_log
from made_clouds import drawn, kitti, pcd_header, pcd_text, ply_text

from .runs import HEADER, Clouds, submitted

NAN, INFINITE = float("nan"), float("inf")
STILL = "1 0 0 0 0 1 0 0 0 0 1 0\n"


class Readings(Clouds):
    """What becomes of numbers that a log can't have, and of options."""

    def test_points_that_a_log_cant_have_are_left_out_and_counted(self):
        faulty = [(NAN, 0.0, 0.0), (0.0, -INFINITE, 0.0), (1.0, 2.0, 3.0), (0.0, 0.0, 1.2e9), (0.0, 1e39, 0.0)]
        points = [(*place, 4.0) for place in faulty]
        told = (
            "log_from: points left out, since a coordinate is no finite number: 2\n"
            "log_from: points left out, since a log can't have a coordinate so far out: 2\n"
        )
        due = (0, f"{HEADER}@1 add 1000 2000 3000 4\n".encode(), told)
        wide = pcd_header(5, "binary", size="8 8 8 8") + b"".join(struct.pack("<4d", *point) for point in points)
        for name, content in ("text.pcd", pcd_text(points)), ("wide.pcd", wide), ("text.ply", ply_text(points)):
            self.assertEqual(self.run_tool("log_from", self.file(name, content)), due)

    def test_the_farthest_places_are_kept_and_no_farther(self):
        points = [(1099511627.776, -1099511627.776, 0.0, 0.0), (1099511627.777, 0.0, 0.0, 0.0), (0.0, 0.0, -1099511627.777, 0.0)]
        status, log, told = self.run_tool("log_from", self.file("0.pcd", pcd_text(points)))
        self.assertEqual((status, log.decode()), (0, HEADER + "@1 add 1099511627776 -1099511627776 0 0\n"))
        self.assertTrue(told.endswith(": 2\n"))

    def test_intensities_are_cut_to_their_range_and_counted(self):
        points = [(0.0, 0.0, 0.0, intensity) for intensity in (-0.1, 65_535.4, NAN, INFINITE, 2.6)]
        status, log, told = self.run_tool("log_from", self.file("0.pcd", pcd_text(points)))
        self.assertEqual((status, log.decode()), (0, HEADER + "@1 add 0 0 0 0 0 0 0 65535 0 0 0 0 0 0 0 65535 0 0 0 3\n"))
        self.assertEqual(told, "log_from: intensities cut to what a log can have, 0 to 65,535: 4\n")

    def test_millimetres_are_the_nearest_ones(self):
        points = [(0.0004, 0.0006, -0.0014, 0.0), (-0.0016, 12.3456, -12.3454, 0.0)]
        self.assertEqual(submitted(self.log_of(self.file("0.pcd", pcd_text(points)))), [(0, 1, -1, 0), (-2, 12346, -12345, 0)])

    def test_without_an_intensity_it_is_0_and_it_may_have_another_name(self):
        header = pcd_header(1, "ascii", "x y z range", "4 4 4 4", "F F F U")
        self.file("0.pcd", header + b"1 2 3 40\n")
        self.assertEqual(self.log_of("0.pcd"), HEADER + "@1 add 1000 2000 3000 0\n")
        self.assertEqual(self.log_of("--intensity", "range", "0.pcd"), HEADER + "@1 add 1000 2000 3000 40\n")
        self.assertEqual(self.log_of("--intensity", "range", "--scale", "1.5", "0.pcd"), HEADER + "@1 add 1000 2000 3000 60\n")

    def test_headers_may_have_carriage_returns_and_leave_out_counts(self):
        header = b"FIELDS x y z\r\nSIZE 4 4 4\r\nTYPE F F F\r\nWIDTH 1\r\nHEIGHT 2\r\nDATA ascii\r\n"
        self.assertEqual(submitted(self.log_of(self.file("0.pcd", header + b"1 2 3\r\n\r\n4 5 6")))[1], (4000, 5000, 6000, 0))
        text = ply_text(drawn(5)).replace(b"\n", b"\r\n")
        self.assertEqual(len(submitted(self.log_of(self.file("0.ply", text)))), 5)

    def test_options_are_in_the_header_and_the_commands(self):
        self.file("0.bin", kitti(drawn(10)))
        log = self.log_of("--thin", "--voxel", "500", "--large", "16", "--every", "3", "0.bin", "--scale", "0")
        self.assertTrue(log.startswith("ikdmap 2 voxel 500 large 16\n@1 thin "))
        self.assertEqual([point[3] for point in submitted(log)], [0, 0, 0, 0])

    def test_a_directorys_files_are_taken_in_the_order_of_their_names(self):
        for name, x in ("10.pcd", 2), ("9.bin", 3), ("000002.PLY", 1):
            points = [(float(x), 0.0, 0.0, 0.0)]
            self.file(f"scans/{name}", {"d": pcd_text, "n": kitti, "Y": ply_text}[name[-1]](points))
        self.file("scans/times.txt", "0\n")
        self.assertEqual([x for x, *_ in submitted(self.log_of("scans"))], [1000, 2000, 3000])
        self.assertEqual([x for x, *_ in submitted(self.log_of("scans/9.bin", "scans"))], [3000, 1000, 2000, 3000])
        self.file("empty/times.txt", "0\n")
        self.assertEqual(self.run_tool("log_from", "empty"), (1, b"", "log_from: empty: no .pcd, .ply, .bin\n"))

    def test_a_scan_without_points_has_no_command(self):
        self.file("0.bin", b"")
        self.assertEqual(self.log_of("0.bin", self.file("1.pcd", pcd_text([]))), HEADER)

    def test_long_scans_are_split(self):
        count = MOST_IN_A_LINE + 5
        self.file("0.bin", kitti([(1.0, 2.0, 3.0, 0.0)]) * count)
        commands = read_log(self.log_of("0.bin").encode()).commands
        self.assertEqual([len(command.points) for command in commands], [MOST_IN_A_LINE, 5])

    def test_a_log_that_would_be_too_long_is_refused_with_the_scan(self):
        still = read_poses(STILL.encode(), None)[0]
        for name, most in ("POINTS", 5), ("COMMANDS", 4), ("BYTES", 130):
            with mock.patch(f"clouds.commands.MOST_{name}", most):
                writer = Writer("add", rules=Rules(100, 20, 30))
                writer.header(200, 1500)
                scan = [(0.0, 0.0, 0.0, 0.0)] * 2
                self.assertEqual(writer.scan(scan, 1, still), "@1 pose 100 20 30 0 0 0\n@1 add 0 0 0 0 0 0 0 0\n")
                self.assertEqual(writer.scan(scan, 1, still).count("\n"), 2)
                with self.assertRaisesRegex(CloudFault, f"^with this scan the log has more than {most} {name.lower()}$"):
                    writer.scan(scan, 1, still)
