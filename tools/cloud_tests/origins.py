"""Maps far out: coordinates of 32 bits about an origin, which is written down, and added again."""

import struct

from made_clouds import kitti, pcd_text, ply_text

from .runs import HEADER, Clouds, submitted

FARTHEST = 1_099_511_627_776


class Origins(Clouds):
    """Each millimetre is kept wherever a map lies, in numbers that Open3D and PCL read."""

    def back(self, log, told, *options):
        """Checks that the points of a log come back from each form with these options, and that this is reported of them."""
        self.file("log", log)
        for form in ["--binary"], [], ["--ply", "--binary"], ["--ply"]:
            status, content, line = self.run_tool("cloud_from", *form, *options, "log")
            self.assertEqual((status, line), (0, told))
            self.assertIn(b"property float x" if "--ply" in form else b"SIZE 4 4 4 4", content)
            self.assertEqual(self.log_of(self.file("back.ply" if "--ply" in form else "back.pcd", content)), log)
        return content

    def test_an_origin_is_chosen_where_32_bits_dont_keep_each_millimetre(self):
        for points, origin in [
            ("16383999 -16383999 16383998 1", None),
            ("16384000 0 0 1", "16384 0 0"),
            ("16384001 0 16383999 1 500 -1 -16383999 2", "8192 0 0"),
            ("500000001 -4000123456 77 65535 500032000 -4000110000 1 3", "500016 -4000117 0"),
            (f"{FARTHEST} {-FARTHEST} {-FARTHEST + 1} 1", "1099511628 -1099511628 -1099511628"),
        ]:
            told = origin and f"cloud_from: coordinates are counted from {origin}, in metres\n"
            content = self.back(f"{HEADER}@1 add {points}\n", told or "")
            self.assertEqual(b"comment cloud_from: origin" in content, origin is not None)
            self.assertIn(f"\ncomment cloud_from: origin {origin} metres\n".encode() if origin else b"", content)

    def test_an_origin_may_be_given(self):
        log = HEADER + "@1 add 500000001 -2 -3 1\n"
        due = "cloud_from: coordinates are counted from 500010 0 -5, in metres\n"
        content = self.back(log, due, "--origin", 500_010, 0, -5)
        self.assertTrue(content.endswith(b"end_header\n-9.999 -0.002 4.997 1\n"))
        self.assertNotIn(b"origin", self.back(HEADER + "@1 add 1 2 3 4\n", "", "--origin", 0, 0, 0))

    def test_points_that_lie_too_far_from_each_other_are_counted(self):
        self.file("log", HEADER + f"@1 add 5 5 5 5 {FARTHEST} 5 5 5 0 0 {1 - FARTHEST} 5 0 0 7 5\n")
        _, _, told = self.run_tool("cloud_from", "--binary", "--origin", 0, 0, 0, "log")
        self.assertEqual(told, "cloud_from: points that lose their millimetre in 32 bits: 2\n")
        status, _, told = self.run_tool("cloud_from", "--binary", "log")
        first, second = told.splitlines()
        self.assertEqual((status, first), (0, "cloud_from: coordinates are counted from 549755814 0 -549755814, in metres"))
        self.assertEqual(second, "cloud_from: points that lose their millimetre in 32 bits: 4")

    def test_64_bits_have_no_origin_unless_one_is_given(self):
        log = HEADER + f"@1 add {FARTHEST} {-FARTHEST} {FARTHEST - 1} 1\n"
        self.file("log", log)
        for form, ending in ([], "pcd"), (["--ply"], "ply"):
            content = self.written("cloud_from", "--float64", "--binary", *form, "log")
            self.assertEqual(content[-28:], struct.pack("<3df", FARTHEST / 1000, -FARTHEST / 1000, (FARTHEST - 1) / 1000, 1))
            self.assertEqual(self.log_of(self.file(f"back.{ending}", content)), log)
        _, content, told = self.run_tool("cloud_from", "--float64", "--origin", 1, 2, 3, "log")
        self.assertEqual(told, "cloud_from: coordinates are counted from 1 2 3, in metres\n")
        self.assertEqual(self.log_of(self.file("back.pcd", content)), log)

    def test_an_origin_is_added_to_files_that_have_none(self):
        points = [(1.5, -2.25, 0.125, 0.0)]
        due = HEADER + "@1 add 500001500 -2250 -6875 0\n"
        for name, write in ("0.pcd", pcd_text), ("0.ply", ply_text), ("0.bin", kitti):
            self.file(name, write(points))
            self.assertEqual(self.log_of("--origin", 500_000, 0, -7, name), due)
        told = pcd_text(points).replace(b"VERSION", b"# cloud_from: origin 1 0 -1 metres\r\nVERSION")
        self.assertEqual(submitted(self.log_of("--origin", 5, 5, 5, self.file("1.pcd", told))), [(2500, -2250, -875, 0)])

    def test_an_origin_is_added_before_a_pose(self):
        self.file("0.pcd", pcd_text([(1.0, 0.0, 0.0, 0.0)]))
        self.file("poses", "0 -1 0 0 1 0 0 0 0 0 1 0\n")
        self.assertEqual(submitted(self.log_of("--origin", 9, 0, 0, "--poses", "poses", "0.pcd")), [(0, 10000, 0, 0)])

    def test_a_comment_that_is_no_origin_is_refused(self):
        told = "is no origin as cloud_from writes it"
        for origin in "origin 1 2 metres", "origin 1 2 3", "origin 1 2 3.5 metres", "origin 1 2 03 metres", "origins 0 0 0 metres":
            pcd = pcd_text([]).replace(b"VERSION", f"# cloud_from: {origin}\nVERSION".encode())
            self.refused("0.pcd", pcd, f"line 2: it {told}")
            ply = ply_text([]).replace(b"comment made", f"comment cloud_from: {origin}".encode())
            self.refused("0.ply", ply, f"line 3: it {told}")

    def test_origins_that_no_map_has_are_wrong_words(self):
        for tool, file in ("cloud_from", "log"), ("log_from", "0.pcd"):
            for axis in "1099511629", "-1099511629", "0.5", "far":
                self.assertEqual(self.run_tool(tool, "--origin", "0", axis, "0", file)[:2], (2, b""))
