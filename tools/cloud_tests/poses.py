"""Poses: points are moved into the world, and a region goes along."""

from drawing.log import read_log
from made_clouds import kitti, pcd_text

from .runs import HEADER, Clouds, submitted

STILL = "1 0 0 0 0 1 0 0 0 0 1 0\n"


class Poses(Clouds):
    """Points are moved into the world, and a region goes along."""

    def test_points_are_turned_and_moved(self):
        """A quarter turn to the left about z: what was ahead on x lies on y; then 10 m, 20 m and -1 m are added."""
        self.file("0.pcd", pcd_text([(1.0, 0.0, 0.0, 7.0), (0.0, 2.0, 3.0, 8.0)]))
        self.file("poses", "0 -1 0 10 1 0 0 20 0 0 1 -1\n")
        log = self.log_of("0.pcd", "--poses", "poses")
        due = "@1 pose 1000000 450000 150000 10000 20000 -1000\n@1 add 10000 21000 -1000 7 8000 20000 2000 8\n"
        self.assertEqual(log, HEADER + due)

    def test_each_scan_has_its_pose_and_the_region_moves(self):
        self.file("0.bin", kitti([(1.0, 0.0, 0.0, 0.0)]))
        self.file("poses", STILL + STILL.replace("1 0 0 0", "1 0 0 3.5e1", 1) + "\n")
        log = self.log_of("--region", "100000", "20000", "30000", "--thin", "--poses", "poses", "0.bin", "0.bin")
        first = "@1 pose 100000 20000 30000 0 0 0\n@1 thin 1000 0 0 0\n"
        self.assertEqual(log, HEADER + first + "@1 pose 100000 20000 30000 35000 0 0\n@1 thin 36000 0 0 0\n")
        self.assertEqual(read_log(log.encode()).commands[2].region.lo.x, -20_000)

    def test_the_scanner_is_where_the_calibration_has_it(self):
        """KITTI's camera looks along z, its x is to the right: a point 10 m ahead and 1 m to the left of the scanner lies at
        x = -1, z = 10 of the camera, which stands 2 m farther on z; the scanner is 0.3 m behind the camera."""
        self.file("0.bin", kitti([(10.0, 1.0, 0.0, 0.0)]))
        self.file("calib.txt", "P0: 1 2\nTr: 0 -1 0 0 0 0 -1 -0.1 1 0 0 -0.3\n")
        self.file("poses", "1 0 0 0 0 1 0 0 0 0 1 2\n")
        log = self.log_of("0.bin", "--poses", "poses", "--calibration", "calib.txt")
        due = "@1 pose 1000000 450000 150000 0 -100 1700\n@1 add -1000 -100 11700 0\n"
        self.assertEqual(log, HEADER + due)
        # The car has turned right by a quarter: the camera's z is the world's x, and its x the world's -z.
        self.file("poses", "0 0 1 5 0 1 0 0 -1 0 0 0\n")
        log = self.log_of("0.bin", "--poses", "poses", "--calibration", "calib.txt")
        self.assertEqual(submitted(log), [(14700, -100, 1000, 0)])

    def test_tums_poses_are_those_of_kitti(self):
        """The same quarter turn to the left about z, and one about each other axis; no turn at all."""
        self.file("0.pcd", pcd_text([(1.0, 0.0, 0.0, 7.0), (0.0, 2.0, 3.0, 8.0)]))
        half = 0.5**0.5
        for tum, kitti_line in [
            (f"0 0 {half} {half}", "0 -1 0 10 1 0 0 20 0 0 1 -1"),
            (f"0 {half} 0 {half}", "0 0 1 10 0 1 0 20 -1 0 0 -1"),
            (f"{half} 0 0 {half}", "1 0 0 10 0 0 -1 20 0 1 0 -1"),
            (f"{-half} 0 0 {-half}", "1 0 0 10 0 0 -1 20 0 1 0 -1"),
            ("0.0 0.0 0.0 1.0005", "1 0 0 10 0 1 0 20 0 0 1 -1"),
        ]:
            self.file("tum", f"# time x y z qx qy qz qw\n1305031.5 10 20 -1 {tum}\n")
            self.file("kitti", kitti_line + "\n")
            due = self.log_of("0.pcd", "--poses", "kitti")
            self.assertEqual(self.log_of("0.pcd", "--poses", "tum"), due)
            self.assertEqual(self.log_of("0.pcd", "--poses-form", "tum", "--poses", "tum"), due)
            self.assertEqual(self.log_of("0.pcd", "--poses-form", "kitti", "--poses", "kitti"), due)

    def test_what_is_no_rotation_is_refused_with_its_line(self):
        self.file("0.bin", kitti([(1.0, 0.0, 0.0, 0.0)]))
        for line, told in [
            ("2 0 0 0 0 1 0 0 0 0 1 0", "a row has the length 2"),
            ("1 0 0 0 0 1 0 0 0 0 0.9989 0", "a row has the length 0.9989"),
            ("1 0 0 0 0 1 0 0 0 0 0 0", "a row has the length 0"),
            ("1 0 0 0 0.0011 1 0 0 0 0 1 0", "two rows are not at right angles"),
            ("1 0 0 0 0 1 0 0 0 1 0 0", "two rows are not at right angles"),
            ("1 0 0 0 0 1 0 0 0 0 -1 0", "it takes right to left"),
            ("0 1 0 0 1 0 0 0 0 0 1 0", "it takes right to left"),
            ("1e200 0 0 0 0 1e200 0 0 0 0 1e200 0", "a row has the length 1e+200"),
            ("0 0 0 0 0 0 0 1.0011", "its quaternion has the length 1.0011"),
            ("0 0 0 0 0 0 0 0", "its quaternion has the length 0"),
        ]:
            self.file("poses", "\n" + line + "\n")
            ended = self.run_tool("log_from", "--poses", "poses", "0.bin")
            self.assertEqual(ended, (1, b"", f"log_from: poses: line 2: it is no rotation: {told}\n"))
        self.file("poses", STILL)
        self.file("calib.txt", "Tr: 1 0 0 0 0 1 0 0 0 0 -1 0\n")
        ended = self.run_tool("log_from", "--poses", "poses", "--calibration", "calib.txt", "0.bin")
        self.assertEqual(ended, (1, b"", "log_from: calib.txt: line 1: it is no rotation: it takes right to left\n"))
        self.file("poses", "1 0 0 0 0.0009 1 0 0 0 0 1.0009 0")
        self.assertEqual(submitted(self.log_of("--poses", "poses", "0.bin")), [(1000, 1, 0, 0)])

    def test_poses_that_dont_fit_are_refused(self):
        self.file("0.bin", kitti([(1.0, 0.0, 0.0, 0.0)]))
        for poses, told in [
            ("", "poses: 0 poses for 1 scans"),
            (STILL * 2, "poses: 2 poses for 1 scans"),
            ("1 0 0 0\n", "poses: line 1: 4 numbers where a pose has 12"),
            ("# KITTI\n" + STILL + "0 0 0 0 0 0 0 1\n", "poses: line 3: 8 numbers where a pose has 12"),
            ("0 0 0 0 0 0 0 1\n" + STILL, "poses: line 2: 12 numbers where a pose has 8"),
            ("\n" + STILL.replace("1", "one"), "poses: line 2: could not convert string to float: b'one'"),
            (STILL.replace("1", "nan"), "poses: line 1: a number is not finite"),
            (STILL.replace("1 0\n", "1 2e9\n"), "0.bin: its pose is where a log can't have one"),
        ]:
            self.file("poses", poses)
            ended = self.run_tool("log_from", "--poses", "poses", "0.bin")
            self.assertEqual(ended, (1, b"", f"log_from: {told}\n"))
        self.file("poses", STILL)
        ended = self.run_tool("log_from", "--poses", "poses", "--poses-form", "tum", "0.bin")
        self.assertEqual(ended, (1, b"", "log_from: poses: line 1: 12 numbers where a pose has 8\n"))
        ended = self.run_tool("log_from", "--poses", "poses", "--calibration", "poses", "0.bin")
        self.assertEqual(ended, (1, b"", "log_from: poses: there is no line Tr:\n"))
