"""Files that are refused, and by which line or byte."""

import subprocess

from clouds.columns import CloudFault
from clouds.origin import NONE
from clouds.ply import read_ply
from made_clouds import drawn, kitti, pcd_bytes, pcd_text, ply_bytes, ply_header, ply_mixed_bytes, ply_mixed_text

from .runs import HEADER, TOP, Clouds


class Refusals(Clouds):
    """Files that are refused, and by which line or byte."""

    def test_faulty_pcd(self):
        text = pcd_text([(1.0, 2.0, 3.0, 4.0), (5.0, 6.0, 7.0, 8.0)])
        for old, new, told in [
            (b"DATA ascii\n", b"", "line 13: the header ends without a line DATA"),
            (b"DATA ascii", b"DATA text", "line 11: DATA is ascii, binary or binary_compressed"),
            (b"VERSION 0.7", b"VERSIONS 0.7", "line 2: VERSIONS is no word of the header, or stands there twice"),
            (b"HEIGHT 1", b"WIDTH 1", "line 8: WIDTH is no word of the header, or stands there twice"),
            (b"FIELDS x y z intensity\n", b"", "line 10: the header has no FIELDS"),
            (b"SIZE 4 4 4 4", b"SIZE 4 4 4", "line 4: 3 of them where there are 4 fields"),
            (b"SIZE 4 4 4 4", b"SIZE 4 4 4 -4", "line 4: something is no number"),
            (b"SIZE 4 4 4 4", b"SIZE 4 4 4 2", "line 5: no type F has 2 bytes"),
            (b"x y z i", b"x y y i", "line 3: there has to be one number y for each point"),
            (b"x y z i", b"x y w i", "line 3: there has to be one number z for each point"),
            (b"COUNT 1 1 1 1", b"COUNT 1 2 1 1", "line 3: there has to be one number y for each point"),
            (b"COUNT 1 1 1 1", b"COUNT 1 1 0 1", "line 3: there has to be one number z for each point"),
            (b"COUNT 1 1 1 1", b"COUNT 1 1 -1 1", "line 3: there has to be one number z for each point"),
            (b"COUNT 1 1 1 1", b"COUNT 1 1 1 --1", "line 6: something is no number"),
            (b"COUNT 1 1 1 1", b"COUNT 1 1 1 999999999999999", "line 6: a field has at most 65536 numbers"),
            (b"WIDTH 2\n", b"", "line 10: the header has no WIDTH"),
            (b"HEIGHT 1", b"HEIGHT 2", "line 10: 2 points where WIDTH and HEIGHT make 4"),
            (b"POINTS 2\n", b"POINTS 2 2\n", "line 10: 2 numbers where one is due"),
            (b"1.0 2.0 3.0", b"1.0 2.0", "line 12: 3 numbers where 4 are due"),
            (b"6.0 7.0", b"6.0 7.0 7.5", "line 13: 5 numbers where 4 are due"),
            (b"6.0", b"6,0", "line 13: could not convert string to float: b'6,0'"),
            (b"6.0", b"6_0", "line 13: _ is part of no number"),
            (b"5.0 6.0 7.0 8.0\n", b"", "line 13: the file ends after 1 of 2 points"),
            (b"7.0 8.0\n", b"7.0 8.0\n\n1 2 3 4\n", "line 15: the header tells of 2 points alone"),
        ]:
            with self.subTest(new=new, told=told):
                self.refused("0.pcd", text.replace(old, new), told)

    def test_pcd_that_is_cut_off_or_too_long(self):
        content = pcd_bytes(drawn(3))
        size = len(content)
        self.refused("0.pcd", content[:-1], f"byte {size - 1}: the file ends within its data, which has 48 bytes")
        for rest in b"\1", b"\0\0\1\0", bytes(5_000) + b"more":
            first = size + len(rest) - len(rest.lstrip(b"\0"))
            self.refused("0.pcd", content + rest, f"byte {first}: what follows the last of 3 points is more than zeros")
        fewer = content.replace(b"POINTS 3", b"POINTS 4").replace(b"WIDTH 3", b"WIDTH 4")
        self.refused("0.pcd", fewer, f"byte {size}: the file ends within its data, which has 64 bytes")

    def test_faulty_ply(self):
        text = ply_mixed_text([(1.0, 2.0, 3.0, 4.0), (5.0, 6.0, 7.0, 8.0)])
        for old, new, told in [
            (b"ply\n", b"PLY\n", "line 1: it isn't the word ply"),
            (b"end_header\n", b"", "line 22: the header ends without a line end_header"),
            (b"format ascii", b"format morse", "line 2: no line of such a header"),
            (b"format ascii 1.0\n", b"", "line 16: the header has no line format"),
            (b"element camera", b"elements camera", "line 4: no line of such a header"),
            (b"element camera 2\n", b"", "line 4: no line of such a header"),
            (b"property uchar red", b"property colour red", "line 11: no line of such a header"),
            (b"list uchar ushort", b"list float ushort", "line 5: the length of a list is no float"),
            (b"element vertex", b"element corner", "line 17: the header has no element vertex"),
            (b"float x", b"float w", "line 7: there has to be one number x for each point"),
            (b"double z", b"list uchar double z", "line 7: there has to be one number z for each point"),
            (b"2.0 1.0 1 9", b"2.0 1.0 1", "line 20: 7 numbers where 8 are due"),
            (b"4 0 3.0", b"4 -1 3.0", "line 20: '-1' is no length of a list"),
            (b"5.0 1 9\n3 0 1 2\n", b"5.0 2 9\n", "line 21: 10 numbers where 11 are due"),
            (b"8 2 0.5 0.5 7.0 255 6.0 5.0 1 9\n3 0 1 2\n", b"", "line 20: the file ends after 1 of 2 points"),
        ]:
            with self.subTest(new=new, told=told):
                self.refused("0.ply", text.replace(old, new), told)

    def test_ply_that_is_cut_off(self):
        """Behind the points of the second one come 13 bytes that are not read."""
        for content, unread in (ply_bytes(drawn(3)), 0), (ply_mixed_bytes(drawn(3)), 13):
            self.assertEqual(len([*read_ply(content[: len(content) - unread], "intensity", NONE)]), 3)
            for end in range(content.index(b"end_header\n") + 11, len(content) - unread):
                with self.assertRaisesRegex(CloudFault, f"^byte {end}: the file ends within its data"):
                    list(read_ply(content[:end], "intensity", NONE))

    def test_a_list_of_a_negative_length(self):
        vertex = ["element vertex 1", *(f"property float {name}" for name in "xyz"), "property list char int seen"]
        content = ply_header("binary_little_endian", *vertex)
        self.refused("0.ply", content + bytes(12) + b"\xff", f"byte {len(content) + 12}: -1 is no length of a list")

    def test_faulty_scans_of_kitti_and_other_files(self):
        self.refused("0.bin", kitti(drawn(2)) + b"four", "byte 32: 4 bytes where a point has 16")
        self.refused("0.txt", "", "no .pcd, .ply, .bin")
        told = "log_from: none.pcd: No such file or directory\n"
        self.assertEqual(self.run_tool("log_from", "none.pcd"), (1, b"", told))

    def test_the_scans_before_a_faulty_one_are_written_whole(self):
        self.file("scans/0.bin", kitti([(1.0, 2.0, 3.0, 0.0)]))
        self.file("scans/1.bin", kitti([(1.0, 2.0, 3.0, 0.0)]) + b"?")
        ended = self.run_tool("log_from", "scans")
        due = HEADER + "@1 add 1000 2000 3000 0\n"
        self.assertEqual(ended, (1, due.encode(), "log_from: scans/1.bin: byte 16: 1 bytes where a point has 16\n"))

    def test_the_tools_are_programs(self):
        self.file("0.bin", kitti(drawn(1)))
        words = [TOP / "tools/log_from", self.folder / "0.bin"]
        log = self.file("log", subprocess.run(words, capture_output=True, check=True).stdout)
        cloud = subprocess.run([TOP / "tools/cloud_from", log], capture_output=True, check=True).stdout
        self.assertIn(b"POINTS 1\n", cloud)

    def test_wrong_words_are_2(self):
        self.file("0.bin", b"")
        for words in [
            [],
            ["--voxel", "0", "0.bin"],
            ["--large", "15", "0.bin"],
            ["--scale", "nan", "0.bin"],
            ["--scale", "-1", "0.bin"],
            ["--every", "0", "0.bin"],
            ["--region", "100", "20", "30", "0.bin"],
            ["--calibration", "0.bin", "0.bin"],
            ["--poses", "0.bin", "--region", "100", "50", "30", "0.bin"],
            ["--poses", "0.bin", "--region", "100", "20", "101", "0.bin"],
        ]:
            self.assertEqual(self.run_tool("log_from", *words)[:2], (2, b""), words)
