"""Points there and back: each form is read as the points that were written in it, and written as those of the log."""

import struct
import subprocess

from made_clouds import FORMS, drawn, kitti, pcd_text

from .runs import HEADER, PROGRAM, Clouds, submitted

# What is written of a map, and how the rows of what is binary are packed.
WRITTEN = {
    ".pcd": ([], ""),
    "32.pcd": (["--binary"], "<4f"),
    "64.pcd": (["--binary", "--float64"], "<3df"),
    ".ply": (["--ply"], ""),
    "32.ply": (["--ply", "--binary"], "<4f"),
    "64.ply": (["--ply", "--binary", "--float64"], "<3df"),
}


class ThereAndBack(Clouds):
    """Points come back as they were."""

    def test_each_form_is_read_as_the_same_points(self):
        points = drawn(200)
        for name, write in FORMS.items():
            self.same(points, submitted(self.log_of(self.file(name, write(points)))), name)

    def test_reflectances_of_kitti_fill_the_range_of_intensities(self):
        points = [(1.0, 2.0, 3.0, 0.0), (4.0, 5.0, 6.0, 0.5), (7.0, 8.0, 9.0, 1.0)]
        log = self.log_of(self.file("0.bin", kitti(points)))
        self.assertEqual(log, HEADER + "@1 add 1000 2000 3000 0 4000 5000 6000 32768 7000 8000 9000 65535\n")

    def test_each_form_is_written_as_the_same_points(self):
        points = drawn(200, 16_000.0)
        log = self.file("log", self.log_of(self.file("in.pcd", pcd_text(points))))
        words = [log]
        if PROGRAM.exists():
            with log.open() as given:
                ended = subprocess.run([PROGRAM, "run", "--serial"], stdin=given, capture_output=True, check=True)
            words.append(self.file("transcript", ended.stdout))
        for name, (options, shape) in WRITTEN.items():
            content = self.written("cloud_from", *options, *words)
            rows = content[content.index(b"DATA" if name.endswith("pcd") else b"end_header") :].split(b"\n", 1)[1]
            rows = struct.iter_unpack(shape, rows) if shape else [tuple(map(float, row.split())) for row in rows.splitlines()]
            self.same(points, [(*(round(1000 * at) for at in place), int(i)) for *place, i in rows], name)
            self.same(points, submitted(self.log_of(self.file("out" + name, content))), name)

    def test_what_is_written_is_what_is_live_at_the_end(self):
        added = HEADER + "@1 add 0 0 0 1 900 0 0 2 5000 0 0 3\n"
        log = added + "@1 suspend 5000 0 0 5001 1 1\n@1 erase 0 0 0\n@1 thin 910 0 0 4 -1 0 0 5\n"
        content = self.written("cloud_from", self.file("log", log)).decode()
        self.assertEqual(content[content.index("DATA") :], "DATA ascii\n0.900 0.000 0.000 2\n-0.001 0.000 0.000 5\n")
        nothing = self.written("cloud_from", "--ply", self.file("log", HEADER)).decode()
        self.assertIn("element vertex 0\n", nothing)

    def test_a_transcripts_marks_decide_what_is_live(self):
        self.file("log", HEADER + "@1 add 5 0 0 1\n@2 erase 5 0 0\n")
        for transcript, live in [
            ("@1 ok 1\n@2 ok 2\nend 2 live 0 suspended 0\n", 0),
            ("@1 ok 2\n@2 ok 1\nend 2 live 1 suspended 0\n", 1),
        ]:
            content = self.written("cloud_from", "log", self.file("transcript", transcript)).decode()
            self.assertIn(f"\nPOINTS {live}\n", content)
        for transcript, told in [
            ("@1 ok 1\n@2 ok 1\nend 2 live 0 suspended 0\n", "line 2: mark 1 is that of the update in line 1 too"),
            ("@1 ok 1\n", "1 lines where 3 are due"),
            (
                "@1 ok 1\n@2 ok 2\nend 2 live 1 suspended 0\n",
                "its last line is `end 2 live 1 suspended 0` where `end 2 live 0 suspended 0` is due",
            ),
        ]:
            self.file("transcript", transcript)
            ended = self.run_tool("cloud_from", "log", "transcript")
            self.assertEqual(ended, (1, b"", f"cloud_from: transcript: {told}\n"))

    def test_a_refused_log_and_a_missing_one_are_1(self):
        self.file("log", "")
        self.assertEqual(self.run_tool("cloud_from", "log"), (1, b"", "cloud_from: log: line 1: no header\n"))
        self.assertEqual(self.run_tool("cloud_from", "none"), (1, b"", "cloud_from: none: No such file or directory\n"))
