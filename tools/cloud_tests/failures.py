"""Tools that can't go on end with one line and the status 1."""

import subprocess
import sys

from made_clouds import kitti

from .runs import HEADER, TOP, Clouds

# Runs a tool with this many bytes more than Python takes as it begins.
SHORT_OF_MEMORY = """
import resource, runpy, sys
most = int(open("/proc/self/statm").read().split()[0]) * resource.getpagesize() + int(sys.argv[1])
resource.setrlimit(resource.RLIMIT_AS, (most, most))
sys.argv = sys.argv[2:]
sys.path.insert(0, sys.argv[0].rsplit("/", 1)[0])
runpy.run_path(sys.argv[0], run_name="__main__")
"""
# This many points of a scan, or of four lines of a log, take several times as much.
MANY = 1_048_576


class Failures(Clouds):
    """Never a traceback."""

    def setUp(self):
        super().setUp()
        log = self.file("log", HEADER + "@1 add 7 8 9 5\n")
        self.inputs = {"log_from": self.file("0.bin", kitti([(1.0, 2.0, 3.0, 0.5)])), "cloud_from": log, "draw": log}

    def ended(self, *words, out=subprocess.DEVNULL):
        """How a program ends, and what it reports."""
        ended = subprocess.run(words, stdout=out, stderr=subprocess.PIPE, text=True, check=False)
        return ended.returncode, ended.stderr

    def test_a_full_disk_is_reported(self):
        for tool, file in self.inputs.items():
            with open("/dev/full", "wb") as full:
                told = f"{tool}: standard output: No space left on device\n"
                self.assertEqual(self.ended(TOP / "tools" / tool, file, out=full), (1, told))

    def test_a_closed_pipe_is_reported(self):
        for tool, file in self.inputs.items():
            with subprocess.Popen(["true"], stdin=subprocess.PIPE) as reader:
                reader.wait()
                told = f"{tool}: standard output: Broken pipe\n"
                self.assertEqual(self.ended(TOP / "tools" / tool, file, out=reader.stdin), (1, told))

    def test_too_little_memory_is_reported(self):
        scan = self.file("many.bin", kitti([(1.0, 2.0, 3.0, 0.5)]) * MANY)
        log = self.file("many", HEADER + ("@1 add" + " 7 8 9 5" * (MANY // 4) + "\n") * 4)
        for tool, file in ("log_from", scan), ("cloud_from", log), ("draw", log):
            words = [sys.executable, "-B", "-c", SHORT_OF_MEMORY, "20000000", TOP / "tools" / tool, file]
            self.assertEqual(self.ended(*words), (1, f"{tool}: not enough memory\n"))

    def test_closed_streams_are_no_fault_of_python(self):
        for tool, file in self.inputs.items():
            told = f"{tool}: standard output is closed\n"
            self.assertEqual(self.ended("sh", "-c", 'exec "$0" "$1" >&-', TOP / "tools" / tool, file), (1, told))
            self.assertEqual(self.ended("sh", "-c", 'exec "$0" "$1" 2>&- >/dev/full', TOP / "tools" / tool, file), (1, ""))

    def test_what_a_terminal_would_act_on_is_spelled_out(self):
        self.refused("0.ply", b"ply\n\x1b[2J\n", "line 3: the header ends without a line end_header")
        told = "line 1: \\x1b[2J\\x9b is no word of the header, or stands there twice"
        self.refused("0.pcd", b"\x1b[2J\x9b\nDATA ascii\n", told)
