"""Runs of the two tools in a folder of files."""

import io
import os
import tempfile
import unittest
from contextlib import chdir, redirect_stderr, redirect_stdout
from importlib.machinery import SourceFileLoader
from importlib.util import module_from_spec, spec_from_file_location
from pathlib import Path
from unittest import mock

from drawing.log import read_log

TOP = Path(__file__).resolve().parent.parent.parent
PROGRAM = Path(os.environ.get("MAPPER", TOP / "crates/mapper_cli/out/mapper_cli"))
# Files as they were written by others: README.md beside them says how.
DATA = TOP / "tools/test_data"
HEADER = "ikdmap 2 voxel 200 large 1500\n"


def tool(name):
    """A tool as a module, so that it is run here: to begin Python anew for each case takes much longer than the case."""
    spec = spec_from_file_location(name, loader=SourceFileLoader(name, str(TOP / "tools" / name)))
    module = module_from_spec(spec)
    spec.loader.exec_module(module)
    return module


TOOLS = {name: tool(name) for name in ("log_from", "cloud_from")}


class Clouds(unittest.TestCase):
    """A folder for files, and the two tools, which are run as a user does."""

    def setUp(self):
        folder = tempfile.TemporaryDirectory()
        self.addCleanup(folder.cleanup)
        self.folder = Path(folder.name)

    def file(self, name, content):
        """Writes a file, and returns its path."""
        path = self.folder / name
        path.parent.mkdir(exist_ok=True)
        path.write_bytes(content if isinstance(content, bytes) else content.encode())
        return path

    def run_tool(self, tool, *words):
        """Runs a tool in the folder, and returns its status, what it wrote and what it told."""
        out, told = io.TextIOWrapper(io.BytesIO()), io.StringIO()
        with chdir(self.folder), redirect_stdout(out), redirect_stderr(told), mock.patch("sys.argv", [tool, *map(str, words)]):
            status = TOOLS[tool].main()
        return status, out.buffer.getvalue(), told.getvalue()

    def written(self, tool, *words):
        """What a tool writes that has nothing to tell."""
        status, content, told = self.run_tool(tool, *words)
        self.assertEqual((status, told), (0, ""))
        return content

    def log_of(self, *words):
        """The text of a log."""
        return self.written("log_from", *words).decode()

    def refused(self, name, content, told, *words):
        """Tells that a file is refused with this, and that nothing is written of it."""
        self.file(name, content)
        self.assertEqual(self.run_tool("log_from", *words, name), (1, b"", f"log_from: {name}: {told}\n"))

    def same(self, points, found, case):
        """Tells that points found in whole millimetres are these ones in metres, to half a millimetre."""
        self.assertEqual(len(found), len(points), case)
        for point, at in zip(points, found):
            self.assertTrue(all(abs(1000 * metres - mm) < 0.5001 for metres, mm in zip(point[:3], at)), (case, point, at))
            self.assertEqual(round(point[3]), at[3], case)


def submitted(log):
    """The points of a log's text, as x, y, z and the intensity."""
    commands = read_log(log.encode()).commands
    return [(*place, intensity) for command in commands for place, intensity in command.points]
