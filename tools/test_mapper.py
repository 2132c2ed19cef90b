#!/usr/bin/env python3
"""What ./mapper --unproved says and how it ends, by what rt prints of a run: here another program takes its place."""

import os
import shutil
import subprocess
import tempfile
import unittest
from pathlib import Path

TOP = Path(__file__).resolve().parent.parent
# It keeps its words and its input, and then does what a test wants.
RT = """#!/usr/bin/env bash
printf '%s\\n' "$@" >"$KEPT/words"
cat >"$KEPT/input"
printf 'told\\n'
printf '%b' "$NOTES" >&2
exit "$STATUS"
"""
BEGIN = "mapper: nothing is proved in this run, which is for small logs: it compiles for about a minute, is slow, and ends after an hour\n"
END = "mapper: without --unproved the program is proved and built, once for all, and has none of these bounds\n"
LAST = "races: not looked for\nrun=no-answer proved=no\n"


class Unproved(unittest.TestCase):
    """A folder with the script, and with a program that is called rt."""

    def setUp(self):
        folder = tempfile.TemporaryDirectory()
        self.addCleanup(folder.cleanup)
        self.folder = Path(folder.name)
        (self.folder / "crates/mapper_cli").mkdir(parents=True)
        (self.folder / "crates.txt").write_text("mapper_cli:\n")
        shutil.copy(TOP / "mapper", self.folder)
        rt = self.folder / "rt"
        rt.write_text(RT)
        rt.chmod(0o755)

    def run_mapper(self, notes, status, *words, given=b"a log\n"):
        """Runs the script while rt prints this and ends so."""
        path = f"{self.folder}:{os.environ['PATH']}"
        how = {**os.environ, "PATH": path, "KEPT": str(self.folder), "NOTES": notes, "STATUS": str(status), "TMPDIR": str(self.folder)}
        words = [self.folder / "mapper", "--unproved", *words]
        ended = subprocess.run(words, input=given, env=how, capture_output=True, check=False)
        self.assertEqual(sorted(file.name for file in self.folder.iterdir() if file.is_dir()), ["crates"])
        return ended.returncode, ended.stdout.decode(), ended.stderr.decode()

    def test_a_run_that_ends_has_the_programs_status_and_lines(self):
        notes = "line 2: bad number\nchecked: ended status=1\nraces: not looked for\nrun=ended status=1 runners=1 proved=no\n"
        self.assertEqual(self.run_mapper(notes, 1, "run"), (1, "told\n", BEGIN + "line 2: bad number\n"))
        self.assertEqual((self.folder / "words").read_text().split(), ["try", "--seconds", "3600", "--", "run"])
        self.assertEqual((self.folder / "input").read_bytes(), b"a log\n")
        notes = "checked: ended status=6\nrun=ended status=6 runners=1 proved=no\n"
        self.assertEqual(self.run_mapper(notes, 6, "make", "5"), (6, "told\n", BEGIN))
        self.assertEqual((self.folder / "input").read_bytes(), b"")

    def test_a_bound_of_the_run_is_reported_with_a_status_of_its_own(self):
        for checked, told in [
            ("the program did not end within the time limit", "it had not ended after an hour"),
            ("the program wrote more than 1048576 bytes to standard output", "it would write more than 1 MiB"),
        ]:
            notes = f"interpreter: no-answer: a call\nchecked: no-answer: {checked}\n{LAST}"
            self.assertEqual(self.run_mapper(notes, 6, "run")[::2], (75, f"{BEGIN}mapper: {told}\n{END}"))

    def test_no_run_is_reported_with_what_rt_says(self):
        for status, notes in (1, "error: no such type\n"), (2, "rt: rt try needs a kit\n"), (127, ""), (6, LAST):
            told = "mapper: there is no run: that is rt's word above, and no status of the program\n"
            self.assertEqual(self.run_mapper(notes, status, "run")[::2], (75, BEGIN + notes + told + END))

    def test_a_log_that_is_too_long_is_not_cut_off(self):
        told = self.run_mapper("", 0, "run", given=bytes(2**26 + 1))
        self.assertEqual(told, (75, "", f"{BEGIN}mapper: it reads no more than 64 MiB\n{END}"))
        self.assertFalse((self.folder / "words").exists())
        self.assertEqual(self.run_mapper("run=ended status=0\n", 0, "run", given=bytes(2**26))[0], 0)


if __name__ == "__main__":
    unittest.main()
