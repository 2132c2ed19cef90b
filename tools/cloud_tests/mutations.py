"""Files that were changed by chance: each is read whole, or refused in one line, with nothing of it written."""

import random
import re

from made_clouds import FORMS, drawn, kitti

from .runs import DATA, HEADER, Clouds, submitted

FILES = 300
# The scans before and after the file.
FIRST, LAST = "@1 add 1000 2000 3000 0\n", "@1 add 4000 5000 6000 0\n"


def changed(draw, content):
    """A file that differs in one to three places."""
    content = bytearray(content)
    for _ in range(draw.choice([1, 1, 2, 3])):
        # Half of the changes are in the header.
        at = draw.randrange(min(len(content), draw.choice([220, len(content)])) + 1)
        length = draw.choice([1, 1, 2, 7, 40])
        part = content[at : at + length]
        number = b"%d" % draw.choice([0, 1, 9, 2**31, 10**15])
        other = [bytes(len(part)), draw.randbytes(len(part)), draw.randbytes(len(part)), number, part * 2, b""]
        content[at : at + length] = draw.choice(other)
    return bytes(content[: draw.randrange(len(content))] if draw.random() < 0.1 else content)


def announced_points(name, content):
    """How many points a file's header announces."""
    if name.endswith(".bin"):
        return len(content) // 16
    header = content[: re.search(rb"(?m)^(DATA|end_header)", content).end()]
    if name.lower().endswith(".ply"):
        return int(re.search(rb"(?m)^\s*element\s+vertex\s+(\d+)", header)[1])
    width, height = (int(re.search(rb"(?m)^\s*%s\s+(\d+)" % word, header)[1]) for word in (b"WIDTH", b"HEIGHT"))
    return width * height


class Mutations(Clouds):
    """Never a traceback, never half a scan."""

    def test_a_changed_file_is_read_whole_or_refused(self):
        draw = random.Random(64)
        forms = {name: write(drawn(30)) for name, write in FORMS.items()} | {"0.bin": kitti(drawn(30))}
        forms |= {file.name: file.read_bytes() for file in DATA.iterdir() if file.suffix != ".md"}
        self.file("first.bin", kitti([(1.0, 2.0, 3.0, 0.0)]))
        self.file("last.bin", kitti([(4.0, 5.0, 6.0, 0.0)]))
        read = 0
        for _ in range(FILES):
            name = draw.choice([*forms])
            content = changed(draw, forms[name])
            with self.subTest(name=name, content=content):
                read += self.check(name, content)
        # Neither is rare.
        self.assertTrue(FILES // 10 < read < FILES // 2, read)

    def check(self, name, content):
        """Tells whether a file is read, which has to be as a whole."""
        self.file(name, content)
        status, log, told = self.run_tool("log_from", "first.bin", name, "last.bin")
        log = log.decode()
        if status == 1:
            self.assertEqual(log, HEADER + FIRST)
            self.assertRegex(told, rf"\Alog_from: {name}: (line|byte) \d+: .+\n\Z")
            return False
        self.assertEqual(status, 0)
        self.assertTrue(log.startswith(HEADER + FIRST) and log.endswith(LAST), log)
        left_out = sum(int(count) for count in re.findall(r"points left out, .*: (\d+)\n", told))
        self.assertEqual(len(submitted(log)) - 2 + left_out, announced_points(name, content))
        return True
