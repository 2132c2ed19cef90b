"""Scans as commands of a log of version 2, in whole millimetres and within the limits of a log."""

from dataclasses import dataclass, field
from itertools import islice

from drawing.log import FARTHEST, MOST_BYTES, MOST_COMMANDS, MOST_IN_A_LINE, MOST_INTENSITY, MOST_POINTS, Rules

from .columns import CloudFault

LIMIT = FARTHEST[2]


@dataclass
class Tally:
    """What was left out of the scans, what was changed, and what stays."""

    no_numbers: int = 0
    out_of_range: int = 0
    cut: int = 0
    points: int = 0
    commands: int = 0
    size: int = 0

    def faults(self):
        """What a user would want to know."""
        told = [
            (self.no_numbers, "points left out, since a coordinate is no finite number"),
            (self.out_of_range, "points left out, since a log can't have a coordinate so far out"),
            (self.cut, f"intensities cut to what a log can have, 0 to {MOST_INTENSITY:,}"),
        ]
        return [f"{what}: {count:,}" for count, what in told if count]


@dataclass
class Writer:
    """Spells scans as commands: by `add` or `thin`, of each scan every so-manieth point, the intensities scaled.

    Where there are rules, the caller tells before each scan where it is.
    """

    word: str
    every: int = 1
    rules: Rules | None = None
    tally: Tally = field(default_factory=Tally)

    def header(self, voxel, large):
        """The log's header."""
        return self.counted(f"ikdmap 2 voxel {voxel} large {large}\n")

    def scan(self, rows, scale, pose):
        """The commands of a scan, whose points are moved by a pose where there is one."""
        lines = [] if pose is None else [self.pose(pose)]
        points = [*self.points(islice(rows, 0, None, self.every), scale, pose)]
        for start in range(0, len(points), MOST_IN_A_LINE):
            lines.append(f"@1 {self.word} {' '.join(points[start : start + MOST_IN_A_LINE])}\n")
        self.tally.commands += len(lines)
        self.tally.points += len(points)
        return self.counted("".join(lines))

    def counted(self, text):
        """A further text of the log, unless the log gets too long by it."""
        self.tally.size += len(text)
        for most, count, what in [
            (MOST_COMMANDS, self.tally.commands, "commands"),
            (MOST_POINTS, self.tally.points, "points"),
            (MOST_BYTES, self.tally.size, "bytes"),
        ]:
            if count > most:
                raise CloudFault(f"with this scan the log has more than {most:,} {what}")
        return text

    def pose(self, pose):
        """The command that tells where the caller is."""
        at = place(*pose.moved(0, 0, 0))
        if at is None or not in_range(at):
            raise CloudFault("its pose is where a log can't have one")
        return f"@1 pose {' '.join(map(str, (*self.rules, *at)))}\n"

    def points(self, rows, scale, pose):
        """The points of a scan as they are spelled."""
        for *at, intensity in rows:
            at = place(*(at if pose is None else pose.moved(*at)))
            if at is None:
                self.tally.no_numbers += 1
            elif not in_range(at):
                self.tally.out_of_range += 1
            else:
                yield f"{at[0]} {at[1]} {at[2]} {self.intensity(intensity * scale)}"

    def intensity(self, number):
        """The nearest intensity that a log can have; 0 for what is no number."""
        nearest = max(0, min(number, MOST_INTENSITY)) if number == number else 0
        if nearest != number:
            self.tally.cut += 1
        return round(nearest)


def place(x, y, z):
    """A place in metres as the nearest one in millimetres; none where a coordinate is no finite number."""
    try:
        return round(x * 1000), round(y * 1000), round(z * 1000)
    except (ValueError, OverflowError):
        return None


def in_range(at):
    """Tells whether a log can have a place."""
    return all(-LIMIT <= coordinate <= LIMIT for coordinate in at)
