"""Logs: what their lines say, and which line is the first faulty one."""

import re
from collections.abc import Sequence
from dataclasses import dataclass
from typing import NamedTuple

from .points import FARTHEST, MOST_INTENSITY, Place, Point, Points

MOST_BYTES = 268_435_456
MOST_COMMANDS = 65_536
MOST_IN_A_LINE = 262_144
MOST_POINTS = 4_194_304
MOST_HITS = 16_777_216
# A list of hits counts as so many at least, since it has room for them in itself.
LEAST_ROOM = 16
LONGEST_SIDE = 2**41

NUMBER = re.compile(rb"0|-?[1-9][0-9]*")
CALLER = re.compile(rb"@([1-8])")
# What a line begins with that has points.
POINTS = re.compile(rb"@([1-8]) (add|thin) ")


class LogFault(Exception):
    """A log is refused: its text is the line's number and the cause, as the program tells them."""


class Box(NamedTuple):
    """A half-open box: its upper sides are left out."""

    lo: Place
    hi: Place

    def holds(self, place):
        """Tells whether a place lies in the box."""
        return all(low <= at < high for low, at, high in zip(self.lo, place, self.hi))


class Rules(NamedTuple):
    """How a region follows its caller: its side, the radius of the ball that is to touch no face, and the length of a step."""

    side: int
    ball: int
    step: int


@dataclass(frozen=True)
class Region:
    """The cube that moves with a caller: what has left it isn't held."""

    rules: Rules
    lo: Place

    @classmethod
    def begun(cls, rules, place):
        """The region of a caller that begins at a place, which is its middle."""
        return cls(rules, Place(*(at - rules.side // 2 for at in place)))

    def moved(self, place):
        """The region when its caller has come to a place: by itself on each axis."""
        return Region(self.rules, Place(*map(self.start, self.lo, place)))

    def start(self, low, at):
        """Where it starts on an axis, when its caller is there: it goes a step towards the face that the ball touches."""
        side, ball, step = self.rules
        if at - low <= ball:
            return low - step
        return low + step if low + side - at <= ball else low

    def box(self):
        """What it holds."""
        return Box(self.lo, Place(*(low + self.rules.side for low in self.lo)))


@dataclass(frozen=True)
class Update:
    """A change of the map: `add` and `thin` have points, `expire` has a bound on numbers, the other words have boxes.

    The box of `pose` is the region that its caller had, if it moves; beside it stands the one that the caller has then.
    """

    caller: int
    word: str
    points: Sequence[Point] = ()
    boxes: Sequence[Box] = ()
    below: int = 0
    region: Box | None = None


@dataclass(frozen=True)
class Near:
    """Asks for the `most` nearest live points, no farther than `reach` where one is given."""

    caller: int
    most: int
    place: Place
    reach: int | None = None


@dataclass(frozen=True)
class Nears:
    """Asks for the `most` nearest live points of each of several places, all at one time."""

    caller: int
    most: int
    places: list[Place]


@dataclass(frozen=True)
class Inside:
    """Asks how many live points are in a box, and for the first `most` of them by number."""

    caller: int
    most: int
    box: Box


@dataclass(frozen=True)
class Ball:
    """Asks how many live points are no farther than `reach` from a place, and for the first `most` of them by number."""

    caller: int
    most: int
    reach: int
    place: Place


@dataclass(frozen=True)
class Lonely:
    """Asks how many live points have no other one within `reach`, and for the first `most` of them by number."""

    caller: int
    most: int
    reach: int


@dataclass(frozen=True)
class Clusters:
    """Asks how many clusters the live points make by steps of at most `reach`, and for the first `most` of them."""

    caller: int
    most: int
    reach: int


@dataclass(frozen=True)
class Sync:
    """Parts what stands before it from what stands after it."""


@dataclass(frozen=True)
class Log:
    """A log: its version, the edge of its voxels, and its commands."""

    version: int
    voxel: int
    commands: list[Update | Near | Nears | Inside | Ball | Lonely | Clusters | Sync]

    def updates(self):
        """How many of the commands change the map."""
        return sum(isinstance(command, Update) for command in self.commands)


class Fields:
    """The arguments of a line, read from left to right, in a log of this version."""

    def __init__(self, version, fields):
        self.left = iter(fields)
        self.version = version
        self.farthest = FARTHEST[version]

    def number(self, low, high):
        """The next field's number, which lies from low to high."""
        text = next(self.left)
        if not NUMBER.fullmatch(text):
            raise LogFault("bad number")
        # The longest number in any range has 14 characters, and a very long text is no number to Python.
        if len(text) > 14 or not low <= int(text) <= high:
            raise LogFault("out of range")
        return int(text)

    def place(self, beyond=0):
        """The next three fields as a place, which may lie so far beyond the farthest coordinate."""
        return Place(*(self.number(-self.farthest, self.farthest + beyond) for _ in range(3)))

    def point(self):
        """The next fields as a point, in version 2 with its intensity."""
        place = self.place()
        return Point(place, self.number(0, MOST_INTENSITY)) if self.version == 2 else Point(place)

    def reach(self):
        """The next field as a greatest distance."""
        return self.number(0, 4 * self.farthest)

    def rules(self):
        """The next three fields as the rules of a region: two balls are shorter than its side, and a step is no longer."""
        side = self.number(2, LONGEST_SIDE)
        return Rules(side, self.number(0, (side - 1) // 2), self.number(1, side))

    def box(self):
        """The next six fields as a box."""
        box = Box(self.place(1), self.place(1))
        if any(high < low for low, high in zip(box.lo, box.hi)):
            raise LogFault("inverted box")
        return box


def read_log(content):
    """Reads the bytes of a log, and raises the LogFault of its first faulty line."""
    if len(content) > MOST_BYTES:
        raise LogFault("log too long")
    reader, number, take = Reader(), 0, Reader.take_header
    for number, line in enumerate(lines_of(content), 1):
        if line and not line.startswith(b"#"):
            try:
                take(reader, line)
            except LogFault as fault:
                raise LogFault(f"line {number}: {fault}") from None
            take = Reader.take
    if take is Reader.take_header:
        raise LogFault(f"line {number}: no header")
    return Log(reader.version, reader.voxel, reader.commands)


def lines_of(content):
    """The lines of a text in turn, so that it isn't held twice."""
    start = end = 0
    while end >= 0:
        end = content.find(b"\n", start)
        yield content[start : end if end >= 0 else len(content)]
        start = end + 1


class Reader:
    """Takes the kept lines of a log in turn."""

    def __init__(self):
        self.version = 1
        self.voxel = 0
        self.commands = []
        self.points = 0
        self.hits = 0
        # The region of each caller.
        self.regions = {}

    def take_header(self, line):
        """Takes the first kept line."""
        fields = line.split(b" ")
        if len(fields) != 6 or fields[::2] != [b"ikdmap", b"voxel", b"large"] or fields[1] not in (b"1", b"2"):
            raise LogFault("no header")
        self.version = int(fields[1])
        numbers = Fields(self.version, [fields[3], fields[5]])
        self.voxel = numbers.number(1, 1_000_000)
        numbers.number(16, 1_000_000)

    def take(self, line):
        """Takes a further kept line."""
        if len(self.commands) == MOST_COMMANDS:
            raise LogFault("too many commands")
        command = self.many_points(line) or self.command(line.split(b" "))
        self.hits += room(command)
        if self.hits > MOST_HITS:
            raise LogFault("too many hits")
        self.commands.append(command)

    def many_points(self, line):
        """The update by points that a line spells, in a quick way where all is well with it; none else, and nothing is taken."""
        spelled = POINTS.match(line)
        points = spelled and Points.spelled(line[spelled.end() :], self.version)
        if points is None or len(points) > MOST_IN_A_LINE or self.points + len(points) > MOST_POINTS:
            return None
        self.points += len(points)
        return Update(int(spelled[1]), spelled[2].decode(), points=points)

    def command(self, fields):
        """The command that a line spells."""
        if fields[0] == b"sync":
            if len(fields) > 1:
                raise LogFault("wrong count")
            return Sync()
        if not fields[0].startswith(b"@"):
            raise LogFault("unknown command")
        caller = CALLER.fullmatch(fields[0])
        if not caller:
            raise LogFault("bad caller")
        words = {b"near": self.near, b"box": self.inside}
        words |= dict.fromkeys((b"add", b"thin"), self.points_in)
        words |= dict.fromkeys((b"delete", b"erase", b"suspend", b"restore"), self.boxes_in)
        if self.version == 2:
            words |= {b"expire": self.expiry, b"pose": self.pose, b"nears": self.nears, b"ball": self.ball}
            words |= dict.fromkeys((b"lonely", b"clusters"), self.joined)
        if len(fields) < 2 or fields[1] not in words:
            raise LogFault("unknown command")
        return words[fields[1]](int(caller[1]), fields[1].decode(), fields[2:])

    def points_in(self, caller, word, fields):
        """An update by points."""
        count = parts(fields, 4 if self.version == 2 else 3)
        if count > MOST_IN_A_LINE or self.points + count > MOST_POINTS:
            raise LogFault("too many points")
        self.points += count
        numbers = Fields(self.version, fields)
        return Update(caller, word, points=Points.of([numbers.point() for _ in range(count)]))

    def boxes_in(self, caller, word, fields):
        """An update by boxes; to erase a point is to delete the box that holds it alone."""
        count = parts(fields, 3 if word == "erase" else 6)
        if count > MOST_IN_A_LINE:
            raise LogFault("too many points")
        numbers = Fields(self.version, fields)
        if word == "erase":
            erased = [numbers.place() for _ in range(count)]
            return Update(caller, word, boxes=[Box(at, Place(*(c + 1 for c in at))) for at in erased])
        return Update(caller, word, boxes=[numbers.box() for _ in range(count)])

    def expiry(self, caller, word, fields):
        """An update by a bound on numbers."""
        if len(fields) != 1:
            raise LogFault("wrong count")
        return Update(caller, word, below=Fields(self.version, fields).number(0, MOST_POINTS))

    def pose(self, caller, word, fields):
        """An update by where the caller is: its region moves, or begins where it has none by these rules."""
        if len(fields) != 6:
            raise LogFault("wrong count")
        numbers = Fields(self.version, fields)
        rules, place = numbers.rules(), numbers.place()
        old = self.regions.get(caller)
        goes_on = old is not None and old.rules == rules
        self.regions[caller] = new = old.moved(place) if goes_on else Region.begun(rules, place)
        return Update(caller, word, boxes=[old.box()] if goes_on and new != old else [], region=new.box())

    def near(self, caller, _word, fields):
        """A query for the nearest points."""
        if len(fields) != 4 and (len(fields) != 6 or fields[4] != b"within"):
            raise LogFault("wrong count")
        numbers = Fields(self.version, fields[:4] + fields[5:])
        most, place = numbers.number(1, 256), numbers.place()
        reach = numbers.reach() if len(fields) == 6 else None
        return Near(caller, most, place, reach)

    def nears(self, caller, _word, fields):
        """A query for the nearest points of each of several places."""
        count = parts(fields[1:], 3)
        if count > MOST_IN_A_LINE:
            raise LogFault("too many points")
        numbers = Fields(self.version, fields)
        return Nears(caller, numbers.number(1, 256), [numbers.place() for _ in range(count)])

    def inside(self, caller, _word, fields):
        """A query for what is in a box."""
        if len(fields) != 7:
            raise LogFault("wrong count")
        numbers = Fields(self.version, fields)
        return Inside(caller, numbers.number(1, 256), numbers.box())

    def ball(self, caller, _word, fields):
        """A query for what is round a place."""
        if len(fields) != 5:
            raise LogFault("wrong count")
        numbers = Fields(self.version, fields)
        return Ball(caller, numbers.number(1, 256), numbers.reach(), numbers.place())

    def joined(self, caller, word, fields):
        """A query that goes by which points are near one another."""
        if len(fields) != 2:
            raise LogFault("wrong count")
        numbers = Fields(self.version, fields)
        return {"lonely": Lonely, "clusters": Clusters}[word](caller, numbers.number(1, 256), numbers.reach())


def room(command):
    """How many hits the reply to a command has room for."""
    if isinstance(command, Near):
        return max(command.most, LEAST_ROOM)
    if isinstance(command, Nears):
        return len(command.places) * max(command.most, LEAST_ROOM)
    return 0


def parts(fields, size):
    """How many parts of so many fields the arguments have: one at least, and nothing beside them."""
    if not fields or len(fields) % size:
        raise LogFault("wrong count")
    return len(fields) // size
