"""Transcripts: the marks that their lines carry, whether these are legal, and where a line says something else."""

import re
from dataclasses import dataclass, field
from itertools import zip_longest

from .held import Held
from .log import Ball, Clusters, Inside, Lonely, Near, Nears, Place, Sync, Update
from .searches import Hit

# The word of the line to a command of a caller.
WORDS = {Update: "ok", Near: "near", Nears: "nears", Inside: "box", Ball: "ball", Lonely: "lonely", Clusters: "clusters"}
# The head of a line, and its mark.
REPLY = re.compile(rf"(@[1-8] (?:{'|'.join(WORDS.values())})|sync|end) (0|[1-9][0-9]{{0,9}})(?: .*)?")


@dataclass
class Run:
    """A log's run: what is held at its end, the line to each command and at the end, and what was found.

    Found are the hits at each place that was asked for its nearest points; the places of the points that were told as lonely;
    and the clusters of the last `clusters` command, each by its points' numbers, with this command's place in the log.
    """

    held: Held
    lines: list[str]
    hits: list[tuple[Place, list[Hit]]] = field(default_factory=list)
    lonely: list[Place] = field(default_factory=list)
    clusters: tuple[int, list[list[int]]] = (-1, [])


def serial_marks(log):
    """The marks of a run in the log's order: how many updates stand at or before each command, and at the end."""
    marks, count = [], 0
    for command in log.commands:
        count += isinstance(command, Update)
        marks.append(count)
    return [*marks, count]


def run(log, marks):
    """Runs a log whose commands have these marks, which have to be legal: each update in its turn, each query after the
    update of its mark."""
    result = Run(Held(log.voxel), [""] * len(marks))
    commands = [*log.commands, Sync()]
    turns = sorted(range(len(marks)), key=lambda place: (marks[place], not isinstance(commands[place], Update)))
    for place in turns:
        head = "end" if place == len(log.commands) else head_of(commands[place])
        result.lines[place] = f"{head} {marks[place]}" + answer(log, result, place, commands[place])
    return result


def answer(log, result, place, command):
    """Does a command of the log, and tells what its line says after the mark."""
    held = result.held
    if isinstance(command, Update):
        held.update(command)
        return ""
    if isinstance(command, Sync):
        return f" live {len(held.live)} suspended {len(held.suspended)}"
    if isinstance(command, Near):
        return hits_at(log, result, command.place, held.nearest(command))
    if isinstance(command, Nears):
        pairs = zip(command.places, held.nearest_each(command))
        return "".join(" /" + hits_at(log, result, *pair) for pair in pairs)
    if isinstance(command, Clusters):
        clusters = held.clusters(command)
        result.clusters = max(result.clusters, (place, clusters))
        return counted(clusters, (f"{numbers[0]} {len(numbers)}" for numbers in clusters[: command.most]))
    found = {Inside: held.inside, Ball: held.ball, Lonely: held.lonely}[type(command)](command)
    told = found[: command.most]
    if isinstance(command, Lonely):
        result.lonely += [point.place for _, point in told]
    return counted(found, (f"{number} {spelled(log, *point)}" for number, point in told))


def hits_at(log, result, place, hits):
    """Notes the hits at a place that was asked for, and tells them."""
    result.hits.append((place, hits))
    return "".join(f" | {hit.number} {spelled(log, hit.place, hit.intensity)} {hit.dist2}" for hit in hits)


def counted(found, told):
    """Tells how many were found, and then those that are told."""
    return f" {len(found)}" + "".join(f" | {part}" for part in told)


def spelled(log, place, intensity):
    """A point's numbers, in a log of version 2 with its intensity."""
    return f"{place.x} {place.y} {place.z}" + (f" {intensity}" if log.version == 2 else "")


def head_of(command):
    """What the line to a command begins with."""
    if isinstance(command, Sync):
        return "sync"
    return f"@{command.caller} {WORDS[type(command)]}"


def compare(log, transcript):
    """The run of a log by a transcript's marks, and how the transcript differs from it.

    Where the transcript hasn't a line for each command, or its marks aren't legal, that is all that is told of it, and
    the run is the one in the log's order.
    """
    marks, faults = read_marks(log, transcript)
    faults = faults or illegal(log, marks)
    result = run(log, serial_marks(log) if faults else marks)
    if not faults:
        pairs = zip(transcript.split("\n"), result.lines)
        faults = [difference(number, *pair) for number, pair in enumerate(pairs, 1) if pair[0] != pair[1]]
    return result, faults


def difference(number, told, due):
    """Tells the first part of a line that isn't the one that is due."""
    pairs = zip_longest(told.split(" | "), due.split(" | "), fillvalue="nothing more")
    told, due = next(pair for pair in pairs if pair[0] != pair[1])
    return f"line {number}: `{told}` where `{due}` is due"


def read_marks(log, transcript):
    """The marks of a transcript's lines; where a line is missing or of another form, none, and what is wrong."""
    *lines, rest = transcript.split("\n")
    heads = [*map(head_of, log.commands), "end"]
    if rest:
        return [], ["the last line has no end"]
    if len(lines) != len(heads):
        return [], [f"{len(lines)} lines where {len(heads)} are due"]
    replies = [REPLY.fullmatch(line) for line in lines]
    faults = [
        f"line {number}: no line of the form `{head} MARK ..`"
        for number, (reply, head) in enumerate(zip(replies, heads), 1)
        if not reply or reply[1] != head
    ]
    return [] if faults else [int(reply[2]) for reply in replies], faults


def illegal(log, marks):
    """What is illegal in the marks of a log's commands and its end."""
    legality = Legality()
    for line, (command, mark) in enumerate(zip([*log.commands, Sync()], marks), 1):
        legality.take(line, command, mark)
    return legality.faults


class Legality:
    """Goes over the marks of a transcript, line by line, and notes what is illegal."""

    def __init__(self):
        self.faults = []
        self.updates = 0
        self.barrier = 0
        # The highest mark of each caller; the highest since the barrier, with its line; the line of each update's mark.
        self.callers = {}
        self.highest = (0, 0)
        self.taken = {}

    def take(self, line, command, mark):
        """Takes the mark of the next line."""
        if isinstance(command, Sync):
            self.take_barrier(line, mark)
            return
        least = max(self.barrier, self.callers.get(command.caller, 0))
        if isinstance(command, Update):
            self.updates += 1
            least += 1
            if self.taken.setdefault(mark, line) != line:
                self.faults.append(f"line {line}: mark {mark} is that of the update in line {self.taken[mark]} too")
        if mark < least:
            self.faults.append(f"line {line}: mark {mark} where {least} is the least")
        self.callers[command.caller] = max(mark, self.callers.get(command.caller, 0))
        self.highest = max(self.highest, (mark, line))

    def take_barrier(self, line, mark):
        """Takes the mark of a sync or of the end, which is the number of the updates before it: what stands before has
        none above it."""
        if mark != self.updates:
            self.faults.append(f"line {line}: mark {mark} where {self.updates} updates stand before")
        if self.highest[0] > self.updates:
            self.faults.append(f"line {self.highest[1]}: mark {self.highest[0]} where {self.updates} is the most")
        self.barrier, self.highest = self.updates, (0, 0)
