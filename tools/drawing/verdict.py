"""The verdict on a transcript, as the words `check N` print it, by the second reading of its log."""

import re

from .transcript import head_of, illegal, run

# A mark in its one spelling, followed by a space or by the line's end.
MARK = re.compile(r"(0|[1-9][0-9]{0,4})(?: .*)?", re.DOTALL)
GREATEST = 65_536


def verdict(log, transcript):
    """What is found of the transcript's bytes: `legal`, or the first thing that isn't as it has to be."""
    *lines, rest = transcript.decode("latin-1").split("\n")
    heads = [*map(head_of, log.commands), "end"]
    marks = []
    for number, head in enumerate(heads, 1):
        mark = mark_in(lines[number - 1], head) if number <= len(lines) else None
        if mark is None:
            return f"illegal line {number}"
        marks.append(mark)
    if len(lines) > len(heads) or rest:
        return f"illegal line {len(heads) + 1}"
    if illegal(log, marks):
        return "illegal marks"
    for number, (told, due) in enumerate(zip(lines, run(log, marks).lines), 1):
        if told != due:
            return f"illegal reply {number}"
    return "legal"


def mark_in(line, head):
    """The mark of a line that begins so, if it spells one."""
    spelled = line.startswith(f"{head} ") and MARK.fullmatch(line[len(head) + 1 :])
    return int(spelled[1]) if spelled and int(spelled[1]) <= GREATEST else None
