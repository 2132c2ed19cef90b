"""Tables of numbers with a name over each column, in text or in bytes, and the points that are read from their rows."""

import struct
from itertools import chain
from operator import itemgetter
from typing import NamedTuple


class CloudFault(Exception):
    """A file is refused: its text is the line or the byte, and the cause."""


class Column(NamedTuple):
    """A column of numbers of one type, which is told by its letter in the module struct.

    A row has `count` of them. In a list's column it has as many as the row itself says, by a number of the type `length`.
    """

    name: str
    code: str
    count: int = 1
    length: str = ""

    def is_one(self):
        """Tells whether a row has one number of it."""
        return self.count == 1 and not self.length


class Columns:
    """The columns of a table, as a line of a header tells them.

    Those of x, y and z have to be there; that of the intensity may be.
    """

    def __init__(self, columns, intensity, line):
        self.all = columns
        self.intensity = intensity
        self.line = line
        self.single = [column for column in columns if not column.length]
        names = [column.name for column in columns]
        self.wanted = ["x", "y", "z"] + [intensity] * (intensity in names)
        for name in self.wanted:
            if names.count(name) != 1 or not columns[names.index(name)].is_one():
                raise CloudFault(f"line {line}: there has to be one number {name} for each point")

    def without(self, name):
        """The same columns without those of a name."""
        return Columns([column for column in self.all if column.name != name], self.intensity, self.line)

    def in_lines(self, lines):
        """The points of these lines of text, each of which comes with its number."""
        names = [name for column in self.single for name in [column.name] * column.count]
        take = itemgetter(*map(names.index, self.wanted))
        for number, line in lines:
            try:
                if b"_" in line:
                    # Python reads 1_000 as a number, which no such file means.
                    raise ValueError("_ is part of no number")
                fields = without_lists(self.all, line.split())
                if len(fields) != len(names):
                    raise ValueError(f"{len(fields)} numbers where {len(names)} are due")
                point = tuple(map(float, take(fields)))
            except ValueError as fault:
                raise CloudFault(f"line {number}: {fault}") from None
            yield with_intensity(point)

    def in_bytes(self, order, content, start, count):
        """The points of so many rows of bytes in an order, which begin at a place."""
        codes = (column.code if column.name in self.wanted else f"{size(column)}x" for column in self.single)
        shape = struct.Struct(order + "".join(codes))
        stored = [column.name for column in self.single if column.name in self.wanted]
        take = itemgetter(*map(stored.index, self.wanted))
        if self.single == self.all:
            end = end_of_rows(self.all, order, content, start, count)
            rows = shape.iter_unpack(memoryview(content)[start:end])
        else:
            rows = (shape.unpack(row) for row, _ in rows_of_bytes(self.all, order, content, start, count))
        return map(with_intensity, map(take, rows))


    def in_blocks(self, order, content, count):
        """The points of `count` rows that are stored column by column, one column after the other."""
        blocks, start = {}, 0
        for column in self.all:
            end = start + count * size(column)
            if column.name in self.wanted:
                numbers = struct.iter_unpack(order + column.code, memoryview(content)[start:end])
                blocks[column.name] = chain.from_iterable(numbers)
            start = end
        return map(with_intensity, zip(*(blocks[name] for name in self.wanted)))


def with_intensity(point):
    """The four numbers of a point, whose intensity is 0 where none is stored."""
    return point if len(point) == 4 else (*point, 0)


def is_count(field):
    """Tells whether a field of text is a number that something may be counted by."""
    return field.isdecimal() and len(field) < 16


def size(column):
    """How many bytes a row has of a column that is no list."""
    return column.count * struct.calcsize(f"={column.code}")


def without_lists(columns, fields):
    """The fields of a line but for those of its lists."""
    if not any(column.length for column in columns):
        return fields
    kept, at = [], 0
    for column in columns:
        if column.length:
            at += 1 + list_length(fields[at] if at < len(fields) else b"")
        else:
            kept += fields[at : at + column.count]
            at += column.count
    if at != len(fields):
        raise ValueError(f"{len(fields)} numbers where {at} are due")
    return kept


def list_length(field):
    """How long a list is, by a field of text."""
    if not is_count(field.decode("latin-1")):
        raise ValueError(f"{field.decode('latin-1')!r} is no length of a list")
    return int(field)


def rows_of_bytes(columns, order, content, start, count):
    """So many rows of bytes: each without its lists, and where it ends."""
    at = start
    for _ in range(count):
        kept = bytearray()
        for column in columns:
            if column.length:
                at = end_of_list(column, order, content, at)
            else:
                kept += content[at : at + size(column)]
                at += size(column)
        if at > len(content):
            raise CloudFault(f"byte {len(content)}: the file ends within its data")
        yield kept, at


def end_of_list(column, order, content, at):
    """Where a list ends that begins at a place with its length."""
    start = at + struct.calcsize(f"={column.length}")
    if start > len(content):
        raise CloudFault(f"byte {len(content)}: the file ends within its data")
    [length] = struct.unpack(order + column.length, content[at:start])
    if length < 0:
        raise CloudFault(f"byte {at}: {length} is no length of a list")
    return start + length * size(column)


def end_of_rows(columns, order, content, start, count):
    """Where so many rows end that begin at a place."""
    if any(column.length for column in columns):
        end = start
        for _, end in rows_of_bytes(columns, order, content, start, count):
            pass
        return end
    end = start + count * sum(map(size, columns))
    if end > len(content):
        raise CloudFault(f"byte {len(content)}: the file ends within its data, which has {end - start} bytes")
    return end
