"""PCD, the files of the Point Cloud Library: ascii, binary and compressed. The viewpoint in their header is not looked at."""

import re
import struct

from .columns import CloudFault, Column, Columns, end_of_rows, is_count, size
from .header import read_header
from .lzf import unpacked
from .origin import counted_from, origin_in

# The letter of the module struct for a type and a size in bytes.
CODES = {("F", 4): "f", ("F", 8): "d"}
CODES |= {("I", size): code for size, code in zip((1, 2, 4, 8), "bhiq")}
CODES |= {("U", size): code for size, code in zip((1, 2, 4, 8), "BHIQ")}
# So many numbers of a field may belong to one point: more than any descriptor has.
MOST_COUNT = 65_536
# What the library calls bytes that belong to no field. They aren't stored where data is compressed.
PADDING = "_"
SIGNED = re.compile("-?[0-9]{1,15}")
ONCE = {"VERSION", "FIELDS", "SIZE", "TYPE", "COUNT", "WIDTH", "HEIGHT", "VIEWPOINT", "POINTS", "DATA"}


def read_pcd(content, intensity, origin):
    """The points of a file, as x, y, z and the intensity, which is the field of this name, counted from an origin unless the file
    has one of its own."""
    lines, start = read_header(content, "DATA")
    said = {}
    for number, (word, *fields) in lines:
        if word not in ONCE or word in said:
            raise CloudFault(f"line {number}: {word} is no word of the header, or stands there twice")
        said[word] = Said(number, fields)
    count = point_count(said)
    columns = Columns(columns_of(said), intensity, said["FIELDS"].number)
    points = points_of(columns, said["DATA"], content, start, count)
    return counted_from(origin_in(content[:start], origin), points)


def points_of(columns, data, content, start, count):
    """The points of a file's data, in the form that the header's last line names."""
    match data.fields:
        case ["ascii"]:
            return columns.in_lines(kept_lines(content[start:], data.number, count))
        case ["binary"]:
            end = end_of_rows(columns.all, "<", content, start, count)
            check_rest(content, end, count)
            return columns.in_bytes("<", content, start, count)
        case ["binary_compressed"]:
            stored = columns.without(PADDING)
            return stored.in_blocks("<", block(stored, content, start, count), count)
    raise data.fault("DATA is ascii, binary or binary_compressed")


def block(columns, content, start, count):
    """The columns of compressed data, one after the other: before it stand its size and the size that it has unpacked."""
    first = start + 8
    if first > len(content):
        raise CloudFault(f"byte {len(content)}: the file ends within its data")
    packed, whole = struct.unpack_from("<2I", content, start)
    due = count * sum(map(size, columns.all))
    if packed > len(content) - first:
        raise CloudFault(f"byte {start}: {packed} packed bytes are announced, and {len(content) - first} follow")
    if whole != due:
        raise CloudFault(f"byte {start + 4}: {whole} unpacked bytes where {count} points have {due}")
    check_rest(content, first + packed, count)
    return unpacked(content, first, first + packed, whole)


def check_rest(content, end, count):
    """Refuses anything but zeros after the points: the library fills files up to a whole page of memory."""
    rest = content[end:].lstrip(b"\0")
    if rest:
        raise CloudFault(f"byte {len(content) - len(rest)}: what follows the last of {count} points is more than zeros")


class Said:
    """What the header says by one of its words: the fields behind it, and the number of the line."""

    def __init__(self, number, fields):
        self.number = number
        self.fields = fields

    def fault(self, cause):
        """The fault that this line has."""
        return CloudFault(f"line {self.number}: {cause}")

    def numbers(self, spelled=is_count):
        """The fields as numbers, each spelled so."""
        if not all(map(spelled, self.fields)):
            raise self.fault("something is no number")
        return list(map(int, self.fields))

    def number_alone(self):
        """The one field as a number."""
        numbers = self.numbers()
        if len(numbers) != 1:
            raise self.fault(f"{len(numbers)} numbers where one is due")
        return numbers[0]


def said_of(said, word):
    """What the header says by a word that has to be there; DATA is."""
    if word not in said:
        raise said["DATA"].fault(f"the header has no {word}")
    return said[word]


def columns_of(said):
    """The columns that a header names, without those that it counts none of: the library passes over them."""
    names = said_of(said, "FIELDS").fields
    sizes, types = said_of(said, "SIZE"), said_of(said, "TYPE")
    counts = said.get("COUNT", Said(0, ["1"] * len(names)))
    for line in (sizes, types, counts):
        if len(line.fields) != len(names):
            raise line.fault(f"{len(line.fields)} of them where there are {len(names)} fields")
    columns = []
    for name, kind, count in zip(names, zip(types.fields, sizes.numbers()), counts.numbers(SIGNED.fullmatch)):
        if kind not in CODES:
            raise types.fault(f"no type {kind[0]} has {kind[1]} bytes")
        if count > MOST_COUNT:
            raise counts.fault(f"a field has at most {MOST_COUNT} numbers")
        if count > 0:
            columns.append(Column(name, CODES[kind], count))
    return columns


def point_count(said):
    """How many points the header tells."""
    area = said_of(said, "WIDTH").number_alone() * said_of(said, "HEIGHT").number_alone()
    count = said["POINTS"].number_alone() if "POINTS" in said else area
    if count != area:
        raise said["POINTS"].fault(f"{count} points where WIDTH and HEIGHT make {area}")
    return count


def kept_lines(text, above, count):
    """The lines of the data that aren't empty, which are as many as there are points, each with its number."""
    lines = text.split(b"\n")
    kept = [(number, line) for number, line in enumerate(lines, above + 1) if line.strip()]
    if len(kept) < count:
        raise CloudFault(f"line {above + len(lines)}: the file ends after {len(kept)} of {count} points")
    if len(kept) > count:
        raise CloudFault(f"line {kept[count][0]}: the header tells of {count} points alone")
    return kept
