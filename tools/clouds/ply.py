"""PLY, the Stanford triangle format: ascii, and binary of both byte orders. Of its elements the vertices are read."""

from .columns import CloudFault, Column, Columns, end_of_rows, is_count
from .header import read_header
from .origin import counted_from, origin_in

CODES = dict(char="b", uchar="B", short="h", ushort="H", int="i", uint="I", float="f", double="d")
CODES |= dict(int8="b", uint8="B", int16="h", uint16="H", int32="i", uint32="I", float32="f", float64="d")
ORDERS = {"ascii": "", "binary_little_endian": "<", "binary_big_endian": ">"}


class Element:
    """One kind of thing that a file lists: the header's line, how many there are, and the columns of their table."""

    def __init__(self, line, name, count):
        self.line = line
        self.name = name
        self.count = count
        self.columns = []


def read_ply(content, intensity, origin):
    """The points of a file, as x, y, z and the intensity, which is the property of this name, counted from an origin unless the
    file has one of its own."""
    if not content.startswith((b"ply\n", b"ply\r\n")):
        raise CloudFault("line 1: it isn't the word ply")
    lines, start = read_header(content, "end_header")
    return counted_from(origin_in(content[:start], origin), vertices(lines, content, start, intensity))


def vertices(lines, content, start, intensity):
    """The vertices, by the lines of the header and where the data begins."""
    order, elements = read_elements(lines)
    before = []
    for element in elements:
        if element.name == "vertex":
            columns = Columns(element.columns, intensity, element.line)
            if order:
                for skipped in before:
                    start = end_of_rows(skipped.columns, order, content, start, skipped.count)
                return columns.in_bytes(order, content, start, element.count)
            above = sum(skipped.count for skipped in before)
            return columns.in_lines(lines_of(content[start:], lines[-1][0], above, element.count))
        before.append(element)
    raise CloudFault(f"line {lines[-1][0]}: the header has no element vertex")


def read_elements(lines):
    """The byte order that a header tells, which is empty for text, and the elements."""
    order, elements = None, []
    for number, fields in lines[1:-1]:
        match fields:
            case ["comment" | "obj_info", *_]:
                pass
            case ["format", name, "1.0"] if name in ORDERS and order is None:
                order = ORDERS[name]
            case ["element", name, count] if is_count(count):
                elements.append(Element(number, name, int(count)))
            case ["property", code, name] if code in CODES and elements:
                elements[-1].columns.append(Column(name, CODES[code]))
            case ["property", "list", length, code, name] if length in CODES and code in CODES and elements:
                if CODES[length] in "fd":
                    raise CloudFault(f"line {number}: the length of a list is no {length}")
                elements[-1].columns.append(Column(name, CODES[code], length=CODES[length]))
            case _:
                raise CloudFault(f"line {number}: no line of such a header")
    if order is None:
        raise CloudFault(f"line {lines[-1][0]}: the header has no line format")
    return order, elements


def lines_of(text, header, above, count):
    """The lines of text of an element that stands so many lines below the header, each with its number."""
    lines = text.split(b"\n")
    if not lines[-1]:
        lines.pop()
    if len(lines) < above + count:
        raise CloudFault(f"line {header + len(lines)}: the file ends after {max(len(lines) - above, 0)} of {count} points")
    first = header + above + 1
    return list(zip(range(first, first + count), lines[above : above + count]))
