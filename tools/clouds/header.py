"""The lines of text that a file of points begins with."""

from .columns import CloudFault


def read_header(content, last):
    """The fields of each line up to the one that begins with the word `last`, with its number, and where the data begins.

    Empty lines and those that begin with # are left out.
    """
    lines, number, start = [], 0, 0
    while not lines or lines[-1][1][0] != last:
        end = content.find(b"\n", start)
        if end < 0:
            raise CloudFault(f"line {number + 1}: the header ends without a line {last}")
        number += 1
        fields = content[start:end].decode("latin-1").split()
        if fields and not fields[0].startswith("#"):
            lines.append((number, fields))
        start = end + 1
    return lines, start
