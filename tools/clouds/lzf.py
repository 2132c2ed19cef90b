"""LZF, which packs the data of compressed PCD files: runs of bytes, and copies of bytes that came before."""

from .columns import CloudFault

# A head below this begins a run of one byte more than it says. The others begin a copy.
FIRST_COPY = 32
# Three bits of a head are a copy's length; all of them say that a further byte is added to it.
LONG_COPY = 7
# So many bytes make three: the most that any three make.
LONGEST = LONG_COPY + 255 + 2


def unpacked(content, start, end, size):
    """The `size` bytes that are packed from `start` to `end`, in time that grows with both.

    A fault names the first byte of the run or copy that is damaged. Never more than `size` bytes and one copy are made, and none
    where that many can't be packed in so few.
    """
    packed, made, at = content[start:end], bytearray(), 0
    if size > LONGEST * (len(packed) // 3 + 1):
        raise CloudFault(f"byte {start}: {size} bytes are never packed in {len(packed)}")
    # Behind the last byte stand two more, so that a copy that is cut off needs no look of its own before it is taken.
    packed, last = packed + b"\0\0", len(packed)
    while at < last:
        head, begun = packed[at], at
        if head < FIRST_COPY:
            at += head + 2
            made += packed[begun + 1 : at]
        else:
            length, at = (head >> 5) + 2, at + 2
            if length == LONG_COPY + 2:
                length, at = length + packed[at - 1], at + 1
            back = ((head & 31) << 8) + packed[at - 1] + 1
            first = len(made) - back
            whole = length <= back <= len(made)
            made += made[first : first + length] if whole else repeated(made, back, length, start + begun)
        if at > last or len(made) > size:
            what = "a run or copy is cut off" if at > last else f"more than {size} bytes are packed"
            raise CloudFault(f"byte {start + begun}: {what}")
    if len(made) < size:
        raise CloudFault(f"byte {end}: the packed bytes end after {len(made)} of {size}")
    return made


def repeated(made, back, length, at):
    """A copy that begins so far back, and goes on over what it has made itself."""
    if back > len(made):
        raise CloudFault(f"byte {at}: a copy begins {back - len(made)} bytes before the data")
    return (made[-back:] * (length // back + 1))[:length]
