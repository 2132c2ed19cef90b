"""Clouds of points in each form that is read, written in the plainest way, to test readers with."""

import random
import struct


def drawn(count, extent=100.0, seed=1):
    """So many points in metres, with intensities, all of which 32 bits hold exactly."""
    draw = random.Random(seed)
    exact = struct.Struct("<4f")
    points = [[*(draw.uniform(-extent, extent) for _ in range(3)), draw.randrange(65_536)] for _ in range(count)]
    return [exact.unpack(exact.pack(*point)) for point in points]


def kept():
    """The points of the files in test_data, in millimetres as they are kept there, with whole intensities."""
    return [((37 * n % 101 - 50) + n / 1000, (53 * n % 97 - 48) - n / 500, (29 * n % 11) / 8, 100 * n) for n in range(40)]


def pcd_header(count, data, fields="x y z intensity", size="4 4 4 4", kind="F F F F", counts="1 1 1 1"):
    return (
        f"# .PCD v0.7 - Point Cloud Data file format\nVERSION 0.7\nFIELDS {fields}\nSIZE {size}\nTYPE {kind}\nCOUNT {counts}\n"
        f"WIDTH {count}\nHEIGHT 1\nVIEWPOINT 0 0 0 1 0 0 0\nPOINTS {count}\nDATA {data}\n"
    ).encode()


def lines(rows):
    return "".join(" ".join(map(repr, row)) + "\n" for row in rows).encode()


def pcd_text(points):
    return pcd_header(len(points), "ascii") + lines(points)


def pcd_mixed(points):
    """Binary, with the fields in another order, of other types, and further ones between them."""
    header = pcd_header(len(points), "binary", "intensity _ z normal y x t", "2 1 8 4 8 4 8", "U U F F F F U", "1 3 1 2 1 1 1")
    return header + b"".join(struct.pack("<H3xd2fdfQ", int(i), z, 9, 9, y, x, 2**63) for x, y, z, i in points)


def pcd_bytes(points):
    return pcd_header(len(points), "binary") + b"".join(struct.pack("<4f", *point) for point in points)


def pcd_padded(points):
    """Binary, with zeros up to a page of memory, as the Point Cloud Library writes it."""
    content = pcd_bytes(points)
    return content + bytes(-len(content) % 4096)


def pcd_uncounted(points):
    """With a field that is counted none of, whose numbers aren't stored."""
    header = pcd_header(len(points), "binary", "x none y z less intensity", "4 8 4 4 4 4", "F F F F F F", "1 0 1 1 -1 1")
    return header + b"".join(struct.pack("<4f", *point) for point in points)


def pcd_compressed(points):
    """Packed, with the fields in another order, of other types, and further ones between them; `_` isn't stored."""
    header = pcd_header(
        len(points), "binary_compressed", "intensity _ z normal y x t", "2 1 8 4 8 4 8", "U U F F F F U", "1 3 1 2 1 1 1"
    )
    x, y, z, intensity = zip(*points) if points else [()] * 4
    count = len(points)
    content = struct.pack(f"<{count}H{count}d", *map(int, intensity), *z) + struct.pack("<2f", 9, -9) * count
    content += struct.pack(f"<{count}d{count}f{count}Q", *y, *x, *[2**63] * count)
    return header + block(packed(content), len(content))


def block(content, size):
    """Packed bytes with both sizes before them."""
    return struct.pack("<2I", len(content), size) + content


def packed(content):
    """Bytes as LZF packs them: the longest copy of what came before at each place, else a run."""
    made, at, run, seen = b"", 0, b"", {}
    while at < len(content):
        first = seen.get(content[at : at + 3], -1)
        length = same_bytes(content, first, at)
        if length >= 3 or len(run) == 32:
            made, run = made + run_of(run), b""
        if length >= 3:
            made += copy_of(length, at - first)
        else:
            run, length = run + content[at : at + 1], 1
        for place in range(at, at + length):
            seen[content[place : place + 3]] = place
        at += length
    return made + run_of(run)


def same_bytes(content, first, at):
    """How many bytes from one place on are those from another, as far as a copy may go; none where that is too far back."""
    if first < max(at - 8192, 0):
        return 0
    most = min(264, len(content) - at)
    return next((length for length in range(most) if content[first + length] != content[at + length]), most)


def run_of(content):
    """A run of at most 32 bytes."""
    return bytes([len(content) - 1]) + content if content else b""


def copy_of(length, back):
    """A copy of 3 to 264 bytes that begins so far back."""
    far = [length - 9] if length > 8 else []
    return bytes([min(length - 2, 7) << 5 | back - 1 >> 8, *far, back - 1 & 255])


def ply_header(form, *elements):
    return "\n".join(["ply", f"format {form} 1.0", "comment made", *elements, "end_header\n"]).encode()


def ply_text(points):
    vertex = [f"element vertex {len(points)}", *(f"property float {name}" for name in ("x", "y", "z", "intensity"))]
    return ply_header("ascii", *vertex) + lines(points)


def ply_mixed_elements(count):
    """Before the points an element with a list; in theirs, two lists, and other types than usual."""
    return [
        "element camera 2",
        "property list uchar ushort pixels",
        "property double f",
        f"element vertex {count}",
        "property ushort intensity",
        "property list int float echoes",
        "property double z",
        "property uchar red",
        "property float y",
        "property float x",
        "property list uchar uchar tags",
        "element face 1",
        "property list uchar int vertex_indices",
    ]


def ply_mixed_text(points):
    cameras = b"3 7 8 9 0.5\n0 0.25\n"
    rows = [(int(i), *([2, 0.5, 0.5] if n % 2 else [0]), z, 255, y, x, 1, 9) for n, (x, y, z, i) in enumerate(points)]
    return ply_header("ascii", *ply_mixed_elements(len(points))) + cameras + lines(rows) + b"3 0 1 2\n"


def ply_mixed_bytes(points, order="<"):
    content = struct.pack(order + "B3HdBd", 3, 7, 8, 9, 0.5, 0, 0.25)
    for number, (x, y, z, intensity) in enumerate(points):
        echoes = [0.5] * (number % 3)
        shape = f"{order}Hi{len(echoes)}fdBffBB"
        content += struct.pack(shape, int(intensity), len(echoes), *echoes, z, 255, y, x, 1, 9)
    form = {"<": "binary_little_endian", ">": "binary_big_endian"}[order]
    return ply_header(form, *ply_mixed_elements(len(points))) + content + struct.pack(order + "B3i", 3, 0, 1, 2)


def ply_bytes(points):
    vertex = [f"element vertex {len(points)}", *(f"property float32 {name}" for name in ("x", "y", "z", "intensity"))]
    return ply_header("binary_little_endian", *vertex) + b"".join(struct.pack("<4f", *point) for point in points)


def kitti(points):
    return b"".join(struct.pack("<4f", *point) for point in points)


FORMS = {
    "text.pcd": pcd_text,
    "bytes.pcd": pcd_bytes,
    "mixed.pcd": pcd_mixed,
    "padded.pcd": pcd_padded,
    "uncounted.pcd": pcd_uncounted,
    "compressed.pcd": pcd_compressed,
    "text.ply": ply_text,
    "bytes.PLY": ply_bytes,
    "mixed.ply": ply_mixed_text,
    "mixed_bytes.ply": ply_mixed_bytes,
    "big.ply": lambda points: ply_mixed_bytes(points, ">"),
}
