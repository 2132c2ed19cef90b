"""Files as the Point Cloud Library and Open3D write them, and compressed data that is damaged."""

import struct

from clouds.columns import CloudFault
from clouds.lzf import unpacked
from made_clouds import block, drawn, kept, packed, pcd_bytes, pcd_header, pcd_padded

from .runs import DATA, HEADER, Clouds, submitted

# Open3D's older readers and writers know no intensity.
WITHOUT_INTENSITY = ("open3d_legacy.pcd", "open3d_legacy.ply")


class Libraries(Clouds):
    """What they write is read."""

    def test_their_files_are_read(self):
        files = [file for file in DATA.iterdir() if file.suffix != ".md"]
        self.assertEqual(len(files), 9)
        for file in files:
            points = [(*place, 0 if file.name in WITHOUT_INTENSITY else shade) for *place, shade in kept()]
            self.same(points, submitted(self.log_of(file)), file.name)

    def test_the_zeros_of_a_page_are_no_points(self):
        for count in 0, 1, 300:
            points = drawn(count)
            self.file("padded.pcd", pcd_padded(points))
            self.assertEqual(self.log_of("padded.pcd"), self.log_of(self.file("0.pcd", pcd_bytes(points))))

    def test_compressed_files_are_those_that_arent(self):
        for count in 0, 1, 500:
            points = drawn(count, 3.0)
            content = b"".join(struct.pack(f"<{count}f", *column) for column in zip(*points))
            due = self.log_of(self.file("0.pcd", pcd_bytes(points)))
            for rest in b"", bytes(4_096):
                compressed = pcd_header(count, "binary_compressed") + block(packed(content), len(content)) + rest
                self.assertEqual(self.log_of(self.file("1.pcd", compressed)), due)

    def test_text_may_have_numbers_of_no_field(self):
        header = pcd_header(1, "ascii", "x _ y none z intensity", "4 4 4 4 4 4", "F F F F F F", "1 2 1 0 1 1")
        self.assertEqual(self.log_of(self.file("0.pcd", header + b"1 8 9 2 3 4\n")), HEADER + "@1 add 1000 2000 3000 4\n")


class Packings(Clouds):
    """What LZF packs, and where it is damaged."""

    def test_runs_and_copies_are_unpacked(self):
        far = b"0123456789" + bytes(8_200) + b"0123456789"
        for content in b"", b"a", b"abc" * 100, b"a" * 9_000, bytes(range(256)) * 40, far:
            packing = packed(content)
            self.assertEqual(unpacked(b"??" + packing + b"?", 2, 2 + len(packing), len(content)), content)
        self.assertEqual(unpacked(b"\x01ab\x20\x01\xe0\x03\x03", 0, 8, 17), b"abababababababababab"[:5] + b"babababababa")

    def test_damage_is_refused_with_its_byte(self):
        for packing, size, told in [
            (b"\x02ab", 3, "byte 5: a run or copy is cut off"),
            (b"\x01ab\x20", 5, "byte 8: a run or copy is cut off"),
            (b"\x01ab\xe0\x00", 11, "byte 8: a run or copy is cut off"),
            (b"\x01ab\x20\x02", 5, "byte 8: a copy begins 1 bytes before the data"),
            (b"\x3f\xff", 3, "byte 5: a copy begins 8192 bytes before the data"),
            (b"\x01ab\x20\x01", 4, "byte 8: more than 4 bytes are packed"),
            (b"\x01ab\x00c", 2, "byte 8: more than 2 bytes are packed"),
            (b"\x01ab\x20\x01", 6, "byte 10: the packed bytes end after 5 of 6"),
            (b"", 1, "byte 5: the packed bytes end after 0 of 1"),
            (b"\x01ab", 2**32 - 1, "byte 5: 4294967295 bytes are never packed in 3"),
        ]:
            with self.subTest(told=told):
                with self.assertRaises(CloudFault) as raised:
                    unpacked(b"PACK " + packing + b"??", 5, 5 + len(packing), size)
                self.assertEqual(str(raised.exception), told)

    def test_sizes_that_dont_fit_are_refused_with_their_byte(self):
        header = pcd_header(3, "binary_compressed")
        start, content = len(header), b"".join(struct.pack("<4f", *point) for point in drawn(3))
        packing = packed(content)
        count = len(packing)
        for data, told in [
            (b"", f"byte {start}: the file ends within its data"),
            (bytes(7), f"byte {start + 7}: the file ends within its data"),
            (block(packing, 48)[:-1], f"byte {start}: {count} packed bytes are announced, and {count - 1} follow"),
            (block(packing, 49), f"byte {start + 4}: 49 unpacked bytes where 3 points have 48"),
            (block(packing, 0), f"byte {start + 4}: 0 unpacked bytes where 3 points have 48"),
            (block(packing, 48) + b"\0?", f"byte {start + count + 9}: what follows the last of 3 points is more than zeros"),
            (block(packing[:-1], 48) + b"\0", f"byte {start + 8 + last_head(packing)}: a run or copy is cut off"),
            (block(b"\x00a", 48), f"byte {start + 10}: the packed bytes end after 1 of 48"),
        ]:
            with self.subTest(told=told):
                self.refused("0.pcd", header + data, told)

    def test_a_size_that_no_file_has_is_refused_before_it_is_taken(self):
        header = pcd_header(268_435_455, "binary_compressed")
        told = f"byte {len(header) + 8}: 4294967280 bytes are never packed in 9"
        self.refused("0.pcd", header + block(packed(b"12345678"), 4_294_967_280), told)


def last_head(packing):
    """Where the last run or copy begins."""
    at = following = 0
    while following < len(packing):
        at, head = following, packing[following]
        following += head + 2 if head < 32 else 3 if head >> 5 == 7 else 2
    return at
