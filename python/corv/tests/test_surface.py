"""What stands in map.h, beside what the package has of it: each call with its arguments, each struct, each status.

The header is looked for where CORV_HEADERS names its folder, and where it lies beside the package.
"""

import ctypes
import os
import re
import unittest
from pathlib import Path

from corv import _library

TOP = Path(__file__).resolve().parents[3]
HEADERS = [Path(folder, "map.h") for folder in (os.environ.get("CORV_HEADERS"), TOP / "c/corv", TOP.parents[1] / "include/corv") if folder]
HEADER = next((header for header in HEADERS if header.is_file()), None)

# What the package has no call for, and why.
LEFT_OUT = {
    "map_nearest": "map_nearest_each has the same of one place",
    "view_nearest": "view_nearest_each has the same of one place",
    "map_inside": "map_box_items has the same with no bound of 256",
    "view_inside": "view_box_items has the same with no bound of 256",
    "map_ball": "map_ball_items has the same with no bound of 256",
    "view_ball": "view_ball_items has the same with no bound of 256",
    "frozen_nearest": "frozen_nearest_each has the same of one place",
}
NUMBERS = {
    "int64_t": ctypes.c_int64,
    "uint64_t": ctypes.c_uint64,
    "uint32_t": ctypes.c_uint32,
    "uint16_t": ctypes.c_uint16,
    "size_t": ctypes.c_size_t,
    "bool": ctypes.c_bool,
    "int32_t": ctypes.c_int32,
}
HANDLES = {"corv_map", "corv_view", "corv_job", "corv_built", "corv_frozen"}
STRUCTS = {
    "corv_point": _library.Point,
    "corv_hit": _library.Hit,
    "corv_item": _library.Item,
    "corv_cluster": _library.Cluster,
    "corv_place": _library.Place,
    "corv_region": _library.Region,
    "corv_totals": _library.Totals,
    **dict.fromkeys(HANDLES, _library.Handle),
}


def text():
    """The header without its comments."""
    return re.sub(r"/\*.*?\*/", "", HEADER.read_text(), flags=re.DOTALL)


def fits(word, kind):
    """Tells whether an argument in C is the one in Python: a pointer may go as an address, but a handle, and a number that is written."""
    word = word.replace("const ", "")
    if "*" not in word:
        return kind is NUMBERS[word.split()[0]]
    to = word.split("*")[0].strip()
    if to in HANDLES:
        return kind is ctypes.POINTER(_library.Handle)
    exact = [ctypes.POINTER(known[to]) for known in (NUMBERS, STRUCTS) if to in known]
    return kind is ctypes.c_void_p or kind in exact


@unittest.skipIf(HEADER is None, "there is no map.h here: CORV_HEADERS names its folder")
class Surface(unittest.TestCase):
    def test_calls(self):
        calls = dict(re.findall(r"^(?:int32_t|void) corv_(\w+)\((.*?)\);", text(), flags=re.MULTILINE | re.DOTALL))
        known = _library.signatures()
        self.assertEqual(set(calls) - set(LEFT_OUT), set(known))
        self.assertEqual(set(LEFT_OUT) - set(calls), set())
        for name, kinds in known.items():
            words = calls[name].split(", ")
            self.assertEqual(len(words), len(kinds), name)
            for word, kind in zip(words, kinds):
                self.assertTrue(fits(word, kind), f"{name}: {word} is {kind}")

    def test_structs(self):
        found = dict((name, fields) for fields, name in re.findall(r"typedef struct \{(.*?)\} (corv_\w+);", text()))
        for name, struct in STRUCTS.items():
            fields = []
            for line in found[name].split(";")[:-1]:
                word, names = line.split(None, 1)
                kind = ctypes.c_void_p if "*" in line else NUMBERS.get(word) or STRUCTS[word]
                fields += [(each.strip(" *"), kind) for each in names.split(",")]
            self.assertEqual(fields, struct._fields_, name)
        self.assertEqual(set(found) - set(STRUCTS), {"corv_box"})

    def test_statuses(self):
        statuses = {name: int(number) for name, number in re.findall(r"CORV_(\w+) = (\d+)", text())}
        self.assertEqual(statuses, {status.name: status.value for status in _library.Status})
