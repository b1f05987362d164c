"""Encoding, decoding and headers."""

import ctypes
import os
import re
import threading
import unittest

from support import TOP, FolderTest, samples_of

import ccsds123
from ccsds123 import library
from ccsds123.library import CFault, CLayout, CParams

SMALL = bytes.fromhex("00000100020001110000080002a092590082269080")
"""The file of two samples of 200, one row below the other: `samples/small.hex`."""
SMALL_PARAMS = ccsds123.Params(1, 2, 1, 8, previous=0, reduced=True, column_sums=True, register=32)
TABLES = ccsds123.Params(
    5, 4, 3, 12, order="bi", depth=2, weights=ccsds123.WeightTable(6, tuple(range(-6, 6))), accumulators=(0, 10, 5), umax=20, signed=True,
)
KINDS = {ctypes.c_uint32: "uint32", ctypes.c_int32: "int32", ctypes.c_int64: "int64"}


class Coding(FolderTest):
    def test_small_file_is_the_worked_one(self):
        self.assertEqual(ccsds123.encode(b"\xc8\xc8", SMALL_PARAMS), SMALL)
        self.assertEqual(ccsds123.decode_cube(SMALL).data[:], b"\xc8\xc8")
        self.assertEqual(ccsds123.header(SMALL), SMALL_PARAMS)

    def test_samples_come_back_in_each_interleave(self):
        for interleave in ("bsq", "bil", "bip"):
            given = samples_of(5, 4, 3, interleave)
            file = ccsds123.encode(given, columns=5, rows=4, bands=3, bits=12, interleave=interleave)
            self.assertEqual(file, ccsds123.encode(samples_of(5, 4, 3), columns=5, rows=4, bands=3, bits=12))
            self.assertEqual(ccsds123.decode_cube(file, interleave=interleave).data[:], given.tobytes())

    def test_cube_is_indexed_by_band_row_and_column(self):
        file = ccsds123.encode(samples_of(5, 4, 3), columns=5, rows=4, bands=3, bits=12)
        cube = ccsds123.decode_cube(file)
        self.assertEqual(cube.samples.shape, (3, 4, 5))
        self.assertEqual(cube.samples[2, 3, 4], samples_of(5, 4, 3)[-1])
        self.assertEqual(ccsds123.decode_cube(file, interleave="bip").samples[3, 4, 2], samples_of(5, 4, 3)[-1])
        swapped = ccsds123.decode_cube(file, byteorder="big" if cube.byteorder == "little" else "little")
        self.assertEqual(swapped.data[0::2], cube.data[1::2])
        self.assertRaises(ValueError, lambda: swapped.samples)

    def test_parameters_and_tables_come_back(self):
        given = samples_of(5, 4, 3, code="h")
        for i in range(60):
            given[i] %= 2000
        file = ccsds123.encode(given, TABLES)
        self.assertEqual(ccsds123.header(file), TABLES)
        self.assertEqual(ccsds123.decode_cube(file).data[:], given.tobytes())
        block = ccsds123.Params(5, 4, 3, 12, coder="block", block=32, reference=7, word=4, user=9)
        self.assertEqual(ccsds123.header(ccsds123.encode(samples_of(5, 4, 3), block)), block)

    def test_header_is_read_from_a_path_and_from_a_part(self):
        path = self.write("small.ccsds", SMALL)
        self.assertEqual(ccsds123.header(path), SMALL_PARAMS)
        self.assertEqual(ccsds123.header(SMALL[:19]), SMALL_PARAMS)
        self.assertEqual(ccsds123.header(memoryview(SMALL)), SMALL_PARAMS)

    def test_long_tables_of_a_header_are_read(self):
        given = ccsds123.Params(1, 1, 3000, 9, previous=15, reduced=True, column_sums=True, weights=None, accumulators=tuple([3] * 3000))
        weights = ccsds123.WeightTable(16, tuple(i % 60000 - 30000 for i in range(given.weight_count)))
        given = ccsds123.Params(**{**vars(given), "weights": weights})
        self.assertEqual(ccsds123.header(ccsds123.encode(bytes(6000), given, byteorder="little")), given)

    def test_faults_have_number_name_and_values(self):
        faults = [
            (lambda: ccsds123.header(SMALL[:18]), 1, "ShortHeader", ()),
            (lambda: ccsds123.encode(bytes(6), columns=3, rows=1, bands=1, bits=17, byteorder="big"), 3, "FieldRange", ("DynamicRange", 17)),
            (lambda: ccsds123.encode(bytes(6), columns=3, rows=1, bands=1, bits=9, byteorder="big", vmin=4), 4, "Disagree", ("ExponentOrder",)),
            (lambda: ccsds123.decode(SMALL[:20]), 6, "Truncated", (160,)),
            (lambda: ccsds123.decode(SMALL + b"\0"), 11, "TooLong", (12,)),
            (lambda: ccsds123.encode(b"\0\4\0", columns=3, rows=1, bands=1, bits=2, k=0), 13, "SampleRange", (1,)),
            (lambda: ccsds123.encode(bytes(5), columns=3, rows=1, bands=1, bits=8), 14, "RawLength", (6, 5)),
        ]
        for call, number, name, values in faults:
            with self.assertRaises(ccsds123.Fault) as caught:
                call()
            fault = caught.exception
            self.assertEqual((fault.number, fault.name, fault.values), (number, name, values))
            self.assertEqual(str(fault), " ".join(map(str, (number, name, *values))))

    def test_numbers_far_out_of_range_are_refused(self):
        for wrong in ({"omega": 1 << 40}, {"depth": -1}, {"order": "bil"}, {"accumulators": (256,)}):
            with self.assertRaises(ValueError):
                ccsds123.encode(bytes(3), columns=3, rows=1, bands=1, bits=8, **wrong)
        with self.assertRaises(TypeError):
            ccsds123.encode(bytes(3), columns=3, rows=1, bands=1, bits=8, colour="red")
        with self.assertRaises(TypeError):
            ccsds123.encode(b"\xc8\xc8", SMALL_PARAMS, bits=8)

    def test_damaged_files_are_refused_or_read(self):
        for bit in range(8 * len(SMALL)):
            damaged = bytearray(SMALL)
            damaged[bit // 8] ^= 1 << bit % 8
            try:
                ccsds123.decode(damaged)
            except (ccsds123.Fault, MemoryError):
                pass

    def test_eight_threads_at_once(self):
        given, wrong = samples_of(40, 30, 6), []
        file = ccsds123.encode(given, columns=40, rows=30, bands=6, bits=12)

        def work():
            for _ in range(10):
                if ccsds123.encode(given, columns=40, rows=30, bands=6, bits=12) != file or ccsds123.decode_cube(file).data[:] != given.tobytes():
                    wrong.append(True)

        threads = [threading.Thread(target=work) for _ in range(8)]
        for thread in threads:
            thread.start()
        for thread in threads:
            thread.join()
        self.assertEqual(wrong, [])


class Structs(unittest.TestCase):
    def test_structs_are_those_of_the_header(self):
        header = os.path.join(TOP, "include", "ccsds123.h")
        if not os.path.isfile(header):
            self.skipTest("the header isn't beside this package")
        with open(header, encoding="utf-8") as file:
            text = re.sub(r"/\*.*?\*/", "", file.read(), flags=re.S)
        for name, struct in (("params", CParams), ("layout", CLayout), ("fault", CFault)):
            body = re.search(rf"typedef struct ccsds123_{name} {{(.*?)}}", text, re.S)[1]
            found = re.findall(r"(u?int\d+)_t (\w+);", body)
            self.assertEqual([(member, KINDS[kind]) for member, kind in struct._fields_], [(member, kind) for kind, member in found])

    def test_version_is_told(self):
        self.assertRegex(library.version(), r"^\d+\.\d+\.\d+$")


if __name__ == "__main__":
    unittest.main()
