"""Encoding row by row."""

import array
import gc
import mmap
import sys
import unittest

from support import FolderTest, samples_of

import ccsds123
from ccsds123.rows import goes_by_rows

SIZES = {"columns": 5, "rows": 4, "bands": 3, "bits": 12}
MANY = {**SIZES, "bands": 40}
"""With the default of three previous bands, `encode` takes as many bands row by row."""
WIDE = {**SIZES, "columns": 256, "bands": 12}
"""So it does with these, since the rows are longer."""


def whole_file(depth, **options):
    """Returns the file of the samples that the tests use, coded from band sequential ones all at once."""
    return ccsds123.encode(samples_of(5, 4, 3), **SIZES, order="bi", depth=depth, **options)


def sequential_file(sizes, **options):
    """Returns the band sequential file of the samples that the tests use, coded from interleaved ones all at once."""
    return ccsds123.encode(samples_of(5, 4, sizes["bands"], "bil"), **sizes, interleave="bil", **options)


def told(call, *arguments):
    """Returns the line of the fault that a call raises."""
    try:
        call(*arguments)
    except ccsds123.Fault as fault:
        return str(fault)
    return None


class Rows(FolderTest):
    def test_rows_give_the_same_file(self):
        for depth in (1, 2, 3):
            for coder in ("sample", "block"):
                for interleave in ("bil", "bip"):
                    given = samples_of(5, 4, 3, interleave)
                    for rows in (1, 2, 3, 4):
                        with ccsds123.RowEncoder(**SIZES, depth=depth, coder=coder, interleave=interleave) as encoder:
                            for at in range(0, 60, 15 * rows):
                                encoder.rows(given[at : at + 15 * rows])
                            self.assertEqual(encoder.end(), whole_file(depth, coder=coder))

    def test_band_sequential_rows_give_the_same_file(self):
        for sizes in (SIZES, MANY):
            for options in ({}, {"coder": "block"}, {"previous": 0}, {"previous": 15}):
                given, wanted = samples_of(5, 4, sizes["bands"]), sequential_file(sizes, **options)
                for rows in (1, 3, 4, 7):
                    with ccsds123.RowEncoder(**sizes, **options, interleave="bsq") as encoder:
                        for at in range(0, len(given), 5 * rows):
                            encoder.rows(given[at : at + 5 * rows])
                        self.assertEqual(encoder.end(), wanted)

    def test_band_sequential_arrays(self):
        view = memoryview(samples_of(5, 4, 3)).cast("B").cast("H", (3, 4, 5))
        with ccsds123.RowEncoder(**SIZES, interleave="bsq") as encoder:
            encoder.rows(view[:2])
            encoder.rows(memoryview(view[2:].tobytes()).cast("H", (4, 5))[:1])
            encoder.rows(memoryview(view[2:].tobytes()).cast("H", (4, 5))[1:])
            self.assertEqual(encoder.end(), sequential_file(SIZES))
        encoder = ccsds123.RowEncoder(**SIZES, interleave="bsq")
        for wrong in ((4, 3, 5), (5, 4), (1, 5, 4)):
            items = wrong[0] * wrong[1] * (wrong[2] if len(wrong) == 3 else 1)
            self.assertRaises(TypeError, encoder.rows, memoryview(bytes(2 * items)).cast("H", wrong))

    def test_arrays_of_three_and_of_two_dimensions(self):
        for interleave, shape in (("bil", (4, 3, 5)), ("bip", (4, 5, 3))):
            view = memoryview(samples_of(5, 4, 3, interleave)).cast("B").cast("H", shape)
            with ccsds123.RowEncoder(**SIZES, interleave=interleave) as encoder:
                encoder.rows(view)
                self.assertEqual(encoder.end(), whole_file(1))
            with ccsds123.RowEncoder(**SIZES, interleave=interleave) as encoder:
                for row in range(4):
                    encoder.rows(memoryview(view.tobytes()[30 * row : 30 * row + 30]).cast("H", shape[1:]))
                self.assertEqual(encoder.end(), whole_file(1))

    def test_bytes_in_either_order(self):
        for byteorder in ("little", "big"):
            raw = b"".join(it.to_bytes(2, byteorder) for it in samples_of(5, 4, 3, "bil"))
            with ccsds123.RowEncoder(**SIZES, byteorder=byteorder) as encoder:
                encoder.rows(raw)
                self.assertEqual(encoder.end(), whole_file(1))
        small = array.array("B", (it % 256 for it in samples_of(5, 4, 3, "bip")))
        with ccsds123.RowEncoder(**{**SIZES, "bits": 8}, interleave="bip") as encoder:
            encoder.rows(small)
            self.assertEqual(encoder.end(), ccsds123.encode(small, columns=5, rows=4, bands=3, interleave="bip", order="bi"))

    def test_tables_and_all_parameters(self):
        params = ccsds123.Params(
            5, 4, 3, 12, order="bi", depth=2, weights=ccsds123.WeightTable(6, tuple(range(-6, 6))), accumulators=(0, 10, 5), umax=20,
        )
        with ccsds123.RowEncoder(params) as encoder:
            encoder.rows(samples_of(5, 4, 3, "bil"))
            file = encoder.end()
        self.assertEqual(file, ccsds123.encode(samples_of(5, 4, 3), params))
        self.assertEqual(ccsds123.header(file), params)
        self.assertRaises(TypeError, lambda: ccsds123.RowEncoder(params, depth=1))

    def test_mapped_scene_is_coded_without_a_copy(self):
        for interleave in ("bil", "bip"):
            path = self.write("scene.raw", samples_of(5, 4, 3, interleave).tobytes())
            with open(path, "rb") as raw, mmap.mmap(raw.fileno(), 0, access=mmap.ACCESS_READ) as mapped:
                file = ccsds123.encode(mapped, interleave=interleave, byteorder=sys.byteorder, order="bi", depth=2, **SIZES)
            self.assertEqual(file, whole_file(2))
        path = self.write("scene.raw", samples_of(5, 4, 40).tobytes())
        with open(path, "rb") as raw, mmap.mmap(raw.fileno(), 0, access=mmap.ACCESS_READ) as mapped:
            file = ccsds123.encode(mapped, byteorder=sys.byteorder, **MANY)
        self.assertEqual(file, sequential_file(MANY))

    def test_wide_scene_has_the_same_file(self):
        given = ccsds123.encode(samples_of(256, 4, 12), **WIDE)
        self.assertEqual(given, ccsds123.encode(samples_of(256, 4, 12, "bil"), **WIDE, interleave="bil"))

    def test_what_goes_by_rows(self):
        for sizes, options, interleave, wanted in (
            (SIZES, {"order": "bi"}, "bil", True), (SIZES, {"order": "bi"}, "bip", True), (MANY, {"order": "bi"}, "bsq", False), (MANY, {}, "bil", False),
            (SIZES, {}, "bsq", False), (MANY, {}, "bsq", True), (MANY, {"previous": 5}, "bsq", True), (MANY, {"previous": 6}, "bsq", False),
            (WIDE, {}, "bsq", True), (WIDE, {"previous": 4}, "bsq", False), ({**WIDE, "bands": 11}, {}, "bsq", False), ({**WIDE, "columns": 255}, {}, "bsq", False),
        ):
            self.assertEqual(goes_by_rows(ccsds123.Params(**sizes, **options), interleave), wanted)

    def test_refusals(self):
        begun = lambda: ccsds123.RowEncoder(**SIZES)
        self.assertEqual(told(lambda: ccsds123.RowEncoder(**SIZES, order="bsq")), "23 Choice Order 0")
        self.assertEqual(told(lambda: ccsds123.RowEncoder(**SIZES, order="bsq", interleave="bip")), "23 Choice Order 0")
        self.assertEqual(told(lambda: ccsds123.RowEncoder(**SIZES, order="bi", interleave="bsq")), "23 Choice Interleave 0")
        self.assertEqual(told(lambda: ccsds123.RowEncoder(**SIZES, depth=4)), "4 Disagree DepthOverBands")
        self.assertEqual(told(begun().rows, bytes(29)), "14 RawLength 120 29")
        self.assertEqual(told(begun().rows, bytes(150)), "14 RawLength 120 150")
        encoder = begun()
        encoder.rows(bytes(60))
        self.assertEqual(told(encoder.rows, b"\xff" * 30), "13 SampleRange 30")
        self.assertEqual(told(encoder.rows, bytes(30)), "20 Usage")
        self.assertEqual(told(encoder.end), "20 Usage")
        encoder = begun()
        encoder.rows(bytes(60))
        self.assertEqual(told(encoder.end), "14 RawLength 120 60")
        encoder = begun()
        encoder.rows(bytes(120))
        encoder.end()
        self.assertEqual(told(encoder.rows, b""), "20 Usage")

    def test_band_sequential_refusals(self):
        begun = lambda: ccsds123.RowEncoder(**SIZES, interleave="bsq")
        self.assertEqual(told(begun().rows, bytes(9)), "14 RawLength 120 9")
        self.assertEqual(told(begun().rows, bytes(130)), "14 RawLength 120 130")
        encoder = begun()
        encoder.rows(bytes(50))
        self.assertEqual(told(encoder.rows, bytes(10) + b"\xff" * 10), "13 SampleRange 30")
        self.assertEqual(told(encoder.end), "20 Usage")
        encoder = begun()
        encoder.rows(bytes(110))
        self.assertEqual(told(encoder.end), "14 RawLength 120 110")
        self.assertEqual(told(lambda: ccsds123.encode(b"\xff" * 1600, byteorder="little", **MANY)), "13 SampleRange 0")
        self.assertEqual(told(lambda: ccsds123.encode(bytes(1598), byteorder="little", **MANY)), "14 RawLength 1600 1598")

    def test_arrays_of_another_kind(self):
        encoder = ccsds123.RowEncoder(**SIZES)
        for wrong in (samples_of(5, 4, 3, "bil", "h"), memoryview(bytes(120)).cast("H", (4, 5, 3)), memoryview(bytes(60)).cast("B", (4, 3, 5)), 5):
            self.assertRaises(TypeError, encoder.rows, wrong)
        encoder.rows(samples_of(5, 4, 3, "bil"))
        self.assertEqual(encoder.end(), whole_file(1))

    def test_encoders_that_are_not_ended(self):
        for _ in range(50):
            encoder = ccsds123.RowEncoder(**SIZES)
            encoder.rows(bytes(30))
        encoder.close()
        encoder.close()
        self.assertEqual(told(encoder.rows, bytes(30)), "20 Usage")
        with self.assertRaises(KeyError), ccsds123.RowEncoder(**SIZES) as encoder:
            raise KeyError
        self.assertEqual(encoder.encoder.is_open, 0)
        del encoder
        gc.collect()


if __name__ == "__main__":
    unittest.main()
