"""Every form in which samples may be given."""

import array
import mmap
import sys
import unittest

from support import samples_of

import ccsds123

SIZES = {"columns": 5, "rows": 4, "bands": 3}
OTHER = "big" if sys.byteorder == "little" else "little"


class Buffers(unittest.TestCase):
    def setUp(self):
        self.samples = samples_of(5, 4, 3)
        self.file = ccsds123.encode(self.samples, **SIZES, bits=12)

    def test_any_buffer_gives_the_same_file(self):
        raw = self.samples.tobytes()
        mapped = mmap.mmap(-1, len(raw))
        mapped[:] = raw
        shaped = memoryview(raw).cast("H", shape=(3, 4, 5))
        for given in (raw, bytearray(raw), memoryview(raw), mapped, memoryview(bytearray(raw))):
            self.assertEqual(ccsds123.encode(given, **SIZES, bits=12, byteorder=sys.byteorder), self.file)
        self.assertEqual(ccsds123.encode(shaped, bits=12), self.file)
        self.samples.byteswap()
        self.assertEqual(ccsds123.encode(self.samples.tobytes(), **SIZES, bits=12, byteorder=OTHER), self.file)

    def test_files_are_any_buffer(self):
        for given in (self.file, bytearray(self.file), memoryview(self.file), array.array("B", self.file)):
            self.assertEqual(ccsds123.decode_cube(given).data[:], self.samples.tobytes())

    def test_gaps_are_copied_away(self):
        raw = bytes(range(120))
        self.assertEqual(ccsds123.encode(memoryview(raw)[::2], **SIZES), ccsds123.encode(raw[::2], **SIZES))

    def test_one_byte_samples_take_their_sign_from_the_items(self):
        given = array.array("b", [i - 30 for i in range(60)])
        params = ccsds123.header(ccsds123.encode(given, **SIZES))
        self.assertEqual((params.bits, params.signed), (8, True))
        self.assertEqual(ccsds123.encode(given.tobytes(), **SIZES, signed=True), ccsds123.encode(given, **SIZES))

    def test_bits_are_all_of_a_sample_unless_given(self):
        self.assertEqual(ccsds123.header(ccsds123.encode(self.samples, **SIZES)).bits, 16)
        self.assertEqual(ccsds123.header(ccsds123.encode(bytes(60), **SIZES)).bits, 8)

    def test_what_does_not_fit_is_told_in_a_sentence(self):
        wrong = [
            (array.array("f", [0] * 60), SIZES, "format 'f'"),
            (array.array("i", [0] * 60), SIZES, "format 'i'"),
            (self.samples, {"columns": 5}, "rows, bands lacking"),
            (self.samples.tobytes(), SIZES, "byteorder='little'"),
            (self.samples, {**SIZES, "signed": True}, "signed=True was given"),
            (self.samples, {**SIZES, "byteorder": OTHER}, "byteorder="),
            (memoryview(bytes(120)).cast("H", shape=(3, 4, 5)), {"rows": 5}, "rows=5 was given, and the array has 4"),
            (memoryview(bytes(16)).cast("B", shape=(2, 2, 2, 2)), {}, "not 4"),
            ([1, 2, 3], SIZES, "not list"),
            ("text", SIZES, "not str"),
        ]
        for given, words, said in wrong:
            with self.assertRaises(TypeError) as caught:
                ccsds123.encode(given, **words)
            self.assertIn(said, str(caught.exception))
        with self.assertRaisesRegex(ValueError, "interleave is one of bsq, bil, bip, not 'bif'"):
            ccsds123.encode(self.samples, **SIZES, interleave="bif")


if __name__ == "__main__":
    unittest.main()
