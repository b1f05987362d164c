"""Arrays of NumPy, and what is there without it."""

import os
import subprocess
import sys
import unittest

from support import numpy, samples_of

import ccsds123

HERE = os.path.dirname(os.path.abspath(__file__))
AXES = {"bsq": (0, 1, 2), "bil": (1, 0, 2), "bip": (1, 2, 0)}
"""How an array of (bands, rows, columns) is turned into one of each interleave."""
BLOCKED = """
import sys
sys.modules["numpy"] = None
from support import samples_of
import ccsds123
cube = ccsds123.decode(ccsds123.encode(samples_of(5, 4, 3), columns=5, rows=4, bands=3))
assert isinstance(cube, ccsds123.Cube) and cube.samples.tolist()[2][3][4] == samples_of(5, 4, 3)[-1]
"""


class WithoutNumPy(unittest.TestCase):
    def test_a_cube_is_returned(self):
        subprocess.run([sys.executable, "-c", BLOCKED], cwd=HERE, check=True)


@unittest.skipUnless(numpy, "NumPy isn't installed")
class WithNumPy(unittest.TestCase):
    def setUp(self):
        self.cube = numpy.frombuffer(samples_of(5, 4, 3), dtype="H").reshape(3, 4, 5)
        self.file = ccsds123.encode(self.cube, bits=12)

    def test_arrays_come_back(self):
        for interleave, axes in AXES.items():
            back = ccsds123.decode(self.file, interleave=interleave)
            self.assertIsInstance(back, numpy.ndarray)
            numpy.testing.assert_array_equal(back, self.cube.transpose(axes))
            self.assertEqual(ccsds123.encode(numpy.ascontiguousarray(back), bits=12, interleave=interleave), self.file)

    def test_any_strides_and_byte_order(self):
        for interleave, axes in AXES.items():
            self.assertEqual(ccsds123.encode(self.cube.transpose(axes), bits=12, interleave=interleave), self.file)
        turned = self.cube[::-1, :, ::-1].copy()
        self.assertEqual(ccsds123.encode(turned[::-1, :, ::-1], bits=12), self.file)
        self.assertEqual(ccsds123.encode(numpy.asfortranarray(self.cube), bits=12), self.file)
        for order in "<>":
            self.assertEqual(ccsds123.encode(self.cube.astype(order + "u2"), bits=12), self.file)
        wide = numpy.repeat(self.cube, 2, axis=2)
        self.assertEqual(ccsds123.encode(wide[:, :, ::2], bits=12), self.file)

    def test_types_come_back(self):
        for name in ("uint8", "int8", "uint16", "int16"):
            given = (numpy.arange(60).reshape(3, 4, 5) * 3 - (90 if name[0] == "i" else 0)).astype(name)
            back = ccsds123.decode(ccsds123.encode(given))
            self.assertEqual(back.dtype, given.dtype)
            numpy.testing.assert_array_equal(back, given)

    def test_two_dimensions_are_one_band(self):
        params = ccsds123.header(ccsds123.encode(self.cube[0], bits=12))
        self.assertEqual((params.columns, params.rows, params.bands), (5, 4, 1))

    def test_other_types_are_refused(self):
        for name in ("float32", "float64", "int32", "uint64", "bool", "complex64"):
            with self.assertRaisesRegex(TypeError, "integers of 8 or 16 bits"):
                ccsds123.encode(numpy.zeros((3, 4, 5), name))


if __name__ == "__main__":
    unittest.main()
