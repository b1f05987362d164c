"""What the tests share: a folder for each, scenes with ENVI headers, and the package itself."""

import array
import os
import random
import sys
import tempfile
import unittest

sys.path.insert(0, os.path.dirname(os.path.dirname(os.path.abspath(__file__))))

TOP = os.path.dirname(os.path.dirname(os.path.dirname(os.path.dirname(os.path.abspath(__file__)))))

try:
    import numpy
except ImportError:
    numpy = None

PLACES = {
    "bsq": lambda z, y, x, columns, rows, bands: (z * rows + y) * columns + x,
    "bil": lambda z, y, x, columns, rows, bands: (y * bands + z) * columns + x,
    "bip": lambda z, y, x, columns, rows, bands: (y * columns + x) * bands + z,
}
"""For each interleave, the index of the sample at a band, row and column."""


def value_of(z, y, x):
    """Returns the sample at a place of every scene of the tests."""
    return (random.Random(z * 1_000_003 + y * 1009 + x).randrange(16) + 3 * y + 2 * x + 40 * z) % 4096


def samples_of(columns, rows, bands, interleave="bsq", code="H"):
    """Returns the samples of a scene, as an array of its items."""
    found = array.array(code, bytes(array.array(code).itemsize * columns * rows * bands))
    for z in range(bands):
        for y in range(rows):
            for x in range(columns):
                found[PLACES[interleave](z, y, x, columns, rows, bands)] = value_of(z, y, x) if found.itemsize == 2 else value_of(z, y, x) % 100
    return found


def header_text(columns, rows, bands, interleave, data_type=12, order=None, offset=0):
    order = (0 if sys.byteorder == "little" else 1) if order is None else order
    return (
        f"ENVI\ndescription = {{\n  a scene of the tests, lines = 3 }}\nsamples = {columns}\nlines   = {rows}\nbands   = {bands}\n"
        f"header offset = {offset}\nfile type = ENVI Standard\ndata type = {data_type}\ninterleave = {interleave}\nbyte order = {order}\n"
        f"wavelength = {{\n {', '.join(str(400 + z) for z in range(bands))} }}\n"
    )


class FolderTest(unittest.TestCase):
    """A test in a folder of its own."""

    def setUp(self):
        self.room = tempfile.TemporaryDirectory()
        self.addCleanup(self.room.cleanup)

    def path(self, name):
        return os.path.join(self.room.name, name)

    def write(self, name, data):
        with open(self.path(name), "wb") as file:
            file.write(data if isinstance(data, bytes) else data.encode())
        return self.path(name)

    def read(self, name):
        with open(self.path(name), "rb") as file:
            return file.read()

    def scene(self, name="scene", columns=7, rows=20, bands=3, interleave="bil", front=b"", data_type=12):
        """Writes a scene, and returns the path of its header."""
        code = {1: "B", 2: "h", 12: "H"}[data_type]
        self.write(name + ".img", front + samples_of(columns, rows, bands, interleave, code).tobytes())
        return self.write(name + ".hdr", header_text(columns, rows, bands, interleave, data_type, offset=len(front)))
