"""Lossless compression of image cubes, as CCSDS 123.0-B-1 defines it, by the proved coder of the library `libccsds123`.

    file = ccsds123.encode(samples, bits=12)     # an array of (bands, rows, columns), or any buffer with its sizes
    samples = ccsds123.decode(file)              # an array of NumPy, or a Cube
    ccsds123.header("scene.ccsds").columns       # from bytes, or from a path

`RowEncoder` codes a scene whose rows come one after another. A refusal raises Fault. `ccsds123.envi` reads and writes ENVI headers, `ccsds123.archive`
keeps scenes in pieces with their checksums, and `python3 -m ccsds123` is a command for both.
"""

from .coding import decode, decode_cube, encode, header
from .cube import Cube
from .fault import Fault
from .library import version
from .params import Params, WeightTable
from .rows import RowEncoder

__all__ = ["Cube", "Fault", "Params", "RowEncoder", "WeightTable", "decode", "decode_cube", "encode", "header", "version"]
