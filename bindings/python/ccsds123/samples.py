"""Samples as a caller holds them: any buffer, with the sizes and the layout that can be read off it."""

from __future__ import annotations

import ctypes
import sys
from contextlib import contextmanager
from typing import Iterator, NamedTuple, Optional, Tuple

from .params import shape_of, sizes_of

FORMATS = {"B": (1, False), "c": (1, False), "b": (1, True), "H": (2, False), "h": (2, True)}
"""For each format of a buffer's items that can be coded, their bytes, and whether they are signed."""
ORDERS = {"": sys.byteorder, "@": sys.byteorder, "=": sys.byteorder, "<": "little", ">": "big", "!": "big"}


class Samples(NamedTuple):
    """Samples in memory, without gaps."""

    data: memoryview
    size: int
    """The bytes of a sample."""
    signed: bool
    little: bool
    shape: Tuple[int, int, int]
    """Columns, rows and bands."""


def samples_of(given, interleave: str, sizes: dict, signed: Optional[bool], byteorder: Optional[str]) -> Samples:
    """Returns the samples of a buffer.

    An array of three dimensions has its sizes; one of two is a single band. A buffer of one dimension needs `columns`, `rows` and `bands`. The
    items of a typed buffer decide their size, sign and byte order. Plain bytes hold one or two bytes a sample, as their length says; where two,
    `byteorder` has to be given.
    """
    view = viewed(given)
    size, items_signed, order = kind_of(view)
    shape = shape_of_view(view, interleave, sizes)
    if view.format in ("B", "c") and view.ndim == 1:
        return plain_samples(view, shape, bool(signed), byteorder)
    if signed is not None and signed != items_signed:
        raise TypeError(f"signed={signed} was given, and the samples are {'signed' if items_signed else 'unsigned'} items")
    if byteorder is not None and size == 2 and byteorder != order:
        raise TypeError(f"byteorder={byteorder!r} was given, and the items are in {order} byte order")
    return Samples(unbroken(view), size, items_signed, order == "little", shape)


def viewed(given) -> memoryview:
    try:
        return memoryview(given)
    except (TypeError, ValueError):
        raise TypeError(f"samples have to be an array or another buffer of integers of 8 or 16 bits, not {type(given).__name__}") from None


def kind_of(view: memoryview) -> Tuple[int, bool, str]:
    """Returns bytes, sign and byte order of a buffer's items."""
    letter, mark = view.format[-1:], view.format[:-1]
    if letter not in FORMATS or mark not in ORDERS:
        raise TypeError(f"samples have to be integers of 8 or 16 bits, not items of {view.itemsize} bytes and format {view.format!r}: convert them first")
    return (*FORMATS[letter], ORDERS[mark])


def shape_of_view(view: memoryview, interleave: str, sizes: dict) -> Tuple[int, int, int]:
    """Returns columns, rows and bands, from the buffer's dimensions or as they were given."""
    if view.ndim == 1:
        lacking = [name for name, value in sizes.items() if value is None]
        if lacking:
            raise TypeError(f"a buffer of one dimension needs columns, rows and bands: {', '.join(lacking)} lacking")
        shape_of(1, 1, 1, interleave)
        return tuple(sizes.values())
    if view.ndim not in (2, 3):
        raise TypeError(f"samples have one dimension, two (rows, columns) or three, and not {view.ndim}")
    found = sizes_of(view.shape, interleave) if view.ndim == 3 else (view.shape[1], view.shape[0], 1)
    for (name, value), own in zip(sizes.items(), found):
        if value not in (None, own):
            raise TypeError(f"{name}={value} was given, and the array has {own}, by its shape {view.shape} and interleave={interleave!r}")
    return found


def plain_samples(view: memoryview, shape: Tuple[int, int, int], signed: bool, byteorder: Optional[str]) -> Samples:
    """Returns the samples of plain bytes, one or two for each sample."""
    count = shape[0] * shape[1] * shape[2]
    size = 1 if view.nbytes == count else 2
    if view.nbytes == 2 * count and byteorder not in ("little", "big"):
        raise TypeError("bytes with two for each sample need byteorder='little' or byteorder='big'")
    return Samples(unbroken(view), size, signed, byteorder == "little", shape)


def unbroken(view: memoryview) -> memoryview:
    """Returns the same items without gaps, row-major; they are copied only where they have gaps or another order."""
    return view if view.c_contiguous else memoryview(view.tobytes())


class PyBuffer(ctypes.Structure):
    """Python's own record of a buffer in use (`Py_buffer`)."""

    _fields_ = [
        ("buf", ctypes.c_void_p), ("obj", ctypes.c_void_p), ("len", ctypes.c_ssize_t), ("itemsize", ctypes.c_ssize_t), ("readonly", ctypes.c_int),
        ("ndim", ctypes.c_int), ("format", ctypes.c_char_p), ("shape", ctypes.c_void_p), ("strides", ctypes.c_void_p), ("suboffsets", ctypes.c_void_p),
        ("internal", ctypes.c_void_p),
    ]


@contextmanager
def address_of(data) -> Iterator[Tuple[Optional[int], int]]:
    """Yields the address and the length in bytes of a buffer without gaps, which stays where it is meanwhile; nothing is copied."""
    held = PyBuffer()
    ctypes.pythonapi.PyObject_GetBuffer(ctypes.py_object(data), ctypes.byref(held), 0)
    try:
        yield held.buf, held.len
    finally:
        ctypes.pythonapi.PyBuffer_Release(ctypes.byref(held))
