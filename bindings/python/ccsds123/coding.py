"""Encoding, decoding, and reading headers."""

from __future__ import annotations

import ctypes
import os
import sys
from ctypes import byref, c_uint64
from typing import Any, Optional, Union

from . import library
from .cube import Cube
from .fault import Fault
from .library import CParams
from .params import Params
from .records import c_layout, c_params, c_tables, params_of
from .rooms import ROOM, room_of
from .rows import encode_by_rows, goes_by_rows
from .samples import address_of, samples_of

HEADER_BYTES = 4 << 20
"""No header is longer."""
LEAST_ROOM = 1 << 10
"""The entries of tables that there is room for at first."""


def encode(
    samples: Any, params: Optional[Params] = None, *, interleave: str = "bsq", byteorder: Optional[str] = None, columns: Optional[int] = None,
    rows: Optional[int] = None, bands: Optional[int] = None, bits: Optional[int] = None, signed: Optional[bool] = None, **options: Any,
) -> bytes:
    """Returns the file that the standard defines for these samples.

    `samples` is any buffer of integers of 8 or 16 bits: a NumPy array of any strides, an `array`, a `memoryview`, an `mmap`, or `bytes`. An array of
    three dimensions has the shape (bands, rows, columns) with `interleave="bsq"`, (rows, bands, columns) with `"bil"`, (rows, columns, bands) with
    `"bip"`; a buffer of one dimension needs `columns`, `rows` and `bands`. Plain bytes of two for each sample need `byteorder`.

    Samples that lie as they are coded are read once, row by row: with `order="bi"` and `interleave` `"bil"` or `"bip"`, and band sequential in both where
    there are more than `previous` + 8 bands, or of less than 256 columns three times as many. A scene that is mapped (`mmap`, `numpy.memmap`) then isn't
    loaded: what is kept beside the file is a row, or `previous` + 8 planes of two bytes a sample. Else all samples are, two bytes each.

    `bits` are all bits of a sample unless given. `options` are further members of Params; or `params` has all of them, and the sizes.
    Raises Fault where parameters or samples are refused.
    """
    sizes = {"columns": columns, "rows": rows, "bands": bands}
    if params is not None:
        given = [name for name, value in {**sizes, "bits": bits, "signed": signed, **options}.items() if value is not None]
        if given:
            raise TypeError(f"params were given, and {', '.join(given)} beside them")
        sizes, signed = {name: getattr(params, name) for name in sizes}, params.signed
    held = samples_of(samples, interleave, sizes, signed, byteorder)
    if params is None:
        params = Params(*held.shape, 8 * held.size if bits is None else bits, held.signed, **options)
    return encode_raw(held.data, params, interleave, held.size, "little" if held.little else "big")


def encode_raw(data: Any, params: Params, interleave: str, sample_bytes: int, byteorder: str) -> bytes:
    """Returns the file of raw bytes that lie as said. Where they can be coded row by row in little memory, they are, and not copied, so that a mapped
    scene may be larger than memory."""
    if goes_by_rows(params, interleave) and memoryview(data).nbytes == params.count * sample_bytes:
        return encode_by_rows(data, params, interleave, sample_bytes, byteorder)
    given, tables = c_params(params), c_tables(params)
    layout, bound, length = c_layout(interleave, sample_bytes, byteorder), c_uint64(), c_uint64()
    library.call("params_check", byref(given), *tables)
    library.call("bound", byref(given), byref(bound))
    with address_of(data) as (raw, raw_length), room_of(bound.value if raw_length == params.count * sample_bytes else 1) as room:
        with address_of(room) as (file, file_room):
            library.call("encode", byref(given), *tables, byref(layout), raw, raw_length, file, file_room, byref(length))
        return room[: length.value]


def decode(file: Any, *, interleave: str = "bsq") -> Any:
    """Returns the samples of a file: an array of NumPy where NumPy can be imported, else a Cube.

    The array has the shape (bands, rows, columns), or that of the given interleave, and items of 8 bits where the samples have so few, else of 16.
    Raises Fault where the bytes aren't a file.
    """
    cube = decode_cube(file, interleave=interleave)
    try:
        import numpy
    except ImportError:
        return cube
    return numpy.asarray(cube.samples)


def decode_cube(file: Any, *, interleave: str = "bsq", sample_bytes: Optional[int] = None, byteorder: str = sys.byteorder) -> Cube:
    """Returns the samples of a file with its parameters, in this interleave and byte order.

    A sample has `sample_bytes` bytes, 1 or 2; unless that is given, 1 where samples have at most 8 bits. Raises Fault where the bytes aren't a
    file, and where a sample doesn't fit in its byte.
    """
    params = header(file)
    size = sample_bytes or (1 if params.bits <= 8 else 2)
    layout, length, wanted = c_layout(interleave, size, byteorder), c_uint64(), c_uint64()
    library.call("raw_length", byref(c_params(params)), byref(layout), byref(wanted))
    try:
        data, want = room_of(wanted.value), None
    except MemoryError as error:
        data, want = room_of(1), error
    try:
        with address_of(file) as (given, given_length), address_of(data) as (raw, raw_room):
            library.call("decode", given, given_length, byref(layout), raw, raw_room, byref(length))
    except Fault as fault:
        # What is wrong with the file itself comes first.
        raise (want if want and fault.number == ROOM else fault) from None
    return Cube(params, interleave, data, size, byteorder)


def header(source: Union[bytes, str, "os.PathLike[str]"]) -> Params:
    """Returns the parameters that a file's header records; `source` is the file's bytes, or its path, of which 4 MB at most are read.

    What the file's coder and order don't use has its default. Raises Fault where there is no header.
    """
    if isinstance(source, (str, os.PathLike)):
        with open(source, "rb") as file:
            return header(file.read(HEADER_BYTES))
    found, length = CParams(size=ctypes.sizeof(CParams)), c_uint64()
    counts = (c_uint64(), c_uint64())
    with address_of(source) as (data, data_length):
        for entries in (LEAST_ROOM, most_entries(data_length)):
            weights, accumulators = (ctypes.c_int32 * entries)(), (ctypes.c_uint8 * entries)()
            try:
                rooms = (weights, entries, byref(counts[0]), accumulators, entries, byref(counts[1]))
                library.call("read_header", data, min(data_length, HEADER_BYTES), byref(found), *rooms, byref(length))
                break
            except Fault as fault:
                if fault.number != ROOM or entries > LEAST_ROOM:
                    raise
    return params_of(found, weights[: counts[0].value], accumulators[: counts[1].value])


def most_entries(length: int) -> int:
    """Returns a number that the entries of no table within so many bytes exceed: three bits is the least that a weight takes."""
    return min(length, HEADER_BYTES) * 8 // 3 + LEAST_ROOM + 1
