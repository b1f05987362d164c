"""Encoding a scene row by row, without holding it in memory."""

from __future__ import annotations

import sys
from ctypes import byref, c_uint64
from typing import Any, Optional

from . import library
from .fault import Fault
from .library import CEncoder
from .params import Params
from .records import c_layout, c_params, c_tables
from .rooms import ROOM, room_of
from .samples import address_of, kind_of, unbroken, viewed

AT_ONCE = 1 << 24
"""The bytes that are coded in one call, after which Python sees an interrupt."""


KEPT_PLANES = 8
"""The planes that are kept of a band sequential scene, beside those of the bands that a band is predicted from."""
FEWEST_COLUMNS = 256
"""The columns from which on rows aren't short: with shorter ones it takes longer to code row by row."""


class RowEncoder:
    """Codes a scene whose rows come one after another, in the order in which they are coded.

        with ccsds123.RowEncoder(columns=614, rows=512, bands=224, bits=16, signed=True, interleave="bil") as encoder:
            for block in blocks:                # arrays of (some rows, bands, columns)
                encoder.rows(block)
            file = encoder.end()

    Samples come with `interleave` `"bil"` or `"bip"` for the order `"bi"`, and `"bsq"` for `"bsq"`; of `sample_bytes` each (unless given, 1 where `bits`
    are at most 8, else 2) and in `byteorder`. Parameters are keywords named as the members of Params, where the order is the one that the interleave
    needs unless given; or `params` has all of them.

    A row by line or by pixel is one of all bands, and what is kept is one row and the file so far. A band sequential row is one of a single band: each
    of the first band, then each of the second. What is kept is then `previous` + 8 planes, of two bytes a sample, and the file so far.

    A refusal raises Fault and frees the encoder; any call after it, or after the end, raises the fault `20 Usage`. One thread makes all calls.
    """

    def __init__(
        self, params: Optional[Params] = None, *, interleave: str = "bil", sample_bytes: Optional[int] = None, byteorder: str = sys.byteorder, **options: Any,
    ) -> None:
        if params is not None and options:
            raise TypeError(f"params were given, and {', '.join(options)} beside them")
        self.params = Params(**{"order": "bsq" if interleave == "bsq" else "bi", **options}) if params is None else params
        self.interleave, self.byteorder = interleave, byteorder
        self.sample_bytes = sample_bytes or (1 if self.params.bits <= 8 else 2)
        self.encoder = CEncoder()
        layout = c_layout(interleave, self.sample_bytes, byteorder)
        library.call("encoder_begin", byref(self.encoder), byref(c_params(self.params)), *c_tables(self.params), byref(layout))

    def rows(self, samples: Any) -> None:
        """Takes the next rows, as many as there are.

        `samples` is an array of the shape (some rows, bands, columns) with `interleave="bil"`, (some rows, columns, bands) with `"bip"`, or of one
        row without the first dimension; with `"bsq"` (some bands, rows, columns), or (some rows, columns) of one band. Its items are as the encoder
        was told. Or it is plain bytes, which are raw samples one after another.

        Raises Fault: `RawLength` where there aren't whole rows, or more than the scene still wants; `SampleRange` with an index in the whole scene.
        """
        view = viewed(samples)
        if view.ndim != 1 or view.format not in ("B", "c"):
            self.check(view)
        with address_of(unbroken(view)) as (raw, length):
            library.call("encoder_rows", byref(self.encoder), raw, length)

    def check(self, view: memoryview) -> None:
        """Raises TypeError where an array isn't of the kind and shape that the encoder was told."""
        size, signed, order = kind_of(view)
        wanted = self.sample_bytes, self.params.signed, self.byteorder if self.sample_bytes == 2 else order
        if (size, signed, order) != wanted:
            raise TypeError(f"the items have to be {items(*wanted)}, and are {items(size, signed, order)}")
        shape = self.params.shape(self.interleave)[1:]
        if view.ndim == 2 and self.interleave == "bsq":
            shape = shape[1:]
        if view.ndim > 3 or (view.ndim > 1 and view.shape[-len(shape) :] != shape):
            whole = ", ".join(map(str, shape))
            raise TypeError(f"an array has the shape (any number, {whole}), by interleave={self.interleave!r}, and not {view.shape}")

    def end(self) -> bytes:
        """Returns the file, once all rows were taken: the one that `encode` returns of all samples together.

        Raises Fault: `RawLength` where rows are missing.
        """
        length = c_uint64()
        try:
            library.call("encoder_end", byref(self.encoder), None, 0, byref(length))
        except Fault as fault:
            if fault.number != ROOM:
                raise
            wanted = int(fault.values[1])
        with room_of(wanted) as room:
            with address_of(room) as (file, file_room):
                library.call("encoder_end", byref(self.encoder), file, file_room, byref(length))
            return room[: length.value]

    def close(self) -> None:
        """Frees the encoder, ended or not. Where that was done already, it does nothing."""
        library.library().ccsds123_encoder_free(byref(self.encoder))

    def __enter__(self) -> RowEncoder:
        return self

    def __exit__(self, *_) -> None:
        self.close()

    def __del__(self) -> None:
        if getattr(getattr(self, "encoder", None), "is_open", 0):
            self.close()


def items(size: int, signed: bool, byteorder: str) -> str:
    """Returns what kind of items these are, in words."""
    order = ", low byte first" if size == 2 and byteorder == "little" else ", high byte first" if size == 2 else ""
    return f"{'signed' if signed else 'unsigned'} integers of {8 * size} bits{order}"


def goes_by_rows(params: Params, interleave: str) -> bool:
    """Returns whether a scene is coded row by row: where order and layout both interleave the bands, or neither does and fewer planes are kept than it has,
    or at most a third where its rows are short."""
    if params.order == "bsq" and interleave == "bsq":
        return params.previous + KEPT_PLANES <= (params.bands // 3 if params.columns < FEWEST_COLUMNS else params.bands - 1)
    return params.order != "bsq" and interleave != "bsq"


def encode_by_rows(data: Any, params: Params, interleave: str, sample_bytes: int, byteorder: str) -> bytes:
    """Returns the file of raw bytes of the right number, whose rows come as they are coded; they are read once, from first to last."""
    with RowEncoder(params, interleave=interleave, sample_bytes=sample_bytes, byteorder=byteorder) as encoder:
        row = params.columns * sample_bytes * (1 if interleave == "bsq" else params.bands)
        step = max(1, AT_ONCE // row) * row
        with memoryview(data) as view, view.cast("B") as raw:
            for at in range(0, len(raw), step):
                with raw[at : at + step] as piece:
                    encoder.rows(piece)
        return encoder.end()
