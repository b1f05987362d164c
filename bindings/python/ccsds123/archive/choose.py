"""Option sets, tried on some rows of a scene."""

from __future__ import annotations

import sys
import time
from array import array
from dataclasses import asdict, dataclass
from typing import Dict, List, Optional

from .. import envi
from ..coding import decode_cube, encode_raw
from ..fault import Fault
from ..params import Params
from . import stopping
from .index import ArchiveError
from .scene import Scene

MOST_BYTES = 1 << 24
"""The raw bytes that are tried, unless rows are given."""
SETS: List[Dict[str, object]] = [
    {},
    {"coder": "block"},
    {"reduced": True, "column_sums": True},
    {"reduced": True},
    {"column_sums": True},
    {"previous": 0},
    {"previous": 1},
    {"previous": 6},
    {"coder": "block", "reduced": True, "column_sums": True},
]
SUSPECT = 0.8
"""Another byte order or sign that codes to so small a part is likely the right one."""


@dataclass(frozen=True)
class Tried:
    """How one option set did."""

    options: Dict[str, object]
    ratio: float
    """Raw bytes to bytes of the file."""
    compress_mb: float
    """Megabytes of raw samples a second."""
    expand_mb: float

    def as_json(self) -> dict:
        return asdict(self)


@dataclass(frozen=True)
class Choice:
    """What was tried, the best ratio first, and what looks wrong in the header."""

    first_row: int
    rows: int
    bits: int
    """The bits that the samples of these rows use."""
    tried: List[Tried]
    doubts: List[str]


def choose(header_path: envi.Path, rows: Optional[int] = None, options: Optional[dict] = None) -> Choice:
    """Tries a few option sets on rows from the middle of a scene, each with the given options beside it."""
    with Scene(header_path) as scene:
        header, given = scene.header, options or {}
        height = min(header.rows, rows or max(1, MOST_BYTES // header.row_bytes))
        first = (header.rows - height) // 2
        raw, params = scene.rows(first, height), scene.params(height, given)
        used = bits_of(raw, header)
        sets = SETS + [{"bits": used}] * (used < params.bits)
        tried = [it for it in (try_set(raw, header, {**vars(params), **chosen}, {**given, **chosen}) for chosen in sets) if it]
        if not tried:
            raise ArchiveError(f"{scene.path}: none of the option sets is lawful for these samples; give --bits {8 * header.sample_bytes}")
        tried.sort(key=lambda it: -it.ratio)
        return Choice(first, height, used, tried, doubts_of(raw, header, params, tried[0].ratio))


def try_set(raw: bytes, header: envi.Header, members: dict, options: dict) -> Optional[Tried]:
    """Codes and decodes rows with one option set; returns nothing where it isn't lawful for them, such as full mode with one column."""
    stopping.check()
    start = time.perf_counter()
    try:
        file = encode_raw(raw, Params(**members), header.interleave, header.sample_bytes, header.byteorder)
    except Fault:
        return None
    middle = time.perf_counter()
    decode_cube(file, interleave=header.interleave, sample_bytes=header.sample_bytes, byteorder=header.byteorder)
    end = time.perf_counter()
    size = len(raw) / 1e6
    return Tried(options, len(raw) / len(file), size / (middle - start), size / (end - middle))


def bits_of(raw: bytes, header: envi.Header) -> int:
    """Returns the bits that samples use, 2 at least."""
    items = array({(1, False): "B", (2, False): "H", (2, True): "h"}[header.sample_bytes, header.signed], raw)
    if header.sample_bytes == 2 and header.byteorder != sys.byteorder:
        items.byteswap()
    least, greatest = min(items), max(items)
    return max(2, max(greatest, -least - 1).bit_length() + header.signed)


def doubts_of(raw: bytes, header: envi.Header, params: Params, best: float) -> List[str]:
    """Returns what looks wrong in the header: another byte order or another sign with which the rows would be far smaller."""
    members, found = {**vars(params), "bits": 8 * header.sample_bytes}, []
    swapped = "big" if header.little else "little"
    if header.sample_bytes == 2 and ratio_of(raw, header, members, swapped) * SUSPECT > best:
        found.append(f"in {swapped} byte order the rows would be far smaller: is 'byte order = {0 if header.little else 1}' right?")
    if ratio_of(raw, header, {**members, "signed": not params.signed}, header.byteorder) * SUSPECT > best:
        found.append(f"as {'unsigned' if params.signed else 'signed'} samples the rows would be far smaller: is 'data type = {header.data_type}' right?")
    return found


def ratio_of(raw: bytes, header: envi.Header, members: dict, byteorder: str) -> float:
    try:
        return len(raw) / len(encode_raw(raw, Params(**members), header.interleave, header.sample_bytes, byteorder))
    except Fault:
        return 0.0
