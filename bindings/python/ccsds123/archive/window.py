"""A window of an archived scene: some rows, columns and bands, from the pieces that hold them alone."""

from __future__ import annotations

import os
from typing import Optional, Sequence, Tuple

from .. import envi
from .index import ArchiveError, read_index
from .jobs import each
from .pieces import decode_piece

Range = Tuple[int, int]


def window(
    folder: envi.Path, rows: Optional[Range] = None, columns: Optional[Range] = None, bands: Optional[Sequence[int]] = None, jobs: Optional[int] = None,
) -> Tuple[envi.Header, bytearray]:
    """Returns the samples of a window, interleaved as the scene is, and the header that describes them.

    `rows` and `columns` are the first, and the first that is left out; `bands` are their numbers; all count from 0. Without them the window has all.
    """
    name = os.fspath(folder)
    index = read_index(name)
    header = index.envi
    high, wide = within(rows, header.rows, "rows"), within(columns, header.columns, "columns")
    chosen = list(range(header.bands)) if bands is None else list(bands)
    if not chosen or not all(0 <= band < header.bands for band in chosen):
        raise ArchiveError(f"{name} has bands 0 to {header.bands - 1}")
    part = header.part(wide[1] - wide[0], high[1] - high[0], len(chosen))
    room = bytearray(part.length)
    wanted = [piece for piece in index.pieces if piece.first_row < high[1] and piece.first_row + piece.rows > high[0]]
    for piece, raw in each(lambda it: decode_piece(name, it, header), wanted, jobs):
        held = header.part(header.columns, piece.rows, header.bands)
        for row in range(max(high[0], piece.first_row), min(high[1], piece.first_row + piece.rows)):
            copy_row(held, raw, row - piece.first_row, wide[0], chosen, part, room, row - high[0])
    return part, room


def within(span: Optional[Range], size: int, what: str) -> Range:
    first, end = (0, size) if span is None else span
    if not 0 <= first < end <= size:
        raise ArchiveError(f"{what} {first}:{end} aren't within the scene, which has {what} 0:{size}")
    return first, end


def copy_row(source: envi.Header, raw: memoryview, row: int, column: int, bands: Sequence[int], target: envi.Header, room: bytearray, to: int) -> None:
    """Copies one row of the chosen bands, from the given column on, into a row of the target."""
    items = "B" if source.sample_bytes == 1 else "H"
    old, new = raw.cast(items), memoryview(room).cast(items)
    for place, band in enumerate(bands):
        first, step = run_of(source, band, row)
        first += column * step
        start, stride = run_of(target, place, to)
        new[start : start + target.columns * stride : stride] = old[first : first + target.columns * step : step]


def run_of(header: envi.Header, band: int, row: int) -> Tuple[int, int]:
    """Returns where a row of a band begins, counted in samples, and how far its samples are apart."""
    if header.interleave == "bsq":
        return (band * header.rows + row) * header.columns, 1
    if header.interleave == "bil":
        return (row * header.bands + band) * header.columns, 1
    return row * header.columns * header.bands + band, header.bands
