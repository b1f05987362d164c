"""Files and archives are read through and compared with their checksums."""

from __future__ import annotations

import os
from typing import Iterator, NamedTuple, Optional

from .. import envi
from ..coding import decode_cube
from ..fault import Fault
from .files import read_part
from .index import NAME, ArchiveError, read_index
from .jobs import each
from .pieces import decode_piece
from .status import sentence, status_of


class Found(NamedTuple):
    """What is said of a file; `status` is 0 where nothing is wrong with it, else as the command ends."""

    path: str
    status: int
    said: str


def verify(path: envi.Path, jobs: Optional[int] = None) -> Iterator[Found]:
    """Yields what is found of each file of an archive, in their order; or of a single file, which has no checksum."""
    name = os.fspath(path)
    if not os.path.isdir(name):
        yield guarded(name, lambda: read_whole(name))
        return
    try:
        index = read_index(name)
        header = index.envi
    except (ArchiveError, envi.EnviError, OSError) as error:
        yield found_wrong(os.path.join(name, NAME), error)
        return
    if index.front:
        front = index.front
        yield guarded(os.path.join(name, front.file), lambda: said_of_front(name, front))
    found, left = {}, list(index.pieces)
    for piece, result in each(lambda it: guarded(os.path.join(name, it.file), lambda: said_of(name, it, header)), index.pieces, jobs):
        found[piece] = result
        while left and left[0] in found:
            yield found.pop(left.pop(0))


def said_of(folder, piece, header) -> str:
    decode_piece(folder, piece, header)
    return f"rows {piece.first_row} to {piece.first_row + piece.rows - 1} are as they were coded"


def said_of_front(folder, front) -> str:
    read_part(os.path.join(folder, front.file), front.file_bytes, front.file_sha256)
    return "the bytes in front of the samples are as they were"


def read_whole(name: str) -> str:
    with open(name, "rb") as file:
        params = decode_cube(file.read()).params
    return f"decodes to {params.columns} columns, {params.rows} rows, {params.bands} bands; there is no checksum of it to compare"


def guarded(path: str, look) -> Found:
    """Returns what is said of a file, whatever is wrong with it."""
    try:
        return Found(path, 0, look())
    except (ArchiveError, Fault, MemoryError, OSError) as error:
        return found_wrong(path, error)


def found_wrong(path: str, error: BaseException) -> Found:
    said = sentence(error)
    return Found(path, status_of(error), said[len(path) :].lstrip(": ") if said.startswith(path) else said)
