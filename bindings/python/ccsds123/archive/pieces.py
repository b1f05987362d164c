"""One piece of an archive: coded and looked at again, or decoded and compared."""

from __future__ import annotations

import os

from .. import envi
from ..coding import decode_cube, encode_raw
from ..fault import SAMPLE_RANGE, WANT_OF_MEMORY, Fault
from .files import digest, read_part, store
from .index import ArchiveError, Piece
from .scene import AT_ONCE, Scene


def code_piece(scene: Scene, options: dict, first: int, rows: int, folder: str) -> Piece:
    """Codes rows of a scene, decodes them again and compares, and stores the file."""
    header, raw = scene.header, scene.rows(first, rows)
    name = f"{scene.path}, rows {first} to {first + rows - 1}"
    try:
        file = encode_raw(raw, scene.params(rows, options), header.interleave, header.sample_bytes, header.byteorder)
        back = decode_cube(file, interleave=header.interleave, sample_bytes=header.sample_bytes, byteorder=header.byteorder)
    except Fault as fault:
        raise explained(fault, name, header) from None
    if not are_same(back.data, raw):
        raise ArchiveError(f"{name}: the file doesn't decode to the samples; nothing was kept. Please report this")
    sum_of_file = digest(file)
    stored = f"rows-{first:05}-{first + rows - 1:05}-{sum_of_file[:16]}.ccsds"
    store(os.path.join(folder, stored), file, scene.mode)
    return Piece(first, rows, stored, len(file), sum_of_file, len(raw), digest(raw))


def are_same(data, raw: bytes) -> bool:
    """Returns whether two buffers hold the same bytes, looking at a few megabytes at once."""
    return len(data) == len(raw) and all(data[at : at + AT_ONCE] == raw[at : at + AT_ONCE] for at in range(0, len(raw), AT_ONCE))


def decode_piece(folder: str, piece: Piece, header: envi.Header) -> memoryview:
    """Returns the raw bytes of a piece, interleaved as the scene is; raises ArchiveError where they aren't what was coded."""
    path = os.path.join(folder, piece.file)
    file = read_part(path, piece.file_bytes, piece.file_sha256)
    try:
        cube = decode_cube(file, interleave=header.interleave, sample_bytes=header.sample_bytes, byteorder=header.byteorder)
    except Fault as fault:
        raise explained(fault, path, header) from None
    if len(cube.data) != piece.raw_bytes or digest(cube.data) != piece.raw_sha256:
        raise ArchiveError(f"{path}: its samples aren't those that were coded: their SHA-256 isn't the one of the index")
    return memoryview(cube.data)


def explained(fault: Fault, name: str, header: envi.Header) -> Exception:
    """Returns the error that says in a sentence what a fault means for a scene."""
    if fault.number == WANT_OF_MEMORY:
        return MemoryError(f"{name}: there isn't enough memory; ask for fewer --rows or fewer --jobs")
    if fault.number == SAMPLE_RANGE:
        return ArchiveError(f"{name}: a sample needs more bits than --bits says ({fault}); {8 * header.sample_bytes} are always enough")
    return ArchiveError(f"{name}: {fault}")
