"""An archive becomes the scene that it was made from."""

from __future__ import annotations

import hashlib
import os
from typing import Optional

from .. import envi
from .files import PARTIAL, naming, read_part, store
from .index import ArchiveError, Index, Piece, read_index
from .jobs import each
from .pieces import decode_piece
from .progress import Progress
from .scene import AT_ONCE, runs_of


def expand(folder: envi.Path, path: envi.Path, jobs: Optional[int] = None, force: bool = False, shown: bool = False) -> Index:
    """Writes the scene of an archive, and its header beside it.

    Each piece is compared with its checksums, and the raw file with its own. The files get their names once they are whole; files that are
    there are replaced only with `force`.
    """
    source, target = os.fspath(folder), os.fspath(path)
    index, header_path = read_index(source), header_path_of(target)
    for name in (target, header_path):
        if os.path.exists(name) and not force:
            raise ArchiveError(f"{name} exists; --force replaces it")
    try:
        write(index, source, target + PARTIAL, jobs, shown)
        os.replace(target + PARTIAL, target)
    finally:
        if os.path.exists(target + PARTIAL):
            os.unlink(target + PARTIAL)
    store(header_path, index.header.encode("utf-8", "surrogateescape"))
    return index


def header_path_of(path: str) -> str:
    """Returns the name of the header beside a raw file."""
    stem, suffix = os.path.splitext(path)
    if suffix.lower() == ".hdr":
        raise ArchiveError(f"{path}: name the raw file to write; its header is written beside it")
    return stem + ".hdr"


def write(index: Index, folder: str, path: str, jobs: Optional[int], shown: bool) -> None:
    """Writes the raw file."""
    header = index.envi
    with naming(path), open(path, "w+b") as file, Progress(index.scene, header.length, shown) as progress:
        os.fchmod(file.fileno(), index.permissions | 0o200)
        if index.front:
            file.write(read_part(os.path.join(folder, index.front.file), index.front.file_bytes, index.front.file_sha256))
            file.flush()

        def put(piece: Piece) -> None:
            write_piece(file.fileno(), header, piece, decode_piece(folder, piece, header))

        for piece, _ in each(put, index.pieces, jobs):
            progress.step(piece.raw_bytes)
        if sha256_of(file) != index.raw_sha256:
            raise ArchiveError(f"{path}: the SHA-256 of the whole scene isn't the one of the index")
        os.fsync(file.fileno())
        os.fchmod(file.fileno(), index.permissions)


def write_piece(number: int, header: envi.Header, piece: Piece, done: memoryview) -> None:
    """Writes the samples of a piece where they stand in the raw file."""
    for at, length in runs_of(header, piece.first_row, piece.rows):
        part, done = done[:length], done[length:]
        while part:
            count = os.pwrite(number, part, at)
            part, at = part[count:], at + count


def sha256_of(file) -> str:
    found = hashlib.sha256()
    file.seek(0)
    for part in iter(lambda: file.read(AT_ONCE), b""):
        found.update(part)
    return found.hexdigest()
