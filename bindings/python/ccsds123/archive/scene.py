"""A raw scene on disk, with its ENVI header: its rows are read and written piece by piece."""

from __future__ import annotations

import hashlib
import os
import stat
import threading
from typing import BinaryIO, Iterator, Tuple

from .. import envi
from ..params import Params

AT_ONCE = 1 << 22
"""The bytes that are hashed at once."""


class Scene:
    """An open raw scene; its rows may be read by many threads at once."""

    def __init__(self, header_path: envi.Path) -> None:
        self.header_path = os.fspath(header_path)
        self.header = envi.read(header_path)
        with open(header_path, "rb") as text:
            self.header_text = text.read().decode("utf-8", "surrogateescape")
        self.path = envi.raw_file_of(header_path)
        self.file: BinaryIO = open(self.path, "rb")
        self.mode = stat.S_IMODE(os.fstat(self.file.fileno()).st_mode) & 0o777
        self.check_length()

    def __enter__(self) -> Scene:
        return self

    def __exit__(self, *_) -> None:
        self.file.close()

    def check_length(self) -> None:
        """Raises EnviError where the file isn't as long as its header says."""
        wanted, had = self.header.offset + self.header.length, os.fstat(self.file.fileno()).st_size
        if had != wanted:
            words = "shorter" if had < wanted else "longer"
            self.file.close()
            raise envi.EnviError(f"{self.path} has {had} bytes and is {words} than {self.header_path} says, which asks for {wanted}")

    def params(self, rows: int, options: dict) -> Params:
        """Returns the parameters of a piece of so many rows."""
        header = self.header
        return Params(header.columns, rows, header.bands, **{"bits": 8 * header.sample_bytes, "signed": header.signed, **options})

    def rows(self, first: int, count: int) -> bytes:
        """Returns the samples of these rows, interleaved as the scene is."""
        return b"".join(self.read(at, length) for at, length in runs_of(self.header, first, count))

    def read(self, at: int, length: int) -> bytes:
        parts, left = [], length
        while left:
            part = os.pread(self.file.fileno(), left, at + length - left)
            if not part:
                raise envi.EnviError(f"{self.path} became shorter while it was read")
            parts.append(part)
            left -= len(part)
        return parts[0] if len(parts) == 1 else b"".join(parts)

    def sha256(self, stopped: threading.Event) -> str:
        """Returns the SHA-256 of the whole raw file, as `sha256sum` prints it; it looks no further once it is stopped."""
        whole, found = self.header.offset + self.header.length, hashlib.sha256()
        for at in range(0, whole, AT_ONCE):
            if stopped.is_set():
                break
            found.update(self.read(at, min(AT_ONCE, whole - at)))
        return found.hexdigest()


def runs_of(header: envi.Header, first: int, count: int) -> Iterator[Tuple[int, int]]:
    """Yields where the samples of these rows stand in the raw file, each run as its position and its length in bytes."""
    if header.interleave != "bsq":
        yield header.offset + first * header.row_bytes, count * header.row_bytes
        return
    row = header.columns * header.sample_bytes
    for band in range(header.bands):
        yield header.offset + (band * header.rows + first) * row, count * row


def pieces_of(rows: int, height: int) -> Iterator[Tuple[int, int]]:
    """Yields pieces along the track, each as its first row and its number of rows."""
    for first in range(0, rows, height):
        yield first, min(height, rows - first)
