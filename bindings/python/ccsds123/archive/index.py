"""The index of an archive, `index.json`: what the scene was, which pieces it is in, and the SHA-256 of each."""

from __future__ import annotations

import json
import os
import re
from dataclasses import asdict, dataclass, fields
from typing import Dict, List, Optional

from .. import envi

NAME = "index.json"
FORMAT = "ccsds123 archive"
VERSION = 1
OWN_FILE = re.compile(r"(?:rows-\d{5}-\d{5}|front)-[0-9a-f]{16}\.(?:ccsds|bin)(?:\.partial)?|index\.json\.partial")
"""The names that a run gives to its files, but for the index."""
OCTAL = re.compile(r"0[0-7]{3}")
DIGEST = re.compile(r"[0-9a-f]{64}")


class ArchiveError(Exception):
    """Why a scene or an archive can't be used, in a sentence that names the file."""


@dataclass(frozen=True)
class Piece:
    """A piece along the track: its rows in the scene, and its file."""

    first_row: int
    rows: int
    file: str
    file_bytes: int
    file_sha256: str
    raw_bytes: int
    raw_sha256: str


@dataclass(frozen=True)
class Front:
    """The bytes in front of the samples of the raw file, kept as they are."""

    file: str
    file_bytes: int
    file_sha256: str


@dataclass(frozen=True)
class Index:
    """All that an archive says of itself but for the samples."""

    scene: str
    """The name of the raw file, without its folder."""
    mode: str
    """Its permissions, in octal digits."""
    raw_bytes: int
    raw_sha256: str
    header: str
    """The text of its ENVI header."""
    options: Dict[str, object]
    pieces: List[Piece]
    front: Optional[Front] = None

    @property
    def envi(self) -> envi.Header:
        return envi.parse(self.header, f"the header of {self.scene}")

    @property
    def permissions(self) -> int:
        return int(self.mode, 8) & 0o777

    def files(self) -> List[str]:
        """Returns the names of all files of the archive, but for the index."""
        return [*([self.front.file] if self.front else []), *(piece.file for piece in self.pieces)]

    @property
    def file_bytes(self) -> int:
        return sum(piece.file_bytes for piece in self.pieces)


def text_of(index: Index) -> str:
    return json.dumps({"format": FORMAT, "version": VERSION, **asdict(index)}, indent=1) + "\n"


def read_index(folder: envi.Path) -> Index:
    """Reads the index of an archive, and checks that it is one; raises ArchiveError where it isn't."""
    path = os.path.join(os.fspath(folder), NAME)
    try:
        with open(path, encoding="utf-8") as file:
            return index_of(json.load(file))
    except FileNotFoundError:
        raise ArchiveError(f"{os.fspath(folder)} holds no finished archive: it has no {NAME}") from None
    except (ValueError, TypeError, KeyError, AttributeError) as error:
        raise ArchiveError(f"{path} isn't the index of an archive: {error}") from None


def index_of(found: dict) -> Index:
    """Returns the index that a JSON object spells; raises ValueError where its members contradict each other."""
    if found["format"] != FORMAT or found["version"] != VERSION:
        raise ValueError(f"it is of the format {found['format']!r}, version {found['version']}")
    front = found["front"] and Front(**found["front"])
    pieces = [Piece(**piece) for piece in found["pieces"]]
    index = Index(**{it.name: found[it.name] for it in fields(Index) if it.name not in ("pieces", "front")}, pieces=pieces, front=front)
    for part in [*([front] if front else []), *pieces]:
        if not OWN_FILE.fullmatch(part.file) or not DIGEST.fullmatch(part.file_sha256):
            raise ValueError(f"{part.file!r} is no name of a piece, or its checksum isn't one")
    check_rows(index)
    if not OCTAL.fullmatch(index.mode):
        raise ValueError(f"{index.mode!r} aren't permissions")
    return index


def check_rows(index: Index) -> None:
    """Raises ValueError where the pieces aren't all rows of the scene, each once and in order."""
    header, row = index.envi, 0
    for piece in index.pieces:
        if piece.first_row != row or piece.rows < 1 or piece.raw_bytes != piece.rows * header.row_bytes:
            raise ValueError(f"{piece.file} isn't the piece that begins at row {row}")
        row += piece.rows
    if row != header.rows or index.raw_bytes != header.offset + header.length or (index.front is not None) != (header.offset > 0):
        raise ValueError(f"its pieces have {row} rows, and the scene {header.rows}")
