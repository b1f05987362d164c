"""A scene becomes an archive."""

from __future__ import annotations

import os
import threading
from concurrent.futures import ThreadPoolExecutor
from typing import List, Optional

from .. import envi
from .files import digest, locked, store, sync_folder
from .index import NAME, OWN_FILE, ArchiveError, Front, Index, Piece, read_index, text_of
from .jobs import each
from .pieces import code_piece
from .progress import Progress
from .scene import Scene, pieces_of

ROWS = 256
"""The rows of a piece, unless given."""


def compress(
    header_path: envi.Path, folder: envi.Path, rows: Optional[int] = None, jobs: Optional[int] = None, force: bool = False,
    options: Optional[dict] = None, shown: bool = False,
) -> Index:
    """Codes a scene in pieces along the track, and writes them and their index into a folder.

    Each piece is decoded again and compared. The index comes last: a run that is stopped before leaves the archive that the folder held, whole.
    A finished archive is replaced only with `force`. `options` are members of Params, `shown` draws a progress bar.
    """
    target = os.fspath(folder)
    with Scene(header_path) as scene:
        made = prepare(target, force)
        try:
            with locked(target):
                return replace(scene, target, rows or ROWS, jobs, options or {}, shown)
        finally:
            if made and not os.listdir(target):
                os.rmdir(target)


def replace(scene: Scene, folder: str, rows: int, jobs: Optional[int], options: dict, shown: bool) -> Index:
    """Writes the archive of a scene into a folder that is held, and removes the files that no finished index names."""
    kept = kept_files(folder)
    try:
        sweep(folder, kept)
        index = code(scene, folder, rows, jobs, options, shown)
        sync_folder(folder)
        store(os.path.join(folder, NAME), text_of(index).encode(), scene.mode)
        sync_folder(folder)
        kept = index.files()
        return index
    finally:
        sweep(folder, kept)


def prepare(folder: str, force: bool) -> bool:
    """Makes the folder, and returns whether it wasn't there; raises ArchiveError where it holds an archive, or anything else."""
    if not os.path.isdir(folder):
        os.makedirs(folder)
        return True
    if os.path.exists(os.path.join(folder, NAME)) and not force:
        raise ArchiveError(f"{folder} holds a finished archive; --force replaces it")
    strange = [it for it in os.listdir(folder) if it != NAME and not OWN_FILE.fullmatch(it)]
    if strange:
        raise ArchiveError(f"{folder} holds other files, such as {min(strange)}: name a folder that is empty or new")
    return False


def kept_files(folder: str) -> List[str]:
    """Returns the files that a finished archive of the folder names."""
    return read_index(folder).files() if os.path.exists(os.path.join(folder, NAME)) else []


def sweep(folder: str, kept: List[str]) -> None:
    """Removes the files of an archive that its index doesn't name."""
    for name in os.listdir(folder):
        if OWN_FILE.fullmatch(name) and name not in kept:
            os.unlink(os.path.join(folder, name))


def code(scene: Scene, folder: str, rows: int, jobs: Optional[int], options: dict, shown: bool) -> Index:
    """Codes all pieces, and returns their index. The whole raw file is hashed meanwhile."""
    header, stopped = scene.header, threading.Event()
    front = front_of(scene, folder)
    with ThreadPoolExecutor(1) as beside:
        whole = beside.submit(scene.sha256, stopped)
        try:
            pieces = code_pieces(scene, folder, rows, jobs, options, shown)
        except BaseException:
            stopped.set()
            raise
        named = {"scene": os.path.basename(scene.path), "mode": f"{scene.mode:04o}", "header": scene.header_text}
        return Index(**named, raw_bytes=header.offset + header.length, raw_sha256=whole.result(), options=options, pieces=pieces, front=front)


def code_pieces(scene: Scene, folder: str, rows: int, jobs: Optional[int], options: dict, shown: bool) -> List[Piece]:
    """Codes all pieces, and returns them in the order of their rows."""
    pieces = []
    with Progress(os.path.basename(scene.path), scene.header.length, shown) as progress:
        for _, piece in each(lambda it: code_piece(scene, options, *it, folder), pieces_of(scene.header.rows, rows), jobs):
            pieces.append(piece)
            progress.step(piece.raw_bytes)
    return sorted(pieces, key=lambda piece: piece.first_row)


def front_of(scene: Scene, folder: str) -> Optional[Front]:
    """Stores the bytes in front of the samples, where there are any."""
    if not scene.header.offset:
        return None
    data = scene.read(0, scene.header.offset)
    name = f"front-{digest(data)[:16]}.bin"
    store(os.path.join(folder, name), data, scene.mode)
    return Front(name, len(data), digest(data))
