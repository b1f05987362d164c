"""Files that are written beside their names and renamed once they are whole."""

from __future__ import annotations

import fcntl
import hashlib
import os
from contextlib import contextmanager
from typing import Iterator, Optional

from .index import ArchiveError

PARTIAL = ".partial"


def digest(data) -> str:
    return hashlib.sha256(data).hexdigest()


@contextmanager
def naming(path: str) -> Iterator[None]:
    """Has the system's errors name this file, where they name none."""
    try:
        yield
    except OSError as error:
        if error.filename is None:
            error.filename = path
        raise


def store(path: str, data, mode: Optional[int] = None) -> None:
    """Writes a file whole, on the disk too, under a name of its own, then gives it its name and permissions."""
    with naming(path), open(path + PARTIAL, "wb") as file:
        if mode is not None:
            os.fchmod(file.fileno(), mode)
        file.write(data)
        file.flush()
        os.fsync(file.fileno())
    os.replace(path + PARTIAL, path)


def sync_folder(folder: str) -> None:
    """Has the system write the names of a folder's files to the disk."""
    number = os.open(folder, os.O_RDONLY)
    try:
        os.fsync(number)
    finally:
        os.close(number)


@contextmanager
def locked(folder: str) -> Iterator[None]:
    """Holds a folder, so that no other run writes to it meanwhile."""
    number = os.open(folder, os.O_RDONLY)
    try:
        try:
            fcntl.flock(number, fcntl.LOCK_EX | fcntl.LOCK_NB)
        except BlockingIOError:
            raise ArchiveError(f"{folder} is being written by another run") from None
        except OSError:
            pass  # Some network file systems have no such locks.
        yield
    finally:
        os.close(number)


def read_part(path: str, length: int, sha256: str) -> bytes:
    """Reads a file of an archive; raises ArchiveError where it isn't the one that the index names."""
    try:
        with open(path, "rb") as file:
            data = file.read(length + 1)
    except FileNotFoundError:
        raise ArchiveError(f"{path} is missing") from None
    if len(data) != length:
        raise ArchiveError(f"{path} is damaged: it has {'more than ' if len(data) > length else ''}{min(len(data), length)} bytes, and the index says {length}")
    if digest(data) != sha256:
        raise ArchiveError(f"{path} is damaged: its SHA-256 isn't the one of the index")
    return data
