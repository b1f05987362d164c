"""Errors as sentences, and as exit statuses, which are those of the program `ccsds`."""

from __future__ import annotations

from ..envi import EnviError
from ..fault import Fault
from .index import ArchiveError

DONE, USAGE, REFUSED, MEMORY, DEVICE = 0, 1, 2, 3, 4
BY_SIGNAL = 128
"""What is added to the number of the signal that stopped a command."""
BY_NUMBER = {12: MEMORY, 16: MEMORY, 18: DEVICE, 19: DEVICE, 20: USAGE}
ERRORS = (ArchiveError, EnviError, Fault, MemoryError, OSError, ImportError, ValueError)
"""What a command answers with a sentence."""


def status_of(error: BaseException) -> int:
    if isinstance(error, Fault):
        return BY_NUMBER.get(error.number, REFUSED)
    if isinstance(error, MemoryError):
        return MEMORY
    return DEVICE if isinstance(error, (OSError, ImportError)) else REFUSED


def sentence(error: BaseException) -> str:
    """Returns what is wrong in one line, with the name of the file."""
    if isinstance(error, OSError) and error.filename is not None:
        return f"{error.filename}: {error.strerror}"
    if isinstance(error, MemoryError):
        return str(error) or "there isn't enough memory"
    return " ".join(str(error).split())
