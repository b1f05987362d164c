"""Room for what the library writes."""

from __future__ import annotations

import mmap
import sys

NO_RESERVE = 0x4000 if sys.platform == "linux" else 0
"""The system's flag that asks for no memory in advance."""
ROOM = 21
"""The number of the refusal of a room that is too small."""


def room_of(length: int) -> mmap.mmap:
    """Returns room for so many bytes, whose pages take memory only once they are written: a file is far shorter than the longest possible, and a
    damaged header may ask for any size."""
    try:
        return mmap.mmap(-1, length, flags=mmap.MAP_PRIVATE | mmap.MAP_ANONYMOUS | NO_RESERVE)
    except (OSError, OverflowError):
        raise MemoryError(f"there is no memory for {length} bytes") from None
