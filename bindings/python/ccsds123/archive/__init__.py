"""Archives: a scene in pieces along the track, each a file of its own, with their checksums in an index."""

from .compress import compress
from .expand import expand
from .index import ArchiveError, Index, Piece, read_index
from .verify import verify
from .window import window

__all__ = ["ArchiveError", "Index", "Piece", "compress", "expand", "read_index", "verify", "window"]
