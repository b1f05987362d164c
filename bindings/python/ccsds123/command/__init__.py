"""The command `python3 -m ccsds123`: its words, and what it prints."""

from __future__ import annotations

import sys
from typing import List, Optional

from ..archive import stopping
from ..archive.status import BY_SIGNAL, DEVICE, ERRORS, sentence, status_of
from .run import COMMANDS
from .words import parsed


def main(words: Optional[List[str]] = None) -> int:
    """Runs a command, and returns its exit status; what is wrong is one sentence on standard error."""
    given = parsed(words)
    stopping.watch()
    try:
        status = COMMANDS[given.command](given)
        sys.stdout.flush()
        return status
    except BrokenPipeError:
        sys.stderr.write("ccsds123: standard output was closed\n")
        sys.stdout = None
        return DEVICE
    except ERRORS as error:
        print(f"ccsds123: {sentence(error)}", file=sys.stderr)
        return status_of(error)
    except stopping.Stopped as stopped:
        print("ccsds123: stopped; no archive and no scene was changed", file=sys.stderr)
        return BY_SIGNAL + stopped.number
