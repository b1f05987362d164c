"""Signals that stop a command: they are noted, and obeyed where nothing is half done."""

from __future__ import annotations

import signal
from typing import List

SIGNALS = (signal.SIGINT, signal.SIGTERM)
noted: List[int] = []
"""The numbers of the signals that came."""


class Stopped(BaseException):
    """A signal came; `number` is its number."""

    def __init__(self, number: int) -> None:
        super().__init__(number)
        self.number = number


def watch() -> None:
    """Has the signals noted from now on, instead of interrupting whatever is under way; a second one ends the program at once."""
    for number in SIGNALS:
        if signal.getsignal(number) is not signal.SIG_IGN:
            signal.signal(number, note)


def note(number: int, _) -> None:
    noted.append(number)
    signal.signal(number, signal.SIG_DFL)


def check() -> None:
    """Raises Stopped where a signal came."""
    if noted:
        raise Stopped(noted[0])
