"""A progress bar on standard error."""

from __future__ import annotations

import sys
import threading
import time

WIDTH = 30


class Progress:
    """Counts the bytes that are done; draws a bar where it is shown."""

    def __init__(self, name: str, total: int, shown: bool) -> None:
        self.name, self.total, self.shown = name, max(1, total), shown
        self.done, self.start, self.lock = 0, time.monotonic(), threading.Lock()

    def __enter__(self) -> Progress:
        return self

    def __exit__(self, *_) -> None:
        if self.shown and self.done:
            print(file=sys.stderr)

    def step(self, count: int) -> None:
        """Says that so many bytes more are done."""
        with self.lock:
            self.done += count
            if self.shown:
                print(f"\r{self.line()}", end="", file=sys.stderr, flush=True)

    def line(self) -> str:
        seconds = max(1e-3, time.monotonic() - self.start)
        full = WIDTH * self.done // self.total
        left = seconds * (self.total - self.done) / max(1, self.done)
        speed = self.done / seconds / 1e6
        return f"{self.name} [{'#' * full}{'.' * (WIDTH - full)}] {100 * self.done // self.total:3} %, {speed:6.1f} MB/s, {left:4.0f} s left "


def is_watched() -> bool:
    """Returns whether somebody looks at standard error."""
    return sys.stderr is not None and sys.stderr.isatty()
