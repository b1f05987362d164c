"""Jobs in threads, a few at a time."""

from __future__ import annotations

import os
from concurrent.futures import FIRST_COMPLETED, ThreadPoolExecutor, wait
from itertools import islice
from typing import Callable, Iterable, Iterator, Optional, Tuple, TypeVar

from . import stopping

Item = TypeVar("Item")
Result = TypeVar("Result")

LOOK = 0.1
"""The seconds after which a signal is looked for, while jobs are under way."""


def usual_jobs() -> int:
    """Returns the number of processors that this process may use."""
    return len(os.sched_getaffinity(0)) if hasattr(os, "sched_getaffinity") else os.cpu_count() or 1


def each(work: Callable[[Item], Result], items: Iterable[Item], jobs: Optional[int] = None) -> Iterator[Tuple[Item, Result]]:
    """Yields each item with the result of its work, as they end. No more jobs than asked for are under way, so that memory stays bounded.

    The library's calls let other threads run. Where a job fails or a signal came, no further one begins, the others are awaited, and the error is raised.
    """
    count, left, named = jobs or usual_jobs(), iter(items), {}
    with ThreadPoolExecutor(count) as pool:
        while True:
            for item in islice(left, count - len(named)):
                named[pool.submit(work, item)] = item
            if not named:
                return
            done, _ = wait(named, timeout=LOOK, return_when=FIRST_COMPLETED)
            stopping.check()
            for job in done:
                yield named.pop(job), job.result()
