"""A decoded image."""

from __future__ import annotations

import mmap
import sys
from dataclasses import dataclass

from .params import Params


@dataclass(frozen=True)
class Cube:
    """A decoded image: its parameters, and its samples in memory."""

    params: Params
    interleave: str
    data: mmap.mmap
    """The raw bytes of the samples: a buffer; `data[:]` copies them into `bytes`."""
    sample_bytes: int
    byteorder: str

    @property
    def samples(self) -> memoryview:
        """The samples as an array of three dimensions, `samples[band, row, column]` with `"bsq"`; in the machine's byte order alone."""
        if self.sample_bytes == 2 and self.byteorder != sys.byteorder:
            raise ValueError(f"the bytes were decoded in {self.byteorder} byte order, which isn't this machine's")
        letter = {1: "b" if self.params.signed else "B", 2: "h" if self.params.signed else "H"}[self.sample_bytes]
        return memoryview(self.data).cast(letter, shape=self.params.shape(self.interleave))
