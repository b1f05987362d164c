"""The parameters of a coded image, as its header records them."""

from __future__ import annotations

from dataclasses import dataclass
from typing import Optional, Tuple

ORDERS = ("bsq", "bi")
CODERS = ("sample", "block")
INTERLEAVES = ("bsq", "bil", "bip")


@dataclass(frozen=True)
class WeightTable:
    """Custom initial weights: signed numbers of `bits` bits each, band after band.

    In full mode a band has three, of the north, the west and the north-west difference; then, in either mode, one for each band before it, the
    nearest first, up to `previous` of them. `Params.weight_count` is how many there are in all.
    """

    bits: int
    values: Tuple[int, ...]


@dataclass(frozen=True)
class Params:
    """How an image is predicted and coded; the defaults are those of the command `ccsds compress`.

    `order` is `"bsq"` or `"bi"`, `coder` is `"sample"` or `"block"`; what the other coder uses is ignored. docs/COMMAND.md has meaning and range of
    each under the option of its name, as `--column-sums` of `column_sums`. `vmin` and `vmax` are the exponents themselves, -6 to 9.
    """

    columns: int
    rows: int
    bands: int
    bits: int
    """The bits that the samples use: 2 to 16."""
    signed: bool = False
    order: str = "bsq"
    depth: int = 1
    """The bands that are interleaved together, with the order `"bi"`."""
    user: int = 0
    word: int = 1
    previous: int = 3
    """How many bands before it a band is predicted from."""
    reduced: bool = False
    column_sums: bool = False
    register: int = 64
    omega: int = 13
    interval_log: int = 6
    vmin: int = -1
    vmax: int = 3
    weights: Optional[WeightTable] = None
    coder: str = "sample"
    umax: int = 16
    gamma_star: int = 6
    gamma_zero: int = 1
    k: int = 3
    accumulators: Optional[Tuple[int, ...]] = None
    """An accumulator initialization constant for each band, in place of `k`."""
    block: int = 8
    reference: int = 64
    restricted: bool = False

    @property
    def count(self) -> int:
        """The number of samples."""
        return self.columns * self.rows * self.bands

    def shape(self, interleave: str = "bsq") -> Tuple[int, int, int]:
        """Returns the three sizes in the order in which samples of this interleave are stored, the slowest first."""
        return shape_of(self.columns, self.rows, self.bands, interleave)

    @property
    def weight_count(self) -> int:
        """The number of weights of all bands, which is the length of a weight table."""
        directional = 0 if self.reduced else 3
        return sum(directional + min(band, self.previous) for band in range(self.bands))


def shape_of(columns: int, rows: int, bands: int, interleave: str) -> Tuple[int, int, int]:
    shapes = {"bsq": (bands, rows, columns), "bil": (rows, bands, columns), "bip": (rows, columns, bands)}
    return shapes[known("interleave", interleave, INTERLEAVES)]


def sizes_of(shape: Tuple[int, int, int], interleave: str) -> Tuple[int, int, int]:
    """Returns columns, rows and bands of an array of this shape."""
    first, second, third = shape
    found = {"bsq": (third, second, first), "bil": (third, first, second), "bip": (second, first, third)}
    return found[known("interleave", interleave, INTERLEAVES)]


def known(name: str, word: str, words: Tuple[str, ...]) -> str:
    """Returns the word where it is one of these."""
    if word not in words:
        raise ValueError(f"{name} is one of {', '.join(words)}, not {word!r}")
    return word
