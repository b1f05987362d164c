"""Sets of parameters and samples that a seed decides, for whatever codes by library: orders, coders, tables, restricted sets and raw layouts."""

import dataclasses
import functools
import random

from harness import raw_bytes, samples_of

COLUMNS = (1, 2, 9, 17, 63, 64, 65)
MOST = 1500
"""The most samples of a set: tests/model, which is slow, reads those with tables."""


@dataclasses.dataclass
class ParameterSet:
    """Parameters by the names of the members of `ccsds123_params`, a raw layout, and raw bytes; a table that isn't used is none."""

    members: dict
    weights: list
    accumulators: list
    interleave: str
    sample_bytes: int
    little: bool
    samples: list
    """In band sequential order."""

    @property
    def has_tables(self):
        return self.weights is not None or self.accumulators is not None

    @property
    def layout(self):
        return self.interleave, self.sample_bytes, self.little

    @functools.cached_property
    def raw(self):
        return self.raw_in(*self.layout)

    def raw_in(self, interleave, sample_bytes, little):
        """Returns the raw bytes in a layout."""
        shape = tuple(self.members[name] for name in ("columns", "rows", "bands"))
        return raw_bytes(self.samples, shape, interleave, sample_bytes, little, bool(self.members["is_signed"]))

    def layout_words(self):
        """Returns the options of the raw layout."""
        return words_of_layout(*self.layout)

    def words(self):
        """Returns all options of `compress`; no option holds a table."""
        names = {"register_bits": "register"}
        found = self.layout_words()
        for name, value in self.members.items():
            option = "--" + names.get(name, name).replace("_", "-")
            if name in ("vmin", "vmax"):
                found += [f"{option}-code", value + 6]
            elif name in ("is_signed", "reduced", "column_sums", "restricted"):
                found += ["--signed" if name == "is_signed" else option] * value
            elif name in ("order", "coder"):
                found += [option, {"order": ("bsq", "bi"), "coder": ("sample", "block")}[name][value]]
            elif name not in ("weight_bits",):
                found += [option, value]
        return list(map(str, found))


def words_of_layout(interleave, sample_bytes, little):
    return ["--layout", interleave, "--bytes", sample_bytes, *(["--little"] if little else [])]


def image_of(chance):
    columns, rows, bands = chance.choice(COLUMNS), chance.choice((1, 2, 5)), chance.choice((1, 2, 5, 17))
    while columns * rows * bands > MOST:
        columns, rows = -(-columns // 2), -(-rows // 2)
    sizes = {"columns": columns, "rows": rows, "bands": bands, "bits": chance.choice((*range(2, 17), 2, 3, 4)), "is_signed": chance.randint(0, 1)}
    return {**sizes, "order": chance.randint(0, 1), "depth": chance.choice((1, bands, chance.randint(1, bands)))}


def predictor_of(chance, columns, bits):
    """Returns the predictor's members. One column needs reduced mode and column-oriented sums."""
    omega = chance.randint(4, 19)
    least = max(32, bits + omega + 2)
    vmin, vmax = sorted(chance.randint(-6, 9) for _ in range(2))
    reduced, column_sums = (1 if columns == 1 else chance.randint(0, 1) for _ in range(2))
    named = {"previous": chance.randint(0, 15), "reduced": reduced, "column_sums": column_sums, "register_bits": chance.choice((least, 64))}
    return {**named, "omega": omega, "interval_log": chance.randint(4, 11), "vmin": vmin, "vmax": vmax}


def coder_of(chance, bits):
    zero = chance.randint(1, 8)
    sample = {"umax": chance.randint(8, 32), "gamma_star": chance.randint(max(4, zero + 1), 9), "gamma_zero": zero, "k": chance.randint(0, min(14, bits - 2))}
    block = {"block": chance.choice((8, 16, 32, 64)), "reference": chance.choice((1, 2, 64, 4096)), "restricted": int(bits <= 4 and chance.random() < 0.7)}
    return {"coder": chance.randint(0, 1), **sample, **block}


def weight_counts(members):
    """Returns the number of weights of each band."""
    return [min(band, members["previous"]) + (0 if members["reduced"] else 3) for band in range(members["bands"])]


def weights_of(chance, members):
    """Returns the resolution of a weight table, and its entries."""
    bits = chance.randint(3, members["omega"] + 3)
    return bits, [chance.randrange(-(1 << bits - 1), 1 << bits - 1) for _ in range(sum(weight_counts(members)))]


def drawn(seed, number, tables=None):
    """Returns the set of a number, with tables or without; unless that is said, one in four has them."""
    chance = random.Random(f"{seed} {number}")
    members = image_of(chance)
    bits, signed = members["bits"], bool(members["is_signed"])
    members.update(user=chance.randrange(256), word=chance.randint(1, 8), **predictor_of(chance, members["columns"], bits), **coder_of(chance, bits))
    weights = accumulators = None
    if number % 4 == 3 if tables is None else tables:
        if members["coder"] == 0 and chance.random() < 0.7:
            accumulators = [chance.randint(0, min(14, bits - 2)) for _ in range(members["bands"])]
        if accumulators is None or chance.random() < 0.7:
            members["weight_bits"], weights = weights_of(chance, members)
    low = -(1 << bits - 1) if signed else 0
    samples = samples_of(chance, members["columns"] * members["rows"] * members["bands"], low, low + (1 << bits) - 1)
    layout = chance.choice(("bsq", "bil", "bip")), chance.choice((1, 2) if bits <= 8 else (2,)), chance.random() < 0.5
    return ParameterSet(members, weights, accumulators, *layout, samples)
