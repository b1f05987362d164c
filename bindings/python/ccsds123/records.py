"""Parameters and layouts, as the C library takes and returns them."""

from __future__ import annotations

import ctypes
from dataclasses import fields, replace

from .library import CLayout, CParams
from .params import CODERS, INTERLEAVES, ORDERS, Params, WeightTable, known

UNUSED = {"sample": ("block", "reference", "restricted"), "block": ("umax", "gamma_star", "gamma_zero", "k")}
"""The parameters that a coder doesn't use, which a header doesn't hold."""
DEFAULTS = Params(0, 0, 0, 0)


def c_params(params: Params) -> CParams:
    """Returns the parameters as the library takes them."""
    flags = {"weight_table": params.weights is not None, "accumulator_table": params.accumulators is not None}
    words = {"order": ORDERS.index(known("order", params.order, ORDERS)), "coder": CODERS.index(known("coder", params.coder, CODERS))}
    named = {"size": ctypes.sizeof(CParams), "is_signed": params.signed, "register_bits": params.register}
    named.update(flags, weight_bits=params.weights.bits if params.weights else 0, **words)
    members = [name for name, _ in CParams._fields_]
    numbers = {name: named.get(name, getattr(params, name, 0)) for name in members}
    for name, value in numbers.items():
        if not -(1 << 31) <= int(value) < 1 << 32 or (value < 0 and name not in ("vmin", "vmax")):
            raise ValueError(f"{name}={value} is far out of its range")
    return CParams(**{name: int(value) for name, value in numbers.items()})


def c_tables(params: Params) -> tuple:
    """Returns the tables as the library takes them: each its entries and their number."""
    weights, accumulators = (params.weights.values if params.weights else ()), (params.accumulators or ())
    if not all(-(1 << 31) <= it < 1 << 31 for it in weights) or not all(0 <= it < 256 for it in accumulators):
        raise ValueError("an entry of a table is far out of its range")
    return (ctypes.c_int32 * len(weights))(*weights), len(weights), (ctypes.c_uint8 * len(accumulators))(*accumulators), len(accumulators)


def c_layout(interleave: str, sample_bytes: int, byteorder: str) -> CLayout:
    known("byteorder", byteorder, ("little", "big"))
    return CLayout(INTERLEAVES.index(known("interleave", interleave, INTERLEAVES)), sample_bytes, byteorder == "little")


def params_of(found: CParams, weights: list, accumulators: list) -> Params:
    """Returns the parameters that the library read."""
    numbers = {it.name: getattr(found, it.name) for it in fields(Params) if hasattr(found, it.name)}
    for name in ("reduced", "column_sums", "restricted"):
        numbers[name] = bool(numbers[name])
    numbers.update(signed=bool(found.is_signed), register=found.register_bits, order=ORDERS[found.order], coder=CODERS[found.coder])
    unused = [*UNUSED[numbers["coder"]], *(["depth"] if numbers["order"] == "bsq" else []), *(["k"] if found.accumulator_table else [])]
    params = replace(Params(**numbers), **{name: getattr(DEFAULTS, name) for name in unused})
    tables = {"weights": WeightTable(found.weight_bits, tuple(weights)) if found.weight_table else None}
    return replace(params, **tables, accumulators=tuple(accumulators) if found.accumulator_table else None)
