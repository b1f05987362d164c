"""The C library `libccsds123`, loaded by ctypes: its structs, and its calls, which raise Fault where they are refused.

`CCSDS123_LIBRARY` names the library; without it, it is looked for in this package's folder, where the repository builds it, below Python's and the
user's own prefix (`~/.local`), and where the system keeps its libraries. `ccsds123.h` documents each call.
"""

from __future__ import annotations

import ctypes
import ctypes.util
import functools
import os
import site
import sys
from ctypes import POINTER, byref, c_char_p, c_int32, c_int64, c_size_t, c_uint32, c_uint64, c_void_p
from typing import Iterator

from .fault import Fault

FILE = {"darwin": "libccsds123.dylib", "win32": "ccsds123.dll"}.get(sys.platform, "libccsds123.so")
TEXT_ROOM = 96


class CParams(ctypes.Structure):
    """`ccsds123_params`."""

    _fields_ = [
        (name, c_int32 if name in ("vmin", "vmax") else c_uint32)
        for name in (
            "size columns rows bands bits is_signed order depth user word previous reduced column_sums register_bits omega interval_log vmin vmax "
            "weight_table weight_bits coder umax gamma_star gamma_zero k accumulator_table block reference restricted"
        ).split()
    ]


class CLayout(ctypes.Structure):
    """`ccsds123_layout`."""

    _fields_ = [("interleave", c_uint32), ("bytes", c_uint32), ("little", c_uint32)]


class CFault(ctypes.Structure):
    """`ccsds123_fault`."""

    _fields_ = [("number", c_uint32), ("name", c_uint32), ("first", c_int64), ("second", c_int64)]


class CEncoder(ctypes.Structure):
    """`ccsds123_encoder`; one that is made here is none."""

    _fields_ = [("state", c_void_p), ("is_open", c_uint32)]


TABLES = [c_void_p, c_size_t, c_void_p, c_size_t]
"""The arguments of the tables of weights and of accumulators, each a pointer and a number of entries."""
CALLS = {
    "params_check": [POINTER(CParams), *TABLES],
    "bound": [POINTER(CParams), POINTER(c_uint64)],
    "raw_length": [POINTER(CParams), POINTER(CLayout), POINTER(c_uint64)],
    "encode": [POINTER(CParams), *TABLES, POINTER(CLayout), c_void_p, c_size_t, c_void_p, c_size_t, POINTER(c_uint64)],
    "encoder_begin": [POINTER(CEncoder), POINTER(CParams), *TABLES, POINTER(CLayout)],
    "encoder_rows": [POINTER(CEncoder), c_void_p, c_size_t],
    "encoder_end": [POINTER(CEncoder), c_void_p, c_size_t, POINTER(c_uint64)],
    "read_header": [
        c_void_p, c_size_t, POINTER(CParams), c_void_p, c_size_t, POINTER(c_uint64), c_void_p, c_size_t, POINTER(c_uint64), POINTER(c_uint64),
    ],
    "decode": [c_void_p, c_size_t, POINTER(CLayout), c_void_p, c_size_t, POINTER(c_uint64)],
}
"""The calls that can be refused, each with its arguments but for the last, the fault."""


def places() -> Iterator[str]:
    """Yields the names under which the library is looked for."""
    here = os.path.dirname(os.path.abspath(__file__))
    top = os.path.dirname(os.path.dirname(os.path.dirname(here)))
    prefixes = [os.path.join(it, "lib") for it in (sys.prefix, site.getuserbase())]
    for folder in (here, os.path.join(top, "build", "lib"), *prefixes):
        if os.path.isfile(os.path.join(folder, FILE)):
            yield os.path.join(folder, FILE)
    yield FILE
    found = ctypes.util.find_library("ccsds123")
    if found:
        yield found


@functools.lru_cache(maxsize=None)
def library() -> ctypes.CDLL:
    """Returns the loaded library."""
    named = os.environ.get("CCSDS123_LIBRARY")
    found = None
    for place in [named] if named else places():
        try:
            found = ctypes.CDLL(place)
            break
        except OSError as error:
            why = error
    if found is None:
        raise ImportError(f"the library {named or FILE} can't be loaded ({why}): build it with make lib, or let CCSDS123_LIBRARY name it")
    for name, arguments in CALLS.items():
        call = getattr(found, f"ccsds123_{name}")
        call.argtypes, call.restype = [*arguments, POINTER(CFault)], c_int32
    found.ccsds123_params_init.argtypes, found.ccsds123_params_init.restype = [POINTER(CParams)], None
    found.ccsds123_fault_text.argtypes, found.ccsds123_fault_text.restype = [POINTER(CFault), c_char_p, c_size_t], c_size_t
    found.ccsds123_encoder_free.argtypes, found.ccsds123_encoder_free.restype = [POINTER(CEncoder)], None
    found.ccsds123_version.argtypes, found.ccsds123_version.restype = [], c_uint32
    return found


def call(name: str, *arguments) -> None:
    """Makes a call of the library; raises Fault where it is refused. Other threads run meanwhile."""
    fault = CFault()
    if getattr(library(), f"ccsds123_{name}")(*arguments, byref(fault)):
        raise Fault(text_of(fault))


def text_of(fault: CFault) -> str:
    """Returns the line that the program prints of a fault."""
    text = ctypes.create_string_buffer(TEXT_ROOM)
    library().ccsds123_fault_text(byref(fault), text, TEXT_ROOM)
    return text.value.decode("ascii")


def version() -> str:
    """Returns the version of the library."""
    number = library().ccsds123_version()
    return f"{number // 10000}.{number // 100 % 100}.{number % 100}"
