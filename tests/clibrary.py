"""The library for C as the tests call it, by `ctypes`."""

import ctypes
import os
from ctypes import POINTER, byref, c_int32, c_int64, c_size_t, c_uint8, c_uint32, c_uint64

from harness import TOP

LIBRARY = os.path.join(TOP, "build", "lib", "libccsds123.so")
HEADER = os.path.join(TOP, "include", "ccsds123.h")
SIGNED = ("vmin", "vmax")
MEMBERS = """size columns rows bands bits is_signed order depth user word previous reduced column_sums register_bits omega interval_log
vmin vmax weight_table weight_bits coder umax gamma_star gamma_zero k accumulator_table block reference restricted""".split()
INTERLEAVES = ("bsq", "bil", "bip")


class Params(ctypes.Structure):
    _fields_ = [(name, c_int32 if name in SIGNED else c_uint32) for name in MEMBERS]

    def values(self):
        """Returns the members by their names."""
        return {name: getattr(self, name) for name in MEMBERS}


class Layout(ctypes.Structure):
    _fields_ = [(name, c_uint32) for name in ("interleave", "bytes", "little")]


class Fault(ctypes.Structure):
    _fields_ = [("number", c_uint32), ("name", c_uint32), ("first", c_int64), ("second", c_int64)]

    def told(self):
        return self.number, self.name, self.first, self.second


class Encoder(ctypes.Structure):
    _fields_ = [("state", ctypes.c_void_p), ("is_open", c_uint32)]


BYTES = POINTER(c_uint8)
WEIGHTS = POINTER(c_int32)
ARGUMENTS = {
    "ccsds123_params_check": [POINTER(Params), WEIGHTS, c_size_t, BYTES, c_size_t, POINTER(Fault)],
    "ccsds123_bound": [POINTER(Params), POINTER(c_uint64), POINTER(Fault)],
    "ccsds123_raw_length": [POINTER(Params), POINTER(Layout), POINTER(c_uint64), POINTER(Fault)],
    "ccsds123_encode": [POINTER(Params), WEIGHTS, c_size_t, BYTES, c_size_t, POINTER(Layout), BYTES, c_size_t, BYTES, c_size_t]
    + [POINTER(c_uint64), POINTER(Fault)],
    "ccsds123_read_header": [BYTES, c_size_t, POINTER(Params), WEIGHTS, c_size_t, POINTER(c_uint64), BYTES, c_size_t, POINTER(c_uint64)]
    + [POINTER(c_uint64), POINTER(Fault)],
    "ccsds123_encoder_begin": [POINTER(Encoder), POINTER(Params), WEIGHTS, c_size_t, BYTES, c_size_t, POINTER(Layout), POINTER(Fault)],
    "ccsds123_encoder_rows": [POINTER(Encoder), BYTES, c_size_t, POINTER(Fault)],
    "ccsds123_encoder_end": [POINTER(Encoder), BYTES, c_size_t, POINTER(c_uint64), POINTER(Fault)],
    "ccsds123_decode": [BYTES, c_size_t, POINTER(Layout), BYTES, c_size_t, POINTER(c_uint64), POINTER(Fault)],
}


def bytes_of(data):
    """Returns an array of bytes, or null for none."""
    return (c_uint8 * len(data)).from_buffer_copy(data) if len(data) else None


def layout_of(interleave, sample_bytes, little):
    return Layout(INTERLEAVES.index(interleave), sample_bytes, little)


def weights_of(numbers):
    return (c_int32 * len(numbers))(*numbers) if numbers else None


class Library:
    """The calls of the library. Each returns what it stored, or the fault as its number, name and two values."""

    def __init__(self, path=LIBRARY):
        self.calls = ctypes.CDLL(path)
        for name, arguments in ARGUMENTS.items():
            getattr(self.calls, name).argtypes = arguments
            getattr(self.calls, name).restype = c_int32
        self.calls.ccsds123_fault_text.argtypes = [POINTER(Fault), ctypes.c_char_p, c_size_t]
        self.calls.ccsds123_fault_text.restype = c_size_t
        self.calls.ccsds123_version.restype = c_uint32
        self.calls.ccsds123_encoder_free.argtypes = [POINTER(Encoder)]
        self.calls.ccsds123_encoder_free.restype = None
        self.calls.ccsds123_params_init.argtypes = [POINTER(Params)]
        self.calls.ccsds123_params_init.restype = None

    def usual(self, **members):
        """Returns the usual parameters with some members changed."""
        params = Params()
        self.calls.ccsds123_params_init(byref(params))
        for name, value in members.items():
            setattr(params, name, value)
        return params

    def params_of(self, one):
        """Returns the parameters of a set (`parameter_sets`)."""
        flags = {"weight_table": int(one.weights is not None), "accumulator_table": int(one.accumulators is not None)}
        return self.usual(**one.members, **flags)

    def encoded(self, one):
        """Codes a set with its tables, and returns the fault and the file."""
        return self.encode(self.params_of(one), layout_of(*one.layout), one.raw, one.weights or [], bytes(one.accumulators or []))

    def answer(self, name, *arguments):
        """Makes a call, and returns its fault, or None. The number that it returns has to be that of the fault."""
        fault = Fault(number=99, name=99, first=99, second=99)
        number = getattr(self.calls, name)(*arguments, byref(fault))
        if number != fault.number:
            raise AssertionError(f"{name} returned {number}, and stored the fault {fault.told()}")
        return fault.told() if number else None

    def text(self, told, room=96):
        """Returns the text of a fault, and the length that the call returned."""
        text = ctypes.create_string_buffer(b"\xff" * room, room + 1)
        length = self.calls.ccsds123_fault_text(byref(Fault(*told)), text, room)
        return text.value.decode("ascii", "replace"), length

    def check(self, params, weights=(), accumulators=b""):
        tables = weights_of(weights), len(weights), bytes_of(accumulators), len(accumulators)
        return self.answer("ccsds123_params_check", byref(params), *tables)

    def bound(self, params):
        bytes_ = c_uint64(99)
        return self.answer("ccsds123_bound", byref(params), byref(bytes_)), bytes_.value

    def raw_length(self, params, layout):
        bytes_ = c_uint64(99)
        return self.answer("ccsds123_raw_length", byref(params), byref(layout), byref(bytes_)), bytes_.value

    def encode(self, params, layout, raw, weights=(), accumulators=b"", room=None):
        """Returns the fault, and the bytes of the room up to the length that was stored."""
        had = self.bound(params)[1] if room is None else room
        file, length = (c_uint8 * had)(), c_uint64(99)
        tables = weights_of(weights), len(weights), bytes_of(accumulators), len(accumulators)
        given = byref(layout), bytes_of(raw), len(raw), file if had else None, had, byref(length)
        return self.answer("ccsds123_encode", byref(params), *tables, *given), bytes(file)[: length.value]

    def begin(self, params, layout, weights=(), accumulators=b""):
        """Returns the fault, and an encoder."""
        encoder = Encoder()
        tables = weights_of(weights), len(weights), bytes_of(accumulators), len(accumulators)
        return self.answer("ccsds123_encoder_begin", byref(encoder), byref(params), *tables, byref(layout)), encoder

    def rows(self, encoder, raw):
        return self.answer("ccsds123_encoder_rows", byref(encoder), bytes_of(raw), len(raw))

    def end(self, encoder, room=None):
        """Returns the fault, and the bytes of the room up to the length that was stored; the room is as large as is wanted unless given."""
        if room is None:
            told, _ = self.end(encoder, 0)
            if told is None or told[:2] != (21, 1):
                return told, b""
            room = told[2]
        file, length = (c_uint8 * room)(), c_uint64(99)
        fault = self.answer("ccsds123_encoder_end", byref(encoder), file if room else None, room, byref(length))
        return fault, bytes(file)[: length.value]

    def free(self, encoder):
        self.calls.ccsds123_encoder_free(byref(encoder))

    def header(self, file, size=116, weight_room=2000, accumulator_room=200):
        """Returns the fault, the parameters, the weights, the accumulators and the header's length."""
        params, weights, accumulators = Params(size=size), (c_int32 * weight_room)(), (c_uint8 * accumulator_room)()
        counts = [c_uint64(99) for _ in range(3)]
        rooms = weights if weight_room else None, weight_room, byref(counts[0])
        rooms += accumulators if accumulator_room else None, accumulator_room, byref(counts[1])
        fault = self.answer("ccsds123_read_header", bytes_of(file), len(file), byref(params), *rooms, byref(counts[2]))
        return fault, params, list(weights)[: counts[0].value], bytes(accumulators)[: counts[1].value], counts[2].value

    def decode(self, file, layout, room):
        """Returns the fault, and the bytes of the room up to the length that was stored."""
        raw, length = (c_uint8 * room)(), c_uint64(99)
        fault = self.answer("ccsds123_decode", bytes_of(file), len(file), byref(layout), raw if room else None, room, byref(length))
        return fault, bytes(raw)[: length.value]
