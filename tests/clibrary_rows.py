"""Encoding row by row with the library for C: the files of `ccsds123_encode`, and what is refused."""

import dataclasses
import random

from clibrary import Encoder, Layout, layout_of
from parameter_sets import drawn

SIZES = {"columns": 4, "rows": 3, "bands": 2, "bits": 12}
INTERLEAVED = {**SIZES, "order": 1}, Layout(1, 2, 0), 16
"""Members, a layout, and the bytes of a row: of both bands."""
SEQUENTIAL = {**SIZES, "order": 0}, Layout(0, 2, 0), 8
"""The same of a scene whose rows are those of one band after another."""
RAW = bytes(i if i % 2 else i // 4 for i in range(48))
"""Samples of 12 bits, the high byte first."""
USAGE = (20, 0, 0, 0)
NONE = (None, 0)
"""No encoder: its address and its mark."""


def state_of(encoder):
    return encoder.state, encoder.is_open


def check_rows(room, library, seed, number, tables):
    """Codes a set in the order that each layout comes by rows in, its rows in pieces that the seed decides."""
    drawn_set, chance = drawn(seed, number, tables=tables), random.Random(f"rows {seed} {number}")
    for interleave, order in (("bsq", 0), ("bil", 1), ("bip", 1)):
        one = dataclasses.replace(drawn_set, members={**drawn_set.members, "order": order}, interleave=interleave)
        name = f"rows of {'tables' if tables else 'set'} {seed} {number}, {interleave}"
        params, layout, given = library.params_of(one), layout_of(*one.layout), (one.weights or [], bytes(one.accumulators or []))
        wanted = library.encoded(one)
        row = one.members["columns"] * one.sample_bytes * (one.members["bands"] if order else 1)
        fault, encoder = library.begin(params, layout, *given)
        room.expect(f"{name}: begun", (fault, encoder.is_open), (None, 1))
        raw = one.raw
        while raw:
            piece = row * chance.choice((0, 1, 1, 2, 5))
            room.expect(f"{name}: {piece} bytes", library.rows(encoder, raw[:piece]), None)
            raw = raw[piece:]
        room.expect(f"{name}: ended", library.end(encoder), wanted)
        room.expect(f"{name}: none after its end", state_of(encoder), NONE)


def begun(library, scene):
    members, layout, _ = scene
    return library.begin(library.usual(**members), layout)[1]


def check_beginnings(room, library):
    """Checks what isn't begun: wrong parameters, layouts, and orders and layouts of which only one interleaves bands."""
    params, layout, _ = library.usual(**INTERLEAVED[0]), *INTERLEAVED[1:]
    for members, wrong, fault in (
        ({"size": 0}, (0, 0, 0), (22, 0, 116, 0)),
        ({"order": 2}, (1, 2, 0), (23, 1, 2, 0)),
        ({"rows": 0}, (1, 2, 0), (3, 2, 0, 0)),
        ({"order": 0}, (3, 2, 0), (23, 3, 3, 0)),
        ({"order": 0}, (1, 0, 0), (23, 4, 0, 0)),
        ({"order": 0}, (0, 0, 0), (23, 4, 0, 0)),
        ({"order": 0}, (1, 2, 0), (23, 1, 0, 0)),
        ({"order": 0}, (2, 2, 0), (23, 1, 0, 0)),
        ({"order": 1}, (0, 2, 0), (23, 3, 0, 0)),
    ):
        found, encoder = library.begin(library.usual(**{**INTERLEAVED[0], **members}), Layout(*wrong))
        room.expect(f"{members} and layout {wrong}: begun", (found, state_of(encoder)), (fault, NONE))
    for weights, accumulators, fault in (([1], b"", (4, 6, 0, 0)), ([], b"\1", (4, 13, 0, 0))):
        found, encoder = library.begin(params, layout, weights, accumulators)
        room.expect(f"{len(weights)} weights, {len(accumulators)} accumulators: begun", (found, state_of(encoder)), (fault, NONE))


def check_row_refusals(room, library, scene):
    """Checks bytes that aren't rows, rows that are too many, too few or out of range, and rows and an end after a refusal."""
    members, layout, row = scene
    for name, pieces, had in (
        ("part of a row", [row - 1], row - 1),
        ("a row and a byte", [row + 1], row + 1),
        ("a row, then a part", [row, row // 2], row + row // 2),
        ("a row too many", [48 + row], 48 + row),
        ("one more row after all", [48, row], 48 + row),
    ):
        encoder = begun(library, scene)
        found = [library.rows(encoder, bytes(piece)) for piece in pieces]
        wanted = [None] * (len(pieces) - 1) + [(14, 0, 48, had)]
        room.expect(f"{name} of {row} bytes: taken", (found, state_of(encoder)), (wanted, NONE))
        room.expect(f"{name} of {row} bytes: rows after the refusal", library.rows(encoder, bytes(row)), USAGE)
        room.expect(f"{name} of {row} bytes: end after the refusal", library.end(encoder, 99), (USAGE, b""))
    for at in (0, 3, 4, 7, 8, 11, 12, 23):
        bad = bytes(2 * at) + b"\x10\0" + bytes(48 - 2 * at - 2)
        encoder = begun(library, scene)
        found = library.rows(encoder, bad[:row]) or library.rows(encoder, bad[row:])
        name = f"sample {at} of 13 bits, in rows of {row} bytes"
        room.expect(name, (found, state_of(encoder)), ((13, 0, at, 0), NONE))
        room.expect(f"{name}: encoded at once", library.encode(library.usual(**members), layout, bad), ((13, 0, at, 0), b""))
    for had in range(0, 48, row):
        encoder = begun(library, scene)
        room.expect(f"{had} bytes in rows of {row}: taken", library.rows(encoder, bytes(had)), None)
        room.expect(f"{had} bytes in rows of {row}: ended", (library.end(encoder), state_of(encoder)), (((14, 0, 48, had), b""), NONE))


def check_no_encoder(room, library):
    """Checks the calls where there is no encoder."""
    none = Encoder()
    room.expect("rows of no encoder", library.rows(none, bytes(16)), USAGE)
    room.expect("end of no encoder", library.end(none, 99), (USAGE, b""))
    library.free(none)
    room.expect("no encoder after it was freed", state_of(none), NONE)


def check_ends(room, library, scene):
    """Checks ends in rooms that are too small, after which the encoder stays, and encoders that are freed or begun again."""
    members, layout, row = scene
    params = library.usual(**members)
    file = library.encode(params, layout, RAW)[1]
    encoder = begun(library, scene)
    room.expect(f"all rows of {row} bytes at once", library.rows(encoder, RAW), None)
    for had in (0, 1, len(file) - 1):
        room.expect(f"rows of {row} ended in a room of {had}", (library.end(encoder, had), encoder.is_open), (((21, 1, len(file), had), b""), 1))
    room.expect(f"no rows of {row} after a room too small", library.rows(encoder, b""), None)
    room.expect(f"rows of {row} ended in a larger room", (library.end(encoder, 99), state_of(encoder)), ((None, file), NONE))
    room.expect(f"rows of {row} ended twice", library.end(encoder, 99), (USAGE, b""))
    room.expect(f"rows of {row} after the end", library.rows(encoder, RAW), USAGE)
    encoder = begun(library, scene)
    library.rows(encoder, RAW[:row])
    library.free(encoder)
    room.expect(f"rows of {row} freed", state_of(encoder), NONE)
    encoder = begun(library, scene)
    library.rows(encoder, RAW[row:])
    again = library.answer("ccsds123_encoder_begin", encoder, params, None, 0, None, 0, layout)
    room.expect(f"rows of {row} begun again", (again, library.rows(encoder, RAW), library.end(encoder)), (None, None, (None, file)))
    encoder = begun(library, scene)
    library.rows(encoder, RAW)
    found = library.end(encoder, 0)[0][0], library.rows(encoder, bytes(row)), state_of(encoder)
    room.expect(f"a row of {row} after a room too small", found, (21, (14, 0, 48, 48 + row), NONE))


def check_row_calls(room, library):
    check_beginnings(room, library)
    for scene in (INTERLEAVED, SEQUENTIAL):
        check_row_refusals(room, library, scene)
        check_ends(room, library, scene)
    check_no_encoder(room, library)
