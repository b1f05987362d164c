#!/usr/bin/env python3
"""Compares the library for C with the program and with the model of tests/model, through `ctypes`.

    tests/library.py [SEED [COUNT [LIBRARY [PROGRAM]]]]

SEED alone determines COUNT sets of parameters, layouts and samples. Without tables the file has to be the program's, byte for byte, and the
library has to read it back; with tables, which no command line can give, the model and the program have to read the file. Rows that are handed over in
pieces, in each layout, have to give the same file. Then come the refusals: what C may give that is wrong, and damaged files, whose faults are the
model's. SEED defaults to 1 and COUNT to 100.
"""

import sys
import tempfile

sys.dont_write_bytecode = True
import fuzz
from clibrary import INTERLEAVES, LIBRARY, Layout, Library, layout_of
from clibrary_refusals import check_refusals
from clibrary_rows import check_row_calls, check_rows
from harness import PROGRAM, Room
from model.coders import residuals
from model.header import header as model_header
from model.predictor import raw_bytes as model_raw_bytes
from parameter_sets import drawn, weight_counts, words_of_layout

DAMAGED = 2000
"""How many damaged files are decoded."""
BIG = Layout(0, 2, 0)


# ---- the same bytes as the program


def check_set(room, library, seed, number):
    """Codes a set by the library and by the program, and reads it back by the library, in its layout and another."""
    one, name = drawn(seed, number, tables=False), f"set {seed} {number}"
    layout = layout_of(*one.layout)
    room.expect(f"{name}: raw length", library.raw_length(library.params_of(one), layout), (None, len(one.raw)))
    fault, file = library.encoded(one)
    room.write("raw", one.raw)
    room.expect(f"{name}: compressed", room.run("compress", *one.words(), "raw", "file"), (0, b"", ""))
    room.expect(f"{name}: encoded", (fault, file), (None, room.read("file")))
    room.expect(f"{name}: decoded", library.decode(file, layout, len(one.raw)), (None, one.raw))
    other = INTERLEAVES[number % 3], 2, number % 2 == 0
    room.expect(f"{name}: expanded", room.run("expand", *words_of_layout(*other), "file", "back"), (0, b"", ""))
    room.expect(f"{name}: decoded to {other}", library.decode(file, layout_of(*other), 2 * len(one.raw)), (None, room.read("back")))
    check_header(room, library, name, file, one)


def check_header(room, library, name, file, one):
    """Checks that the header is told as it was asked for, with zeros for what isn't used."""
    fault, params, weights, accumulators, length = library.header(file)
    wanted = library.params_of(one).values()
    for unused in unused_members(one):
        wanted[unused] = 0
    room.expect(f"{name}: header", (fault, params.values()), (None, wanted))
    room.expect(f"{name}: tables of the header", (weights, list(accumulators)), (one.weights or [], one.accumulators or []))
    room.expect(f"{name}: length of the header", length, model_header(file).length)


def unused_members(one):
    found = ["depth"] if not one.members["order"] else []
    if one.members["coder"]:
        return found + ["umax", "gamma_star", "gamma_zero", "k"]
    return found + ["block", "reference", "restricted"] + (["k"] if one.accumulators is not None else [])


def check_tables(room, library, seed, number):
    """Codes a set with tables by the library, and reads it back by the model and by the program."""
    one, name = drawn(seed, number, tables=True), f"tables {seed} {number}"
    fault, file = library.encoded(one)
    room.expect(f"{name}: encoded", fault, None)
    if fault:
        return
    read, numbers = residuals(file)
    room.expect(f"{name}: read by the model", model_raw_bytes(read, numbers), one.raw_in("bsq", 2, False))
    weights = read.weights if one.weights is None else [it for band in read.weights or [] for it in band]
    room.expect(f"{name}: the model's tables", (weights, read.constants), (one.weights, one.accumulators))
    counts = None if one.weights is None else weight_counts(one.members)
    room.expect(f"{name}: weights of each band", read.weights and list(map(len, read.weights)), counts)
    room.write("file", file)
    room.expect(f"{name}: expanded", room.run("expand", *one.layout_words(), "file", "back"), (0, b"", ""))
    room.expect(f"{name}: expanded to its bytes", room.read("back"), one.raw)
    room.expect(f"{name}: decoded", library.decode(file, layout_of(*one.layout), len(one.raw)), (None, one.raw))
    check_header(room, library, name, file, one)


# ---- damaged files


def check_damaged(room, library, files, number):
    """Decodes a damaged file, whose fault or raw bytes are the model's."""
    file = fuzz.damaged_file(files, number)
    status, line, raw = fuzz.due_of_expand(file)
    wanted = 2 * 20_000 if raw is None else len(raw)
    fault, found = library.decode(file, BIG, wanted)
    if status == 0 and raw is None:
        room.expect(f"damaged {number}", fault is None or fault[0] == 21, True)
        return
    told = f"ccsds: {library.text(fault)[0]}\n" if fault else ""
    room.expect(f"damaged {number}: {file.hex()}", (told, found), (line, raw))


def main():
    seed, count = (int(word) for word in (sys.argv[1:3] + ["1", "100"][len(sys.argv[1:3]) :]))
    path, program = (sys.argv[3:5] + [LIBRARY, PROGRAM][len(sys.argv[3:5]) :])[:2]
    library = Library(path)
    with tempfile.TemporaryDirectory() as folder:
        room = Room(folder, program)
        check_refusals(room, library)
        check_row_calls(room, library)
        for i in range(count):
            check_set(room, library, seed, i)
            check_tables(room, library, seed, i)
            check_rows(room, library, seed, i, tables=i % 2 == 1)
        files = fuzz.worked_files()
        for number in range(DAMAGED * count // 100):
            check_damaged(room, library, files, (seed << 32) + number)
    print(f"library.py: seed {seed}, {count} sets, {room.passed} passed, {room.failed} failed")
    return 1 if room.failed else 0


if __name__ == "__main__":
    sys.exit(main())
