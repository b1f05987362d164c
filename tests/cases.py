"""Files of test cases for tests/clibrary.c: parameter sets with the files that they have, and damaged files."""

import multiprocessing
import os
import struct

import fuzz
from clibrary import Library, layout_of
from parameter_sets import drawn

FILES = fuzz.worked_files()


def slice_of(data, width=1):
    return struct.pack("=I", len(data) // width) + data


def case_of(library, one, file):
    """Returns a set as tests/clibrary.c takes it."""
    weights = one.weights or []
    tables = slice_of(struct.pack(f"={len(weights)}i", *weights), 4) + slice_of(bytes(one.accumulators or []))
    return bytes(library.params_of(one)) + bytes(layout_of(*one.layout)) + tables + slice_of(one.raw) + slice_of(file)


def program_file(room, one, name):
    """Returns the file that the program makes of a set."""
    room.write("raw", one.raw)
    room.expect(f"{name}: compressed", room.run("compress", *one.words(), "raw", "file"), (0, b"", ""))
    return room.read("file")


def table_file(room, library, one, name):
    """Returns the file that the library makes of a set with tables, and that the program expands to the same raw bytes."""
    fault, file = library.encoded(one)
    room.write("file", file)
    room.expect(f"{name}: encoded and expanded", (fault, room.run("expand", *one.layout_words(), "file", "back")), (None, (0, b"", "")))
    room.expect(f"{name}: expanded to its bytes", room.read("back"), one.raw)
    return file


def write_sets(room, path, seed, count, library=None):
    """Writes so many sets, every fourth with tables."""
    library = library or Library()
    with open(path, "wb") as cases:
        for number in range(count):
            one, name = drawn(seed, number), f"set {number}"
            cases.write(case_of(library, one, table_file(room, library, one, name) if one.has_tables else program_file(room, one, name)))


def damaged_case(number):
    """Returns the damaged file of a number, and what is due for it: its line, or its raw bytes, or None for either."""
    file = fuzz.damaged_file(FILES, number)
    return file, due_of(file)


def due_of(file):
    status, line, raw = fuzz.due_of_expand(file)
    return "fault " + line[len("ccsds: ") : -1] if status else None if raw is None else "raw " + raw.hex()


def write_damaged(path, seed, count):
    """Writes so many damaged files, and returns what is due for each. The model is slow, so each processor takes a part."""
    numbers = range(seed << 32, (seed << 32) + count)
    with open(path, "wb") as cases, multiprocessing.get_context("fork").Pool(os.cpu_count()) as pool:
        return [write_case(cases, *found) for found in pool.imap(damaged_case, numbers, 64)]


def write_worked(path):
    """Writes the worked files, and returns what is due for each."""
    with open(path, "wb") as cases:
        return [write_case(cases, file, due_of(file)) for file in FILES]


def write_case(cases, file, due):
    cases.write(slice_of(file))
    return due
