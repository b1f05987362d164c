#!/usr/bin/env python3
"""Runs the tests of the Python package, and compares what it codes with the built program, on sets of parameters that a seed determines.

    tests/python_bindings.py [--numpy] [SEED [COUNT [PROGRAM]]]

The files have to be the program's, byte for byte, and to be read back by both. No option of the program holds a table, so files with tables are
read by the program and by the model alone. With --numpy samples are given as arrays of NumPy, too, and the script fails where NumPy isn't
installed. Eight threads code all sets again at once. SEED defaults to 1 and COUNT to 100. `CCSDS123_LIBRARY` names another library than the built one.
"""

import array
import os
import re
import sys
import tempfile
import unittest
from concurrent.futures import ThreadPoolExecutor

sys.dont_write_bytecode = True
from harness import PROGRAM, TOP, Room
from model.header import header as model_header
from parameter_sets import drawn

PACKAGE = os.path.join(TOP, "bindings", "python")
sys.path.insert(0, PACKAGE)

import ccsds123  # noqa: E402

THREADS = 8


def unit_tests(room):
    """Runs the package's own tests."""
    folder = os.path.join(PACKAGE, "tests")
    sys.path.insert(0, folder)
    with open(os.devnull, "w", encoding="utf-8") as silent:
        found = unittest.TextTestRunner(stream=silent).run(unittest.defaultTestLoader.discover(folder))
    for test, text in found.failures + found.errors:
        room.expect(str(test), text.strip().splitlines()[-1], "passed")
    room.passed += found.testsRun - len(found.failures) - len(found.errors) - len(found.skipped)


def check_versions(room):
    """Checks that the packages have the version of the repository, which stands in VERSION."""
    with open(os.path.join(TOP, "VERSION"), encoding="utf-8") as file:
        wanted = file.read().strip()
    for name in ("python/pyproject.toml", "rust/Cargo.toml"):
        with open(os.path.join(TOP, "bindings", name), encoding="utf-8") as file:
            room.expect(f"the version of {name}", re.search(r'^version = "(.*)"$', file.read(), re.M)[1], wanted)
    room.expect("the version of the library", ccsds123.version(), wanted)


def params_of(one):
    """Returns the parameters of a set, those that its coder and order don't use as they are by default."""
    members = dict(one.members)
    named = {"signed": bool(members.pop("is_signed")), "register": members.pop("register_bits")}
    named.update(order=("bsq", "bi")[members.pop("order")], coder=("sample", "block")[members.pop("coder")])
    unused = ("umax", "gamma_star", "gamma_zero", "k") if named["coder"] == "block" else ("block", "reference", "restricted")
    unused += (("depth",) if named["order"] == "bsq" else ()) + (("k",) if one.accumulators is not None else ())
    weight_bits = members.pop("weight_bits", 0)
    for name in ("reduced", "column_sums", "restricted"):
        members[name] = bool(members[name])
    weights = None if one.weights is None else ccsds123.WeightTable(weight_bits, tuple(one.weights))
    accumulators = None if one.accumulators is None else tuple(one.accumulators)
    return ccsds123.Params(**named, **{name: value for name, value in members.items() if name not in unused}, weights=weights, accumulators=accumulators)


def byteorder_of(one):
    return "little" if one.little else "big"


def coded(one):
    return ccsds123.encode(one.raw, params_of(one), interleave=one.interleave, byteorder=byteorder_of(one))


def check_set(room, one, name):
    """Compares the file of a set with the program's, or where it has tables with the model's reading of its header."""
    file, params = coded(one), params_of(one)
    room.write("raw", one.raw)
    room.write("ours", file)
    if one.has_tables:
        found = model_header(file)
        entries = [entry for band in found.weights or [] for entry in band]
        room.expect(f"{name}: tables, as the model reads them", (entries, found.constants), (one.weights or [], one.accumulators))
    else:
        room.expect(f"{name}: compressed", room.run("compress", *one.words(), "raw", "file"), (0, b"", ""))
        room.expect(f"{name}: the program's file", file == room.read("file"), True)
    room.expect(f"{name}: expanded", room.run("expand", *one.layout_words(), "ours", "back"), (0, b"", ""))
    room.expect(f"{name}: expanded to its bytes", room.read("back") == one.raw, True)
    cube = ccsds123.decode_cube(file, interleave=one.interleave, sample_bytes=one.sample_bytes, byteorder=byteorder_of(one))
    room.expect(f"{name}: decoded to its bytes", cube.data[:] == one.raw, True)
    room.expect(f"{name}: parameters", (cube.params, ccsds123.header(file[: 1 << 20])), (params, params))
    return file


def as_array(one):
    """Returns the samples of a set as an array of numbers."""
    items = array.array({(1, 0): "B", (1, 1): "b", (2, 0): "H", (2, 1): "h"}[one.sample_bytes, one.members["is_signed"]], one.raw)
    if one.sample_bytes == 2 and byteorder_of(one) != sys.byteorder:
        items.byteswap()
    return items


def check_arrays(room, one, name, file):
    """Gives the samples as arrays of NumPy with other strides, and takes them back."""
    import numpy

    params = params_of(one)
    shaped = numpy.array(as_array(one)).reshape(params.shape(one.interleave))
    wide = numpy.repeat(shaped[::-1], 2, axis=1)[::-1, ::2]
    turned = shaped.astype(shaped.dtype.newbyteorder())
    for given in (shaped, wide, turned, numpy.asfortranarray(shaped)):
        room.expect(f"{name}: an array", ccsds123.encode(given, params, interleave=one.interleave) == file, True)
    back = ccsds123.decode(file, interleave=one.interleave)
    room.expect(f"{name}: an array comes back", bool((back == shaped).all()) and back.shape == shaped.shape, True)


def check_threads(room, sets, files):
    with ThreadPoolExecutor(THREADS) as pool:
        again = list(pool.map(coded, sets))
    room.expect(f"{THREADS} threads at once", again == files, True)


def main():
    words = sys.argv[1:]
    arrays = words[:1] == ["--numpy"]
    words = words[arrays:]
    if arrays:
        try:
            import numpy  # noqa: F401
        except ImportError:
            sys.exit("python_bindings.py: NumPy isn't installed: on Debian, install python3-numpy and use its Python")
    seed, count = (int(word) for word in (words[:2] + ["1", "100"][len(words[:2]) :]))
    with tempfile.TemporaryDirectory() as folder:
        room = Room(folder, words[2] if len(words) > 2 else PROGRAM)
        unit_tests(room)
        check_versions(room)
        sets, files = [drawn(seed, number) for number in range(count)], []
        for number, one in enumerate(sets):
            name = f"set {number}: {' '.join(one.words())}"
            files.append(check_set(room, one, name))
            if arrays:
                check_arrays(room, one, name, files[-1])
        check_threads(room, sets, files)
    print(f"python_bindings.py: {count} sets; {room.passed} passed, {room.failed} failed")
    return 1 if room.failed else 0


if __name__ == "__main__":
    sys.exit(main())
