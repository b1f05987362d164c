#!/usr/bin/env python3
"""Compares the built program with plain Rust that goes sample by sample, where rows, pieces of rows and columns of bands begin and end.

    tests/rows.py [SEED [COUNT [PROGRAM]]]

SEED alone determines COUNT sets of parameters and samples: cubes of 1, 2 or up to 129 columns, where pieces begin and end, of 1 to 20 or 65
bands, up to 15 previous bands, both modes and sums, registers that wrap and registers that don't, all orders, both coders. In about half of
the sets lanes of 16 bits are exact, and in many others those of 32. The body of each file has to equal the one that the plain Rust program of
bench/ makes, byte for byte, and `expand` has to restore the raw bytes. SEED defaults to 1 and COUNT to 500. `make rows` builds both programs
first.
"""

import os
import random
import subprocess
import sys
import tempfile

sys.dont_write_bytecode = True
from harness import PROGRAM, TOP, Room, samples_of

PLAIN = os.path.join(TOP, "bench", "target", "release", "plain")
HEADER = 19
"""The length of a header without tables, in bytes."""
COLUMNS = (1, 2, 7, 8, 9, 15, 16, 17, 63, 64, 65, 127, 128, 129)
BANDS = (*range(1, 21), 65)


def image_of(chance):
    """Returns columns, rows, bands, bits, 1 for signed samples, and the interleaving depth, or 0 for sequential order."""
    columns, rows, bands = chance.choice(COLUMNS), chance.choice((1, 2, 5)), chance.choice(BANDS)
    depth = chance.choice((0, 1, bands, chance.randint(1, bands)))
    return [columns, rows, bands, chance.choice((chance.randint(2, 12), chance.randint(2, 16))), chance.randint(0, 1), depth]


def predictor_of(chance, columns, bits):
    """Returns previous bands, mode, sums, register size, omega, the exponent of the change interval, v_min and v_max.

    One column needs reduced mode and column-oriented sums."""
    alone = columns == 1
    omega = chance.randint(4, 19)
    least = max(32, bits + omega + 2)
    register = chance.choice((least, least, chance.randint(least, 64), 64))
    exponents = sorted(chance.randint(-6, 9) for _ in range(2))
    if bits <= 12 and chance.random() < 0.7:
        omega, register = chance.randint(4, 13), chance.randint(32, 64)
        exponents = sorted(chance.randint(max(-6, omega - 14), min(9, omega + 13 - bits)) for _ in range(2))
    reduced, column = (1 if alone else chance.randint(0, 1) for _ in range(2))
    return [chance.randint(0, 15), reduced, column, register, omega, chance.randint(4, 11), *exponents]


def coder_of(chance, bits):
    """Returns the parameters of one of the entropy coders: four of the sample-adaptive one, or two of the block-adaptive one."""
    if chance.random() < 0.5:
        return [chance.choice((8, 16, 32, 64)), chance.choice((1, 2, 64, 4096))]
    zero = chance.randint(1, 8)
    return [chance.randint(8, 32), chance.randint(max(4, zero + 1), 9), zero, chance.randint(0, min(14, bits - 2))]


def words_of(image, predictor, coder):
    """Returns these parameters as options of `compress`."""
    columns, rows, bands, bits, signed, depth = image
    previous, reduced, column, register, omega, interval, least, greatest = predictor
    words = ["--columns", columns, "--rows", rows, "--bands", bands, "--bits", bits, "--previous", previous, "--register", register, "--omega", omega]
    words += ["--interval-log", interval, "--vmin-code", least + 6, "--vmax-code", greatest + 6]
    words += [word for word, is_set in (("--signed", signed), ("--reduced", reduced), ("--column-sums", column)) if is_set]
    if depth:
        words += ["--order", "bi", "--depth", depth]
    if len(coder) == 2:
        return words + ["--coder", "block", "--block", coder[0], "--reference", coder[1]]
    return words + ["--umax", coder[0], "--gamma-star", coder[1], "--gamma-zero", coder[2], "--k", coder[3]]


def plain_body(numbers, heights):
    given = b"".join(height.to_bytes(2, "big") for height in heights)
    return subprocess.run([PLAIN, "body", *map(str, numbers)], input=given, stdout=subprocess.PIPE, check=True).stdout


def check_set(room, chance, name):
    """Draws parameters and samples, and compares the body of the file with the plain one."""
    image = image_of(chance)
    columns, rows, bands, bits, signed, _ = image
    predictor, coder = predictor_of(chance, columns, bits), coder_of(chance, bits)
    low = -(1 << bits - 1) if signed else 0
    samples = samples_of(chance, columns * rows * bands, low, low + (1 << bits) - 1)
    words = words_of(image, predictor, coder)
    name = f"{name}: {' '.join(map(str, words))}"
    raw = b"".join(sample.to_bytes(2, "big", signed=bool(signed)) for sample in samples)
    room.write("raw", raw)
    room.expect(f"{name}: compressed", room.run("compress", *words, "raw", "file"), (0, b"", ""))
    room.expect(f"{name}: the plain body", room.read("file")[HEADER:], plain_body(image + predictor + coder, [sample - low for sample in samples]))
    room.expect(f"{name}: expanded", room.run("expand", "file", "back"), (0, b"", ""))
    room.expect(f"{name}: expanded to its bytes", room.read("back") == raw, True)


def main():
    seed, count = (int(word) for word in (sys.argv[1:3] + ["1", "500"][len(sys.argv[1:3]) :]))
    with tempfile.TemporaryDirectory() as folder:
        room = Room(folder, sys.argv[3] if len(sys.argv) > 3 else PROGRAM)
        for i in range(count):
            check_set(room, random.Random(f"{seed} {i}"), f"set {i}")
    print(f"rows.py: {count} sets; {room.passed} passed, {room.failed} failed")
    return 1 if room.failed else 0


if __name__ == "__main__":
    sys.exit(main())
