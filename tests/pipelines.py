#!/usr/bin/env python3
"""Checks that the built program does the same with predictors in threads as on one thread.

    tests/pipelines.py [SEED [COUNT [PROGRAM]]]

SEED alone determines COUNT sets of lawful parameters, and raw bytes for each. With each combination of predictors and slots that is drawn,
`compress` has to end as it does without predictors and to write the same bytes to OUT; every other run uses only two processors. `expand`
has to restore the raw bytes. Some raw bytes are too few, too many or out of range; these have to be refused in the same way. SEED defaults
to 1, COUNT to 200, and PROGRAM to the one that `make` builds.
"""

import os
import random
import sys
import tempfile

sys.dont_write_bytecode = True
from harness import LAYOUTS, PROGRAM, Room, raw_bytes, samples_of

SLOTS = (1, 2, 8, 1024, 65_536)
RUNS = 4
"""The number of combinations of predictors and slots that are drawn for each set of parameters."""
PROCESSORS = set(sorted(os.sched_getaffinity(0))[:2])


# ---- parameters


def shape_of(chance):
    """Returns columns, rows and bands, mostly few of each, sometimes many of one."""
    shape = [chance.randint(1, 9) for _ in range(3)]
    if chance.random() < 0.3:
        shape[chance.randrange(3)] = chance.randint(10, 300)
    return shape


def flag(chance, word, often=0.5):
    return [word] if chance.random() < often else []


def file_words(chance, bands):
    """Returns the options of the file as a whole: its order, its output word size and its user data."""
    words = ["--user", chance.randrange(256), "--word", chance.randint(1, 8)]
    if chance.random() < 0.7:
        depth = chance.choice((1, bands, chance.randint(1, bands)))
        words += ["--order", "bi", "--depth", depth]
    return words


def predictor_words(chance, columns, bits):
    """Returns the options of mode, sums, register and weights. One column needs reduced mode and column-oriented sums."""
    often = 1 if columns == 1 else 0.5
    omega = chance.randint(4, 19)
    least, greatest = sorted(chance.randint(0, 15) for _ in range(2))
    words = [*flag(chance, "--reduced", often), *flag(chance, "--column-sums", often), "--previous", chance.choice((0, 1, 2, 3, 15))]
    words += ["--omega", omega, "--register", chance.choice((max(32, bits + omega + 2), chance.randint(40, 64)))]
    return words + ["--interval-log", chance.randint(4, 11), "--vmin-code", least, "--vmax-code", greatest]


def coder_words(chance, bits):
    """Returns the options of one of the entropy coders."""
    k = ["--k", chance.randint(0, min(14, bits - 2))]
    if chance.random() < 0.5:
        return ["--coder", "block", "--block", chance.choice((8, 16, 32, 64)), "--reference", chance.choice((1, 2, 64, 4096)), *k]
    zero = chance.randint(1, 8)
    star = chance.randint(max(4, zero + 1), 9)
    return ["--umax", chance.randint(8, 32), "--gamma-star", star, "--gamma-zero", zero, *k]


# ---- raw bytes


def damaged(chance, raw):
    """Returns raw bytes that are too few, too many, or may be out of range."""
    slip = chance.choice(("short", "long", "any"))
    if slip == "short":
        return raw[: chance.randrange(len(raw))]
    if slip == "long":
        return raw + chance.randbytes(chance.randint(1, 9))
    return chance.randbytes(len(raw))


# ---- runs


def check_set(room, chance, name):
    """Draws parameters and raw bytes, and compares all runs on them with the one without predictors. Returns its status."""
    columns, rows, bands = shape = shape_of(chance)
    bits, signed = chance.randint(2, 16), chance.random() < 0.5
    low = -(1 << bits - 1) if signed else 0
    size = 1 if bits <= 8 and chance.random() < 0.5 else 2
    layout, little = chance.choice(list(LAYOUTS)), chance.random() < 0.5
    samples = samples_of(chance, columns * rows * bands, low, low + (1 << bits) - 1)
    raw = raw_bytes(samples, shape, layout, size, little, signed)
    sound = chance.random() < 0.9
    if not sound:
        raw = damaged(chance, raw)
    laid = ["--layout", layout, "--bytes", size, *(["--little"] if little else [])]
    words = ["--columns", columns, "--rows", rows, "--bands", bands, "--bits", bits, *(["--signed"] if signed else []), *laid]
    words += file_words(chance, bands) + predictor_words(chance, columns, bits) + coder_words(chance, bits)
    room.write("raw", raw)
    ended = room.run("compress", *words, "raw", "file")
    name = f"{name}: {' '.join(map(str, words))}"
    if sound:
        room.expect(f"{name}: compressed", ended, (0, b"", ""))
    else:
        room.expect(f"{name}: compressed or refused", ended[0] in (0, 2), True)
    if ended[0] == 0:
        room.expect(f"{name}: expanded", room.run("expand", *laid, "file", "back"), (0, b"", ""))
        room.expect(f"{name}: expanded to its bytes", room.read("back") == raw, True)
    for turn in range(RUNS):
        shared = ["--predictors", chance.choice((1, 2, 3, 64, chance.randint(1, 64))), "--slots", chance.choice(SLOTS)]
        found = room.run("compress", *words, *shared, "raw", "other", processors=PROCESSORS if turn % 2 else None)
        room.expect(f"{name} {' '.join(map(str, shared))}", found, ended)
        room.expect(f"{name} {' '.join(map(str, shared))}: one file", room.read("other") == room.read("file"), True)
    return ended[0]


def main():
    seed, count = (int(word) for word in (sys.argv[1:3] + ["1", "200"][len(sys.argv[1:3]) :]))
    with tempfile.TemporaryDirectory() as folder:
        room = Room(folder, sys.argv[3] if len(sys.argv) > 3 else PROGRAM)
        ends = [check_set(room, random.Random(f"{seed} {i}"), f"set {i}") for i in range(count)]
    print(f"pipelines.py: {ends.count(0)} of {count} sets compressed, {ends.count(2)} refused; {room.passed} passed, {room.failed} failed")
    return 1 if room.failed else 0


if __name__ == "__main__":
    sys.exit(main())
