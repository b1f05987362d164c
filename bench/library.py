#!/usr/bin/env python3
"""Counts the instructions of coding a seeded scene by the program and through the library for C, as valgrind counts them.

    bench/library.py [PROGRAM]

The scene has 128 columns, 128 rows and 32 bands of 12 bits. Both write the same file. Needs valgrind and a C compiler; `make lib` first.
"""

import os
import random
import re
import subprocess
import sys
import tempfile

TOP = os.path.dirname(os.path.dirname(os.path.abspath(__file__)))
COLUMNS, ROWS, BANDS, BITS = 128, 128, 32, 12
STATIC = os.path.join(TOP, "build", "lib", "libccsds123.a")


def scene():
    """Returns samples of two bytes, the low one first: slopes and noise."""
    chance, found = random.Random(1), bytearray()
    for z in range(BANDS):
        for y in range(ROWS):
            for x in range(COLUMNS):
                value = 900 + 5 * x + 3 * y + x * y // 40 + 23 * (z * 7 % 11) + chance.randrange(32) + chance.randrange(16) * (z % 3)
                found += value.to_bytes(2, "little")
    return bytes(found)


def instructions(*words):
    """Returns how many instructions a program takes."""
    ran = subprocess.run(["valgrind", "--tool=callgrind", "--callgrind-out-file=/dev/null", *words], capture_output=True, text=True, check=False)
    found = re.search(r"Collected : (\d+)", ran.stderr)
    if ran.returncode != 0 or not found:
        sys.exit(f"library: {' '.join(words)}: {ran.stderr[-400:]}")
    return int(found[1])


def main():
    program = os.path.realpath(sys.argv[1] if len(sys.argv) > 1 else os.path.join(TOP, "crates", "ccsds", "out", "ccsds"))
    sizes = [str(it) for it in (COLUMNS, ROWS, BANDS, BITS)]
    options = [word for name, size in zip(("columns", "rows", "bands", "bits"), sizes) for word in (f"--{name}", size)]
    with tempfile.TemporaryDirectory() as folder:
        raw, ours, theirs, encode = (os.path.join(folder, name) for name in ("raw", "ours", "theirs", "encode"))
        with open(raw, "wb") as file:
            file.write(scene())
        words = ["cc", "-O2", "-I", os.path.join(TOP, "include"), "-o", encode, os.path.join(TOP, "bench", "encode.c"), STATIC]
        subprocess.run(words, check=True)
        by_program = instructions(program, "compress", *options, "--little", raw, theirs)
        by_library = instructions(encode, *sizes, raw, ours)
        with open(ours, "rb") as first, open(theirs, "rb") as second:
            if first.read() != second.read():
                sys.exit("library: the files differ")
    samples = COLUMNS * ROWS * BANDS
    print(f"instructions a sample: {by_program / samples:.1f} by the program, {by_library / samples:.1f} through the library ({by_library / by_program:.3f})")
    return 0 if by_library <= by_program else 1


if __name__ == "__main__":
    sys.exit(main())
