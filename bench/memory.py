#!/usr/bin/env python3
"""Measures the most memory that `ccsds` holds, by the layout of the raw bytes and the order of the encoding.

    bench/memory.py [PROGRAM]           the program to measure; without one, the one that `make` builds

It compresses a seeded scene in each layout and order, and expands the file again. It prints a table in Markdown: the peak of resident
memory of `compress` and of `expand` as multiples of the raw bytes, and how many times the file goes into them.

In the environment: COLUMNS (512), ROWS (512) and BANDS (64), BITS (12), BYTES of a sample (2), and more OPTIONS of `compress`.
"""

import os
import random
import subprocess
import sys
import tempfile

TOP = os.path.dirname(os.path.dirname(os.path.abspath(__file__)))
PROGRAM = os.path.join(TOP, "crates", "ccsds", "out", "ccsds")
COLUMNS, ROWS, BANDS = (int(os.environ.get(name, number)) for name, number in (("COLUMNS", "512"), ("ROWS", "512"), ("BANDS", "64")))
BITS, BYTES = int(os.environ.get("BITS", "12")), int(os.environ.get("BYTES", "2"))
OPTIONS = os.environ.get("OPTIONS", "").split()
ORDERS = {"by band": ["--order", "bsq"], "by line": ["--order", "bi", "--depth", "1"], "by pixel": ["--order", "bi", "--depth", str(BANDS)]}


def write_scene(path):
    """Writes raw bytes, band after band, whose samples have a slope and as much noise as makes their file a third as long."""
    chance = random.Random(1)
    noise = chance.randbytes(COLUMNS + 65_536)
    with open(path, "wb") as raw:
        for line in range(ROWS * BANDS):
            start = chance.randrange(65_536)
            samples = ((x + line & 127) * 16 % (1 << BITS) + noise[start + x] % (1 << BITS // 3) for x in range(COLUMNS))
            raw.write(b"".join((sample % (1 << BITS)).to_bytes(BYTES, "big") for sample in samples))


def peak(words):
    """Runs a program, and returns the most resident memory that it had, in bytes."""
    process = subprocess.Popen(words)
    _, status, usage = os.wait4(process.pid, 0)
    process.returncode = os.waitstatus_to_exitcode(status)
    if process.returncode != 0:
        sys.exit(f"{' '.join(words)}: status {process.returncode}")
    return usage.ru_maxrss * 1024


def main():
    program = sys.argv[1] if len(sys.argv) > 1 else PROGRAM
    sizes = ["--columns", COLUMNS, "--rows", ROWS, "--bands", BANDS, "--bits", BITS, "--bytes", BYTES]
    with tempfile.TemporaryDirectory() as folder:
        raw, first, file, back = (os.path.join(folder, name) for name in ("raw", "first", "file", "back"))
        write_scene(raw)
        size = os.path.getsize(raw)
        peak([program, "compress", *map(str, sizes), raw, first])
        print(f"{size / 1e6:.0f} MB of raw samples\n\n| layout | order | compress | expand | raw bytes by coded bytes |\n|---|---|---|---|---|", flush=True)
        for layout in ("bsq", "bil", "bip"):
            peak([program, "expand", "--bytes", str(BYTES), "--layout", layout, first, raw])
            for order, asked in ORDERS.items():
                there = peak([program, "compress", *map(str, sizes), *asked, *OPTIONS, "--layout", layout, raw, file])
                again = peak([program, "expand", "--bytes", str(BYTES), "--layout", layout, file, back])
                ratio = size / os.path.getsize(file)
                print(f"| {layout} | {order} | {there / size:.2f} | {again / size:.2f} | {ratio:.1f} |", flush=True)


main()
