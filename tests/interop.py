#!/usr/bin/env python3
"""Compares the block-adaptive bodies of the program with those of `aec` of libaec, another coder of CCSDS 121.0-B.

    tests/interop.py [PROGRAM]

For each number of bits from 2 to 16, each block size and three reference intervals, over a small scene:

* `aec -d` has to restore the mapped residuals from the body that `ccsds compress` writes;
* `ccsds expand` has to restore the scene from our header and the body that `aec` writes of these residuals.

The scene and its residuals come from the plain Rust program of `bench/`, so the program under test is on one side only. `aec`
runs without its preprocessor (-N), since the body of a file contains mapped residuals. `make interop` builds all that is needed.
Without `aec` (Debian's package libaec-tools) the status is 3.
"""

import os
import shutil
import subprocess
import sys
import tempfile

from workroom import Workroom

TOP = os.path.dirname(os.path.dirname(os.path.abspath(__file__)))
PLAIN = os.path.join(TOP, "bench", "target", "release", "plain")
SIZES = ["--columns", "97", "--rows", "39", "--bands", "5"]
HEADER = 19
WORD = 4
BLOCKS = [8, 16, 32, 64]
INTERVALS = [1, 64, 4096]


class Room(Workroom):
    """A folder for the files of a run, and the two programs that read and write them."""

    def __init__(self, folder, program):
        super().__init__(folder)
        self.program = program

    def compress(self, bits, block, interval):
        words = ["compress", *SIZES, "--bits", str(bits), "--register", "32", "--word", str(WORD)]
        words += ["--coder", "block", "--block", str(block), "--reference", str(interval)]
        self.run([self.program, *words, self.path("scene"), self.path("file")])

    def expand(self):
        self.run([self.program, "expand", self.path("file"), self.path("back")])

    def aec(self, way, bits, block, interval, source, target):
        words = ["aec", *way, "-N", "-m", "-n", str(bits), "-j", str(block), "-r", str(interval)]
        self.run([*words, self.path(source), self.path(target)])

    def run(self, words):
        ran = subprocess.run(words, stdout=subprocess.PIPE, stderr=subprocess.STDOUT, text=True, check=False)
        if ran.returncode:
            raise Differs(f"{' '.join(words)}: status {ran.returncode}: {ran.stdout.strip()}")


class Differs(Exception):
    """A difference between the two coders, or a failure of one of them."""


def plain(subject, bits):
    return subprocess.run([PLAIN, subject, str(bits)], check=True, stdout=subprocess.PIPE).stdout


def ours_is_read(room, bits, block, interval, residuals):
    """Checks that the other coder decodes our body to the residuals; filled values may follow them."""
    room.compress(bits, block, interval)
    room.write("body", room.read("file")[HEADER:])
    room.aec(["-d"], bits, block, interval, "body", "numbers")
    if room.read("numbers")[: len(residuals)] != residuals:
        raise Differs("the other coder reads other residuals")


def theirs_is_read(room, bits, block, interval, scene):
    """Checks that the program expands our header and the other coder's body to the scene."""
    header = room.read("file")[:HEADER]
    room.aec([], bits, block, interval, "residuals", "body")
    file = header + room.read("body")
    room.write("file", file + bytes(-len(file) % WORD))
    room.expand()
    if room.read("back") != scene:
        raise Differs("its body is expanded to another scene")


def main():
    program = os.path.realpath(sys.argv[1] if len(sys.argv) > 1 else os.path.join(TOP, "crates", "ccsds", "out", "ccsds"))
    if not shutil.which("aec"):
        print("aec isn't installed (Debian: libaec-tools), so nothing was compared")
        return 3
    passed = failed = 0
    with tempfile.TemporaryDirectory() as folder:
        room = Room(folder, program)
        for bits in range(2, 17):
            scene, wide = plain("small", bits), plain("residuals", bits)
            # aec takes samples of up to eight bits in a byte each
            residuals = wide if bits > 8 else wide[1::2]
            room.write("scene", scene)
            room.write("residuals", residuals)
            for block in BLOCKS:
                for interval in INTERVALS:
                    try:
                        ours_is_read(room, bits, block, interval, residuals)
                        passed += 1
                        theirs_is_read(room, bits, block, interval, scene)
                        passed += 1
                    except Differs as why:
                        failed += 1
                        print(f"FAILED: {bits} bits, blocks of {block}, interval {interval}: {why}")
    print(f"{passed} passed, {failed} failed")
    return 1 if failed else 0


if __name__ == "__main__":
    sys.exit(main())
