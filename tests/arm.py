#!/usr/bin/env python3
"""Runs the library for C on ARM, under qemu: the example, and seeded sets of parameters with the files that the program makes of them.

    tests/arm.py [SEED [SETS [PROGRAM]]]

SEED defaults to 1 and SETS to 200. Besides, the worked files and as many damaged ones are decoded as by tests/model. `make arm` builds the
libraries for both processors first. Needs aarch64-linux-gnu-gcc and qemu-aarch64-static (Debian: gcc-aarch64-linux-gnu,
libc6-dev-arm64-cross, qemu-user-static); without them it ends with status 3.
"""

import os
import shutil
import sys
import tempfile

sys.dont_write_bytecode = True
from callers import EXAMPLE, SOURCE, check_damaged, ended
from cases import write_damaged, write_sets, write_worked
from harness import PROGRAM, TOP, Room

TARGET = "aarch64-unknown-linux-gnu"
COMPILER = "aarch64-linux-gnu-gcc"
RUNNER = "qemu-aarch64-static"
NEEDED = {COMPILER: "gcc-aarch64-linux-gnu and libc6-dev-arm64-cross", RUNNER: "qemu-user-static"}
STATIC = os.path.join(TOP, "build", TARGET, "libccsds123.a")


def build(room, source):
    """Builds a source for ARM, and returns a script that runs it under qemu."""
    out = room.path(os.path.basename(source)[:-2])
    words = [COMPILER, "-std=gnu99", "-O2", "-static", "-Wall", "-Wextra", "-Werror", "-I", os.path.join(TOP, "include"), "-o", out]
    room.expect(f"{os.path.basename(source)} for ARM", ended(*words, source, STATIC, "-pthread"), (0, ""))
    script = f"{out}.sh"
    with open(script, "w", encoding="utf-8") as file:
        file.write(f'#!/bin/sh\nexec {RUNNER} {out} "$@"\n')
    os.chmod(script, 0o755)
    return script


def main():
    seed, sets = (int(word) for word in (sys.argv[1:3] + ["1", "200"][len(sys.argv[1:3]) :]))
    for command, packages in NEEDED.items():
        if not shutil.which(command):
            print(f"arm.py: {command} isn't in the PATH (Debian: {packages})", file=sys.stderr)
            return 3
    with tempfile.TemporaryDirectory() as folder:
        room = Room(folder, sys.argv[3] if len(sys.argv) > 3 else PROGRAM)
        status, said = ended(build(room, EXAMPLE))
        room.expect("the example", (status, said.endswith("restored\n")), (0, True))
        calls = build(room, SOURCE)
        write_sets(room, room.path("sets"), seed, sets)
        room.expect("sets", ended(calls, "sets", room.path("sets"), "1"), (0, f"{sets} sets, 1 threads, 0 wrong\n"))
        check_damaged(room, "worked files", calls, write_worked(room.path("damaged")))
        check_damaged(room, "damaged files", calls, write_damaged(room.path("damaged"), seed, sets))
    print(f"arm.py: seed {seed}, {sets} sets, {room.passed} passed, {room.failed} failed")
    return 1 if room.failed else 0


if __name__ == "__main__":
    sys.exit(main())
