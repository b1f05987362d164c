#!/usr/bin/env python3
"""Calls the library for C from C and from C++, with the sanitizers of the compiler, and from many threads at once.

    tests/callers.py [SEED [SETS [DAMAGED [PROGRAM]]]]

Checks the example of examples/c against an installed prefix, then tests/clibrary.c on seeded sets of parameters, in one thread and in 16, and on
damaged files, whose faults and raw bytes are those of tests/model. SEED defaults to 1, SETS to 500 and DAMAGED to 30,000. Needs a C and a C++
compiler with their sanitizers, and pkg-config (Debian: gcc, g++, pkg-config). `make callers` builds what it calls.
"""

import os
import shutil
import subprocess
import sys
import tempfile

sys.dont_write_bytecode = True
from cases import write_damaged, write_sets
from harness import PROGRAM, TOP, Room

EXAMPLE = os.path.join(TOP, "examples", "c", "roundtrip.c")
SOURCE = os.path.join(TOP, "tests", "clibrary.c")
STATIC = os.path.join(TOP, "build", "lib", "libccsds123.a")
WARNINGS = ["-Wall", "-Wextra", "-Werror", "-pedantic"]
SANITIZERS = ["-fsanitize=address,undefined", "-fno-sanitize-recover=all", "-g"]
NEEDED = {"cc": "gcc", "c++": "g++", "pkg-config": "pkg-config"}


def ended(*words, **how):
    """Runs a command, and returns its status and what it printed."""
    ran = subprocess.run(words, stdout=subprocess.PIPE, stderr=subprocess.STDOUT, text=True, check=False, **how)
    return ran.returncode, ran.stdout


def check_example(room):
    """Builds the example by pkg-config against a prefix that the library is installed in, as C, as C++ and with sanitizers, and runs it."""
    prefix = room.path("prefix")
    room.expect("make install", ended("make", "-s", "-C", TOP, "install-library", f"PREFIX={prefix}")[0], 0)
    paths = dict(os.environ, PKG_CONFIG_PATH=os.path.join(prefix, "lib", "pkgconfig"))
    flags = subprocess.run(["pkg-config", "--cflags", "--libs", "ccsds123"], env=paths, stdout=subprocess.PIPE, text=True, check=False).stdout.split()
    room.expect("pkg-config", bool(flags), True)
    shown = dict(os.environ, LD_LIBRARY_PATH=os.path.join(prefix, "lib"))
    for name, compiler in (("c", ["cc", "-std=c99"]), ("c++", ["c++", "-x", "c++"]), ("sanitized", ["cc", "-std=c99", *SANITIZERS])):
        out = room.path("roundtrip")
        room.expect(f"{name}: the example", ended(*compiler, *WARNINGS, "-o", out, EXAMPLE, *flags), (0, ""))
        status, said = ended(out, env=shown)
        room.expect(f"{name}: the example runs", (status, said.endswith("restored\n")), (0, True))


def builds(room):
    """Builds tests/clibrary.c with and without sanitizers, and yields the name and the path of each."""
    for name, words in (("cc", ["cc", "-std=gnu99", "-O2"]), ("sanitized", ["cc", "-std=gnu99", "-O1", *SANITIZERS]), ("c++", ["c++", "-O2", "-x", "c++"])):
        out = room.path(name)
        given = ["-I", os.path.join(TOP, "include"), "-o", out, SOURCE, *(["-x", "none"] if name == "c++" else []), STATIC, "-pthread"]
        room.expect(f"{name}: tests/clibrary.c", ended(*words, *WARNINGS[:3], *given), (0, ""))
        yield name, out


def check_damaged(room, name, out, due):
    status, said = ended(out, "damaged", room.path("damaged"))
    lines = said.splitlines()
    room.expect(f"{name}: damaged files", (status, len(lines)), (0, len(due)))
    for number, (line, wanted) in enumerate(zip(lines, due)):
        if wanted is not None:
            room.expect(f"{name}: damaged file {number}", line, wanted)


def main():
    seed, sets, damaged = (int(word) for word in (sys.argv[1:4] + ["1", "500", "30000"][len(sys.argv[1:4]) :]))
    for command, package in NEEDED.items():
        if not shutil.which(command):
            sys.exit(f"callers.py: {command} isn't in the PATH (Debian: {package})")
    with tempfile.TemporaryDirectory() as folder:
        room = Room(folder, sys.argv[4] if len(sys.argv) > 4 else PROGRAM)
        check_example(room)
        write_sets(room, room.path("sets"), seed, sets)
        due = write_damaged(room.path("damaged"), seed, damaged)
        for name, out in builds(room):
            for threads in (1, 16):
                wanted = (0, f"{sets} sets, {threads} threads, 0 wrong\n")
                room.expect(f"{name}: {threads} threads", ended(out, "sets", room.path("sets"), str(threads)), wanted)
            check_damaged(room, name, out, due)
    print(f"callers.py: seed {seed}, {sets} sets, {damaged} damaged files, {room.passed} passed, {room.failed} failed")
    return 1 if room.failed else 0


if __name__ == "__main__":
    sys.exit(main())
