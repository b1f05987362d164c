#!/usr/bin/env python3
"""Builds the library for C: `libccsds123.a` and `libccsds123.so`, with the proved code and a heap of the C library's.

    tools/library.py [--cpu CPU] [TARGET]

The crate `ccsds123` is proved and built first, for the processor CPU where one is named, as `x86-64-v3`. Both libraries stand in `build/lib`, or in `build/TARGET` for another target than the
machine's own, as `aarch64-unknown-linux-gnu`; this takes its cross compiler (`aarch64-linux-gnu-gcc`), or that which CC names.
"""

import argparse
import os
import shutil
import subprocess
import sys

sys.dont_write_bytecode = True
from build import TOP, build_crate, folder_of

CRATE = "ccsds123"
NATIVE = "x86_64-unknown-linux-gnu"
INCLUDE = os.path.join(TOP, "include")
HEAP = os.path.join(TOP, "tools", "heap.c")
EXPORTS = "{ global: ccsds123_*; local: *; };\n"


def version():
    with open(os.path.join(TOP, "VERSION"), encoding="utf-8") as file:
        return file.read().strip()


def compiler_of(target):
    """Returns the command of the C compiler for a target."""
    if "CC" in os.environ:
        return os.environ["CC"].split()
    return ["cc"] if target == NATIVE else [f"{target.replace('-unknown', '')}-gcc"]


def room_of(target):
    return os.path.join(TOP, "build", "lib" if target == NATIVE else target)


def run(*words):
    ended = subprocess.run(words, check=False)
    if ended.returncode != 0:
        sys.exit(f"library.py: {' '.join(words[:2])} failed")


def links_of(number):
    """Returns the names of the shared library: its own, and those of the links to it, the soname first."""
    major = number.partition(".")[0]
    return f"libccsds123.so.{number}", [f"libccsds123.so.{major}", "libccsds123.so"]


def assemble(target):
    """Makes both libraries of the proved code and the heap."""
    room, compiler, (name, links) = room_of(target), compiler_of(target), links_of(version())
    if not shutil.which(compiler[0]):
        sys.exit(f"library.py: the C compiler {compiler[0]} isn't in the PATH (Debian: gcc, or gcc-aarch64-linux-gnu for ARM)")
    os.makedirs(room, exist_ok=True)
    archive, heap, exports = (os.path.join(room, it) for it in ("libccsds123.a", "heap.o", "exports.map"))
    shutil.copyfile(os.path.join(folder_of(CRATE), "out", f"lib{CRATE}.a"), archive)
    with open(exports, "w", encoding="utf-8") as file:
        file.write(EXPORTS)
    run(*compiler, "-O2", "-fPIC", "-Wall", "-Wextra", "-Werror", "-c", "-o", heap, HEAP)
    run("ar", "rs", archive, heap)
    whole = ["-Wl,--whole-archive", archive, "-Wl,--no-whole-archive"]
    run(*compiler, "-shared", "-o", os.path.join(room, name), f"-Wl,-soname,{links[0]}", f"-Wl,--version-script={exports}", *whole)
    for link in links:
        path = os.path.join(room, link)
        if os.path.lexists(path):
            os.remove(path)
        os.symlink(name, path)
    os.remove(heap)
    os.remove(exports)


def main():
    parser = argparse.ArgumentParser(description="Builds the library for C.")
    parser.add_argument("--cpu", help="the processor that the code is made for, as x86-64-v3")
    parser.add_argument("target", nargs="?", default=NATIVE)
    words = parser.parse_args()
    target = words.target
    if not build_crate(CRATE, target if target != NATIVE else None, words.cpu):
        return 1
    assemble(target)
    print(f"the libraries stand in {os.path.relpath(room_of(target), TOP)}", file=sys.stderr)
    return 0


if __name__ == "__main__":
    sys.exit(main())
