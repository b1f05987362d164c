#!/usr/bin/env python3
"""Runs the tests of the Rust crate, and compares what it codes with the built program, on sets of parameters that a seed determines.

    tests/rust_bindings.py [SEED [COUNT [PROGRAM]]]

`cargo test` runs its tests and those of its pages, offline; `bindings/rust/examples/sets.rs` codes all sets and decodes their files. The files have to be
the program's, byte for byte; those with tables are expanded by the program. SEED defaults to 1 and COUNT to 500. `CCSDS123_LIB_DIR` names the folder of
another `libccsds123.a` than the built one. It needs Cargo.
"""

import os
import shutil
import subprocess
import sys
import tempfile

sys.dont_write_bytecode = True
from harness import PROGRAM, TOP, Room
from parameter_sets import drawn

CRATE = os.path.join(TOP, "bindings", "rust")
INTERLEAVES = ("bsq", "bil", "bip")


def cargo(*words):
    """Runs Cargo, which asks no registry for anything."""
    return subprocess.run(["cargo", words[0], "--offline", "--quiet", *words[1:]], cwd=CRATE, capture_output=True, text=True, check=False)


def text_of(one):
    """Returns a set as the lines that the example reads."""
    named = {{"is_signed": "signed", "register_bits": "register"}.get(name, name): value for name, value in one.members.items()}
    weight_bits = named.pop("weight_bits", 0)
    named.update(interleave=INTERLEAVES.index(one.interleave), sample_bytes=one.sample_bytes, little=int(one.little))
    lines = [f"{name} {value}" for name, value in named.items()]
    lines += [] if one.weights is None else [f"weights {weight_bits} {' '.join(map(str, one.weights))}"]
    lines += [] if one.accumulators is None else [f"accumulators {' '.join(map(str, one.accumulators))}"]
    return "\n".join(lines) + "\n"


def check_set(room, one, number):
    name = f"set {number}: {' '.join(one.words())}"
    if not one.has_tables:
        room.expect(f"{name}: compressed", room.run("compress", *one.words(), f"{number}.raw", "file"), (0, b"", ""))
        room.expect(f"{name}: the program's file", room.read(f"{number}.file") == room.read("file"), True)
    room.expect(f"{name}: expanded", room.run("expand", *one.layout_words(), f"{number}.file", "back"), (0, b"", ""))
    room.expect(f"{name}: expanded to its bytes", room.read("back") == one.raw, True)
    room.expect(f"{name}: decoded to its bytes", room.read(f"{number}.back") == one.raw, True)


def main():
    words = sys.argv[1:]
    seed, count = (int(word) for word in (words[:2] + ["1", "500"][len(words[:2]) :]))
    if not shutil.which("cargo"):
        sys.exit("rust_bindings.py: Cargo isn't installed: on Debian, install cargo")
    with tempfile.TemporaryDirectory() as folder:
        room = Room(folder, words[2] if len(words) > 2 else PROGRAM)
        ran = cargo("test")
        room.expect("cargo test", ran.returncode and (ran.stdout + ran.stderr)[-2000:], 0)
        sets = [drawn(seed, number) for number in range(count)]
        for number, one in enumerate(sets):
            room.write(f"{number}.set", text_of(one).encode())
            room.write(f"{number}.raw", one.raw)
        ran = cargo("run", "--release", "--example", "sets", "--", folder, str(count))
        room.expect("the example", ran.returncode and ran.stderr[-2000:], 0)
        if not ran.returncode:
            for number, one in enumerate(sets):
                check_set(room, one, number)
    print(f"rust_bindings.py: {count} sets; {room.passed} passed, {room.failed} failed")
    return 1 if room.failed else 0


if __name__ == "__main__":
    sys.exit(main())
