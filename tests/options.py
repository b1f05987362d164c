#!/usr/bin/env python3
"""Checks the options of the built program (raw layouts, fields of the header, refusals), and COMMAND.md against the options.

    tests/options.py [PROGRAM]

The raw bytes are laid out here, by the definition of each layout, so no expected value comes from the program. PROGRAM defaults to
the one that `rt ci` and `make` build.
"""

import itertools
import os
import random
import re
import sys
import tempfile

from harness import LAYOUTS, PROGRAM, TOP, USUAL, Room, header, inspected, raw_bytes

sys.path.append(os.path.join(TOP, "tools"))

import option_rows  # noqa: E402


# ---- raw layouts

def layouts(room):
    """Checks that all raw layouts are compressed to the same file, and that it is expanded to each of them."""
    for signed, bits in itertools.product((False, True), (7, 8, 13, 16)):
        shape, chance = (3, 4, 5), random.Random(bits)
        low = -(1 << bits - 1) if signed else 0
        samples = [chance.randrange(low, low + (1 << bits)) for _ in range(60)]
        forms = [(layout, size, little) for layout in LAYOUTS for size in (1, 2) if size == 2 or bits <= 8 for little in (False, True)]
        sizes = ["--columns", 3, "--rows", 4, "--bands", 5, "--bits", bits, *(["--signed"] if signed else [])]
        files = []
        for layout, size, little in forms:
            words = ["--layout", layout, "--bytes", size, *(["--little"] if little else [])]
            raw = raw_bytes(samples, shape, layout, size, little, signed)
            room.write("raw", raw)
            name = f"{bits} bits, {'signed' if signed else 'unsigned'}, {' '.join(map(str, words))}"
            room.expect(name, room.run("compress", *sizes, *words, "raw", "file"), (0, b"", ""))
            files.append(room.read("file"))
            room.expect(f"{name}, expanded", room.run("expand", *words, "file", "back"), (0, b"", ""))
            room.expect(f"{name}, expanded to its bytes", room.read("back"), raw)
        room.expect(f"{bits} bits: one file for all layouts", len(set(files)), 1)


# ---- options, as the header records them

SIZES = ["--columns", 4, "--rows", 2, "--bands", 3]
BITS = ["--bits", 12]

# Options of `compress`, and the lines of `inspect` that then differ from the usual ones.
ASKED = [
    (["--user", 255], {"user": 255}),
    (["--signed"], {"sample": "signed"}),
    (["--order", "bi"], {"order": "bi 1"}),
    (["--order", "bi", "--depth", 3], {"order": "bi 3"}),
    (["--order", "bsq", "--depth", 3], {}),
    (["--word", 8], {"word": 8}),
    (["--previous", 0], {"previous": 0}),
    (["--previous", 15], {"previous": 15}),
    (["--reduced"], {"mode": "reduced"}),
    (["--column-sums"], {"sums": "column"}),
    (["--register", 32], {"register": 32}),
    (["--omega", 4], {"omega": 4}),
    (["--omega", 19], {"omega": 19}),
    (["--interval-log", 4], {"interval": 16}),
    (["--interval-log", 11], {"interval": 2048}),
    (["--vmin-code", 0], {"vmin": -6}),
    (["--vmax-code", 15], {"vmax": 9}),
    (["--umax", 8], {"umax": 8}),
    (["--umax", 32], {"umax": 32}),
    (["--gamma-star", 9, "--gamma-zero", 8], {"gamma-star": 9, "gamma-zero": 8}),
    (["--gamma-star", 4], {"gamma-star": 4}),
    (["--k", 0], {"k": 0}),
    (["--k", 10], {"k": 10}),
    (
        ["--order", "bi", "--depth", 3, "--user", 7, "--word", 2, "--previous", 1, "--register", 40, "--omega", 9, "--interval-log", 5]
        + ["--vmin-code", 4, "--vmax-code", 8, "--coder", "sample", "--umax", 9, "--gamma-star", 7, "--gamma-zero", 2, "--k", 5, "--block", 16]
        + ["--reference", 9, "--predictors", 2, "--slots", 3, "--signed", "--reduced", "--column-sums", "--layout", "bip", "--bytes", 2, "--little"],
        {"order": "bi 3", "user": 7, "word": 2, "previous": 1, "register": 40, "omega": 9, "interval": 32, "vmin": -2, "vmax": 2, "umax": 9}
        | {"gamma-star": 7, "gamma-zero": 2, "k": 5, "sample": "signed", "mode": "reduced", "sums": "column"},
    ),
]
BLOCKS = [
    ([], {}),
    (["--block", 16], {"block": 16}),
    (["--block", 32], {"block": 32}),
    (["--block", 64], {"block": 64}),
    (["--reference", 1], {"reference": 1}),
    (["--reference", 4096], {"reference": 4096}),
    (["--bits", 4, "--restricted"], {"bits": 4, "restricted": "yes"}),
    (["--bits", 2, "--restricted"], {"bits": 2, "restricted": "yes"}),
    # As many words as a command takes.
    (
        ["--bits", 4, "--order", "bi", "--depth", 3, "--user", 7, "--word", 2, "--previous", 1, "--register", 40, "--omega", 9, "--interval-log", 5]
        + ["--vmin-code", 4, "--vmax-code", 8, "--umax", 9, "--gamma-star", 7, "--gamma-zero", 2, "--k", 2, "--block", 16, "--reference", 9]
        + ["--restricted", "--predictors", 2, "--slots", 3, "--signed", "--reduced", "--column-sums", "--layout", "bip", "--bytes", 2, "--little"],
        {"bits": 4, "order": "bi 3", "user": 7, "word": 2, "previous": 1, "register": 40, "omega": 9, "interval": 32, "vmin": -2, "vmax": 2}
        | {"block": 16, "reference": 9, "restricted": "yes", "sample": "signed", "mode": "reduced", "sums": "column"},
    ),
]


def options(room):
    """Checks that each option of `compress` changes its own field of the header, and no other."""
    room.write("raw", bytes(48))
    for words, changed in ASKED:
        compared(room, words, USUAL | changed)
    front = {name: value for name, value in USUAL.items() if name not in ("umax", "gamma-star", "gamma-zero", "k", "header")}
    for words, changed in BLOCKS:
        rest = {"block": 8, "restricted": "no", "reference": 64, "header": 19} | changed
        compared(room, ["--coder", "block", *words], front | {"coder": "block"} | rest)
    most = ["compress", *SIZES, "--coder", "block", *BLOCKS[-1][0], "raw", "file"]
    room.expect("a word more than a command takes", room.run(*most, "more"), (1, b"", "ccsds: 20 Usage\n"))


def compared(room, words, fields):
    name = " ".join(map(str, words))
    bits = [] if "--bits" in words else BITS
    room.expect(name, room.run("compress", *SIZES, *bits, *words, "raw", "file"), (0, b"", ""))
    room.expect(f"{name}, inspected", room.run("inspect", given=room.read("file")), (0, inspected(fields), ""))
    room.expect(f"{name}, expanded", room.run("expand", "file", "back"), (0, b"", ""))
    room.expect(f"{name}, expanded to its bytes", room.read("back"), bytes(48))


def documented(room):
    """Checks that COMMAND.md has the row that the sources give each option, and that the program keeps to the range and the default."""
    room.expect("tables of COMMAND.md", option_rows.differences(), [])
    room.write("raw", bytes(48))
    given = dict(zip(SIZES[::2], SIZES[1::2])) | {"--bits": 12}
    for name, row in option_rows.rows().items():
        _, option, _, span, default, _ = row.split("|")
        ends = re.fullmatch(r" (\d+) to (\d+) ", span)
        if ends:
            for value in (int(ends[1]) - 1, int(ends[2]) + 1):
                words = itertools.chain(*(given | {f"--{name}": value}).items())
                room.expect(f"--{name} {value}", room.run("compress", *words, "raw", "file"), (1, b"", "ccsds: 20 Usage\n"))
        if default.strip(" `").isalnum() and default != " required " and span != " flag ":
            words = itertools.chain(*given.items(), (f"--{name}", default.strip(" `")))
            room.expect(f"--{name} as it is", room.run("compress", *words, "raw", "file"), (0, b"", ""))
            room.expect(f"--{name} as it is: the usual header", room.run("inspect", given=room.read("file")), (0, inspected(USUAL), ""))


# ---- predictors in threads

SHARED = [[], ["--order", "bi"], ["--order", "bi", "--depth", 7], ["--coder", "block", "--order", "bi", "--depth", 9], ["--coder", "block"]]


def predictors(room):
    """Checks that the file doesn't depend on the numbers of predictors and slots."""
    room.write("raw", random.Random(9).randbytes(2 * 20 * 15 * 9))
    for words in SHARED:
        sizes = ["compress", "--columns", 20, "--rows", 15, "--bands", 9, "--bits", 16, *words]
        room.expect(f"{words} on one thread", room.run(*sizes, "raw", "file"), (0, b"", ""))
        for count, slots in ((1, 1), (2, 1024), (3, 1), (9, 7), (64, 1)):
            name = f"{words} by {count} predictors with {slots} slots"
            room.expect(name, room.run(*sizes, "--predictors", count, "--slots", slots, "raw", "other"), (0, b"", ""))
            room.expect(f"{name}: one file", room.read("other") == room.read("file"), True)


# ---- files, each opened once


def files(room):
    """Checks that IN is opened once, and then OUT once."""
    for name in ("raw", "file", "back"):
        room.write(name, bytes(4))
    sizes = ["--columns", 2, "--rows", 1, "--bands", 1, "--bits", 16]
    for words in (["compress", *sizes], ["compress", *sizes, "--predictors", 1], ["expand"]):
        names = ["file", "back"] if words == ["expand"] else ["raw", "file"]
        with room.watched(names) as opened:
            room.expect(f"{words} of watched files", room.run(*words, *names), (0, b"", ""))
            room.expect(f"{words} opens", opened(), names)


# ---- refusals

BLOCK = ((10, 0x0C), (17, 0x00), (18, 0x01))
REFUSED = [
    (header()[:18], "1 ShortHeader"),
    (header((11, 0x01)), "2 Reserved 95"),
    (header((7, 0x03)), "3 FieldRange DynamicRange 1"),
    (header((13, 0x20)), "4 Disagree NeighbourOneColumn"),
    (header((16, 0x40)), "5 TableElsewhere"),
    (header() + b"\x90", "6 Truncated 160"),
    (header((17, 0x42), (18, 0x20)) + b"\x90\x00\x03", "7 BadCode 1"),
    (header(*BLOCK) + b"\xC0\x00\x00", "8 BadOption 0"),
    (header(*BLOCK) + b"\x04", "9 RunPastSegment 0"),
    (header() + b"\x90\x81", "10 BadFill"),
    (header() + b"\x90\x80\x00", "11 TooLong 12"),
]


def refusals(room):
    """Checks that each refusal of a file prints its line and leaves OUT empty, and that lack of memory prints its line."""
    for file, line in REFUSED:
        room.write("file", file)
        room.expect(line, room.run("expand", "file", "back"), (2, b"", f"ccsds: {line}\n"))
        room.expect(f"{line}: OUT", room.read("back"), b"")
    room.write("raw", bytes(1 << 25))
    words = ["compress", "--columns", 4096, "--rows", 4096, "--bands", 1, "--bits", 16, "raw", "file"]
    room.expect("memory", room.run(*words, limit=1 << 25), (3, b"", "ccsds: 12 WantOfMemory\n"))


def main():
    with tempfile.TemporaryDirectory() as folder:
        room = Room(folder, sys.argv[1] if len(sys.argv) > 1 else PROGRAM)
        for part in (layouts, options, documented, predictors, files, refusals):
            part(room)
    print(f"options.py: {room.passed} passed, {room.failed} failed")
    return 1 if room.failed else 0


if __name__ == "__main__":
    sys.exit(main())
