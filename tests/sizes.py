#!/usr/bin/env python3
"""Checks the built program at the greatest sizes, and in no more memory than a scene needs.

    tests/sizes.py [PROGRAM]

No contract can refuse a function that returns `WantOfMemory` without need, or allocates far too much. Therefore each size takes its
greatest value here, in each order that the program treats differently, and some scenes have more than 2^24 or 2^26 samples. With
GIGABYTES=1 in the environment, a scene of a gigabyte comes last, or of as many as are asked for.
"""

import filecmp
import os
import random
import sys
import tempfile

from harness import PROGRAM, USUAL, Room, header, inspected

CODERS = ("sample", "block")

# Columns, rows and bands. In the last, and in that of two columns, there are enough rows for residuals to take the samples' place band after band.
LONG = [(65_536, 3, 1), (3, 65_536, 1), (3, 1, 65_536), (65_536, 1, 2), (2, 65_536, 2), (1, 2, 65_536), (65_536, 13, 2)]
# Each order with the fewest bands that it needs and its options. In the last, the places of a row aren't consecutive.
ORDERS = {"by bands": (1, ["--order", "bsq"]), "by lines": (1, ["--order", "bi", "--depth", 1]), "by pairs": (2, ["--order", "bi", "--depth", 2])}


def sizes_of(shape, size, coder):
    """Returns the options that describe a scene with so many bytes for each sample, and the coder."""
    columns, rows, bands = shape
    one = ["--reduced", "--column-sums"] if columns == 1 else []
    return ["--columns", columns, "--rows", rows, "--bands", bands, "--bits", 8 * size, "--bytes", size, "--coder", coder, *one]


def there_and_back(room, name, raw, size, words, limit=None):
    """Checks that a scene is compressed and expanded again, in at most `limit` bytes of memory."""
    room.expect(name, room.run("compress", *words, "raw", "file", limit=limit), (0, b"", ""))
    room.expect(f"{name}, expanded", room.run("expand", "--bytes", size, "file", "back", limit=limit), (0, b"", ""))
    room.expect(f"{name}, expanded to its bytes", room.read("back") == raw, True)


def by_predictors(room, name, words, count, limit=None):
    """Checks that so many predictors compress the scene to the same file, in at most `limit` bytes of memory."""
    found = room.run("compress", *words, "--predictors", count, "raw", "other", limit=limit)
    room.expect(f"{name}, by {count} predictors", found, (0, b"", ""))
    room.expect(f"{name}, by {count} predictors: one file", room.read("other") == room.read("file"), True)


def scene(room, shape, size):
    """Writes the random raw bytes of a scene, and returns them."""
    count = shape[0] * shape[1] * shape[2]
    raw = random.Random(count).randbytes(count * size)
    room.write("raw", raw)
    return raw


def long_sides(room):
    """Checks scenes of 65,536 columns, rows or bands, in each order, with both coders, on one thread and with predictors in threads."""
    for shape in LONG:
        raw = scene(room, shape, 1)
        for coder in CODERS:
            for order, asked in ((order, asked) for order, (least, asked) in ORDERS.items() if least <= shape[2]):
                name, words = f"{shape} {order}, by {coder}", [*sizes_of(shape, 1, coder), *asked]
                there_and_back(room, name, raw, 1, words)
                by_predictors(room, name, words, 3)


def enough(count, size):
    """Returns enough bytes of memory for so many samples of `size` bytes.

    They are a cube of two bytes for each sample, a file as long as the raw bytes with as much spare capacity, and the program."""
    return (2 * size + 2) * count + (8 << 20)


# The memory in which the header of a file of any length is read: 2^22 bytes, those of the program, and what the system's libraries take.
LITTLE = 32 << 20

# The memory that threads need in addition: stacks, and what the C library reserves for each.
OF_THREADS = 512 << 20


def many_samples(room):
    """Checks more than 2^24 samples of one byte and of two, with both coders, on one thread and with predictors, in limited memory."""
    shape = (4_097, 4_096, 1)
    for size in (1, 2):
        raw, most = scene(room, shape, size), enough(shape[0] * shape[1], size)
        for coder in CODERS:
            name, words = f"{shape} of {size} bytes by {coder}", sizes_of(shape, size, coder)
            there_and_back(room, name, raw, size, words, most)
            by_predictors(room, name, words, 3, most + OF_THREADS)


def no_second_copy(room):
    """Checks that `compress` and `expand` hold the samples and the file, and no raw bytes beside them, in each layout.

    At two bytes a sample they take at most 1.45 times the raw bytes of a scene that is coded well, and at one byte 2.4 times."""
    columns, rows, bands = shape = (1_024, 1_024, 24)
    for size, times in ((2, 1.45), (1, 2.4)):
        raw = b"".join((x >> 3).to_bytes(size, "big") for x in range(columns)) * (rows * bands)
        room.write("raw", raw)
        most = int(times * len(raw)) + (8 << 20)
        for layout in ("bsq", "bil", "bip"):
            name = f"{shape} of {size} bytes by {layout} without a second copy"
            words = [*sizes_of(shape, size, "sample"), "--layout", layout, "--order", "bi", "--depth", 1]
            room.expect(name, room.run("compress", *words, "raw", "file", limit=most), (0, b"", ""))
            found = room.run("expand", "--bytes", size, "--layout", layout, "file", "back", limit=most)
            room.expect(f"{name}, expanded", found, (0, b"", ""))
            room.expect(f"{name}, expanded to its bytes", room.read("back") == raw, True)


def a_third(room, name, shape, layout, order, times):
    """Checks that a scene of which the file has a third is compressed in so many times its raw bytes of memory, and expanded again."""
    count = shape[0] * shape[1] * shape[2]
    noise = random.Random(16).randbytes(count).translate(bytes(i % 20 for i in range(256)))
    raw = bytearray(2 * count)
    raw[1::2] = noise
    room.write("raw", raw)
    words = [*sizes_of(shape, 2, "sample"), "--layout", layout, "--order", *order]
    room.expect(name, room.run("compress", *words, "raw", "file", limit=int(times * len(raw)) + (8 << 20)), (0, b"", ""))
    room.expect(f"{name}: a third", 0.3 < len(room.read("file")) / len(raw) < 0.34, True)
    room.expect(f"{name}, expanded", room.run("expand", "--layout", layout, "file", "back"), (0, b"", ""))
    room.expect(f"{name}, expanded to its bytes", room.read("back") == raw, True)


def by_rows(room):
    """Checks that `compress` holds the file and little else where raw bytes come as they are coded: at most 0.45 of the raw bytes.

    That is a few rows where both interleave the bands, and 11 planes where both are band sequential. The scenes have a third of their raw bytes left
    in their files. The planes of the fourth scene are a sixth of it, and its limit has no room for eight planes more. The last scenes have 16 and 15
    bands, the fewest of which planes are kept; their limits have no room for all planes and the file."""
    for shape, layout, order, times in (
        ((1_024, 2_048, 24), "bil", ["bi", "--depth", 1], 0.45),
        ((1_024, 2_048, 24), "bip", ["bi", "--depth", 24], 0.45),
        ((1_024, 128, 400), "bsq", ["bsq"], 0.45),
        ((1_024, 1_024, 64), "bsq", ["bsq"], 0.54),
        ((1_024, 3_072, 16), "bsq", ["bsq"], 1.05),
        ((1_024, 4_096, 15), "bsq", ["bsq"], 1.09),
    ):
        a_third(room, f"{shape} by {layout}, row by row in {times} times its bytes", shape, layout, order, times)


def in_place(room):
    """Checks that band after band `compress` holds the samples and the file, and no planes of residuals beside them: 1.35 times the raw bytes are enough.

    None of the scenes is coded while it is read: raw bytes interleave the bands, or there are too few of these, in the first scene by one. A file has
    0.31 of the raw bytes, and its memory at most an eighth more. An encoder that keeps planes, of half of the bands and at most seven, does without them
    where they can't be had; so each limit has room for them, but not for the file, too. The last limit is the bound that holds of every scene."""
    for shape, layout, times in (
        ((1_024, 4_096, 14), "bsq", 1.46),
        ((1_024, 1_600, 32), "bip", 1.35),
        ((1_024, 1_024, 64), "bil", 1.35),
        ((1_024, 3_072, 16), "bip", 1.44),
        ((1_024, 6_144, 8), "bsq", 1.5),
        ((1_024, 6_144, 8), "bsq", 1.45),
    ):
        a_third(room, f"{shape} by {layout}, in place in {times} times its bytes", shape, layout, ["bsq"], times)


def great_scene(room, gigabytes):
    """Checks these bounds on a scene of so many gigabytes: 0.45 of the raw bytes as they come, and 1.45 by another order and expanded."""
    shape = columns, rows, bands = (1_024, 1_024, 480 * gigabytes)
    chance, low = random.Random(16), bytes(i % 20 for i in range(256))
    with open(room.path("raw"), "wb") as raw:
        for _ in range(bands):
            plane = bytearray(2 * columns * rows)
            plane[1::2] = chance.randbytes(columns * rows).translate(low)
            raw.write(plane)
    size = os.path.getsize(room.path("raw"))
    for layout, order, times in (
        ("bsq", ["bsq"], 0.45),
        ("bil", ["bi", "--depth", 1], 0.45),
        ("bip", ["bi", "--depth", bands], 0.45),
        ("bil", ["bsq"], 1.45),
    ):
        name, words = f"{shape} by {layout}", [*sizes_of(shape, 2, "sample"), "--layout", layout, "--order", *order]
        room.expect(name, room.run("compress", *words, "raw", "file", limit=int(times * size)), (0, b"", ""))
        room.expect(f"{name}: a third", 0.3 < os.path.getsize(room.path("file")) / size < 0.34, True)
    room.expect(f"{shape}, expanded", room.run("expand", "--layout", "bil", "file", "back", limit=int(1.45 * size)), (0, b"", ""))
    room.expect(f"{shape}, expanded to its bytes", filecmp.cmp(room.path("raw"), room.path("back"), shallow=False), True)


def no_spare_bytes(room):
    """Checks that `expand` gives back what the file's bytes grew by ahead of what came, where that is far more than the file needs.

    The scene is coded to some 19 MB, and the bytes grow to 32 MB. It is expanded in at most 1.45 times the raw bytes."""
    columns, rows, bands = shape = (1_024, 1_024, 24)
    noise = random.Random(48).randbytes(columns * rows * bands).translate(bytes(i % 48 for i in range(256)))
    raw = bytearray(2 * len(noise))
    raw[1::2] = noise
    room.write("raw", bytes(raw))
    name = f"{shape} of noise without spare bytes"
    room.expect(name, room.run("compress", *sizes_of(shape, 2, "sample"), "--order", "bi", "--depth", 1, "raw", "file"), (0, b"", ""))
    room.expect(f"{name}: more than 2^24", 1 << 24 < len(room.read("file")) < 22 << 20, True)
    found = room.run("expand", "file", "back", limit=int(1.45 * len(raw)) + (8 << 20))
    room.expect(f"{name}, expanded", found, (0, b"", ""))
    room.expect(f"{name}, expanded to its bytes", room.read("back") == bytes(raw), True)


def great_refusals(room):
    """Checks that more than 2^24 samples are refused for what is wrong with them, and not for lack of memory.

    There are too few or too many raw bytes, the last sample is out of range or doesn't fit in one byte, or a file is cut or has a byte
    too many. `inspect` prints the header of the intact file."""
    columns, rows = 4_097, 4_096
    count, last = columns * rows, columns * rows - 1
    words = ["--columns", columns, "--rows", rows, "--bands", 1, "--bits", 9]
    # Samples of 0, except for the last, which is the least that doesn't fit in one byte.
    raw = bytes(last << 1) + (256).to_bytes(2, "big")
    for name, given, line in (
        ("a byte too few", raw[:-1], f"14 RawLength {2 * count} {2 * count - 1}"),
        ("a byte too many", raw + b"\0", f"14 RawLength {2 * count} {2 * count + 1}"),
        ("a last sample of ten bits", raw[:-2] + (512).to_bytes(2, "big"), f"13 SampleRange {last}"),
    ):
        room.write("raw", given)
        room.expect(f"{count} samples, {name}", room.run("compress", *words, "raw", "none"), (2, b"", f"ccsds: {line}\n"))
    room.write("raw", raw)
    for coder in CODERS:
        name = f"{count} samples by {coder}"
        room.expect(name, room.run("compress", *words, "--coder", coder, "raw", "file"), (0, b"", ""))
        told_of = room.run("inspect", read="file")
        room.expect(f"{name}, inspected", (told_of[0], b"\nheader 19\n" in told_of[1], told_of[2]), (0, True, ""))
        file = room.read("file")
        os.truncate(room.path("file"), 3 << 30)
        room.expect(f"{name} and zeros to 3 GB, inspected in little memory", room.run("inspect", read="file", limit=LITTLE), told_of)
        room.write("file", file)
        room.expect(f"{name}, a last sample of nine bits", room.run("expand", "--bytes", 1, "file", "none"), (2, b"", f"ccsds: 13 SampleRange {last}\n"))
        room.write("file", file[:-2])
        room.expect(f"{name}, cut", room.run("expand", "file", "none"), (2, b"", f"ccsds: 6 Truncated {8 * len(file) - 16}\n"))
        room.write("file", file + b"\0")
        found = room.run("expand", "file", "none")
        lines = [f"ccsds: 11 TooLong {bits}\n" for bits in range(8, 16)]
        room.expect(f"{name}, a byte too many", (*found[:2], found[2] in lines), (2, b"", True))


def most_samples(room):
    """Checks more than 2^26 samples with two predictors, in limited memory.

    The prediction is simple and the predictors have many slots, to save time."""
    shape = (4_097, 8_192, 2)
    count = shape[0] * shape[1] * shape[2]
    raw = (random.Random(26).randbytes(1 << 20) * 65)[:count]
    room.write("raw", raw)
    words = [*sizes_of(shape, 1, "sample"), "--order", "bi", "--previous", 0, "--reduced", "--column-sums", "--predictors", 2, "--slots", 65_536]
    there_and_back(room, f"{shape} by 2 predictors", raw, 1, words, enough(count, 1) + OF_THREADS)


def great_show(room):
    """Checks that `show` prints the file that `compress` writes with the same parameters, at 65,536 columns and up to 257 rows."""
    # A read from a pipe returns at most 65,536 bytes, and a read from a file all that it asks for.
    for rows, from_file in ((5, False), (5, True), (257, True)):
        name = f"65,536 columns and {rows} rows from a {'file' if from_file else 'pipe'}"
        raw = random.Random(5).randbytes(rows << 16)
        room.write("raw", raw)
        sizes = ["--columns", 65_536, "--rows", rows, "--bands", 1, "--bits", 8, "--bytes", 1]
        common = ["--previous", 0, "--reduced", "--column-sums", "--register", 32]
        room.expect(f"{name} as show codes them", room.run("compress", *sizes, *common, "raw", "file"), (0, b"", ""))
        cube = bytes([0, 0, *rows.to_bytes(2, "big"), 0, 1]) + raw
        room.write("cube", cube)
        status, shown, line = room.run("show", **({"read": "cube"} if from_file else {"given": cube}))
        room.expect(f"{name} are shown", (status, line), (0, ""))
        room.expect(f"{name} are shown: the file", shown == room.read("file").hex().encode() + b"\n", True)


def great_tables(room):
    """Checks a file with the most bands and both tables: weights of three bits and accumulator constants, all 0.

    It has one pixel of 8 bits, with 15 previous bands in reduced mode. The sample of band 0 is predicted as 128, and each other as the
    sample of the band below. Every residual is 0, written as eight zeros."""
    bands, near = 65_536, 15
    weights = near * bands - near * (near + 1) // 2
    tables = bytes(weights * 3 // 8), bytes(bands // 2)
    front = header((3, 0x00), (4, 0x01), (5, 0x00), (6, 0x00), (12, near << 2 | 2), (16, 0x63), (17, 0x82), (18, 0x3F))
    file = front[:17] + tables[0] + front[17:] + tables[1]
    lines = USUAL | {"columns": 1, "rows": 1, "bands": bands, "bits": 8, "previous": near, "mode": "reduced", "sums": "column", "register": 32}
    lines |= {"start": "table 3", "k": "table", "header": len(file)}
    room.expect("great tables are inspected", room.run("inspect", given=file), (0, inspected(lines), ""))
    room.write("file", file + bytes(bands))
    room.expect("a file with great tables", room.run("expand", "--bytes", 1, "file", "back"), (0, b"", ""))
    room.expect("a file with great tables, expanded", room.read("back") == bytes([128]) * bands, True)


def main():
    with tempfile.TemporaryDirectory() as folder:
        room = Room(folder, sys.argv[1] if len(sys.argv) > 1 else PROGRAM)
        for part in (long_sides, many_samples, no_second_copy, by_rows, in_place, no_spare_bytes, great_refusals, most_samples, great_show, great_tables):
            part(room)
        if "GIGABYTES" in os.environ:
            great_scene(room, int(os.environ["GIGABYTES"]))
    print(f"sizes.py: {room.passed} passed, {room.failed} failed")
    return 1 if room.failed else 0


if __name__ == "__main__":
    sys.exit(main())
