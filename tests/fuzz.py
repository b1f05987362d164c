#!/usr/bin/env python3
"""Runs the built program on damaged files, and compares its answers with those of a model.

    tests/fuzz.py [SEED [COUNT [PROGRAM]]]

The first files are the worked files with one bit flipped, once for each bit. Then come COUNT files, damaged, cut, lengthened
or random; SEED alone determines them. `expand` and `inspect` run on each file in 512 MB of memory, for at most a second of
processor time. The status, the line on standard error and the output have to equal those of tests/model. SEED defaults to 1,
COUNT to 20,000, and PROGRAM to the one that `rt ci` builds.
"""

import itertools
import multiprocessing
import os
import random
import re
import resource
import signal
import sys
import tempfile
from pathlib import Path

sys.dont_write_bytecode = True
from model.bits import Refusal
from model.coders import residuals
from model.header import header, inspected
from model.predictor import raw_bytes

HERE = Path(__file__).resolve().parent
ROWS = HERE.parent / "crates/coder_tests/src/rows.rt"
PROGRAM = HERE.parent / "crates/ccsds/out/ccsds"
HEADER = "00 00 01 00 01 00 01 11 00 00 08 00 02 a0 92 59 00 82 26"
"""The header of one sample. A row lists the bytes that differ from it, and after a plus the byte that is inserted."""
ROOM = "/dev/shm" if os.access("/dev/shm", os.W_OK) else None
"""The folder in which the temporary one is made: one in memory, where the system has it, or else the usual one."""
MEMORY = 512 << 20
SECOND = 1.0
WHILE = 60
"""The seconds after which the program is killed."""
MADE = os.O_WRONLY | os.O_CREAT | os.O_TRUNC
MOST_SAMPLES = 20_000
"""The most samples of a cube whose raw bytes are compared, since the model is slow."""


# ---- files


def worked_files():
    """Returns the files of the worked examples. The last two columns of a row are the header and the body."""
    files = []
    for table in re.findall(r'&str = "\\\n(.*?)";', ROWS.read_text(), re.DOTALL):
        for row in re.sub(r"\\\n *", "", table).split("\n"):
            *_, changes, body = row.split("|")
            header = bytearray.fromhex(HEADER)
            for change in changes.split():
                place, sign, byte = re.split("([:+])", change)
                header[int(place) : int(place) + (sign == ":")] = bytes.fromhex(byte)
            files.append(bytes(header) + bytes.fromhex(body))
    return files


def turned_bits(files):
    """Yields each file once for each of its bits, with that bit flipped."""
    for file in files:
        for bit in range(8 * len(file)):
            turned = bytearray(file)
            turned[bit // 8] ^= 0x80 >> bit % 8
            yield bytes(turned)


def table_fields(entries, bits):
    """Returns the fields of a table, filled with zeros to a whole byte."""
    return [(entry, bits) for entry in entries] + [(0, -bits * len(entries) % 8)]


def random_image(draw):
    """Returns columns, bands, bits, coder and all fields of an image part, with few samples or very many."""
    few = [1, 1, 1, 1, 2, 2, 3, draw.randrange(4, 12)]
    columns, rows, bands = (draw.choice(few + [draw.choice((64, 1040, 65536))]) for _ in range(3))
    bits, block = draw.choice((draw.randrange(2, 17), draw.randrange(2, 5))), draw.randrange(2)
    fields = [(draw.randrange(256), 8), (columns, 16), (rows, 16), (bands, 16), (draw.randrange(2), 1), (0, 2), (bits, 4)]
    fields += [(draw.randrange(2), 1), (draw.randrange(1, bands + 1), 16), (0, 2), (draw.randrange(8), 3), (block, 1), (0, 10)]
    return columns, bands, bits, block, fields


def random_predictor(draw, columns, bands):
    """Returns the fields of a predictor part, sometimes with a weight table."""
    previous, omega, one_column = draw.randrange(16), draw.randrange(4, 20), columns == 1
    reduced = draw.randrange(2) or one_column
    fields = [(0, 2), (previous, 4), (reduced, 1), (0, 1)]
    fields += [(draw.randrange(2) or one_column, 1), (0, 1), (draw.choice((0, 40, 48, 63)), 6), (omega - 4, 4)]
    fields += [(draw.randrange(8), 4), (draw.randrange(8), 4), (draw.randrange(8, 16), 4), (0, 1)]
    if bands > 100 or draw.randrange(4):
        return fields + [(0, 7)]
    resolution = draw.randrange(3, omega + 4)
    count = sum(min(band, previous) + (0 if reduced else 3) for band in range(bands))
    table = table_fields([draw.randrange(1 << resolution) for _ in range(count)], resolution)
    return fields + [(1, 1), (1, 1), (resolution, 5)] + table


def random_coder(draw, block, bands, bits):
    """Returns the fields of the part of either coder, sometimes with an accumulator table."""
    if block:
        restricted = bits <= 4 and draw.randrange(2)
        return [(0, 1), (draw.randrange(4), 2), (restricted, 1), (draw.choice((1, 4, 65, 0)), 12)]
    zero = draw.randrange(1, 6)
    fields = [(draw.randrange(8, 33), 5), (draw.randrange(zero - 3 if zero > 3 else 0, 6), 3), (zero, 3)]
    if bands > 100 or draw.randrange(4):
        return fields + [(draw.randrange(bits - 1), 4), (0, 1)]
    return fields + [(15, 4), (1, 1)] + table_fields([draw.randrange(bits - 1) for _ in range(bands)], 4)


def random_header(draw):
    """Returns a header that is nearly always lawful."""
    columns, bands, bits, block, fields = random_image(draw)
    fields += random_predictor(draw, columns, bands) + random_coder(draw, block, bands, bits)
    text = "".join(f"{int(value) % (1 << width):0{width}b}" for value, width in fields if width)
    return int(text, 2).to_bytes(len(text) // 8, "big")


def random_body(draw):
    """Returns bytes in which ones are frequent, rare, or as frequent as zeros."""
    length = draw.choice((0, 1, 3, draw.randrange(40), draw.randrange(300)))
    density = draw.choice((0.5, 0.2, 0.05, 0.9))
    bits = "".join("1" if draw.random() < density else "0" for _ in range(8 * length))
    return int(bits or "0", 2).to_bytes(length, "big")


def damaged(draw, file):
    """Returns a file with one, two or five random changes."""
    file = bytearray(file)
    for _ in range(draw.choice((1, 1, 2, 5))):
        at = draw.randrange(len(file)) if file else 0
        way = draw.randrange(6)
        if way == 0:
            file = file[:at]
        elif way == 1:
            file += bytes(draw.randrange(1, 12))
        elif way == 2:
            file += draw.randbytes(draw.randrange(1, 12))
        elif way == 3:
            file[at:] = random_body(draw)
        elif file and way == 4:
            file[at] = draw.randrange(256)
        elif file:
            file[at] ^= 1 << draw.randrange(8)
    return bytes(file)


def damaged_file(files, seed):
    """Returns the file that a seed determines: random bytes, a random header and body, or a damaged file."""
    draw = random.Random(seed)
    way = draw.randrange(8)
    if way == 0:
        return draw.randbytes(draw.randrange(64))
    if way < 4:
        return random_header(draw) + random_body(draw)
    if way == 4:
        return damaged(draw, random_header(draw) + random_body(draw))
    return damaged(draw, draw.choice(files))


# ---- expected answers


def due_of_expand(file):
    """Returns the expected status, line and raw bytes of `expand`, or None for raw bytes that aren't compared."""
    try:
        params, numbers = residuals(file)
    except Refusal as refusal:
        return 2, f"ccsds: {refusal}\n", b""
    if params.count > MOST_SAMPLES:
        return 0, "", None
    return 0, "", raw_bytes(params, numbers)


def due_of_inspect(file):
    """Returns the expected status, line and output of `inspect`."""
    try:
        return 0, "", inspected(header(file)).encode()
    except Refusal as refusal:
        return 2, f"ccsds: {refusal}\n", b""


# ---- actual answers


def run(program, words, given, room):
    """Runs the program, and returns its status, standard error, standard output and seconds of processor time."""
    ends = (given, os.O_RDONLY), (f"{room}.stdout", MADE), (f"{room}.line", MADE)
    actions = [(os.POSIX_SPAWN_OPEN, end, path, flags, 0o600) for end, (path, flags) in enumerate(ends)]
    child = os.posix_spawn(program, [program, *words], os.environ, file_actions=actions)
    signal.signal(signal.SIGALRM, lambda *_: os.kill(child, signal.SIGKILL))
    signal.alarm(WHILE)
    _, status, used = os.wait4(child, 0)
    signal.alarm(0)
    written, line = Path(f"{room}.stdout").read_bytes(), Path(f"{room}.line").read_text(errors="replace")
    return os.waitstatus_to_exitcode(status), line, written, used.ru_utime + used.ru_stime


def complaint(name, due, got):
    """Returns what is wrong with an answer, or None."""
    status, line, written, seconds = got
    if status < 0:
        return f"{name} was killed by signal {-status}"
    if (status, line) != due[:2]:
        return f"{name} ended with {status} and {line!r}, and not {due[0]} and {due[1]!r}"
    if due[2] is not None and written != due[2]:
        return f"{name} wrote {written.hex()}, and not {due[2].hex()}"
    if seconds > SECOND:
        return f"{name} took {seconds:.1f} seconds"
    return None


class Trial:
    """The program, a folder to run it in, and the worked files."""

    def __init__(self, program, room, files):
        self.program = program
        self.room = room
        self.files = files

    def checked(self, file):
        """Returns the status of `expand`, and what is wrong with the program's answers to a file."""
        room = f"{self.room}/{os.getpid()}"
        there, out = f"{room}.in", f"{room}.out"
        Path(there).write_bytes(file)
        Path(out).write_bytes(b"")
        lines = run(self.program, ["inspect"], there, room)
        status, line, printed, seconds = run(self.program, ["expand", there, out], os.devnull, room)
        expanded = (status, line, printed + Path(out).read_bytes(), seconds)
        found = [complaint("expand", due_of_expand(file), expanded), complaint("inspect", due_of_inspect(file), lines)]
        return status, [f"{what}\n  file {file.hex()}" for what in found if what]

    def made_and_checked(self, number):
        return self.checked(damaged_file(self.files, number))


def hold_to_memory():
    resource.setrlimit(resource.RLIMIT_AS, (MEMORY, MEMORY))


def main(seed="1", count="20000", program=PROGRAM):
    seed, count, program = int(seed), int(count), str(Path(program).resolve())
    if not os.access(program, os.X_OK):
        sys.exit(f"there is no program {program}")
    files = worked_files()
    numbers = range(seed << 32, (seed << 32) + count)
    done, expanded, wrong = 0, 0, 0
    with tempfile.TemporaryDirectory(dir=ROOM) as room:
        trial = Trial(program, room, files)
        with multiprocessing.get_context("fork").Pool(os.cpu_count(), hold_to_memory) as pool:
            turned = pool.imap_unordered(trial.checked, turned_bits(files), 32)
            made = pool.imap_unordered(trial.made_and_checked, numbers, 32)
            for status, complaints in itertools.chain(turned, made):
                done += 1
                expanded += status == 0
                wrong += len(complaints)
                for what in complaints:
                    print(f"FAILED: {what}")
    print(f"fuzz.py: seed {seed}, {done} files, of which {expanded} were expanded, {wrong} wrong answers")
    sys.exit(wrong > 0)


if __name__ == "__main__":
    main(*sys.argv[1:])
