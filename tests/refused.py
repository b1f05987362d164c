#!/usr/bin/env python3
"""Refuses each memory allocation, each read and each write of the built program in turn, and limits its memory.

    tests/refused.py [PROGRAM]

`tests/refuse.c`, which this script compiles with `cc`, is loaded before the program. It refuses the first allocation, then the second,
and so on, until a run makes no such call. Each run with a refusal either ends with status 3 and writes nothing, and its line
reports lack of memory or a refused thread (without memory for the line there is none); or it does without the memory: then its output is
that of an undisturbed run, and it asked for no more than that, as a run would that hides a refusal and asks again. One call alone is made
up for: without room for all words at once, the standard library collects them one by one.

Reads and writes are refused in the same way, and are split into pieces. A refused read ends with `Read` and nothing written, and a
refused write with `Write` and the bytes that were written before it. Pieces as small as a byte change nothing. Then come files that
end after their header, whatever sizes it announces.

Finally, the same is done to `refused_allocations`, a program that calls the libraries and repeats each library call that is
refused. The first few, those of its own words, end it with status 1 before any call; whichever other allocation that is, its
bodies and files are those of an undisturbed run. In a pipeline in which a predictor is stopped, as many refusals are reported as
where none is: the stop doesn't take their place. `rt ci` builds both programs where this script looks for them; `make` builds the
first.
"""

import errno
import os
import random
import resource
import statistics
import subprocess
import sys
import tempfile

from workroom import Workroom

TOP = os.path.dirname(os.path.dirname(os.path.abspath(__file__)))
PROGRAM = os.path.realpath(sys.argv[1] if len(sys.argv) > 1 else os.path.join(TOP, "crates", "ccsds", "out", "ccsds"))

CALLS = os.path.join(TOP, "crates", "refused_allocations", "out", "refused_allocations")

DONE, INPUT, REFUSED, DEVICE = 0, 2, 3, 4
MEMORY, THREAD = b"ccsds: 12 WantOfMemory\n", b"ccsds: 16 SpawnRefused\n"

# The line for a file that ends after its header of 19 bytes, and the memory in which it has to be printed.
CUT, LITTLE = b"ccsds: 6 Truncated 152\n", 32 << 20

# More allocations, reads or writes than any run here makes.
MOST = 1000


class Room(Workroom):
    """A folder with a scene, the program that runs on it, and the counts of checks that passed and failed."""

    def __init__(self, folder):
        super().__init__(folder)
        self.passed, self.failed = 0, 0

    def run(self, words, refuse=None, limit=None, program=PROGRAM, **more):
        """Runs the program, and returns its status, its standard error, and all that it wrote: standard output and `out`."""
        self.write("out", b"")
        asked = {name: str(value) for name, value in (more if refuse is None else {"REFUSE": refuse}).items()}
        around = {"LD_PRELOAD": self.path("refuse.so"), "REFUSED": self.path("mark"), "ASKED": self.path("asked")} | asked if asked else {}
        bound = (lambda: resource.setrlimit(resource.RLIMIT_AS, (limit, limit))) if limit else None
        with open(self.path("sample.file" if words == ["inspect"] else "scene.cube"), "rb") as given:
            ran = subprocess.run(
                [program, *map(str, words)], stdin=given, capture_output=True, cwd=self.folder, env=around, preexec_fn=bound, timeout=60, check=False
            )
        return ran.returncode, ran.stderr, ran.stdout + self.read("out")

    def met(self):
        """Returns whether the last run made the call to refuse."""
        try:
            os.remove(self.path("mark"))
            return True
        except FileNotFoundError:
            return False

    def asked(self):
        """Returns how many allocations the last run asked for."""
        return int(self.read("asked"))

    def expect(self, name, is_well, found):
        if is_well:
            self.passed += 1
        else:
            self.failed += 1
            print(f"FAILED: {name}: {str(found)[:300]}")


SIZES = ["--columns", 40, "--rows", 9, "--bands", 6, "--bits", 12]
# The same raw bytes as a scene of enough bands to be coded row by row in band sequential order: three times the 11 planes that are kept, or more.
MANY = ["--columns", 6, "--rows", 8, "--bands", 45, "--bits", 12]
# The same raw bytes as a scene of enough rows for residuals to take the samples' place, and as one of so few that planes of residuals are kept instead.
HIGH = ["--columns", 24, "--rows", 18, "--bands", 5, "--bits", 12]
FLAT = ["--columns", 60, "--rows", 4, "--bands", 9, "--bits", 12]
# The same raw bytes as a scene of so many rows that each is copied before it is predicted.
TALL = ["--columns", 4, "--rows", 90, "--bands", 6, "--bits", 12]
BLOCKS = ["--coder", "block", "--block", 8, "--reference", 4]

# The words of each command, and the lines that it may print on standard error when an allocation is refused, apart from none.
COMMANDS = {
    "compress, sample-adaptive": (["compress", *SIZES, "scene.raw", "out"], [MEMORY]),
    "compress, block-adaptive": (["compress", *SIZES, *BLOCKS, "--order", "bi", "--depth", 2, "scene.raw", "out"], [MEMORY]),
    "compress, in place": (["compress", *HIGH, "scene.raw", "out"], [MEMORY]),
    "compress, in place, block-adaptive": (["compress", *HIGH, *BLOCKS, "scene.raw", "out"], [MEMORY]),
    "compress, by planes of residuals": (["compress", *FLAT, "scene.raw", "out"], [MEMORY]),
    "compress, rows copied": (["compress", *TALL, "--order", "bi", "--depth", 6, "scene.raw", "out"], [MEMORY]),
    "compress, rows copied, block-adaptive": (["compress", *TALL, *BLOCKS, "--order", "bi", "--depth", 4, "scene.raw", "out"], [MEMORY]),
    "compress, row by row": (["compress", *SIZES, "--layout", "bil", "--order", "bi", "scene.raw", "out"], [MEMORY]),
    "compress, row by row, block-adaptive": (
        ["compress", *SIZES, *BLOCKS, "--layout", "bip", "--order", "bi", "--depth", 6, "scene.raw", "out"],
        [MEMORY],
    ),
    "compress, row by row, band sequential": (["compress", *MANY, "scene.raw", "out"], [MEMORY]),
    "compress, one predictor": (["compress", *SIZES, "--predictors", 1, "scene.raw", "out"], [MEMORY, THREAD]),
    "compress, three predictors": (["compress", *SIZES, "--predictors", 3, "--slots", 8, "scene.raw", "out"], [MEMORY, THREAD]),
    "expand, sample-adaptive": (["expand", "sample.file", "out"], [MEMORY]),
    "expand, block-adaptive": (["expand", "block.file", "out"], [MEMORY]),
    "inspect": (["inspect"], [MEMORY]),
    "show": (["show"], [MEMORY]),
}


def make(room):
    """Makes the scene, its files, a cube for `show`, and the library that refuses."""
    chance = random.Random(1)
    heights = [2000 + 5 * (i % 40) + chance.randrange(64) for i in range(40 * 9 * 6)]
    room.write("scene.raw", b"".join(height.to_bytes(2, "big") for height in heights))
    room.write("scene.cube", bytes([0, 40, 0, 9, 0, 6]) + bytes(height % 256 for height in heights))
    subprocess.run(["cc", "-O1", "-shared", "-fPIC", "-o", room.path("refuse.so"), os.path.join(TOP, "tests", "refuse.c")], check=True)
    for name, words in (("sample.file", []), ("block.file", BLOCKS)):
        status, line, _ = room.run(["compress", *SIZES, *words, "scene.raw", name])
        room.expect(f"making {name}", (status, line) == (DONE, b""), (status, line))


def all_asked(room, words, refuse, runs, program):
    """Returns how many allocations a program asks for in each of so many runs: which of its threads goes first may decide about one or
    two."""
    counts = []
    for _ in range(runs):
        room.run(words, refuse=refuse, program=program)
        room.met()
        counts.append(room.asked())
    return counts


def asks_no_more(room, words, nth, asked, program):
    """Returns whether a program asks for no more allocations where the one with this number is refused: a middle run of few, or, where
    chance decides about that, many runs in the mean. One that hides a refusal asks for one more in each run."""
    if statistics.median(all_asked(room, words, nth, 5, program)) <= asked:
        return True
    refused, undisturbed = (statistics.mean(all_asked(room, words, it, 30, program)) for it in (nth, 0))
    return refused < undisturbed + 0.6


def each_growth(room, name, words, lines):
    """Refuses the first allocation, then the second, and so on, until a run makes no such call.

    Returns the number of allocations, and the number of those whose refusal is reported as that of a thread. A thread is reported where
    threads are started, and nowhere else: before and after that, lack of memory is reported."""
    wanted, said, threads, made_up = room.run(words), [], 0, []
    asked = statistics.median(all_asked(room, words, 0, 5, PROGRAM))
    room.expect(name, wanted[:2] == (DONE, b"") and wanted[2], wanted)
    for nth in range(1, MOST):
        found = room.run(words, refuse=nth)
        if not room.met():
            room.expect(f"{name}: nothing refused", found == wanted, found)
            room.expect(f"{name}: what is reported in turn", said == ([MEMORY, THREAD, MEMORY] if THREAD in lines else [MEMORY]), said)
            room.expect(f"{name}: refusals that are made up for", len(made_up) <= 1, made_up)
            return nth - 1, threads
        status, line, written = found
        threads += line == THREAD
        refused = status == REFUSED and line in (*lines, b"") and written == b""
        if status == REFUSED and line and said[-1:] != [line]:
            said.append(line)
        # The program can do without memory that only makes it faster.
        room.expect(f"{name}: call {nth} refused", refused or found == wanted, found)
        if found == wanted and not asks_no_more(room, words, nth, asked, PROGRAM):
            made_up.append(nth)
    room.expect(f"{name}: more than {MOST} growths", False, None)
    return MOST, threads


# The most bytes that a read or a write transfers while one of them is refused.
PIECE = 997

# The errors of a refused read or write: a failing device, an interrupted call, one that would block, a full device, a broken pipe.
ERRORS = (errno.EIO, errno.EINTR, errno.EAGAIN, errno.ENOSPC, errno.EPIPE)


def each_read(room, name, words):
    """Refuses the first read, then the second, and so on, until a run makes no such call. Returns the number of reads."""
    wanted, nth = room.run(words), 0
    while nth < MOST:
        nth += 1
        for error in ERRORS:
            found = room.run(words, REFUSE_READ=nth, REFUSE_ERROR=error, PIECE=PIECE)
            if not room.met():
                room.expect(f"{name}: no read refused", found == wanted, found)
                return nth - 1
            room.expect(f"{name}: read {nth} refused by {error}", found == (DEVICE, b"ccsds: 18 Read\n", b""), found)
    room.expect(f"{name}: more than {MOST} reads", False, None)
    return MOST


def each_write(room, name, words):
    """Refuses the first write, then the second, and so on, until a run makes no such call. Returns the number of writes.

    The error 0 stands for a write that succeeds and takes nothing."""
    wanted, nth = room.run(words), 0
    while nth < MOST:
        nth += 1
        for error in (0, *ERRORS):
            found = room.run(words, REFUSE_WRITE=nth, REFUSE_ERROR=error, PIECE=PIECE)
            if not room.met():
                room.expect(f"{name}: no write refused", found == wanted, found)
                return nth - 1
            written = PIECE * (nth - 1)
            room.expect(f"{name}: write {nth} refused by {error}", found == (DEVICE, b"ccsds: 19 Write %d\n" % written, wanted[2][:written]), found)
    room.expect(f"{name}: more than {MOST} writes", False, None)
    return MOST


# The most bytes that a read or a write transfers while none is refused, so that inputs and outputs take many calls.
SMALL_PIECES = (1, 2, 3, 7)


def small_pieces(room, name, words):
    """Checks that reads and writes of few bytes each change nothing."""
    wanted = room.run(words)
    for piece in SMALL_PIECES:
        found = room.run(words, PIECE=piece)
        room.expect(f"{name}: in pieces of {piece}", found == wanted, found)


def line_in_pieces(room):
    """Checks that standard error receives the whole line, even where it takes few bytes at once."""
    for piece in SMALL_PIECES:
        found = room.run(["expand", "none", "out"], PIECE=piece)
        room.expect(f"the line in pieces of {piece}", found == (DEVICE, b"ccsds: 18 Read\n", b""), found)


def limits(room, name, words, lines):
    """Limits the program's memory, and checks that it succeeds, or refuses and writes nothing. Returns how often it succeeds."""
    wanted, whole = room.run(words), 0
    for pages in range(256, 8192, 64):
        found = room.run(words, limit=4096 * pages)
        status, line, written = found
        # Under the lowest limits the system can't start the program at all, and reports that itself.
        if status == REFUSED:
            room.expect(f"{name}: {pages} pages", line in (*lines, b"") and written == b"", found)
        elif status == DONE:
            whole += 1
            room.expect(f"{name}: {pages} pages", found == wanted, found)
        else:
            room.expect(f"{name}: {pages} pages", written == b"" and whole == 0, found)
    return whole


# The calls that `refused_allocations calls` makes by themselves.
NAMED = {b"write_header", b"read_header", b"BitWriter::reserve", b"lane", b"Weaver::new", b"cube_feeds", b"CutSink::new", b"Plan::new"}
# What the program prints as the name where an allocation outside all calls, such as that of a line, made it repeat everything.
EVERYTHING = {b"everything"}
# How it ends where the memory for its own words is refused, before its first library call.
NO_WORDS = (1, b"Error: out of memory\n", b"")


def each_call(room, word):
    """Refuses each allocation of `refused_allocations WORD` in turn. Returns the lines of an undisturbed run, the number of runs in
    which a refused library call is repeated, and the names of those calls."""
    status, _, wanted = room.run([word], refuse=0, program=CALLS)
    asked = statistics.median(all_asked(room, [word], 0, 5, CALLS))
    lines, last = wanted.rsplit(b"made again: ", 1)
    room.expect(f"calls, {word}", (status, last) == (DONE, b"0\n"), wanted)
    again, names, unmet, early = 0, set(), 0, 0
    for nth in range(1, MOST):
        found = room.run([word], refuse=nth, program=CALLS)
        if not room.met():
            room.expect(f"calls, {word}: nothing refused", found[2] == wanted, found)
            # Which of its threads goes first may decide whether a run asks for one allocation more.
            if nth <= asked:
                unmet += 1
                continue
            room.expect(f"calls, {word}: all are refused in turn", unmet <= 2, (unmet, asked))
            return lines, again, names
        early += found == NO_WORDS
        repeated = found[2].startswith(lines + b"made again: 1\n")
        # A program that does without memory asks for no more than before; one that hides a refusal has to ask again.
        needless = found[2] == wanted and asks_no_more(room, [word], nth, asked, CALLS)
        room.expect(f"calls, {word}: call {nth} refused", early == nth or repeated or needless, (found, asked))
        called = set(found[2].splitlines()[lines.count(b"\n") + 1 :]) if repeated else set()
        again += repeated and called != EVERYTHING
        names |= called - EVERYTHING
    room.expect(f"calls, {word}: more than {MOST} growths", False, None)
    return lines, again, names


def each_pipeline_call(room):
    """Does the same to a pipeline that nothing stops, and to one in which a predictor is stopped at its last residual."""
    whole, again, _ = each_call(room, "open")
    stopped, again_stopped, _ = each_call(room, "stopped")
    room.expect("calls: the pipeline ends", whole.startswith(b"open: "), whole)
    room.expect("calls: a predictor is stopped", stopped == b"stopped: predictor 1 after 1172\n", stopped)
    room.expect("calls: memory is reported, not the stop that comes after", again_stopped == again > 0, (again_stopped, again))
    print(f"calls: in {again_stopped} runs a refusal was reported before a stop")


def announced(room):
    """Checks that files that end after their header are refused in little memory, whatever sizes it announces."""
    chance = random.Random(2)
    sizes = [(65536, 65536, 65536)] + [tuple(1 << chance.randrange(17) for _ in range(3)) for _ in range(40)]
    for shape in sizes:
        for coder, kind in ((b"\x82\x26", b"\x08"), (b"\x00\x01", b"\x0c")):
            image = b"\x00" + b"".join((size % 65536).to_bytes(2, "big") for size in shape) + b"\x11\x00\x00" + kind + b"\x00"
            room.write("header", image + b"\x02\xa0\x92\x59\x00" + coder)
            found = room.run(["expand", "header", "out"], limit=LITTLE)
            room.expect(f"{shape} announced", found == (INPUT, CUT, b""), found)


def main():
    if not os.access(PROGRAM, os.X_OK):
        sys.exit(f"there is no program {PROGRAM}")
    with tempfile.TemporaryDirectory() as folder:
        room = Room(folder)
        make(room)
        of_threads = {}
        for name, (words, lines) in COMMANDS.items():
            growths, of_threads[name] = each_growth(room, name, words, lines)
            print(f"{name}: {growths} growths refused in turn, {of_threads[name]} of them reported as a thread's")
        # An allocation elsewhere whose refusal is reported as a thread's would count once, however many threads there are.
        one, three = of_threads["compress, one predictor"], of_threads["compress, three predictors"]
        room.expect("each thread has as many allocations whose failure is reported as its own", three == 3 * one, (one, three))
        for name, (words, _) in COMMANDS.items():
            reads, writes = each_read(room, name, words), each_write(room, name, words)
            room.expect(f"{name}: reads and writes", reads > 0 and writes > 0, (reads, writes))
            print(f"{name}: {reads} reads and {writes} writes refused in turn")
            small_pieces(room, name, words)
        line_in_pieces(room)
        for name, (words, lines) in COMMANDS.items():
            print(f"{name}: whole under {limits(room, name, words, lines)} limits of {len(range(256, 8192, 64))}")
        announced(room)
        if os.access(CALLS, os.X_OK):
            lines, again, _ = each_call(room, "all")
            room.expect("calls made again", again > 0, again)
            room.expect("calls: the files", lines.count(b"by predictors true, back true") == 3, lines)
            print(f"calls: in {again} runs a refused call was made again")
            each_pipeline_call(room)
            lines, _, names = each_call(room, "calls")
            room.expect("calls by themselves", names == NAMED, names)
            print(f"calls: each of {len(names)} is refused by itself: {b', '.join(sorted(names)).decode()}")
        print(f"{room.passed} passed, {room.failed} failed")
        sys.exit(1 if room.failed else 0)


if __name__ == "__main__":
    main()
