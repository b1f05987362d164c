"""What the scripts that run the built program share: its runs and their counts, raw layouts, headers, and samples that a seed decides."""

import itertools
import os
import resource
import subprocess

from workroom import Workroom

TOP = os.path.dirname(os.path.dirname(os.path.abspath(__file__)))
PROGRAM = os.path.join(TOP, "crates", "ccsds", "out", "ccsds")
LIMIT = 120
"""The most seconds that a run may take."""

# For each layout, the index of the sample at band z, row y and column x in a cube of nx columns, ny rows and nz bands.
LAYOUTS = {
    "bsq": lambda z, y, x, nx, ny, nz: (z * ny + y) * nx + x,
    "bil": lambda z, y, x, nx, ny, nz: (y * nz + z) * nx + x,
    "bip": lambda z, y, x, nx, ny, nz: (y * nx + x) * nz + z,
}

# The lines of `inspect` for an image of four columns, two rows and three bands whose options are left out.
USUAL = {
    "user": 0, "columns": 4, "rows": 2, "bands": 3, "sample": "unsigned", "bits": 12, "order": "bsq", "word": 1, "coder": "sample",
    "previous": 3, "mode": "full", "sums": "neighbour", "register": 64, "omega": 13, "interval": 64, "vmin": -1, "vmax": 3,
    "start": "usual", "umax": 16, "gamma-star": 6, "gamma-zero": 1, "k": 3, "header": 19,
}

# The header of two samples of eight bits, one row below the other.
HEADER = "00 0001 0002 0001 11 0000 08 00 02 a0 92 59 00 82 26"


class Room(Workroom):
    """A folder, the program that runs in it, and the counts of checks that passed and failed."""

    def __init__(self, folder, program):
        super().__init__(folder)
        self.program, self.passed, self.failed = os.path.realpath(program), 0, 0

    def run(self, *words, given=b"", read=None, limit=None, processors=None):
        """Runs the program, and returns its status, its standard output and its standard error.

        Its standard input is the file that `read` names, or else a pipe with the given bytes. `limit` is the most memory in bytes,
        and `processors` are those that it may run on."""

        def bound():
            if limit:
                resource.setrlimit(resource.RLIMIT_AS, (limit, limit))
            if processors:
                os.sched_setaffinity(0, processors)

        with open(self.path(read) if read else os.devnull, "rb") as file:
            how = {"capture_output": True, "cwd": self.folder, "preexec_fn": bound, "timeout": LIMIT, "check": False}
            how |= {"stdin": file} if read else {"input": given}
            ran = subprocess.run([self.program, *map(str, words)], **how)
        return ran.returncode, ran.stdout, ran.stderr.decode()

    def expect(self, name, found, wanted):
        if found == wanted:
            self.passed += 1
        else:
            self.failed += 1
            print(f"FAILED: {name}: {str(found)[:300]}, and not {str(wanted)[:300]}")


def raw_bytes(samples, shape, layout, size, little, signed):
    """Returns the raw bytes of samples, given in band sequential order, in a layout with `size` bytes for each."""
    nx, ny, nz = shape
    found = [b""] * len(samples)
    for i, (z, y, x) in enumerate(itertools.product(range(nz), range(ny), range(nx))):
        end = "little" if little else "big"
        found[LAYOUTS[layout](z, y, x, nx, ny, nz)] = samples[i].to_bytes(size, end, signed=signed)
    return b"".join(found)


def inspected(fields):
    """Returns the lines that `inspect` prints of these fields."""
    return "".join(f"{name} {value}\n" for name, value in fields.items()).encode()


def header(*changes):
    """Returns the header of two samples with some bytes replaced, each given as its position and its value."""
    found = bytearray.fromhex(HEADER)
    for place, byte in changes:
        found[place] = byte
    return bytes(found)


def samples_of(chance, count, low, high):
    """Returns samples that are independent, follow a slow random walk, or are all equal."""
    form, found, value = chance.choice(("any", "walk", "alike")), [], chance.randint(low, high)
    step = max(1, (high - low) // 50)
    for _ in range(count):
        if form == "any":
            value = chance.randint(low, high)
        elif form == "walk":
            value = min(high, max(low, value + chance.randint(-step, step)))
        found.append(value)
    return found
