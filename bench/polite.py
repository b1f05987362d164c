#!/usr/bin/env python3
"""Compares `ccsds compress` by predictors in threads with one thread, on idle processors and on busy ones.

    bench/polite.py [PROGRAM..]         the programs to measure; without any, the one that `make` builds

For each program and each order of the encoding (by line, by pixel, by band) it compresses a seeded scene on one thread, and with
`--predictors N`. It does so beside nothing, and then beside as many processes that only spin as there are processors. It prints a
table in Markdown: wall time, user time and system time in seconds, and how many times those of one thread the wall time and the
processor time (user and system together) are. Each line is the best of TURNS runs by wall time; the programs take turns. A run
that takes longer than LIMIT seconds is ended, and its line says so.

On a machine that does other work the processors aren't idle, so there compare programs only with each other.

In the environment: TURNS (3), PREDICTORS (3), LIMIT (60), and the scene's COLUMNS (200), ROWS (200) and BANDS (40).
"""

import os
import random
import signal
import subprocess
import sys
import tempfile
import time

TOP = os.path.dirname(os.path.dirname(os.path.abspath(__file__)))
PROGRAM = os.path.join(TOP, "crates", "ccsds", "out", "ccsds")
TURNS = int(os.environ.get("TURNS", "3"))
PREDICTORS = int(os.environ.get("PREDICTORS", "3"))
LIMIT = float(os.environ.get("LIMIT", "60"))
COLUMNS, ROWS, BANDS = (int(os.environ.get(name, number)) for name, number in (("COLUMNS", "200"), ("ROWS", "200"), ("BANDS", "40")))
BITS = 12
ORDERS = {"by line": ["bi", "--depth", "1"], "by pixel": ["bi", "--depth", str(BANDS)], "by band": ["bsq"]}


def scene():
    """Returns the raw bytes of a scene: in each band a walk that stays near the one of the band before it."""
    chance = random.Random(1)
    places, most = COLUMNS * ROWS, (1 << BITS) - 1
    heights, walks = bytearray(), [0] * places
    for _ in range(BANDS):
        height = most // 2
        for i in range(places):
            height = min(max(height + chance.randrange(-8, 9), 0), most)
            walks[i] = (3 * walks[i] + height) // 4
        heights += b"".join(walk.to_bytes(2, "big") for walk in walks)
    return bytes(heights)


class Spinners:
    """As many processes that only spin as there are processors, while a `with` block runs."""

    def __enter__(self):
        self.all = [subprocess.Popen([sys.executable, "-c", "while True: pass"]) for _ in range(os.cpu_count())]
        time.sleep(0.5)

    def __exit__(self, *_):
        for process in self.all:
            process.kill()
            process.wait()


class Times:
    """The wall time, the user time and the system time of a run, in seconds."""

    def __init__(self, wall, usage):
        self.wall, self.user, self.system = wall, usage.ru_utime, usage.ru_stime

    def processor(self):
        return self.user + self.system


def times_of(words):
    """Runs a program, and returns its times, or None where it was ended."""
    start = time.monotonic()
    process = subprocess.Popen(words)
    signal.signal(signal.SIGALRM, lambda *_: process.kill())
    signal.setitimer(signal.ITIMER_REAL, LIMIT)
    _, status, usage = os.wait4(process.pid, 0)
    signal.setitimer(signal.ITIMER_REAL, 0)
    process.returncode = os.waitstatus_to_exitcode(status)
    if process.returncode == -signal.SIGKILL:
        return None
    if process.returncode != 0:
        sys.exit(f"{' '.join(words)}: status {process.returncode}")
    return Times(time.monotonic() - start, usage)


def measure(programs, order, folder):
    """Returns the best times of each program, on one thread and with predictors; None where a run was ended."""
    best, files = {}, set()
    sizes = ["--columns", COLUMNS, "--rows", ROWS, "--bands", BANDS, "--bits", BITS, "--order", *ORDERS[order]]
    for _ in range(TURNS):
        for program in programs:
            for predictors in (0, PREDICTORS):
                key = (program, predictors)
                if key in best and best[key] is None:
                    continue
                out = os.path.join(folder, "out")
                words = [program, "compress", *map(str, sizes), "--predictors", str(predictors), os.path.join(folder, "raw"), out]
                found = times_of(words)
                if found:
                    with open(out, "rb") as file:
                        files.add(file.read())
                    found = min(found, best.get(key, found), key=lambda times: times.wall)
                best[key] = found
    if len(files) > 1:
        sys.exit(f"{order}: the files differ")
    return best


def report(processors, order, programs, best):
    for program in programs:
        one = best[program, 0]
        for predictors in (0, PREDICTORS):
            found = best[program, predictors]
            name = f"| {processors} | {order} | {program} | {predictors} |"
            if not found or not one:
                print(f"{name} over {LIMIT:.0f} | | | | |", flush=True)
                continue
            ratios = f"{found.wall / one.wall:.2f} | {found.processor() / one.processor():.2f}"
            print(f"{name} {found.wall:.2f} | {found.user:.2f} | {found.system:.2f} | {ratios} |", flush=True)


def main():
    if sys.argv[1:2] in (["-h"], ["--help"]):
        print(__doc__.strip())
        return
    programs = sys.argv[1:] or [PROGRAM]
    for program in programs:
        if not os.access(program, os.X_OK):
            sys.exit(f"there is no program {program}")
    with tempfile.TemporaryDirectory() as folder:
        with open(os.path.join(folder, "raw"), "wb") as raw:
            raw.write(scene())
        print("| processors | order | program | predictors | wall | user | system | wall by one thread's | processor time by one thread's |")
        print("|---|---|---|---|---|---|---|---|---|")
        for order in ORDERS:
            report("idle", order, programs, measure(programs, order, folder))
        for order in ORDERS:
            with Spinners():
                best = measure(programs, order, folder)
            report("busy", order, programs, best)


if __name__ == "__main__":
    main()
