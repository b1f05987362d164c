#!/usr/bin/env python3
"""Proves and builds a program or a static library, after the libraries that it depends on, which are built in parallel.

    tools/build.py CRATE [--cpu CPU]

CPU is the processor that the code is made for, as `x86-64-v3`; without it the toolchain's own choice, `x86-64-v2`.

`rt` works on one crate of a folder at a time, since it locks the libraries that the crate depends on. Therefore each library is built in
a folder of its own outside the repository, with copies of its sources and of the build results that it needs. `rt` recognises a
crate that is up to date, which takes a second. Lines on standard error report the start and the end of each crate, and from time
to time which ones are still running.
"""

import argparse
import os
import shutil
import subprocess
import sys
import tempfile
import threading
import time
from concurrent.futures import FIRST_COMPLETED, ThreadPoolExecutor, wait

TOP = os.path.dirname(os.path.dirname(os.path.abspath(__file__)))
SOURCES = ("src", "specs", "proofs")
# The most seconds that may pass without a line.
SILENCE = 100
# The minutes below which a crate counts as up to date: `rt` doesn't prove any crate so fast.
QUICK = 0.1
# The share of the longest chain from which on a chain counts as long.
MUCH = 0.6
# The memory that one more job of a proof may take, in kilobytes.
JOB = 1_500_000


def rows_of_crates():
    """Returns the words before and after the colon of each line of crates.txt."""
    with open(os.path.join(TOP, "crates.txt"), encoding="utf-8") as file:
        rows = [line.partition("#")[0].partition(":") for line in file if line.strip()]
    return [(name.split(), below.split()) for name, _, below in rows if name.strip()]


def is_static_library(crate):
    return any(name[0] == crate and "staticlib" in name for name, _ in rows_of_crates())


def libraries_of_crates():
    """Returns the libraries of this repository that each crate of crates.txt depends on directly."""
    named = {name[0]: below for name, below in rows_of_crates()}
    return {name: [it for it in below if it in named] for name, below in named.items()}


def below(crate, libraries):
    """Returns the libraries that a crate depends on, each after its own dependencies."""
    found = []
    for it in libraries[crate]:
        found += [one for one in [*below(it, libraries), it] if one not in found]
    return found


def folder_of(crate, top=TOP):
    return os.path.join(top, "crates", crate)


def weight_of(crate):
    """Returns the number of lines to prove, a rough measure of the time that it takes."""
    total = 0
    for part in SOURCES:
        for folder, _, names in os.walk(os.path.join(folder_of(crate), part)):
            for name in names:
                with open(os.path.join(folder, name), "rb") as file:
                    total += sum(1 for _ in file)
    return total


def jobs_of_a_proof():
    """Returns how many jobs a proof may have: one a processor, as far as free memory goes."""
    with open("/proc/meminfo", encoding="utf-8") as file:
        free = next((int(line.split()[1]) for line in file if line.startswith("MemAvailable:")), 0)
    return max(1, min(len(os.sched_getaffinity(0)), free // JOB - 1))


def link_or_copy(source, target):
    try:
        os.link(source, target)
    except OSError:
        shutil.copy2(source, target)


class Build:
    """The libraries to build, and the state of each."""

    def __init__(self, crate, room):
        self.room = room
        self.libraries = libraries_of_crates()
        self.wanted = below(crate, self.libraries)
        self.after = self.longest_ways(crate)
        self.ended, self.begun, self.failed = set(), {}, []
        self.printing = threading.Lock()
        self.told = time.monotonic()

    def longest_ways(self, crate):
        """Returns, for each crate, the number of lines to prove along the longest chain of dependents that begins with it."""
        after = {}
        for it in reversed([*self.wanted, crate]):
            above = [after[one] for one in after if it in self.libraries[one]]
            after[it] = weight_of(it) + max(above, default=0)
        return after

    def say(self, text):
        with self.printing:
            print(text, file=sys.stderr, flush=True)
            self.told = time.monotonic()

    def build_libraries(self):
        processors = len(os.sched_getaffinity(0))
        left, running = sorted(self.wanted, key=lambda it: -self.after[it]), {}
        with ThreadPoolExecutor(processors) as pool:
            while (left and not self.failed) or running:
                ready = [it for it in left if self.ended.issuperset(self.libraries[it])]
                most = max((self.after[it] for it in [*ready, *running.values()]), default=0)
                long = [it for it in [*ready, *running.values()] if self.after[it] >= MUCH * most]
                for it in ready[: 0 if self.failed else processors - len(running)]:
                    # A proof has stretches that one processor does alone. So each crate on a long chain gets as many jobs as there are
                    # processors, and the others, of a single job each and a lower priority, take what they leave.
                    is_long = it in long
                    running[pool.submit(self.build, it, jobs_of_a_proof() if is_long else 1, is_long)] = it
                    left.remove(it)
                done, _ = wait(running, timeout=5, return_when=FIRST_COMPLETED)
                for it in done:
                    self.end(running.pop(it), *it.result())
                self.break_silence(running.values())
        return not self.failed

    def build_top(self, crate, target, cpu):
        """Builds a static library, for another target where one is named; or a program, by running it with its stored arguments and input."""
        self.begun[crate] = time.monotonic()
        self.say(f"        {crate} begins")
        folder = folder_of(crate)
        words, given = ["rt", "lib" if is_static_library(crate) else "run"], os.path.join(folder, "stdin")
        words += ["--jobs", str(jobs_of_a_proof()), *(["--target", target] if target else []), *(["--cpu", cpu] if cpu else [])]
        if os.path.isfile(os.path.join(folder, "args")):
            with open(os.path.join(folder, "args"), encoding="utf-8") as file:
                words += ["--", *file.read().splitlines()]
        with open(given if os.path.isfile(given) else os.devnull, "rb") as stdin, tempfile.TemporaryFile("w+") as said:
            ran = subprocess.Popen(words, cwd=folder, stdin=stdin, stdout=subprocess.DEVNULL, stderr=said)
            while ran.poll() is None:
                time.sleep(0.1)
                self.break_silence([crate])
            said.seek(0)
            self.end(crate, ran.returncode == 0, said.read())
        return not self.failed

    def break_silence(self, crates):
        if time.monotonic() - self.told > SILENCE:
            going = ", ".join(f"{it} ({self.minutes(it):.1f} minutes so far)" for it in crates)
            self.say(f"        still at {going}")

    def minutes(self, crate):
        return (time.monotonic() - self.begun[crate]) / 60

    def end(self, crate, is_well, said):
        if not is_well:
            self.failed.append(crate)
            self.say(f"{said}\n{crate} is not proved")
            return
        self.ended.add(crate)
        told = "is up to date" if self.minutes(crate) < QUICK else f"is proved: {self.minutes(crate):.1f} minutes"
        self.say(f"[{len(self.ended):2} of {len(self.wanted) + 1}] {crate} {told}")

    def build(self, crate, jobs, is_long):
        """Builds a library in a folder of its own, and moves the result back."""
        self.begun[crate] = time.monotonic()
        self.say(f"        {crate} begins")
        top = os.path.join(self.room, crate)
        self.furnish(top, crate)
        made, kept = os.path.join(folder_of(crate, top), "out"), os.path.join(folder_of(crate), "out")
        words = ([] if is_long else ["nice", "-n", "3"]) + ["rt", "lib", "--jobs", str(jobs)]
        how = {"stdin": subprocess.DEVNULL, "stdout": subprocess.PIPE, "stderr": subprocess.STDOUT, "text": True}
        try:
            ran = subprocess.run(words, cwd=folder_of(crate, top), check=False, **how)
        finally:
            if os.path.isdir(made):
                shutil.rmtree(kept, ignore_errors=True)
                shutil.move(made, kept)
        return ran.returncode == 0, ran.stdout

    def furnish(self, top, crate):
        """Copies the sources of a library and of those that it depends on, with their earlier build results."""
        crates = [*below(crate, self.libraries), crate]
        for it in crates:
            for part in SOURCES:
                source = os.path.join(folder_of(it), part)
                if os.path.isdir(source):
                    shutil.copytree(source, os.path.join(folder_of(it, top), part))
            built = os.path.join("out", "rlib") if it != crate else "out"
            source = os.path.join(folder_of(it), built)
            if os.path.isdir(source):
                shutil.copytree(source, os.path.join(folder_of(it, top), built), copy_function=link_or_copy)
        with open(os.path.join(TOP, "crates.txt"), encoding="utf-8") as rows:
            own = [row for row in rows if row.partition(":")[0].split()[:1] and row.partition(":")[0].split()[0] in crates]
        with open(os.path.join(top, "crates.txt"), "w", encoding="utf-8") as file:
            file.writelines(own)


def build_crate(crate, target=None, cpu=None):
    """Proves and builds a crate and what it depends on, for a target and a processor, and returns whether all is well."""
    if not shutil.which("rt"):
        sys.exit("the toolchain is needed to build this: its command rt isn't in the PATH (README names the versions)")
    start = time.monotonic()
    with tempfile.TemporaryDirectory(prefix="build-") as room:
        build = Build(crate, room)
        is_well = build.build_libraries() and build.build_top(crate, target, cpu)
    if is_well:
        print(f"{crate} is built: {(time.monotonic() - start) / 60:.1f} minutes in all", file=sys.stderr)
    return is_well


def main():
    parser = argparse.ArgumentParser(description="Proves and builds a program or a static library.")
    parser.add_argument("crate")
    parser.add_argument("--cpu", help="the processor that the code is made for, as x86-64-v3")
    words = parser.parse_args()
    return 0 if build_crate(words.crate, cpu=words.cpu) else 1


if __name__ == "__main__":
    sys.exit(main())
