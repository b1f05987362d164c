#!/usr/bin/env python3
"""Tries wrong code: every must-fail edit and every slip, which the prover has to refuse.

    tools/attack.py [CRATE ...]      of these crates, or of all

The gate tries the edits in `must-fail/` one by one. Here those in `slips/` are tried too, and many at once: a check goes on past a
function that isn't proved, and says so of each, so edits of different functions are tried together, on copies of the tree over what was
proved before (`make all`). A function that calls an edited one isn't judged in that check, and its own edit is tried again in the next
one. An edit that changes more than the body of one function is tried alone, as is one that a check doesn't clearly refuse.

Prints a line as each round of checks of a crate ends, a line for each edit that isn't refused as it should be, a line as each crate ends,
and `N passed, M failed`. An edit fails if the crate is still proved with it, if it can't be applied or read, or if it is refused only since
a proof names what it takes away.
"""

import os
import re
import shutil
import subprocess
import sys
import tempfile
import time
from collections import Counter
from concurrent.futures import ThreadPoolExecutor
from pathlib import Path
from typing import NamedTuple

TOP = Path(__file__).resolve().parent.parent
sys.path.append(str(TOP / "tools"))

import build  # noqa: E402
import edits  # noqa: E402

TOGETHER = 12
"""The most edits that are tried in one check."""
MEMORY = 4_000_000
"""The memory that a check may take, in kilobytes."""
JUDGED = re.compile(r"^fn (\S+): (proved|not proved|no proof)(.*)$", re.M)
TOLD = re.compile(r"^(?:note: )?(?:.* of )?(?:\./)?(src|proofs)/(\S+?)(?:\.rt|\.antt)(?::(\d+):\d+:| )(.*)$", re.M)
NAMES_ALONE = re.compile(r"has no field|is not in scope|has no `|was not admitted")
"""What the prover says where a proof names what an edit took away."""
UNREAD = re.compile(r"error\[[\w-]+\]")


class Function(NamedTuple):
    """A function of a source: its file without the ending, its type if it has one, its name, and its lines."""

    file: str
    owner: str
    name: str
    lines: range


def functions(path, file):
    """Yields the functions of a source, which `rt fmt` has laid out."""
    owner, begun = "", None
    for number, line in enumerate(path.read_text(encoding="utf-8").splitlines(), 1):
        if block := re.match(r"(?:pub )?(?:unsafe )?(?:impl|trait)\b(?:<[^{]*?>)? ?(?:.* for )?&?(?:'\w+ )?(\w+)", line):
            owner = block[1]
        elif line == "}" and not begun:
            owner = ""
        if head := re.match(r"( *)(?:pub(?:\([^)]*\))? )?(?:const )?(?:unsafe )?(?:extern \"C\" )?fn (\w+)", line):
            begun = (*head.groups(), number)
        if begun and (line == begun[0] + "}" or line.endswith("{}") or line.endswith(";") and number == begun[2]):
            yield Function(file, owner if begun[0] else "", begun[1], range(begun[2], number + 1))
            owner, begun = owner if begun[0] else "", None


def function_of(edit, folder, known):
    """Returns the one function whose body an edit changes, by the name that a check prints, or none."""
    found = set()
    for file, old, _ in edit.lines:
        path = folder / file
        text = path.read_text(encoding="utf-8")
        line = text[: text.index(old)].count("\n") + 1
        inside = [it for it in functions(path, file.removesuffix(".rt")) if line in it.lines] if file.endswith(".rt") else []
        found.update(inside or [None])
    if len(found) != 1 or None in found:
        return None
    (only,) = found
    module = only.file.removeprefix("src/").removesuffix("/mod").split("/")
    module = [] if module in (["lib"], ["main"]) else module
    start = "::".join([edit.crate, *module]) + "::"
    names = [it for it in known if it.startswith(start + only.owner) and it.split("::")[-1] == only.name]
    names = [it for it in names if it.count("::") == start.count("::") + bool(only.owner)]
    exact = [it for it in names if it == start + only.owner + "::" + only.name]
    names = exact or names
    return names[0] if len(names) == 1 else None


def applied(edit, folder):
    """Changes the copy of a crate as an edit says."""
    for file, old, new in edit.lines:
        path = folder / file
        text = path.read_text(encoding="utf-8")
        # Copies share the files that no edit changes.
        path.unlink()
        path.write_text(text.replace(old, new), encoding="utf-8")


def is_named_alone(said, function=None):
    """Returns whether all that a check says against a function, or against any, is that names are gone."""
    told = []
    for part, file, _, text in TOLD.findall(said):
        place = "::".join(file.split("/")[:-1])
        if (function is None or part == "src" or function.endswith("::" + place)) and ("error" in text or part == "src"):
            told.append(part == "proofs" and bool(NAMES_ALONE.search(text)))
    return bool(told) and all(told)


class Attack:
    """The tries on one crate."""

    def __init__(self, crate, libraries, room):
        self.crate, self.room, self.seed = crate, room, room / crate
        self.libraries = libraries
        self.edits = [it for it in edits.edits() if it.crate == crate]
        self.known, self.wrong = {}, []

    def folder(self, top):
        return top / "crates" / self.crate

    def check(self, top):
        """Checks the copy in a folder, and returns what was said."""
        how = {"stdin": subprocess.DEVNULL, "stdout": subprocess.PIPE, "stderr": subprocess.STDOUT, "text": True, "errors": "replace"}
        return subprocess.run(["rt", "check", "--jobs", "1"], cwd=self.folder(top), check=False, **how)

    def prepare(self):
        """Makes the copy that each try begins with, proves it, and returns the groups of edits to try together."""
        lines = build.Build.__new__(build.Build)
        lines.libraries = self.libraries
        lines.furnish(str(self.seed), self.crate)
        ran = self.check(self.seed)
        if ran.returncode:
            self.wrong = [f"{self.crate} isn't proved as it stands, so its edits weren't tried\n{ran.stdout[-2000:]}"]
            return []
        self.known = [name for name, *_ in JUDGED.findall(ran.stdout)]
        alone, by_function = [], {}
        for edit in self.edits:
            if why := edits.unapplied(edit):
                self.wrong.append(f"{edit}: {why}")
                continue
            function = function_of(edit, self.folder(self.seed), self.known)
            by_function.setdefault(function, []).append(edit) if function else alone.append([(edit, None)])
        return grouped([(edit, function) for function, some in by_function.items() for edit in some]) + alone

    def attempt(self, group):
        """Tries some edits in one check; returns those to try alone, and those to try again with others."""
        top = Path(tempfile.mkdtemp(prefix=f"{self.crate}-", dir=self.room))
        try:
            shutil.copytree(self.seed, top, dirs_exist_ok=True, copy_function=shared)
            for edit, _ in group:
                applied(edit, self.folder(top))
            ran = self.check(top)
        finally:
            shutil.rmtree(top, ignore_errors=True)
        if len(group) == 1:
            self.judge(group[0][0], ran)
            return [], []
        said = {name: (verdict, why) for name, verdict, why in JUDGED.findall(ran.stdout)}
        alone, again = [], []
        for edit, function in group:
            if said.get(function) != ("not proved", ""):
                (again if said.get(function, ("",))[0] == "no proof" else alone).append((edit, function))
            elif is_named_alone(ran.stdout, function):
                alone.append((edit, function))
        return (alone, again) if len(again) < len(group) else (again, [])

    def judge(self, edit, ran):
        """Notes what is wrong with an edit that was tried alone."""
        if ran.returncode == 0:
            self.wrong.append(f"{edit}: the crate is still proved with it")
        elif "logic=not-proved" not in ran.stdout and not re.search(r"\bantt ran out of|stopped at the step limit", ran.stdout):
            kind = "it can't be read" if UNREAD.search(ran.stdout) else "its check gave no verdict"
            self.wrong.append(f"{edit}: {kind}: {ran.stdout[:600]}")
        elif is_named_alone(ran.stdout):
            self.wrong.append(f"{edit}: it is refused only since a proof names what it takes away")


def grouped(ones):
    """Returns groups of edits to try together, each of a function of its own."""
    often = Counter(function for _, function in ones)
    number = max([-(-len(ones) // TOGETHER), *often.values()], default=0)
    ordered = sorted(ones, key=lambda it: it[1])
    return [ordered[at::number] for at in range(number)]


def shared(one, other):
    """Copies a file, or gives it a second name: a check replaces a file of its own, and never writes into one that is there."""
    if one.endswith((".oantt", ".antt", ".rt")) or "/out/rlib/" in one:
        return build.link_or_copy(one, other)
    return shutil.copy2(one, other)


def lanes():
    """Returns how many checks may run at once: one a processor, as far as free memory goes."""
    with open("/proc/meminfo", encoding="utf-8") as file:
        free = int(re.search(r"MemAvailable:\s+(\d+)", file.read())[1])
    return max(1, min(len(os.sched_getaffinity(0)), free // MEMORY))


def run(attack, pool):
    """Tries all edits of a crate, and returns how many are refused as they should be."""
    start = time.monotonic()
    groups = pool.submit(attack.prepare).result()
    while groups:
        left = list(pool.map(attack.attempt, groups))
        alone, again = [[it] for some, _ in left for it in some], grouped([it for _, some in left for it in some])
        minutes = (time.monotonic() - start) / 60
        print(f"{attack.crate}: {sum(map(len, alone + again))} edits left, in {len(alone + again)} checks, after {minutes:.1f} minutes", flush=True)
        groups = alone + again
    for line in attack.wrong:
        print(f"FAILED: {line}", flush=True)
    well = len(attack.edits) - min(len(attack.wrong), len(attack.edits)) if attack.known else 0
    homes = Counter(edit.home for edit in attack.edits)
    told = f"{homes['must-fail']} edits of the gate and {homes['slips']} slips"
    print(f"{attack.crate}: {told}, {well} refused, {(time.monotonic() - start) / 60:.1f} minutes", flush=True)
    shutil.rmtree(attack.seed, ignore_errors=True)
    return well


def main(crates):
    libraries = build.libraries_of_crates()
    counts = Counter(edit.crate for edit in edits.edits())
    if lacking := [it for it in crates if it not in counts]:
        sys.exit(f"attack.py: no crate {lacking[0]} with edits")
    tried = [it for it in counts if not crates or it in crates]
    with tempfile.TemporaryDirectory(prefix="attack-") as room, ThreadPoolExecutor(lanes()) as pool:
        # As many crates as checks, so that a crate ends before the last ones begin.
        with ThreadPoolExecutor(lanes()) as each:
            well = sum(each.map(lambda it: run(Attack(it, libraries, Path(room)), pool), sorted(tried, key=lambda it: -counts[it])))
    every = sum(counts[it] for it in tried)
    print(f"{well} passed, {every - well} failed")
    return 0 if well == every else 1


if __name__ == "__main__":
    sys.exit(main(sys.argv[1:]))
