#!/usr/bin/env python3
"""Prints the wrong code that guards each promise, crate by crate, with the lines that it changes.

    tools/edits.py [CRATE ...]    prints all of it, in Markdown, or that of these crates

Wrong code has two homes: the edits in `must-fail/`, which the gate tries, and those in `slips/`, which `make attack` tries too. A
promise is a row of docs/PROMISES.md, with its name in bold. The first line of an edit names what it guards: `guards: NAME`, with `; `
between several names, and `CRATE/NAME` for a promise of another crate. An edit without a promise is an error, and so is one that can't
be applied, and a promise that is proved and has no edit in the gate, unless its row says `no edit` and why.
"""

import os.path
import re
import sys
from pathlib import Path
from typing import NamedTuple

TOP = Path(__file__).resolve().parent.parent
CRATES = TOP / "crates"
PROMISES = TOP / "docs" / "PROMISES.md"
HEADING = re.compile(r"## `(\w+)`")
ROW = re.compile(r"\| \*\*([^*/;]+)\*\* \|(?:[^|]*\|){2} ([^|]*) \|")
WIDTH = 160
"""The most characters of a line that is printed."""
KEPT = 24
"""The number of common characters that are kept on each side where two lines of code are shortened."""

GATE, SLIPS = HOMES = ("must-fail", "slips")
"""The folders of a crate that hold wrong code: what the gate tries, and what `make attack` tries too."""

HEAD = """# Guards

What guards the promises of docs/PROMISES.md: edits, each of which turns lines of a source into wrong ones, which the prover has to
refuse. The gate tries those in **bold**, `crates/CRATE/must-fail/EDIT.edit`; `make attack` tries the others too, `crates/CRATE/slips/EDIT.edit`.
Here … stands for code that both lines have, or for the rest of a long one, and *nothing* for a line that is left out.
"""


class Promise(NamedTuple):
    """A row of PROMISES.md: its crate, its name, and whether it is proved, a law or tested."""

    crate: str
    name: str
    held: str

    def needs_edits(self):
        return self.held.startswith("proved") and "no edit" not in self.held


class Edit(NamedTuple):
    """An edit: its home, the promises that it guards, by crate and name, and its lines by file, old and new."""

    crate: str
    home: str
    name: str
    guards: list
    lines: list

    def __str__(self):
        return f"crates/{self.crate}/{self.home}/{self.name}.edit"


def promises():
    """Returns the promises of PROMISES.md in their order, and a list of faults in its rows."""
    crate, found, wrong = "", [], []
    for line in PROMISES.read_text(encoding="utf-8").splitlines():
        heading, row = HEADING.fullmatch(line), ROW.fullmatch(line)
        if heading:
            crate = heading[1]
        elif row:
            promise = Promise(crate, row[1], row[2])
            if any(promise[:2] == other[:2] for other in found):
                wrong.append(f"PROMISES.md has two promises of {crate} called '{promise.name}'")
            if not promise.held.startswith(("proved", "law", "test")):
                wrong.append(f"'{promise.name}' of {crate} is neither proved, a law, nor tested: {promise.held}")
            found.append(promise)
        elif line.startswith("|") and not line.startswith(("| promise |", "|---")):
            wrong.append(f"PROMISES.md has a row without a name in bold, or without four cells: {line[:60]}")
    return found, wrong


def read(path):
    """Returns the edit in a file."""
    crate, home, file, old, guards, lines = path.parent.parent.name, path.parent.name, "", "", [], []
    for line in path.read_text(encoding="utf-8").splitlines():
        key, _, text = line.partition(":")
        text = text.removeprefix(" ")
        if key == "guards":
            guards = [tuple(name.split("/", 1)) if "/" in name else (crate, name) for name in text.strip().split("; ")]
        elif key == "file":
            file = text.strip()
        elif key == "old":
            old = text
        elif key == "new":
            lines.append((file, old, text))
    return Edit(crate, home, path.stem, guards, lines)


def edits():
    """Returns the edits of all crates, in both homes, by crate and name."""
    found = [read(path) for home in HOMES for path in CRATES.glob(f"*/{home}/*.edit")]
    return sorted(found, key=lambda edit: (edit.crate, edit.name))


def unapplied(edit):
    """Returns why an edit can't be applied to its crate, or none."""
    texts = {}
    for file, old, new in edit.lines:
        path = CRATES / edit.crate / file
        if not path.is_file():
            return f"there is no file {file}"
        text = texts.get(file) or path.read_text(encoding="utf-8")
        if not old or text.count(old) != 1:
            return f"a line is in {file} {text.count(old)} times, and not once: {old.strip()}"
        texts[file] = text.replace(old, new)
    return None if texts else "it changes nothing"


def faults():
    """Returns the faults of promises and edits, one line each."""
    found, wrong = promises()
    names = {promise[:2] for promise in found}
    guarded, told = set(), set()
    for edit in edits():
        if edit.home == GATE:
            guarded.update(edit.guards)
        if (edit.crate, edit.name) in told:
            wrong.append(f"{edit.crate} has two edits called {edit.name}")
        told.add((edit.crate, edit.name))
        if why := unapplied(edit):
            wrong.append(f"{edit}: {why}")
        if not edit.guards:
            wrong.append(f"{edit} names no promise: its first line has to be `guards: NAME`")
        for crate, name in edit.guards:
            if (crate, name) not in names:
                wrong.append(f"{edit} guards '{name}', and PROMISES.md has no such promise of {crate}")
    for promise in found:
        if promise.needs_edits() and promise[:2] not in guarded:
            wrong.append(f"no edit of the gate guards the promise '{promise.name}' of {promise.crate}, and its row doesn't say `no edit`")
    return wrong


def shortened(old, new):
    """Returns two lines of code, without most of their common beginning and end where they don't fit into one line."""
    if len(old) + len(new) <= WIDTH - 12:
        return old, new
    front = len(os.path.commonprefix([old, new]))
    back = len(os.path.commonprefix([old[front:][::-1], new[front:][::-1]]))
    first = old.rfind(" ", 0, max(front - KEPT, 0)) + 1
    last = old.find(" ", len(old) - max(back - KEPT, 0))
    past = len(old) - last if last >= 0 else 0
    return tuple(("… " if first else "") + code[first : len(code) - past] + (" …" if past else "") for code in (old, new))


def cell(code):
    """Returns a line of code in Markdown, cut off where it is too long, or `*nothing*` where there is no line."""
    if len(code) > WIDTH - 12:
        code = code[: code.rfind(" ", 0, WIDTH - 12)] + " …"
    return f"`{code}`" if code else "*nothing*"


def turned(edit):
    """Returns the old and new lines of an edit, each pair on one line, or on two where they are long."""
    found = []
    for _, old, new in edit.lines:
        old, new = map(cell, shortened(old.strip(), new.strip()))
        found.append(old + (" → " if len(old) + len(new) < WIDTH - 6 else " →\n  ") + new)
    return ";\n  ".join(found)


def entry(edit, crate):
    """Returns an edit as an item of the list under a promise of a crate."""
    files = dict.fromkeys(file if edit.crate == crate else f"{edit.crate}/{file}" for file, _, _ in edit.lines)
    mark = "**" if edit.home == GATE else "*"
    head, lines = f"* {mark}{edit.name}{mark}, {', '.join(files)}:", turned(edit)
    apart = "\n  " if "\n" in lines or len(head) + len(lines) > WIDTH - 1 else " "
    return head + apart + lines + "\n"


def page(crates=()):
    """Returns the page, or its sections on some crates."""
    found, parts, crate = edits(), [] if crates else [HEAD], ""
    for promise in promises()[0]:
        guards = [edit for edit in found if promise[:2] in edit.guards]
        if guards and (not crates or promise.crate in crates):
            if promise.crate != crate:
                crate = promise.crate
                parts.append(f"## `{crate}`\n")
            parts.append(f"### {promise.name}\n")
            parts.append("".join(entry(edit, crate) for edit in guards))
    return "\n".join(parts)


def main(words):
    wrong = faults()
    if wrong:
        sys.exit("\n".join(f"edits.py: {line}" for line in wrong))
    print(page(words), end="")


if __name__ == "__main__":
    main(sys.argv[1:])
