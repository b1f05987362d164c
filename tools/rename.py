#!/usr/bin/env python3
"""Renames a local, a parameter, a function, a field, a clause or a module wherever it is named.

    tools/rename.py OLD NEW [--in SCOPE ...] [--write]

Goals of proofs are named after locals, parameters, callees and clauses, so a rename touches code, proofs, edits and pages. Without
`--write` it changes nothing and prints each line that it would change, and each file or folder that it would move. A SCOPE is a crate, or
a function of one (`sample_adaptive::column::take_known`, `cube_core::cube::Cube::set`): then only its lines, its proofs, and the edits of
its lines are looked at. Without a scope everything is.

In sources OLD is an identifier, in code or between backticks; in specs and proofs it is also a part of a name with hyphens
(`loop-OLD-preserved`); in edits it stands in the old and new lines; in pages between backticks. A file `OLD.rt` or `OLD.antt` moves with
its module, and so does the folder of proofs of a function or module. After a rename, `rt fmt` and `rt check` in each crate touched.
"""

import argparse
import re
import subprocess
import sys
from pathlib import Path

TOP = Path(__file__).resolve().parent.parent
sys.path.append(str(TOP / "tools"))

import attack  # noqa: E402
import edits  # noqa: E402

WORD = re.compile(r"[^\W\d]\w*")
QUOTED = re.compile(r"`[^`]*`")
SOURCES, LOGIC, EDITS, PAGES = ".rt", ".antt", ".edit", ".md"


class Rename:
    """A rename: the old name, the new one, and what was found."""

    def __init__(self, old, new):
        self.old, self.new = old, new

    def in_code(self, text):
        """Returns a text with each identifier, or part of a name with hyphens, that is the old name replaced."""
        return WORD.sub(lambda it: self.new if it[0] == self.old else it[0], text)

    def in_quotes(self, text):
        return QUOTED.sub(lambda it: self.in_code(it[0]), text)

    def in_line(self, line, kind):
        """Returns a line of a file of some kind, renamed."""
        if kind == PAGES:
            return self.in_quotes(line)
        if kind == EDITS:
            return self.in_code(line) if line.startswith(("old:", "new:", "file:")) else line
        code, mark, comment = line.partition("//" if kind == SOURCES else "-- ")
        return self.in_code(code) + mark + self.in_quotes(comment)

    def moved(self, path):
        """Returns where a file moves, if a part of its path below its crate's folders is the old name."""
        parts = path.relative_to(TOP).parts
        if parts[0] != "crates" or len(parts) < 4 or parts[2] not in ("src", "specs", "proofs"):
            return path
        stem = [self.new if it == self.old else it for it in parts[3:-1]]
        last = Path(parts[-1])
        name = self.new + last.suffix if last.stem == self.old else last.name
        return TOP.joinpath(*parts[:3], *stem, name)


class Scope:
    """Where a rename looks: everywhere, in a crate, or in one function of it."""

    def __init__(self, name):
        self.crate, _, self.function = name.partition("::")
        folder = TOP / "crates" / self.crate
        if not folder.is_dir():
            sys.exit(f"rename.py: there is no crate {self.crate}")
        self.proofs, self.lines, self.source = None, None, None
        if self.function:
            self.find(folder)

    def find(self, folder):
        """Finds the source and the lines of the function, and the folder of its proofs."""
        parts = self.function.split("::")
        for source in folder.glob("src/**/*.rt"):
            module = list(source.relative_to(folder / "src").with_suffix("").parts)
            module = [] if module in (["lib"], ["main"]) else module
            for it in attack.functions(source, ""):
                if [*module, *([it.owner] if it.owner else []), it.name] == parts:
                    self.source, self.lines = source, it.lines
        if self.source is None:
            sys.exit(f"rename.py: {self.crate} has no function {self.function}")
        self.proofs = folder.joinpath("proofs", *parts)

    def has(self, path, number):
        """Returns whether a line of a file is in the scope."""
        folder = TOP / "crates" / self.crate
        if not path.is_relative_to(folder):
            return False
        if not self.function or path.is_relative_to(self.proofs):
            return True
        if path.suffix == EDITS:
            return self.has_edit(path)
        return path == self.source and number in self.lines

    def has_edit(self, path):
        """Returns whether an edit changes a line of the function."""
        text = self.source.read_text(encoding="utf-8")
        places = [text[: text.find(old)].count("\n") + 1 for _, old, _ in edits.read(path).lines if old in text]
        return any(it in self.lines for it in places)


def files():
    """Returns the files of the repository that a rename may touch."""
    said = subprocess.run(["git", "ls-files", "-co", "--exclude-standard", "-z"], cwd=TOP, capture_output=True, text=True, check=True).stdout
    paths = [TOP / it for it in said.split("\0") if it]
    return [it for it in paths if it.suffix in (SOURCES, LOGIC, EDITS, PAGES) and it.is_file()]


def main():
    ask = argparse.ArgumentParser(description=__doc__, formatter_class=argparse.RawDescriptionHelpFormatter)
    ask.add_argument("old")
    ask.add_argument("new")
    ask.add_argument("--in", dest="scopes", action="append", default=[], metavar="SCOPE")
    ask.add_argument("--write", action="store_true")
    given = ask.parse_args()
    rename, scopes = Rename(given.old, given.new), [Scope(it) for it in given.scopes]
    lines, moves = 0, []
    for path in files():
        before = path.read_text(encoding="utf-8").splitlines(keepends=True)
        after = list(before)
        for number, line in enumerate(before, 1):
            if not scopes or any(it.has(path, number) for it in scopes):
                after[number - 1] = rename.in_line(line, path.suffix)
        shown = path.relative_to(TOP)
        for number, (old, new) in enumerate(zip(before, after), 1):
            if old != new:
                lines += 1
                print(f"{shown}:{number}: {old.strip()}\n{' ' * len(f'{shown}:{number}:')} {new.strip()}")
        if given.write and before != after:
            path.write_text("".join(after), encoding="utf-8")
        to = rename.moved(path)
        if to != path and all(not it.function or path.is_relative_to(it.proofs) for it in scopes) and (not scopes or any(it.has(path, 1) for it in scopes)):
            moves.append((path, to))
    for path, to in moves:
        print(f"{path.relative_to(TOP)} -> {to.relative_to(TOP)}")
        if given.write:
            to.parent.mkdir(parents=True, exist_ok=True)
            path.rename(to)
    print(f"{lines} lines, {len(moves)} files{'' if given.write else '; nothing was written: --write does it'}")


if __name__ == "__main__":
    main()
