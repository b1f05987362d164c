#!/usr/bin/env python3
"""Finds the definitions that the claims stand on, and checks docs/AUDIT.md against them.

    tools/audit.py            prints each file of `specs/` that a claim cites, directly or not, with its definitions that are cited
    tools/audit.py --check    checks that AUDIT.md lists just these files and definitions

A claim is the contract of one of the calls in CLAIMS. It cites the definitions that its clauses name; a definition cites those that its
text names, in its own file or by an import. What is declared in a source (a type of parameters, say) isn't a definition: AUDIT.md names
these sources once.
"""

import re
import sys
from collections import defaultdict
from pathlib import Path

TOP = Path(__file__).resolve().parent.parent
CRATES = TOP / "crates"
PAGE = TOP / "docs" / "AUDIT.md"
CLAIMS = [
    ("file_encoding/src/encode.rt", "encode_one"),
    ("file_encoding/src/encode.rt", "encode_owned"),
    ("coder_pipe/src/encode_predicted.rt", "encode_predicted"),
    ("file_decoding/src/decode.rt", "decode"),
]
IMPORT = re.compile(r"\buse Rattle\.(\w+)\.specs\.(declared\.)?([\w.]*?)\.?(?:\{([^}]*)\}|(\w+))?;?\s*$")
NAME = re.compile(r"[^\W\d][\w']*|◌[^\s(){}.;,@\"»◌]+◌")
HEAD = re.compile(r"(?:(?:abbrev|unfoldable|unfolding \S+|pub|record|data) )+(\S+)")
ROW = re.compile(r"\| `(\w+)/(\w+)` \| ([^|]*) \|")


class File:
    """A file of specs: its definitions, each with its text, and what its imports bring."""

    def __init__(self, crate, name):
        self.texts, self.brought, self.sources = {}, {}, {}
        here = None
        for line in (CRATES / crate / "specs" / f"{name}.antt").read_text(encoding="utf-8").splitlines():
            code = line.partition("-- ")[0]
            if code.startswith(("use ", "pub use ")):
                self.bring(code)
            elif code and not code[0].isspace() and (head := HEAD.match(code)) and not code.startswith("unfolding"):
                here = head[1]
                self.texts[here] = code
            elif here:
                self.texts[here] += "\n" + code

    def bring(self, line):
        for name, of in imported(line):
            (self.sources if of[1].startswith("declared") else self.brought)[name] = of


def imported(line):
    """Yields the names that an import brings, each with the crate, the file and the name that it has there."""
    found = IMPORT.search(line.replace("ghost ", "").rstrip(";") )
    if not found or not (CRATES / found[1]).is_dir():
        return
    crate, declared, file, names, one = found.groups()
    if not names and one:
        names = one
    for it in (names or "").split(","):
        name, _, called = it.strip().partition(" as ")
        if name:
            yield called or name, (crate, (declared or "") + file, name)


def clauses(path, function):
    """Returns the text of a function's clauses, and what the imports of its source bring."""
    text = (CRATES / path).read_text(encoding="utf-8")
    head = re.search(rf"pub fn {function}\b.*?\n\{{\n", text, re.S)[0]
    found = " ".join(re.findall(r"(?:requires|ensures)(?: \w+)? \{(.*?)\}\n", head, re.S))
    brought = {}
    for line in text.splitlines():
        if line.startswith("ghost use "):
            brought.update(imported(line))
    return found, {name: of for name, of in brought.items() if not of[1].startswith("declared")}


def closure():
    """Returns the definitions that the claims cite, by crate and file, in the order of their files."""
    files, cited, left = {}, defaultdict(set), []
    for path, function in CLAIMS:
        text, brought = clauses(path, function)
        left += [brought[name] for name in NAME.findall(text) if name in brought]
    while left:
        crate, name, word = left.pop()
        if word in cited[crate, name]:
            continue
        file = files.setdefault((crate, name), None) or File(crate, name)
        files[crate, name] = file
        if word not in file.texts:
            continue
        cited[crate, name].add(word)
        for it in NAME.findall(file.texts[word]):
            if it in file.brought:
                left.append(file.brought[it])
            elif it in file.texts and it != word:
                left.append((crate, name, it))
    return {place: [it for it in files[place].texts if it in words] for place, words in cited.items() if words}


def listed():
    """Returns the files that AUDIT.md lists, with their definitions."""
    found = {}
    for line in PAGE.read_text(encoding="utf-8").splitlines():
        if row := ROW.match(line):
            found[row[1], row[2]] = re.findall(r"`([^`]+)`", row[3])
    return found


def main(words):
    wanted = closure()
    if words != ["--check"]:
        for (crate, name), found in wanted.items():
            print(f"{crate}/{name}: {', '.join(found)}")
        return 0
    page, failures = listed(), []
    for place in sorted(wanted.keys() | page.keys()):
        lacking = set(wanted.get(place, ())) - set(page.get(place, ()))
        needless = set(page.get(place, ())) - set(wanted.get(place, ()))
        if lacking or needless or place not in page:
            failures.append(f"{'/'.join(place)}: AUDIT.md lacks {sorted(lacking)}, and has {sorted(needless)} that no claim cites")
    for failure in failures:
        print(f"FAILED: {failure}")
    print(f"definitions.py: {len(wanted) - len(failures)} passed, {len(failures)} failed")
    return 1 if failures else 0


if __name__ == "__main__":
    sys.exit(main(sys.argv[1:]))
