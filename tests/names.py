#!/usr/bin/env python3
"""Checks that what the pages name exists: files, and the names of code between backticks.

    tests/names.py

A path (`docs/FORMAT.md`, `crates/NAME/..`) has to lead to a file or folder. A name, or each part of one (`Stats::put_run`), has to be a word
of some source, specification, script or option. Words in capitals that stand for others (`CRATE`, `NAME`) and what holds blanks aren't looked up, nor are
the toolchain's sum and what a build makes.
"""

import re
import subprocess
import sys
from pathlib import Path

TOP = Path(__file__).resolve().parent.parent
CODE = {".rt", ".antt", ".py", ".sh", ".c", ".rs", ".toml", ".txt", ".edit", ""}
QUOTED = re.compile(r"(?<!`)`([^`\n]+)`(?!`)")
PATH = re.compile(r"(?:docs|tests|tools|crates|bench|samples)(?:/[\w.-]+)+/?")
NAME = re.compile(r"[A-Za-z_][\w]*(?:::[A-Za-z_]\w*)*")
WORD = re.compile(r"[^\W\d]\w*")
# Words of the toolchain, of the system and of other programs that no file here holds.
ELSEWHERE = set("cargo rustc aec libaec valgrind git nproc cmp ulimit inotify sync sha256sum".split())


def tracked():
    said = subprocess.run(["git", "ls-files", "-co", "--exclude-standard", "-z"], cwd=TOP, capture_output=True, text=True, check=True).stdout
    return [TOP / it for it in said.split("\0") if it and (TOP / it).is_file()]


def words_of_code(files):
    """Returns all words of the sources, and the names of files and folders."""
    found = set(ELSEWHERE)
    for path in files:
        found.update(re.split(r"[/.]", str(path.relative_to(TOP))))
        if path.suffix in CODE:
            found.update(WORD.findall(path.read_text(encoding="utf-8", errors="replace")))
    return found


def unknown(quoted, known):
    """Returns why what a page quotes can't be found, or none."""
    if re.fullmatch("[0-9a-f]{16}", quoted) or "/out/" in quoted:
        return None
    if PATH.fullmatch(quoted):
        return None if (TOP / quoted).exists() or quoted.rstrip("/").split("/")[-1].isupper() else "there is no such file"
    if NAME.fullmatch(quoted) and not quoted.isupper():
        lacking = [it for it in quoted.split("::") if it not in known]
        return f"no source names {lacking[0]}" if lacking else None
    return None


def main():
    files = tracked()
    known, passed, failed = words_of_code(files), 0, 0
    for page in (it for it in files if it.suffix == ".md"):
        for number, line in enumerate(page.read_text(encoding="utf-8").splitlines(), 1):
            for quoted in QUOTED.findall(line):
                if why := unknown(quoted, known):
                    failed += 1
                    print(f"FAILED: {page.relative_to(TOP)}:{number}: `{quoted}`: {why}")
                else:
                    passed += 1
    print(f"names.py: {passed} passed, {failed} failed")
    return 1 if failed else 0


if __name__ == "__main__":
    sys.exit(main())
