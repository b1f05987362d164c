#!/usr/bin/env python3
"""Runs the lines of docs/COMMAND.md, docs/LIBRARY.md and docs/ARCHIVE.md as they are pasted into a shell.

    [PYTHON=COMMAND] tests/pages.py [PAGE..]

The blocks of each page that are marked `sh` run one after another in a shell of their own, from the top of the repository, with an empty folder as
home; those of ARCHIVE.md after the first one of LIBRARY.md. Each has to end with status 0. Cargo, a C compiler, pkg-config and NumPy have to be
there; PYTHON is the Python that has NumPy, where `python3` has not.
"""

import os
import re
import shutil
import subprocess
import sys
import tempfile

TOP = os.path.dirname(os.path.dirname(os.path.abspath(__file__)))
BLOCK = re.compile(r"^```sh\n(.*?)^```$", re.S | re.M)
PAGES = ("COMMAND.md", "LIBRARY.md", "ARCHIVE.md")
AFTER = {"ARCHIVE.md": "LIBRARY.md"}
"""The pages that are pasted after the first block of another."""
LIMIT = 1800
"""The most seconds that a page may take; its first block builds the library where it isn't built."""


def blocks_of(page):
    with open(os.path.join(TOP, "docs", page), encoding="utf-8") as file:
        return BLOCK.findall(file.read())


def environment(home):
    """Returns the variables of the shell: those of this one, with another home, in which Cargo's own folders stay what they are, and PYTHON as `python3`."""
    folder, python = os.path.join(home, "own"), shutil.which(os.environ.get("PYTHON", "python3"))
    os.mkdir(folder)
    with open(os.path.join(folder, "python3"), "w", encoding="utf-8", opener=executable) as file:
        file.write(f'#!/bin/sh\nexec "{python}" "$@"\n')
    kept = {name: os.environ.get(name, os.path.expanduser(usual)) for name, usual in (("CARGO_HOME", "~/.cargo"), ("RUSTUP_HOME", "~/.rustup"))}
    dropped = ("PYTHONPATH", "CCSDS123_LIBRARY", "CCSDS123_LIB_DIR")
    others = {name: value for name, value in os.environ.items() if name not in dropped}
    return {**others, **kept, "HOME": home, "PATH": f"{folder}:{os.environ['PATH']}"}


def executable(path, flags):
    return os.open(path, flags, 0o755)


def run_page(page):
    """Runs the blocks of a page, and returns how many ended well, and how many did not."""
    blocks = [*(blocks_of(AFTER[page])[:1] if page in AFTER else []), *blocks_of(page)]
    script = "".join(f"echo '== {number}' >&2\n{block}" for number, block in enumerate(blocks))
    with tempfile.TemporaryDirectory() as home:
        how = {"capture_output": True, "text": True, "timeout": LIMIT, "check": False}
        ran = subprocess.run(["bash", "-e", "-o", "pipefail", "-c", script], cwd=TOP, env=environment(home), stdin=subprocess.DEVNULL, **how)
    if not ran.returncode:
        return len(blocks), 0
    reached = int(re.findall(r"^== (\d+)$", ran.stderr, re.M)[-1])
    said = ran.stderr.rpartition(f"== {reached}\n")[2].strip()
    print(f"FAILED: docs/{page}, block {reached + 1}: status {ran.returncode}\n{blocks[reached]}\n{said}")
    return reached, 1


def main():
    passed = failed = 0
    for page in sys.argv[1:] or PAGES:
        well, wrong = run_page(page)
        passed, failed = passed + well, failed + wrong
    print(f"pages.py: {passed} passed, {failed} failed")
    return 1 if failed else 0


if __name__ == "__main__":
    sys.exit(main())
