#!/usr/bin/env python3
"""Checks wrong code in both its homes against the promises of docs/PROMISES.md.

    tests/guards.py

Each edit has to name promises that exist and to fit its source, each proved promise has to have an edit that the gate tries or to say
why it has none. `tools/edits.py` prints which edits guard which promise.
"""

import os
import sys
from collections import Counter

TOP = os.path.dirname(os.path.dirname(os.path.abspath(__file__)))
sys.path.append(os.path.join(TOP, "tools"))

import edits  # noqa: E402


def main():
    failures = edits.faults()
    for failure in failures:
        print(f"FAILED: {failure}")
    homes = Counter(edit.home for edit in edits.edits())
    tried = homes.total() + len(edits.promises()[0])
    print(f"guards.py: {homes[edits.GATE]} edits of the gate and {homes[edits.SLIPS]} slips; {tried - len(failures)} passed, {len(failures)} failed")
    return 1 if failures else 0


if __name__ == "__main__":
    sys.exit(main())
