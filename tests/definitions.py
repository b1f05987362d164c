#!/usr/bin/env python3
"""Checks that docs/AUDIT.md lists the definitions that the claims stand on, all of them and no other.

    tests/definitions.py
"""

import os
import sys

sys.path.append(os.path.join(os.path.dirname(os.path.dirname(os.path.abspath(__file__))), "tools"))

import audit  # noqa: E402

if __name__ == "__main__":
    sys.exit(audit.main(["--check"]))
