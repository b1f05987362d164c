#!/usr/bin/env python3
"""Keeps what the gate has proved, so that the library for C is built over it and nothing is proved twice.

    tools/proved.py before     notes the sources of each library, and removes what an earlier gate left
    tools/proved.py after      says of each library whose sources are still these that it is up to date

`rt ci` proves every library from nothing and builds it, but leaves it without the stamp by which `rt lib` knows it, so `make lib` would
prove it again. The stamp is a sum of the sources of a library and of those below it, and the toolchain's own function makes it: where
a source has changed since `before`, none is written, and where a toolchain has no such function, all is proved again.
"""

import functools
import glob
import importlib.util
import json
import os
import shutil
import subprocess
import sys

sys.dont_write_bytecode = True
TOP = os.path.dirname(os.path.dirname(os.path.abspath(__file__)))
NOTED = os.path.join(TOP, "build", "noted.json")


def stamps():
    """Returns the stamp of each library by the path at which it is built."""
    page = subprocess.run(["rt", "doc"], stdout=subprocess.PIPE, text=True, check=True).stdout.strip()
    path = os.path.join(os.path.dirname(page), "bin", "rtlib.py")
    spec = importlib.util.spec_from_file_location("rtlib", path)
    rtlib = importlib.util.module_from_spec(spec)
    sys.modules["rtlib"] = rtlib
    spec.loader.exec_module(rtlib)
    # A stamp is made from those of the libraries below, which would be made again and again.
    rtlib.Crate.stamp = functools.cache(rtlib.Crate.stamp)
    return {it.rlib: it.stamp() for it in rtlib.crates_below(TOP) if it.makes_rlib()}


def before():
    for folder in glob.glob(os.path.join(TOP, "crates", "*", "out", "rlib")):
        if not os.path.isfile(os.path.join(folder, "stamp")):
            shutil.rmtree(folder)
    os.makedirs(os.path.dirname(NOTED), exist_ok=True)
    with open(NOTED, "w", encoding="utf-8") as file:
        json.dump(stamps(), file)


def after():
    with open(NOTED, encoding="utf-8") as file:
        noted = json.load(file)
    os.remove(NOTED)
    for library, stamp in stamps().items():
        path = os.path.join(os.path.dirname(library), "stamp")
        if os.path.isdir(library) and not os.path.exists(path) and noted.get(library) == stamp:
            with open(path, "w", encoding="utf-8") as file:
                file.write(stamp)


def main(words):
    if words not in (["before"], ["after"]):
        sys.exit(__doc__.strip())
    try:
        (before if words == ["before"] else after)()
    except (AttributeError, ImportError, OSError, subprocess.SubprocessError) as error:
        print(f"proved.py: the libraries will be proved again ({error})", file=sys.stderr)


if __name__ == "__main__":
    main(sys.argv[1:])
