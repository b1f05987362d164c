#!/usr/bin/env python3
"""Installs what was built in a prefix: the program with its manual page and completion, or the library for C with its header.

    tools/install.py program|library PREFIX [DESTDIR]
"""

import os
import shutil
import sys

sys.dont_write_bytecode = True
import manual
from library import INCLUDE, NATIVE, TOP, links_of, room_of, version

PC = """prefix={prefix}
libdir=${{prefix}}/lib
includedir=${{prefix}}/include

Name: ccsds123
Description: lossless compression of image cubes (CCSDS 123.0-B-1)
Version: {version}
Libs: -L${{libdir}} -lccsds123
Cflags: -I${{includedir}}
"""


class Prefix:
    """A prefix, below the folder that DESTDIR names."""

    def __init__(self, prefix, destination):
        self.prefix = os.path.abspath(prefix)
        self.top = destination + self.prefix if destination else self.prefix

    def path(self, *parts):
        found = os.path.join(self.top, *parts)
        os.makedirs(os.path.dirname(found), exist_ok=True)
        return found

    def put(self, source, mode, *parts):
        """Copies a file beside its place, and renames it there, so that a program that runs keeps the old one."""
        place = self.path(*parts)
        shutil.copyfile(source, f"{place}.new")
        os.chmod(f"{place}.new", mode)
        os.replace(f"{place}.new", place)

    def link(self, name, *parts):
        place = self.path(*parts)
        if os.path.lexists(place):
            os.remove(place)
        os.symlink(name, place)


def install_program(prefix):
    share = os.path.join(TOP, "build", "share")
    manual.main_in(share)
    prefix.put(os.path.join(TOP, "crates", "ccsds", "out", "ccsds"), 0o755, "bin", "ccsds")
    prefix.put(os.path.join(share, "ccsds.1"), 0o644, "share", "man", "man1", "ccsds.1")
    prefix.put(os.path.join(share, "ccsds.bash"), 0o644, "share", "bash-completion", "completions", "ccsds")


def install_library(prefix):
    name, links = links_of(version())
    room = room_of(NATIVE)
    prefix.put(os.path.join(INCLUDE, "ccsds123.h"), 0o644, "include", "ccsds123.h")
    prefix.put(os.path.join(room, "libccsds123.a"), 0o644, "lib", "libccsds123.a")
    prefix.put(os.path.join(room, name), 0o755, "lib", name)
    for link in links:
        prefix.link(name, "lib", link)
    with open(prefix.path("lib", "pkgconfig", "ccsds123.pc"), "w", encoding="utf-8") as file:
        file.write(PC.format(prefix=prefix.prefix, version=version()))


def main():
    what, prefix, *destination = sys.argv[1:]
    {"program": install_program, "library": install_library}[what](Prefix(prefix, "".join(destination)))


if __name__ == "__main__":
    main()
