"""A folder for the files of a run, shared by the scripts beside this module."""

import contextlib
import ctypes
import os
import struct

# The events of a watched file: it was opened, or it was closed, after being open for writing or only for reading.
OPENED, CLOSED = 0x20, 0x08 | 0x10


class Workroom:
    """A folder whose files are read and written by name."""

    def __init__(self, folder):
        self.folder = folder

    def path(self, name):
        return os.path.join(self.folder, name)

    def read(self, name):
        with open(self.path(name), "rb") as file:
            return file.read()

    def write(self, name, data):
        with open(self.path(name), "wb") as file:
            file.write(data)

    @contextlib.contextmanager
    def watched(self, names):
        """Watches files, and yields a function that returns the names of those that were opened since, in order."""
        system = ctypes.CDLL(None)
        watch = system.inotify_init1(os.O_NONBLOCK)
        try:
            numbers = {system.inotify_add_watch(watch, os.fsencode(self.path(name)), OPENED | CLOSED): name for name in names}
            # An event consists of the number of a watch, its bits, and eight bytes that aren't used here.
            yield lambda: [numbers[number] for number, bits in struct.iter_unpack("iI8x", os.read(watch, 1 << 16)) if bits & OPENED]
        finally:
            os.close(watch)
