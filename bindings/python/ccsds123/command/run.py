"""What each command does, and what it prints."""

from __future__ import annotations

import argparse
import json
import os
import sys

from .. import envi
from ..archive.choose import Choice, choose
from ..archive.compress import compress
from ..archive.expand import expand, header_path_of
from ..archive.files import store
from ..archive.index import ArchiveError, Index
from ..archive.progress import is_watched
from ..archive.verify import verify
from ..archive.window import window
from .words import params_of


def run_compress(given: argparse.Namespace) -> int:
    index = compress(given.header, given.folder, given.rows, given.jobs, given.force, params_of(given), is_shown(given))
    tell(given, said_of(index, given.folder), summary(index, given.folder))
    return 0


def run_expand(given: argparse.Namespace) -> int:
    index = expand(given.folder, given.scene, given.jobs, given.force, is_shown(given))
    told = {"scene": given.scene, "bytes": index.raw_bytes, "sha256": index.raw_sha256}
    tell(given, f"{given.scene}: {index.raw_bytes} bytes, as they were coded", told)
    return 0


def run_verify(given: argparse.Namespace) -> int:
    worst = 0
    for path in given.paths:
        for found in verify(path, given.jobs):
            worst = max(worst, found.status)
            line = json.dumps(found._asdict()) if given.json else f"{found.path}: {found.said}"
            if found.status and not given.json:
                print(line, file=sys.stderr)
            elif not given.quiet:
                print(line, flush=True)
    return worst


def run_window(given: argparse.Namespace) -> int:
    if given.output is None and sys.stdout.isatty():
        raise ArchiveError("raw samples aren't written to a terminal: give --output SCENE, or redirect standard output")
    names = [] if given.output is None else [given.output, header_path_of(given.output)]
    for name in names:
        if os.path.exists(name) and not given.force:
            raise ArchiveError(f"{name} exists; --force replaces it")
    header, raw = window(given.folder, given.rows, given.columns, given.bands, given.jobs)
    if given.output is None:
        sys.stdout.buffer.write(raw)
        return 0
    store(names[0], raw)
    envi.write(names[1], header)
    told = {"scene": given.output, "columns": header.columns, "rows": header.rows, "bands": header.bands, "interleave": header.interleave}
    tell(given, f"{given.output}: {header.columns} columns, {header.rows} rows, {header.bands} bands", told)
    return 0


def run_choose(given: argparse.Namespace) -> int:
    found = choose(given.header, given.rows, params_of(given))
    told = {"first_row": found.first_row, "rows": found.rows, "bits": found.bits, "tried": [it.as_json() for it in found.tried], "doubts": found.doubts}
    tell(given, table_of(found), told)
    return 0


COMMANDS = {"compress": run_compress, "expand": run_expand, "verify": run_verify, "window": run_window, "choose": run_choose}


def is_shown(given: argparse.Namespace) -> bool:
    return not given.quiet and not given.json and is_watched()


def tell(given: argparse.Namespace, text: str, told: dict) -> None:
    """Prints a result as a text, or as JSON, or not at all."""
    if given.json:
        print(json.dumps(told))
    elif not given.quiet:
        print(text)


def summary(index: Index, folder: str) -> dict:
    sizes = {"raw_bytes": index.raw_bytes, "file_bytes": index.file_bytes, "pieces": len(index.pieces)}
    return {"archive": folder, "scene": index.scene, **sizes, "sha256": index.raw_sha256}


def said_of(index: Index, folder: str) -> str:
    ratio = index.raw_bytes / max(1, index.file_bytes)
    return f"{folder}: {index.raw_bytes} bytes in {len(index.pieces)} pieces of {index.file_bytes} bytes, {ratio:.2f} to 1; each was decoded and compared"


def table_of(found: Choice) -> str:
    """Returns a table, the best ratio first, and the doubts below it."""
    rows = [f"rows {found.first_row} to {found.first_row + found.rows - 1}, whose samples use {found.bits} bits", " ratio  compress MB/s  expand MB/s  options"]
    rows += [f"{it.ratio:6.3f} {it.compress_mb:14.1f} {it.expand_mb:12.1f}  {options_of(it.options)}" for it in found.tried]
    return "\n".join(rows + [f"doubtful: {it}" for it in found.doubts])


def options_of(options: dict) -> str:
    """Returns options as words to paste."""
    words = []
    for name, value in options.items():
        words.append("--" + name.replace("_", "-") + ("" if value is True else f" {value}"))
    return " ".join(words) or "(none)"
