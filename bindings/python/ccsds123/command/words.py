"""The words of the command."""

from __future__ import annotations

import argparse
import re
import sys
from dataclasses import MISSING, fields
from typing import Dict, List, Optional, Tuple

from ..archive.compress import ROWS
from ..archive.status import USAGE
from ..params import CODERS, ORDERS, Params

SCENE_MEMBERS = ("columns", "rows", "bands", "signed", "weights", "accumulators")
"""Members of Params that the scene decides, or that no command line can hold."""
WORDS = {"order": ORDERS, "coder": CODERS}


class Parser(argparse.ArgumentParser):
    """A parser whose refusals end with the status of a wrong command line."""

    def error(self, message: str) -> None:
        print(f"{self.prog}: {message}; see {self.prog} --help", file=sys.stderr)
        raise SystemExit(USAGE)


def parsed(words: Optional[List[str]]) -> argparse.Namespace:
    """Returns what the words ask for."""
    parser = Parser(prog="ccsds123", description="Archives of scenes with ENVI headers, by the lossless coder of CCSDS 123.0-B-1.")
    commands = parser.add_subparsers(dest="command", metavar="COMMAND", required=True)
    add_compress(commands)
    add_expand(commands)
    add_verify(commands)
    add_window(commands)
    add_choose(commands)
    return parser.parse_args(words)


def add_compress(commands) -> None:
    command = added(commands, "compress", "code a scene in pieces along the track, decode each again and compare, and write them with an index")
    command.add_argument("header", metavar="SCENE.hdr", help="the ENVI header; the raw file stands beside it")
    command.add_argument("folder", metavar="OUTDIR", help="the folder of the archive, new or empty")
    command.add_argument("--rows", type=size, help=f"the rows of a piece (default {ROWS})")
    add_jobs(command)
    command.add_argument("--force", action="store_true", help="replace a finished archive")
    add_params(command)


def add_expand(commands) -> None:
    command = added(commands, "expand", "write the scene of an archive, and its header beside it")
    command.add_argument("folder", metavar="OUTDIR", help="the folder of the archive")
    command.add_argument("scene", metavar="SCENE", help="the raw file to write")
    add_jobs(command)
    command.add_argument("--force", action="store_true", help="replace files that are there")


def add_verify(commands) -> None:
    command = added(commands, "verify", "read files and archives through, and compare them with their checksums, one line a file")
    command.add_argument("paths", metavar="PATH", nargs="+", help="an archive's folder, or a coded file")
    add_jobs(command)


def add_window(commands) -> None:
    command = added(commands, "window", "write some rows, columns and bands of an archived scene, reading only the pieces that hold them")
    command.add_argument("folder", metavar="OUTDIR", help="the folder of the archive")
    command.add_argument("--rows", type=span, metavar="A:B", help="rows from A up to B, which is left out; from 0")
    command.add_argument("--columns", type=span, metavar="C:D", help="columns, in the same way")
    command.add_argument("--bands", type=numbers, metavar="LIST", help="bands from 0, such as 0,5,10:20")
    command.add_argument("--output", metavar="SCENE", help="the raw file to write, with a header beside it (default: raw samples on standard output)")
    add_jobs(command)
    command.add_argument("--force", action="store_true", help="replace files that are there")


def add_choose(commands) -> None:
    command = added(commands, "choose", "try a few option sets on rows from the middle of a scene, and print their ratios and speeds")
    command.add_argument("header", metavar="SCENE.hdr", help="the ENVI header; the raw file stands beside it")
    command.add_argument("--rows", type=size, help="the rows to try (default: about 16 MB)")
    add_params(command)


def added(commands, name: str, text: str) -> Parser:
    command = commands.add_parser(name, help=text, description=text[0].upper() + text[1:] + ".")
    command.add_argument("--quiet", action="store_true", help="print nothing but refusals")
    command.add_argument("--json", action="store_true", help="print the result as JSON")
    return command


def add_jobs(command: Parser) -> None:
    command.add_argument("--jobs", type=size, help="the pieces at work at once (default: as many as there are processors)")


def add_params(command: Parser) -> None:
    """Adds an option for each member of Params that isn't the scene's."""
    group = command.add_argument_group("coding", "as the options of `ccsds compress`; --bits are all bits of a sample unless given")
    for it in fields(Params):
        if it.name in SCENE_MEMBERS:
            continue
        name = "--" + it.name.replace("_", "-")
        usual = "" if it.default is MISSING else f"default {it.default}"
        if it.name in WORDS:
            group.add_argument(name, choices=WORDS[it.name], help=usual)
        elif isinstance(it.default, bool):
            group.add_argument(name, action="store_true", default=None)
        else:
            group.add_argument(name, type=int, metavar="N", help=usual)


def params_of(given: argparse.Namespace) -> Dict[str, object]:
    """Returns the members of Params that the words name."""
    named = ((it.name, getattr(given, it.name, None)) for it in fields(Params) if it.name not in SCENE_MEMBERS)
    return {name: value for name, value in named if value is not None}


def size(word: str) -> int:
    if not re.fullmatch(r"[1-9]\d{0,8}", word):
        raise argparse.ArgumentTypeError(f"{word!r} isn't a number of at least 1")
    return int(word)


def span(word: str) -> Tuple[int, int]:
    found = re.fullmatch(r"(\d{1,9}):(\d{1,9})", word)
    if not found:
        raise argparse.ArgumentTypeError(f"{word!r} isn't two numbers as in 0:128")
    return int(found[1]), int(found[2])


def numbers(word: str) -> List[int]:
    found: List[int] = []
    for part in word.split(","):
        if re.fullmatch(r"\d{1,9}", part):
            found.append(int(part))
        else:
            first, end = span(part)
            if first >= end or end > 1 << 16:
                raise argparse.ArgumentTypeError(f"{part!r} names no bands")
            found.extend(range(first, end))
    return found
