"""ENVI headers: the text file beside a raw scene that says how its samples are laid out.

    header = envi.read("scene.hdr")
    header.columns, header.rows, header.bands, header.interleave
    envi.write("copy.hdr", header)
"""

from __future__ import annotations

import os
import re
import sys
from dataclasses import dataclass, field, replace
from typing import Dict, Union

from .params import INTERLEAVES, shape_of

Path = Union[str, "os.PathLike[str]"]

MOST_BYTES = 1 << 26
"""No header is longer; a raw file that is given in its place is not read whole."""
LAYOUTS = {1: (1, False), 2: (2, True), 12: (2, False)}
"""For each data type that can be coded, the bytes of a sample, and whether it is signed."""
REFUSED = {
    3: "32-bit integers", 4: "32-bit floating-point numbers", 5: "64-bit floating-point numbers", 6: "complex numbers", 9: "complex numbers",
    13: "unsigned 32-bit integers", 14: "64-bit integers", 15: "unsigned 64-bit integers",
}
SUFFIXES = ("", ".img", ".raw", ".dat", ".bin", ".bsq", ".bil", ".bip")
FIELD = re.compile(r"^[ \t]*([^=;{}\n]+?)[ \t]*=[ \t]*(\{[^}]*\}|[^\n{]*)", re.M)


class EnviError(ValueError):
    """A header that can't be used, in a sentence that names its file."""


@dataclass(frozen=True)
class Header:
    """What an ENVI header says of its scene; `others` holds the fields that say nothing of the layout, as they were written."""

    columns: int
    rows: int
    bands: int
    data_type: int
    interleave: str = "bsq"
    little: bool = sys.byteorder == "little"
    offset: int = 0
    """The bytes in front of the samples."""
    others: Dict[str, str] = field(default_factory=dict, hash=False)

    @property
    def sample_bytes(self) -> int:
        return LAYOUTS[self.data_type][0]

    @property
    def signed(self) -> bool:
        return LAYOUTS[self.data_type][1]

    @property
    def byteorder(self) -> str:
        return "little" if self.little else "big"

    @property
    def row_bytes(self) -> int:
        """The bytes of one row of all bands."""
        return self.columns * self.bands * self.sample_bytes

    @property
    def length(self) -> int:
        """The bytes of all samples, without those in front."""
        return self.rows * self.row_bytes

    def shape(self) -> tuple:
        """The sizes of an array of the samples, the slowest first."""
        return shape_of(self.columns, self.rows, self.bands, self.interleave)

    def part(self, columns: int, rows: int, bands: int) -> Header:
        """Returns the header of a part of the scene. What others say of places and bands of the whole scene is left out."""
        return replace(self, columns=columns, rows=rows, bands=bands, offset=0, others={})


def read(path: Path) -> Header:
    """Reads a header; raises EnviError where it isn't one, or describes samples that can't be coded."""
    with open(path, "rb") as file:
        data = file.read(MOST_BYTES + 1)
    name = os.fspath(path)
    if len(data) > MOST_BYTES or data.lstrip(b"\xef\xbb\xbf \t\r\n")[:4] != b"ENVI":
        raise EnviError(f"{name} isn't an ENVI header: its first line isn't ENVI")
    return parse(data.decode("utf-8", "surrogateescape"), name)


def parse(text: str, name: str = "the header") -> Header:
    """Returns what the text of a header says; `name` is what a refusal calls it."""
    lines = re.sub(r"(?m)^[ \t]*;.*$", "", text.replace("\r\n", "\n").replace("\r", "\n"))
    fields = {key.strip().lower(): value.strip() for key, value in FIELD.findall(lines)}
    sizes = [number(fields, key, name) for key in ("samples", "lines", "bands")]
    for key, size in zip(("samples", "lines", "bands"), sizes):
        if not 1 <= size <= 1 << 16:
            raise EnviError(f"{name}: {key} = {size}, and a file holds 1 to 65536 of them")
    data_type = number(fields, "data type", name)
    if data_type not in LAYOUTS:
        raise EnviError(f"{name}: {why_refused(data_type)}")
    if fields.get("file compression", "0") not in ("", "0"):
        raise EnviError(f"{name}: the samples are compressed already (file compression = {fields['file compression']}): unpack them first")
    return Header(*sizes, data_type, interleave_of(fields, name), little_of(fields, data_type, name), offset_of(fields, name), others_of(fields))


def number(fields: Dict[str, str], key: str, name: str, default: int = -1) -> int:
    value = fields.get(key, "")
    if not value and default >= 0:
        return default
    if not value:
        raise EnviError(f"{name} has no field '{key}'")
    if not value.isascii() or not value.isdigit():
        raise EnviError(f"{name}: '{key} = {value}' isn't a whole number")
    return int(value)


def interleave_of(fields: Dict[str, str], name: str) -> str:
    word = fields.get("interleave", "bsq").lower()
    if word not in INTERLEAVES:
        raise EnviError(f"{name}: interleave = {word}, and it has to be bsq, bil or bip")
    return word


def little_of(fields: Dict[str, str], data_type: int, name: str) -> bool:
    if "byte order" not in fields and LAYOUTS[data_type][0] == 2:
        raise EnviError(f"{name} has no field 'byte order', and its samples have two bytes: add 'byte order = 0' where the low byte comes first, or 1")
    order = number(fields, "byte order", name, 0)
    if order > 1:
        raise EnviError(f"{name}: byte order = {order}, and it has to be 0 or 1")
    return order == 0


def offset_of(fields: Dict[str, str], name: str) -> int:
    return number(fields, "header offset", name, 0)


LAYOUT_FIELDS = ("samples", "lines", "bands", "header offset", "data type", "interleave", "byte order")


def others_of(fields: Dict[str, str]) -> Dict[str, str]:
    return {key: value for key, value in fields.items() if key not in LAYOUT_FIELDS}


def why_refused(data_type: int) -> str:
    """Returns why samples of a data type aren't coded, and what to do."""
    what = REFUSED.get(data_type, "samples of an unknown kind")
    if "floating" in what or "complex" in what:
        return (
            f"data type = {data_type}, {what}, and only integers of 8 or 16 bits can be coded: "
            "code the instrument's digital numbers, scale to 16-bit integers (data type = 2 or 12), or use a compressor of floating-point numbers such as zfp"
        )
    return f"data type = {data_type}, {what}, and only integers of 8 or 16 bits can be coded: convert to data type = 1, 2 or 12 if the values fit"


def text_of(header: Header) -> str:
    """Returns the text of a header."""
    values = (header.columns, header.rows, header.bands, header.offset, header.data_type, header.interleave, 0 if header.little else 1)
    lines = ["ENVI", *(f"{key} = {value}" for key, value in zip(LAYOUT_FIELDS, values))]
    return "\n".join([*lines, *(f"{key} = {value}" for key, value in header.others.items())]) + "\n"


def write(path: Path, header: Header) -> None:
    """Writes a header."""
    with open(path, "w", encoding="utf-8", errors="surrogateescape", newline="\n") as file:
        file.write(text_of(header))


def raw_file_of(path: Path) -> str:
    """Returns the name of the raw file beside a header: `scene.img.hdr` stands beside `scene.img`, `scene.hdr` beside `scene`, `scene.img`, .."""
    name = os.fspath(path)
    stem = name[:-4] if name.lower().endswith(".hdr") else name
    for suffix in SUFFIXES:
        for found in (stem + suffix, stem + suffix.upper()):
            if found != name and os.path.isfile(found):
                return found
    raise EnviError(f"{name}: there is no raw file beside it: {stem}, {stem}.img, .raw, .dat, .bin, .bsq, .bil and .bip were looked for")
