#!/usr/bin/env python3
"""Prints a row for each option of `compress`, as in the tables of docs/COMMAND.md: its meaning, range and default.

    tools/option_rows.py            prints the rows, in the order of the sources
    tools/option_rows.py --write    replaces the rows of COMMAND.md with these

The names and ranges of header fields come from `header_bits` (`fields.rt`); other ranges, defaults and meanings from `command_words`
(`options.rt`); and the range of each option, or the words that it takes, from its `words.rt`. An option without a row is an error, and
so is a row without an option.
"""

import re
import sys
from pathlib import Path

TOP = Path(__file__).resolve().parent.parent
COMMAND = TOP / "docs" / "COMMAND.md"
FIELD = re.compile(r"const (\w+): (?:Number|Flag)Field\s*=\s*(\w+)!\(([^)]*)\)")
TEXT = re.compile(r'"([^"]*)"')
OPTION = re.compile(r'\s+(?:\(?fields::\w+\.name,|\(?"[a-z-]+",|\.arg\((?:option|flag)\(alloc, ")')
ROW = re.compile(r"^\| `--([a-z-]+)` \|(?:[^|\n]*\|){3}$", re.M)


def source(crate, name):
    return (TOP / "crates" / crate / "src" / name).read_text(encoding="utf-8")


class Fields:
    """The fields of a header, by the names of their constants."""

    def __init__(self):
        text = source("header_bits", "fields.rt")
        self.sizes = [int(size) for size in re.search(r"BLOCK_SIZES: \[u32; \d\] = \[(.*)\]", text)[1].split(",")]
        self.name, self.least, self.most = {}, {}, {}
        for constant, kind, arguments in FIELD.findall(text):
            self.name[constant] = TEXT.search(arguments)[1]
            if kind != "flag":
                _, bits, _, least, *most = arguments.rstrip(", \n").split(",")
                self.least[constant] = self.number(least)
                self.most[constant] = self.number(most[0]) if most else 1 << int(bits)

    def number(self, text):
        """Returns the value of a number, of another field's greatest value or of a block size, plus or minus a number."""
        first, sign, second = re.fullmatch(r"\s*(\S+)(?: ([+-]) (\d+))?\s*", text).groups()
        if first.startswith("BLOCK_SIZES"):
            value = self.sizes[int(first[len("BLOCK_SIZES["):-1])]
        elif first.endswith(".range.most"):
            value = self.most[first[: -len(".range.most")]]
        else:
            value = int(first.replace("_", ""))
        return value + int((sign or "+") + (second or "0"))

    def range(self, constant):
        if constant == "BLOCK_SIZE":
            return ", ".join(map(str, self.sizes))
        return span(self.least[constant], self.most[constant])


def span(least, most):
    return f"{least}, {most}" if most == least + 1 else f"{least} to {most}"


def ranges(fields):
    """Returns the range of each option that has one, or the words that it takes."""
    words, found = source("command_words", "words.rt"), {}
    own = re.findall(r"const (\w+): ValueRange = ValueRange \{\s*least: ([\d_]+),\s*most: ([\d_]+),?\s*\}", source("command_words", "options.rt"))
    spans = {name: span(int(least.replace("_", "")), int(most.replace("_", ""))) for name, least, most in own}
    for constant in re.findall(r"number\(matches, fields::(\w+)\)", words):
        found[fields.name[constant]] = fields.range(constant)
    for name, constant in re.findall(r'(?:number_in|exponent)\(\s*&?matches,\s*"([a-z-]+)",\s*(?:fields::)?(\w+)', words):
        found[name] = spans.get(constant) or fields.range(constant)
    for name, arms in re.findall(r'match word\(matches, "([a-z]+)"\) \{(.*?)\n    \}', words, re.S):
        found[name] = ", ".join(f"`{word}`" for word in re.findall(r'Some\("(\w+)"\)', arms))
    return found


def listed(fields):
    """Yields the name, the default (or none) and the meaning of each option and flag; a missing meaning is empty."""
    meaning = []
    for line in source("command_words", "options.rt").splitlines():
        comment = re.fullmatch(r"\s*// (.*)", line)
        if comment:
            meaning.append(comment[1])
        elif OPTION.match(line):
            line = re.sub(r"fields::(\w+)\.name", lambda field: f'"{fields.name[field[1]]}"', line)
            name, *default = TEXT.findall(line)
            yield name, default, " ".join(meaning)
            meaning = []


def rows():
    """Returns the row of each option, by its name."""
    fields = Fields()
    sizes = re.search(r"macro_rules! sizes \{(.*?)\n\}", source("command_words", "options.rt"), re.S)[1]
    required = {fields.name[constant] for constant in re.findall(r"fields::(\w+)\.name", sizes)}
    known, found = ranges(fields), {}
    for name, default, meaning in listed(fields):
        if not meaning:
            sys.exit(f"option_rows.py: no meaning stands before --{name}")
        if name in required:
            cells = meaning, known[name], "required"
        elif default:
            word = known[name].startswith("`")
            cells = meaning, known[name], f"`{default[0]}`" if word else default[0]
        else:
            meaning, without = meaning.split("; else ")
            cells = meaning, "flag", without
        found[name] = f"| `--{name}` | {' | '.join(cells)} |"
    return found


def differences():
    """Returns the rows that COMMAND.md doesn't contain exactly once, and the rows of COMMAND.md that no option has."""
    text, found = COMMAND.read_text(encoding="utf-8"), rows()
    there = [row[0] for row in ROW.finditer(text)]
    return [row for row in found.values() if there.count(row) != 1] + [row for row in there if row not in found.values()]


def write():
    found = rows()
    text = COMMAND.read_text(encoding="utf-8")
    COMMAND.write_text(ROW.sub(lambda row: found.get(row[1], row[0]), text), encoding="utf-8")
    return differences()


def main(words):
    if words == ["--write"]:
        lines = write()
        print(*lines, sep="\n", end="\n" if lines else "")
        return 1 if lines else 0
    print(*rows().values(), sep="\n")
    return 0


if __name__ == "__main__":
    sys.exit(main(sys.argv[1:]))
