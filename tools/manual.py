#!/usr/bin/env python3
"""Writes the manual page and the completion of bash for `ccsds`, from the options as the sources describe them.

    tools/manual.py FOLDER     writes FOLDER/ccsds.1 and FOLDER/ccsds.bash

Names, meanings, ranges and defaults are those of the rows of docs/COMMAND.md (`tools/option_rows.py`).
"""

import os
import re
import sys

sys.dont_write_bytecode = True
from option_rows import TOP, rows

LAYOUT = ("layout", "bytes", "little")
"""The options of `expand`, which `compress` has too."""
COMMANDS = {
    "compress": ("OPTIONS IN OUT", "Raw samples in IN become a file in OUT."),
    "expand": ("[--layout ORDER] [--bytes N] [--little] IN OUT", "A file in IN becomes raw samples in OUT."),
    "inspect": ("< FILE", "Prints what the header of a file says, a line for each field."),
    "show": ("< CUBE", "Prints a small cube's file in hexadecimal."),
}
STATUSES = [
    ("0", "done"),
    ("1", "the command line is wrong"),
    ("2", "the input or a parameter is refused"),
    ("3", "memory could not be allocated, or a thread not started"),
    ("4", "a file or stream failed"),
]


class Option:
    """An option: its name, meaning, range (or `flag`) and default."""

    def __init__(self, name, row):
        cells = [cell.strip() for cell in row.strip("|").split("|")]
        self.name, self.meaning, self.range, self.default = name, *cells[1:]

    @property
    def is_flag(self):
        return self.range == "flag"

    @property
    def words(self):
        """Returns the words that the option takes, if it takes words."""
        return re.findall(r"`(\w+)`", self.range)


def options():
    return [Option(name, row) for name, row in rows().items()]


def version():
    return (TOP / "VERSION").read_text(encoding="utf-8").strip()


# ---- the manual page


def roff(text):
    """Returns text as the page spells it: code in bold, and no character that the formatter would read as its own."""
    text = text.replace("\\", "\\e").replace("-", "\\-")
    return re.sub(r"`([^`]*)`", r"\\fB\1\\fR", text)


def tagged(head, text):
    return f".TP\n{head}\n{text}"


def option_entry(option):
    if option.is_flag:
        return tagged(f"\\fB{roff('--' + option.name)}\\fR", roff(f"{option.meaning}; otherwise {option.default}"))
    default = "required" if option.default == "required" else f"default {option.default}"
    return tagged(f"\\fB{roff('--' + option.name)}\\fR \\fIVALUE\\fR", roff(f"{option.meaning}; {option.range} ({default})"))


def manual():
    """Returns the manual page."""
    lines = [f'.TH CCSDS 1 "" "ccsds {version()}" "User Commands"', ".SH NAME", "ccsds \\- compress image cubes without loss (CCSDS 123.0\\-B\\-1)"]
    lines += [".SH SYNOPSIS", *(f".B ccsds {name}\n{roff(words)}\n.br" for name, (words, _) in COMMANDS.items()), ".SH DESCRIPTION"]
    lines += ["Each file holds one cube. A refusal is one line on standard error: the name of the program, the number, the name and the values of the fault."]
    lines += [tagged(f"\\fB{name}\\fR", roff(meaning)) for name, (_, meaning) in COMMANDS.items()]
    lines += [".SH OPTIONS", *map(option_entry, options()), ".SH EXIT STATUS", *(tagged(number, meaning) for number, meaning in STATUSES)]
    return "\n".join(lines) + "\n"


# ---- the completion


def completion():
    """Returns the completion: the commands, their options, the words of an option, and otherwise files."""
    every = options()
    compress = " ".join(f"--{option.name}" for option in every)
    expand = " ".join(f"--{name}" for name in LAYOUT)
    arms = "\n".join(f'        --{it.name}) COMPREPLY=($(compgen -W "{" ".join(it.words)}" -- "$word")); return;;' for it in every if it.words)
    return f"""# Completes the words of ccsds.
_ccsds() {{
    local word=${{COMP_WORDS[COMP_CWORD]}} before=${{COMP_WORDS[COMP_CWORD - 1]}} options=
    if [ "$COMP_CWORD" -eq 1 ]; then
        COMPREPLY=($(compgen -W "{' '.join(COMMANDS)}" -- "$word"))
        return
    fi
    case $before in
{arms}
    esac
    case ${{COMP_WORDS[1]}} in
        compress) options="{compress}";;
        expand) options="{expand}";;
    esac
    case $word in
        -*) COMPREPLY=($(compgen -W "$options" -- "$word"));;
        *) COMPREPLY=($(compgen -f -- "$word"));;
    esac
}}
complete -o filenames -F _ccsds ccsds
"""


def main_in(folder):
    """Writes both files to a folder, which is made where there is none."""
    os.makedirs(folder, exist_ok=True)
    for name, text in (("ccsds.1", manual()), ("ccsds.bash", completion())):
        with open(os.path.join(folder, name), "w", encoding="utf-8") as file:
            file.write(text)


if __name__ == "__main__":
    main_in(sys.argv[1])
