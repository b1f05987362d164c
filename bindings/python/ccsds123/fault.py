"""Why the coder refuses."""

from __future__ import annotations

from typing import Tuple, Union

Value = Union[int, str]

WANT_OF_MEMORY = 12
SAMPLE_RANGE = 13
"""The numbers of two faults that the archive's sentences explain; docs/COMMAND.md lists all."""


class Fault(Exception):
    """A refusal of the coder: its number, its name, and its values, as `ccsds` prints them.

    A value is a number, or the name of a field or a rule: `4 Disagree RegisterTooSmall` has `number` 4, `name` `"Disagree"` and
    `values` `("RegisterTooSmall",)`.
    """

    number: int
    name: str
    values: Tuple[Value, ...]

    def __init__(self, text: str) -> None:
        super().__init__(text)
        number, self.name, *values = text.split()
        self.number = int(number)
        self.values = tuple(int(it) if it.lstrip("-").isdigit() else it for it in values)

    def __reduce__(self):
        return Fault, (str(self),)
