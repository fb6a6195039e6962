"""Document 01, "The file": the lines of a file and the eight forms, spelled exactly."""

import re
from functools import lru_cache
from typing import NamedTuple, Optional

LONGEST_LINE = 320

# "A number is 0, or digits without a leading 0, with a minus before it where negative; −0 is no number."
NUMBER = rb"(?:0|-?[1-9][0-9]*)"

# "A list has one number or more." "Single spaces only."
LIST = NUMBER + rb"(?: " + NUMBER + rb")*"

PATTERNS = tuple(
    re.compile(pattern)
    for pattern in (
        rb"\((problem) (" + NUMBER + rb")\)",
        rb"\((scale) (" + NUMBER + rb" " + NUMBER + rb")\)",
        rb"\((row|inverse) (" + NUMBER + rb") \((" + LIST + rb")\)\)",
        rb"\((right|guess|weight) (" + NUMBER + rb") (" + NUMBER + rb")\)",
        # 02, Paper 5: "The form (right i (b d)) gives a tolerance d [..] and a list of other than two numbers there is 2."
        rb"\((right) (" + NUMBER + rb") \((" + NUMBER + rb" " + NUMBER + rb")\)\)",
        rb"\((end)\)",
    )
)

# "Every form has its own range": lowest and highest of the numbers a form carries beside its place, by their kind.
RANGES = {
    "problem": (1, 32),
    "scale": (0, 20),
    "row": (-(2**20), 2**20),
    "right": (-(2**30), 2**30),
    "tolerance": (0, 2**20),
    "guess": (-(2**36), 2**36),
    "inverse": (-(2**20), 2**20),
    "weight": (1, 1024),
}

# The kinds that come once for each i from 1 to n.
PLACED = ("row", "right", "guess", "inverse", "weight")


class Form(NamedTuple):
    """One form: its word, its place i where it has one, and its other numbers. A right side has one of these, or a tolerance after it."""

    kind: str
    place: Optional[int]
    values: tuple

    def kinds(self):
        """The kind of each of the other numbers."""
        return ("right", "tolerance")[: len(self.values)] if self.kind == "right" else (self.kind,) * len(self.values)


def is_in_range(kind, number):
    lowest, highest = RANGES[kind]
    return lowest <= number <= highest


def is_within(kind, numbers):
    return not numbers or is_in_range(kind, min(numbers)) and is_in_range(kind, max(numbers))


@lru_cache(maxsize=1024)
def are_values_in_range(form):
    return all(map(is_in_range, form.kinds(), form.values))


def lines_of(file):
    """01: ASCII lines, each ended by one line feed (a last line may lack it), one form a line."""
    pieces = file.split(b"\n")
    return pieces if pieces[-1] else pieces[:-1]


@lru_cache(maxsize=1024)
def read_form(line):
    """The form that a line spells, or None where it spells none."""
    for pattern in PATTERNS:
        match = pattern.fullmatch(line)
        if match:
            word, *texts = match.groups()
            kind = word.decode()
            place = int(texts.pop(0)) if kind in PLACED else None
            return Form(kind, place, tuple(int(number) for text in texts for number in text.split()))
    return None
