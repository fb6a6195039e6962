"""Text that people write: lines of words or of CSV, read into cells."""

import csv
from typing import List, NamedTuple

TEXT_LENGTH = 2**20  # bytes; a longer text is reported as such


def shown(name: str) -> str:
    """A file's name without what would break the line."""
    return "standard input" if name == "-" else "".join(letter if letter.isprintable() else "?" for letter in name)


def counted(count: int, what: str) -> str:
    """How many there are of something."""
    return f"{count} {what}{'' if count == 1 else 's'}"


class TextError(ValueError):
    """A text that cannot be read: one line, with the number of the line. `file` is which of a command's files it is of, from 0."""

    file = 0


class Line(NamedTuple):
    """A line that says something, and its number from 1."""

    count: int
    text: str


def lines(text: bytes) -> List[Line]:
    """Empty lines and those that begin with # are passed over."""
    try:
        decoded = text.decode("utf-8-sig").split("\n")
    except UnicodeDecodeError as error:
        raise TextError(f"line {text.count(bytes([10]), 0, error.start) + 1}: not text in UTF-8") from None
    stripped = [Line(count, line.strip()) for count, line in enumerate(decoded, 1)]
    return [line for line in stripped if line.text and not line.text.startswith("#")]


def separator(header: str) -> str:
    """What is between the columns that a header names."""
    return ";" if ";" in header else ","


def cells(line: Line, between: str) -> List[str]:
    """The cells of a line of CSV."""
    try:
        return [cell.strip() for cell in next(csv.reader([line.text], delimiter=between, strict=True, skipinitialspace=True), [])]
    except csv.Error as error:
        raise TextError(f"line {line.count}: {error}") from None
