"""A crew's field book, as text or as CSV, to the equations of its net by the proved builder."""

import re
from typing import Dict, List, NamedTuple, Optional, Tuple

from .calls import build
from .nets import FieldLine, Net, Refused, Rows
from .texts import Line, TextError, cells, lines, separator

N_MAX, LINES_MAX, TOLERANCE_MAX = 32, 256, 2**20
COLUMNS = ("key", "from", "to", "difference", "weight", "reading limit")
NUMBER = re.compile(r"-?[0-9]+")
MAIN_MARK = re.compile(r"main:([0-9]+)")
FAR = 10**18  # what a number of more digits is read as; it is outside every range
# The marks of the main net at which a line begins and ends, None where it does not.
Joined = Tuple[Optional[int], Optional[int]]


class FieldBook(NamedTuple):
    """Field lines, the line of the text at which each stands, from 1, and the marks of a main net at its ends, where the line itself has 0."""

    lines: List[FieldLine]
    at: List[int]
    joined: List[Joined]


class Header(NamedTuple):
    """What is between the columns of CSV, and their names."""

    between: str
    names: List[str]


def _whole(digits: str) -> int:
    return int(digits) if len(digits) <= 18 else -FAR if digits.startswith("-") else FAR


def _number(cell: str, count: int) -> int:
    if not NUMBER.fullmatch(cell):
        raise TextError(f"line {count}: {cell[:40]!r} is not a whole number")
    return _whole(cell)


def _main_mark(cell: str) -> Optional[int]:
    """The number of a mark of the main net, which is written main:7."""
    named = MAIN_MARK.fullmatch(cell)
    return _whole(named.group(1)) if named else None


def _header(line: Line) -> Header:
    between = separator(line.text)
    names = ["reading limit" if name == "limit" else name for name in map(str.lower, cells(line, between))]
    unknown = [name for name in names if name not in COLUMNS]
    if unknown:
        raise TextError(f"line {line.count}: there is no column {unknown[0][:40]!r}: the columns are {', '.join(COLUMNS)}, and the last may be left out")
    if sorted(set(names) | {COLUMNS[-1]}) != sorted(COLUMNS) or len(set(names)) != len(names):
        raise TextError(f"line {line.count}: the columns are {', '.join(COLUMNS)}, each once, and the last may be left out")
    return Header(between, names)


def _in_order(line: Line, header: Optional[Header]) -> List[str]:
    """A line's cells in the order of COLUMNS."""
    if header is None:
        return line.text.split()
    found = cells(line, header.between)
    if len(found) != len(header.names):
        raise TextError(f"line {line.count}: {len(found)} cells under {len(header.names)} columns")
    by_name: Dict[str, str] = dict(zip(header.names, found))
    return [by_name[name] for name in COLUMNS[:5]] + [by_name.get(COLUMNS[5], "") or "0"]


def read(text: bytes, has_main: bool = False) -> FieldBook:
    """Field lines: key, from, to, difference, weight, and a reading limit, which is 0 where it is left out. Either whole numbers with spaces between them,
    a line each, or CSV, with commas or semicolons, whose first line names the columns. Empty lines and those that begin with # are passed over. Where the
    net hangs from a main net, a line may begin or end at a mark of that: main:7 is its mark 7, and a number alone is always a mark of the net itself."""
    book = FieldBook([], [], [])
    header: Optional[Header] = None
    for line in lines(text):
        if not book.lines and header is None and ("," in line.text or ";" in line.text):
            header = _header(line)
            continue
        words = _in_order(line, header)
        joined = [_main_mark(cell) if has_main and at in (1, 2) else None for at, cell in enumerate(words)]
        numbers = [_number(cell, line.count) if mark is None else 0 for cell, mark in zip(words, joined)]
        if len(numbers) not in (5, 6):
            raise TextError(f"line {line.count}: {len(numbers)} numbers, not key, from, to, difference, weight and perhaps a reading limit")
        book.lines.append(FieldLine(*numbers))
        book.at.append(line.count)
        book.joined.append((joined[1], joined[2]))
    return book


# The place of a refused line in its list, from 1, the number, and what more is wrong.
_RefusedLine = Tuple[int, int, str]


def _beside_the_builder(book: FieldBook, main_marks: int) -> Optional[_RefusedLine]:
    """The first line that is refused for what the builder is not handed: its reading limit, and the marks of the main net at its ends."""
    before: Dict[int, Tuple[int, Joined]] = {}
    for place, (line, joined) in enumerate(zip(book.lines, book.joined), 1):
        if any(mark is not None and not 1 <= mark <= main_marks for mark in joined):
            return place, 3, f"the main net has the marks main:1 to main:{main_marks}"
        if not 0 <= line.limit <= TOLERANCE_MAX:
            return place, 3, f"a reading limit is 0 to {TOLERANCE_MAX:,}"
        limit, marks = before.setdefault(line.key, (line.limit, joined))
        if marks != joined:
            return place, 17, "the marks of the main net differ"
        if limit != line.limit:
            return place, 17, "the reading limits differ"
    return None


def _by_the_builder(n: int, book: FieldBook) -> Tuple[Optional[Net], Optional[_RefusedLine]]:
    """The equations, or the line that the builder refuses; what it refuses of no line is raised."""
    lines = book.lines
    try:
        return build(n, lines), None
    except Refused as refused:
        if not refused.line:
            count = f"{len(lines)} field lines, and {LINES_MAX} at most" if n > 0 else "no mark but the fixed one"
            raise Refused(3, note=count if lines else "no field line") from None
        outside = refused.number == 16 and any(mark is not None for mark in book.joined[refused.line - 1])
        return None, (refused.line, refused.number, "no end of it is a mark of the dependent net" if outside else "")


def net(book: FieldBook, main_marks: int = 0) -> Net:
    """The equations, by the proved builder, for marks 1 to the highest that a line names, and the tolerances of their right sides: of equation k the sum,
    over the distinct lines at mark k, of weight times reading limit. It covers every right side that readings within their limits give
    (docs/FIELD-LINES.md). `main_marks` is how many marks the main net has, where the net hangs from one; for the builder these are 0.

    Refused, with the line of the text: what the builder refuses; 3 a reading limit outside 0 to 2^20, a mark that the main net has not, and where a
    tolerance is above 2^20; 17 a key met before with another reading limit or another mark of the main net."""
    n = min(N_MAX, max((mark for line in book.lines for mark in (line.start, line.to)), default=0))
    beside = _beside_the_builder(book, main_marks)
    built, refused_line = _by_the_builder(n, book)
    if built is None or beside is not None:
        place, number, note = min(one for one in (beside, refused_line) if one is not None)
        raise Refused(number, line=book.at[place - 1], note=note)
    tolerance = [0] * n
    for line in {line.key: line for line in book.lines}.values():
        for mark in (line.start, line.to):
            if mark:
                tolerance[mark - 1] += line.weight * line.limit
    for k, d in enumerate(tolerance, 1):
        if d > TOLERANCE_MAX:
            raise Refused(3, note=f"the tolerance of equation {k}, its lines' weights times their reading limits, is {d}, above {TOLERANCE_MAX:,}")
    return Net(built.matrix, built.right, tolerance)


def coupling(book: FieldBook, n: int, main_marks: int) -> Rows:
    """Paper 8's C for a book that net() takes: minus the weight, over the distinct lines, at each pair of an own mark and one of the main net."""
    rows = [[0] * main_marks for _ in range(n)]
    for line, joined in {line.key: (line, joined) for line, joined in zip(book.lines, book.joined)}.values():
        for own, mark in ((line.to, joined[0]), (line.start, joined[1])):
            if mark is not None:
                rows[own - 1][mark - 1] -= line.weight
    return rows
