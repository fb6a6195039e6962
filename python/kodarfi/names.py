"""A names file: the name of every mark of a net, of the fixed mark too, and the name of the unit."""

import re
import unicodedata
from typing import Dict, List, NamedTuple, Tuple

from .texts import Line, TextError, cells, lines, separator

COLUMNS = ("mark", "name")
UNIT = "unit"
MARK = re.compile(r"0|[1-9][0-9]?")
NAME_LENGTH = 80
HOW = f"a line is a mark's number and its name, or the word {UNIT} and the unit's name"


class Names(NamedTuple):
    """The unit's name, and those of the marks from 0, the fixed one."""

    unit: str
    marks: List[str]


def _pair(line: Line, header: Line) -> Tuple[str, str]:
    """What is named and its name. CSV has its columns in the header's order."""
    if header is not line and _is_header(header):
        between = separator(header.text)
        found = cells(line, between)
        if len(found) != 2:
            raise TextError(f"line {line.count}: {len(found)} cells under 2 columns")
        by_name = dict(zip(map(str.lower, cells(header, between)), found))
        return by_name["mark"], by_name["name"]
    what, _, name = line.text.replace("\t", " ").partition(" ")
    return what, name


def _is_header(line: Line) -> bool:
    """Whether a line is the first of CSV. A name may have commas, so nothing else than the two columns will do."""
    try:
        return sorted(map(str.lower, cells(line, separator(line.text)))) == sorted(COLUMNS)
    except TextError:
        return False


def _name(given: str, count: int) -> str:
    """A name as it is printed: spaces put together, letters composed."""
    name = unicodedata.normalize("NFC", " ".join(given.split()))
    if not name:
        raise TextError(f"line {count}: there is no name: {HOW}")
    if not name.isprintable():
        raise TextError(f"line {count}: the name has a character that cannot be printed")
    if len(name) > NAME_LENGTH:
        raise TextError(f"line {count}: a name of {len(name)} letters, and {NAME_LENGTH} at most")
    return name


def _each(text: bytes) -> Dict[str, str]:
    """What is named, as it is written, and its name; each once, and no name twice."""
    found: Dict[str, str] = {}
    known = lines(text)
    for line in known[bool(known) and _is_header(known[0]) :]:
        what, name = _pair(line, known[0])
        what = what.lower() if what.lower() == UNIT else what
        if what != UNIT and not MARK.fullmatch(what):
            raise TextError(f"line {line.count}: {what[:40]!r} is not a mark's number: {HOW}")
        if what in found:
            raise TextError(f"line {line.count}: {what} has a name already")
        name = _name(name, line.count)
        if what != UNIT and name in (found[one] for one in found if one != UNIT):
            raise TextError(f"line {line.count}: another mark has the name {name!r}")
        found[what] = name
    return found


def read(text: bytes, n: int) -> Names:
    """The names of a net with n new marks: lines of a mark's number and its name, 0 for the fixed mark, and one of the word unit and the unit's name; or CSV
    whose first line is mark,name. Every mark has one name and no other mark is named, since a names file of another net would look just so."""
    found = _each(text)
    wanted = [UNIT, *map(str, range(n + 1))]
    missing = [what for what in wanted if what not in found]
    if missing:
        raise TextError(f"there is no name for {'the unit' if missing[0] == UNIT else 'mark ' + missing[0]}: {HOW}")
    other = [what for what in found if what not in wanted]
    if other:
        raise TextError(f"mark {other[0]} has a name, and the net has the marks 0 to {n}")
    return Names(found[UNIT], [found[str(mark)] for mark in range(n + 1)])
