"""An audit: every file of a register is judged again, and what does not follow from it is named."""

import sqlite3
from typing import Any, Dict, Iterator, List, NamedTuple, Set, Tuple

from .nets import Refused
from .register import ENTRY, VERSION, Judged, Net, RegisterError, is_empty, judge, opened, schema_faults, seal_of, select, sha256
from .texts import counted


class Audit(NamedTuple):
    """How many nets and marks there are, the last seal, and what is wrong."""

    nets: int
    marks: int
    seal: str
    faults: List[str]


class Faulty(Exception):
    """A register that has faults: what an audit prints, and one line for standard error."""

    def __init__(self, text: str, line: str) -> None:
        super().__init__(line)
        self.text = text


def audit(place: str) -> Audit:
    """Judges a register."""
    with opened(place, "rw") as register:
        if is_empty(register):
            raise RegisterError("nothing was ever entered there, or all of it is lost")
        return _audited(register)


def _audited(register: sqlite3.Connection) -> Audit:
    faults = schema_faults(register)
    if any(fault.startswith(("table net is ", "table entry is ")) for fault in faults):
        return Audit(0, 0, "", faults)  # there is no telling what the columns mean
    faults += [f"the database is damaged: {row[0]}" for row in register.execute("PRAGMA integrity_check(10)") if row[0] != "ok"]
    alone = register.execute("SELECT DISTINCT net FROM entry WHERE net NOT IN (SELECT number FROM net)")
    faults += [f"net {row[0]!r:.40}: its marks are there, and it is not" for row in alone]
    nets, marks, last, seal, corrected = 0, 0, 0, "", set()  # type: int, int, int, str, Set[Any]
    for net, rows in _nets(register):
        faults += [] if net.number == last + 1 else [f"net {last + 1}: missing, and the next is {net.number}"]
        faults += [f"net {net.number}: {fault}" for fault in (*_file_faults(net, rows), *_place_faults(net, seal, corrected))]
        nets, marks, last, seal = nets + 1, marks + len(rows), net.number, net.seal
        corrected.add(net.corrects)
    return Audit(nets, marks, seal, faults if nets else [*faults, "there is no net, and a register is made with its first"])


def _nets(register: sqlite3.Connection) -> Iterator[Tuple[Net, List[Tuple[Any, ...]]]]:
    """The nets that are there now, each with its marks. Each is read by itself, so nobody who enters meanwhile has to wait."""
    end = register.execute("SELECT MAX(number) FROM net").fetchone()[0]
    net = register.execute(select("WHERE number <= ? ORDER BY number LIMIT 1"), (end,)).fetchone()
    while net:
        yield Net(*net), register.execute(f"SELECT {', '.join(ENTRY[1:])} FROM entry WHERE net = ? ORDER BY mark", (net[0],)).fetchall()
        net = register.execute(select("WHERE number > ? AND number <= ? ORDER BY number LIMIT 1"), (net[0], end)).fetchone()


def _file_faults(net: Net, rows: List[Tuple[Any, ...]]) -> Iterator[str]:
    """What does not follow from the stored file."""
    if not isinstance(net.file, bytes) or not isinstance(net.listing, bytes):
        yield "its file or its listing is not stored as bytes"
        return
    if sha256(net.file) != net.file_sha256:
        yield "the sha256 of its file is another"
    if sha256(net.listing) != net.listing_sha256:
        yield "the sha256 of its listing is another"
    try:
        judged = judge(net.file)
    except Refused as refused:
        yield f"its file is not accepted: {refused}"
        return
    if net.listing != judged.listing:
        yield "its listing is not that of its file"
    for name, stored, right in (("n", net.n, judged.n), ("s", net.s, judged.s)):
        if stored != right:
            yield f"{name} is {stored!r:.40}, and {right} by its file"
    yield from _mark_faults(rows, judged)


def _mark_faults(rows: List[Tuple[Any, ...]], judged: Judged) -> Iterator[str]:
    """Marks that are missing, that are too many, or that have another number than by the file."""
    stored: Dict[Any, Tuple[Any, ...]] = {row[0]: row for row in rows}
    right = {row[0]: row for row in judged.rows}
    yield from (f"mark {mark}: missing" for mark in right if mark not in stored)
    yield from (f"mark {mark!r:.40}: the file has no such mark" for mark in stored if mark not in right)
    for mark in (mark for mark in right if mark in stored):
        for name, one, other in zip(ENTRY[1:], stored[mark], right[mark]):
            if one != other:
                yield f"mark {mark}: {name} is {one!r:.40}, and {other} by its file"


def _place_faults(net: Net, before: str, corrected: Set[Any]) -> Iterator[str]:
    """What does not fit the nets before it."""
    if net.seal != seal_of(before, net):
        yield "its seal does not fit: its name, its version, a sha256, what it corrects, or the net before it is another"
    if net.corrects is not None and (net.corrects not in range(1, net.number) or net.corrects in corrected):
        yield f"it corrects net {net.corrects!r:.40}, which is no earlier one, or is corrected already"


def report(found: Audit) -> str:
    """What an audit prints."""
    counts = f"{counted(found.nets, 'net')}, {counted(found.marks, 'mark')}, judged by {VERSION}"
    lines = [" ".join(fault.split()) for fault in found.faults]
    lines += [f"{counts}: {counted(len(lines), 'fault')}" if lines else f"{counts}: every entry follows from its file"]
    lines += [f"seal of the last net: {found.seal}"] if found.nets else []
    return "".join(line + "\n" for line in lines)


def look(place: str) -> str:
    """What an audit of a clean register prints. Raises Faulty."""
    found = audit(place)
    if found.faults:
        raise Faulty(report(found), counted(len(found.faults), "fault"))
    return report(found)
