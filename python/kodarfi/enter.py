"""Entering: a file that the library accepts now goes into a register with all its marks, or nothing does."""

import os
import sqlite3
from typing import NamedTuple, Optional

from .register import APPLICATION, ENTRY, SCHEMA, VERSION, Judged, Net, NotEntered, RegisterError
from .register import is_empty, judge, opened, schema_faults, seal_of, select, sha256
from .texts import counted, shown


class Entered(NamedTuple):
    """A net that is in a register, and whether it was entered now."""

    net: Net
    is_new: bool


def enter(place: str, name: str, file: bytes, corrects: Optional[int] = None) -> Entered:
    """Enters a file, and makes the register where there is none and nothing is corrected. Refused where the library does not accept the file: nothing is
    then opened or made."""
    judged = judge(file)
    with opened(place, "rwc" if corrects is None else "rw") as register:
        register.execute("BEGIN IMMEDIATE")
        _make_ready(register)
        known = _known(register, sha256(file), corrects)
        if known:
            return Entered(known, is_new=False)
        net = _next(register, os.fsencode(name).decode("utf-8", "backslashreplace"), file, judged, corrects)
        _add(register, net, judged)
        register.execute("COMMIT")
        return Entered(net, is_new=True)


def _make_ready(register: sqlite3.Connection) -> None:
    """Makes a register of an empty database; one that is altered takes no more."""
    if is_empty(register):
        register.execute(f"PRAGMA application_id = {APPLICATION}")
        for statement in SCHEMA.values():
            register.execute(statement)
    faults = schema_faults(register)
    if faults:
        raise RegisterError(f"{faults[0]}: nothing more is entered there, and audit reports all")


def _known(register: sqlite3.Connection, file_sha256: str, corrects: Optional[int]) -> Optional[Net]:
    """The net that this file is already, so that whoever does not know whether it was entered may enter it again."""
    same = [Net(*row) for row in register.execute(select("WHERE file_sha256 = ? ORDER BY number"), (file_sha256,))]
    corrected_by = dict(register.execute("SELECT corrects, number FROM net WHERE corrects IS NOT NULL"))
    if corrects is None:
        standing = [net for net in same if net.number not in corrected_by]
        if same and not standing:
            last = same[-1].number
            raise NotEntered(f"it is net {last}, which net {corrected_by[last]} corrects: to enter it again, name the net that it corrects")
        return standing[0] if standing else None
    again = [net for net in same if net.corrects == corrects]
    if again:
        return again[0]
    if not register.execute("SELECT COUNT(*) FROM net WHERE number = ?", (corrects,)).fetchone()[0]:
        raise NotEntered(f"there is no net {corrects} to correct")
    if corrects in corrected_by:
        raise NotEntered(f"net {corrected_by[corrects]} corrects net {corrects} already: name the last one")
    if corrects in (net.number for net in same):
        raise NotEntered(f"net {corrects} is this file: there is nothing to correct")
    return None


def _next(register: sqlite3.Connection, name: str, file: bytes, judged: Judged, corrects: Optional[int]) -> Net:
    """The net that this file becomes, sealed."""
    last, before = register.execute("SELECT number, seal FROM net ORDER BY number DESC LIMIT 1").fetchone() or (0, "")
    net = Net(last + 1, corrects, name, judged.n, judged.s, sha256(file), sha256(judged.listing), VERSION, "", file, judged.listing)
    return net._replace(seal=seal_of(before, net))


def _add(register: sqlite3.Connection, net: Net, judged: Judged) -> None:
    """The net and its marks, in the transaction that is under way."""
    register.execute(f"INSERT INTO net VALUES ({', '.join('?' * len(net))})", net)
    for row in judged.rows:
        register.execute(f"INSERT INTO entry VALUES ({', '.join('?' * len(ENTRY))})", (net.number, *row))


def report(entered: Entered) -> str:
    """What is said of a net that is in the register."""
    net = entered.net
    how = f"entered{f', correcting net {net.corrects}' if net.corrects else ''}" if entered.is_new else "is this file already, and nothing was entered"
    new = ", the first of a new register" if entered.is_new and net.number == 1 else ""
    lines = (f"net {net.number} {how}: {counted(net.n, 'mark')} of {shown(net.name)}{new}", f"sha256 of the file: {net.file_sha256}", f"seal: {net.seal}")
    return "".join(line + "\n" for line in lines)
