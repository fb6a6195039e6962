"""A register: a database of SQLite that keeps the entries of accepted files. Nets are added one after the other; nothing is changed or removed.

A net is a file that was entered, with a number of its own: marks are 1 to n of a file, so mark 2 of net 3 is a mark that no other net has. Each net is
sealed: its seal is the sha256 of the seal before it and of what is said of the net, so whoever has noted the last seal can find out whether any net up to it
was changed since."""

import hashlib
import os
import sqlite3
from contextlib import contextmanager
from pathlib import Path
from typing import Dict, Iterator, List, NamedTuple, Optional, Tuple

from . import __version__, calls, forms
from .texts import shown

APPLICATION = 0x4B4F4441  # SQLite's mark of whose a database is
PATIENCE = 60  # seconds to wait for another writer
VERSION = f"kodarfi {__version__}"

ENTRY = ("net", "mark", "V", "L", "X", "E", "s")


def _kept(table: str, act: str) -> str:
    return f"CREATE TRIGGER {table}_no_{act.lower()} BEFORE {act} ON {table} BEGIN SELECT RAISE(ABORT, 'entries are never changed or removed'); END"


# What the database is made of. An INSERT OR REPLACE removes rows past a trigger on DELETE, so rows are added in order, and no column but the keys is unique.
SCHEMA: Dict[str, str] = {
    "net": """CREATE TABLE net (
  number INTEGER PRIMARY KEY, corrects INTEGER, name TEXT NOT NULL, n INTEGER NOT NULL, s INTEGER NOT NULL,
  file_sha256 TEXT NOT NULL, listing_sha256 TEXT NOT NULL, version TEXT NOT NULL, seal TEXT NOT NULL, file BLOB NOT NULL, listing BLOB NOT NULL)""",
    "entry": """CREATE TABLE entry (
  net INTEGER NOT NULL REFERENCES net (number), mark INTEGER NOT NULL, V INTEGER NOT NULL, L INTEGER NOT NULL, X INTEGER NOT NULL, E INTEGER NOT NULL,
  s INTEGER NOT NULL, PRIMARY KEY (net, mark)) WITHOUT ROWID""",
    "net_by_file": "CREATE INDEX net_by_file ON net (file_sha256)",
    "net_by_corrects": "CREATE INDEX net_by_corrects ON net (corrects)",
    "net_in_order": """CREATE TRIGGER net_in_order BEFORE INSERT ON net
  WHEN NEW.number IS NOT (SELECT COALESCE(MAX(number), 0) + 1 FROM net)
  BEGIN SELECT RAISE(ABORT, 'nets are entered one after the other'); END""",
    "entry_in_order": """CREATE TRIGGER entry_in_order BEFORE INSERT ON entry
  WHEN NEW.net IS NOT (SELECT MAX(number) FROM net) OR NEW.mark IS NOT (SELECT COUNT(*) + 1 FROM entry WHERE net = NEW.net)
    OR NEW.mark > (SELECT n FROM net WHERE number = NEW.net)
  BEGIN SELECT RAISE(ABORT, 'marks are entered with their net'); END""",
    **{f"{table}_no_{act.lower()}": _kept(table, act) for table in ("net", "entry") for act in ("UPDATE", "DELETE")},
}


class RegisterError(Exception):
    """A register that cannot be read or written: one line, and a status of 2."""


class NotEntered(Exception):
    """An accepted file that the register does not take: one line, and a status of 1."""


class Net(NamedTuple):
    """A row of the table net. `corrects` is the number of the net that this one is a correction of, None where it is none."""

    number: int
    corrects: Optional[int]
    name: str
    n: int
    s: int
    file_sha256: str
    listing_sha256: str
    version: str
    seal: str
    file: bytes
    listing: bytes


class Judged(NamedTuple):
    """What follows from an accepted file: n, s, its listing, and of each mark V, L, X, E and s."""

    n: int
    s: int
    listing: bytes
    rows: List[Tuple[int, int, int, int, int, int]]


def judge(file: bytes) -> Judged:
    """What the library says of a file now. Refused where it does not accept it."""
    answer = calls.listing(file)
    if answer.refused:
        raise answer.refused
    proposal = forms.read(file)
    heights = zip(proposal.guess, calls.check(proposal).solution)
    rows = [(mark, *calls.entry(X, E, proposal.s), X, E, proposal.s) for mark, (X, E) in enumerate(heights, 1)]
    return Judged(proposal.net.n, proposal.s, answer.text, rows)


def sha256(text: bytes) -> str:
    return hashlib.sha256(text).hexdigest()


def seal_of(before: str, net: Net) -> str:
    """The seal of a net: the sha256 of seven lines, the seal before it first (empty for net 1), 0 where nothing is corrected, and the file's name last."""
    lines = (before, net.number, net.corrects or 0, net.version, net.file_sha256, net.listing_sha256, net.name)
    return sha256("\n".join(map(str, lines)).encode())


def select(end: str) -> str:
    """Nets, with what follows FROM net."""
    return f"SELECT {', '.join(Net._fields)} FROM net {end}"


def _words(error: Exception) -> str:
    """What is wrong in one line, as a clerk meets it."""
    said = shown(" ".join(str(error).split()))
    if isinstance(error, UnicodeDecodeError) or "malformed" in said:
        return f"the database is damaged: {said}"
    if "locked" in said:
        return f"another program has held it for {PATIENCE} s: try again when that has ended"
    if "not a database" in said:
        return "not a database"
    return f"it could not be read or written: {said}"


def _look(place: str, mode: str) -> None:
    """Says what is wrong with a place where SQLite would say less, or take it: what is written to a device is lost."""
    folder = os.path.dirname(place) or "."
    if not os.path.isdir(folder):
        raise RegisterError(f"there is no folder {shown(folder)}")
    if os.path.lexists(place) and not os.path.isfile(place):
        raise RegisterError("not a file")
    if mode == "rw" and not os.path.exists(place):
        raise RegisterError("no such file")


def is_empty(register: sqlite3.Connection) -> bool:
    """Whether nothing was ever written there."""
    return not register.execute("SELECT COUNT(*) FROM sqlite_master").fetchone()[0] and not register.execute("PRAGMA application_id").fetchone()[0]


def _look_whose(register: sqlite3.Connection) -> None:
    """A database of another program is left alone."""
    if not is_empty(register) and register.execute("PRAGMA application_id").fetchone()[0] != APPLICATION:
        raise RegisterError("a database of another program")


@contextmanager
def opened(place: str, mode: str) -> Iterator[sqlite3.Connection]:
    """A register, closed at the end; what was not committed is then as if it had not been. mode is SQLite's: rw, or rwc where one may be made."""
    _look(place, mode)
    try:
        register = sqlite3.connect(f"{Path(place).absolute().as_uri()}?mode={mode}", timeout=PATIENCE, isolation_level=None, uri=True)
        try:
            register.text_factory = lambda text: text.decode("utf-8", "backslashreplace")
            _look_whose(register)
            # One file when nobody writes, and an entry that was reported is on the disk: the folder is synchronized too, after the journal is removed.
            register.execute("PRAGMA journal_mode = DELETE")
            register.execute("PRAGMA synchronous = EXTRA")
            yield register
        finally:
            register.close()
    except (sqlite3.Error, UnicodeDecodeError) as error:  # SQLite's own words may have a damaged name in them
        raise RegisterError(_words(error)) from None


def schema_faults(register: sqlite3.Connection) -> List[str]:
    """What the database lacks of a register's schema, or has beside it."""
    found = {name: (kind, sql) for kind, name, sql in register.execute("SELECT type, name, sql FROM sqlite_master")}
    kind_of = {name: sql.split(" ")[1].lower() for name, sql in SCHEMA.items()}
    faults = [f"{kind_of[name]} {name} is missing" for name in SCHEMA if name not in found]
    faults += [f"{kind_of[name]} {name} is altered" for name in SCHEMA if name in found and found[name][1] != SCHEMA[name]]
    return faults + [f"{found[name][0]} {name} is none of a register" for name in found if name not in SCHEMA]
