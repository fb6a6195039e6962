"""Registers: what is entered beside the oracle, what is not, that nothing is changed, and what an audit names."""

import hashlib
import random
import shutil
import sqlite3
from contextlib import closing

from calls.listing.oracle import Program
from common.checks import entries_in

from package.commands import WHOLE, problems
from package.dependent_nets import limits_of
from package.kept import called, changed, faults, filled, folder, net, part, rows
from package.loaded import ROOT

REFUSED = sorted((ROOT / "examples" / "refused").glob("*.txt"))


def sha256(text):
    return hashlib.sha256(text).hexdigest()


def accepted_files():
    """Files of every kind that the oracle accepts."""
    files = [WHOLE, *(net(k) for k in range(3)), net(7, marks=32), *(file for file, _ in problems())]
    return [file for file in dict.fromkeys(files) if Program().listing(file).startswith(b"(bounds ")][:30]


def entries_follow_from_files(package):
    """Every row beside the oracle's listing; files and listings byte for byte; hashes and seals computed again."""
    files, version = accepted_files(), f"kodarfi {package.calls.__version__}"
    with folder() as place:
        register = place / "register.db"
        for number, file in enumerate(files, 1):
            part("enter").enter(str(register), f"file {number}", file)
        stored = rows(register, "SELECT number, corrects, name, n, s, file_sha256, listing_sha256, version, seal, file, listing FROM net")
        marks = rows(register, "SELECT net, mark, V, L, X, E, s FROM entry ORDER BY net, mark")
        found = part("audit").audit(str(register))
    seal, right, right_marks = "", [], []
    for number, file in enumerate(files, 1):
        listing, problem = Program().listing(file), Program().load(file)
        hashes = sha256(file), sha256(listing)
        seal = sha256("\n".join([seal, str(number), "0", version, *hashes, f"file {number}"]).encode())
        right.append((number, None, f"file {number}", problem.n, problem.s, *hashes, version, seal, file, listing))
        printed = limits_of(listing)[0]
        right_marks += [(number, mark, V, L, X, E, problem.s) for mark, ((V, L), X, E) in enumerate(zip(entries_in(listing), printed.guess, printed.solution), 1)]
    is_varied = len(files) > 15 and any(L != E for _, _, _, L, _, E, _ in right_marks)
    return is_varied and (stored, marks) == (right, right_marks) and found == (len(files), len(right_marks), seal, [])


def refused_files_are_not_entered(package):
    """Each with the line that its listing has; no register is made for it, and one that is there stays as it is, to the byte."""
    with folder() as place:
        made, register = place / "none.db", filled(place / "register.db")
        bytes_before = register.read_bytes()
        (place / "huge.txt").write_bytes(WHOLE + b"\n" * 3_000_000)
        (place / "empty.txt").write_bytes(b"")
        (place / "binary.txt").write_bytes(b"\x89PNG\r\n\x00\xff" * 9000)
        for file in (*REFUSED, place / "huge.txt", place / "empty.txt", place / "binary.txt"):
            for at in (made, register):
                status, out, err = called("enter", at, file)
                if (status, out) != (1, Program().listing(file.read_bytes()[:65536])) or err.count(b"\n") != 1 or not err.startswith(b"enter: "):
                    return False
        return len(REFUSED) > 8 and not made.exists() and register.read_bytes() == bytes_before


SAME = "SELECT number, corrects, name, n, s, file_sha256, listing_sha256, version, seal, file, listing FROM net"
UPDATES = [f"UPDATE net SET {column} = {column}" for column in ("number", "corrects", "name", "n", "s", "file_sha256", "listing_sha256", "version", "seal", "file", "listing")]
UPDATES += [f"UPDATE entry SET {column} = {column}" for column in ("net", "mark", "V", "L", "X", "E", "s")]
OTHERS = (
    "DELETE FROM net", "DELETE FROM net WHERE number = 3", "DELETE FROM entry", "DELETE FROM entry WHERE net = 3 AND mark = 3", "UPDATE OR REPLACE entry SET mark = 2 WHERE mark = 1",
    f"INSERT OR REPLACE INTO net {SAME} WHERE number = 1", f"INSERT OR REPLACE INTO net {SAME} WHERE number = 3", "REPLACE INTO entry SELECT * FROM entry WHERE net = 3 AND mark = 3",
    "REPLACE INTO entry SELECT net, mark, V + 1, L, X, E, s FROM entry WHERE net = 1", "INSERT INTO entry VALUES (1, 4, 0, 0, 0, 0, 0)", "INSERT INTO entry VALUES (3, 4, 0, 0, 0, 0, 0)",
    "INSERT INTO entry VALUES (4, 1, 0, 0, 0, 0, 0)", f"INSERT INTO net SELECT 7, {SAME[15:]} WHERE number = 1", f"INSERT INTO net SELECT NULL, {SAME[15:]} WHERE number = 1",
    "INSERT INTO entry SELECT net, mark, V, L, X, E, s FROM entry WHERE true ON CONFLICT DO UPDATE SET V = 7",
)  # fmt: skip


def nothing_is_changed_or_removed(package):
    """By no statement of SQL that leaves the triggers alone."""
    with folder() as place:
        register = filled(place / "register.db")
        before = rows(register, SAME), rows(register, "SELECT * FROM entry")
        for statement in (*UPDATES, *OTHERS):
            try:
                with closing(sqlite3.connect(str(register), isolation_level=None)) as opened:
                    opened.execute(statement)
            except sqlite3.IntegrityError:
                continue
            return False
        return (rows(register, SAME), rows(register, "SELECT * FROM entry")) == before and faults(register) == []


SEAL = "its seal does not fit: its name, its version, a sha256, what it corrects, or the net before it is another"
LISTING, FILE_HASH, LISTING_HASH = "its listing is not that of its file", "the sha256 of its file is another", "the sha256 of its listing is another"
OTHER = net(9)
LIAR = net(2).replace(b"(guess 1 8)", b"(guess 1 9908)")  # a guess that is refused
# What is done to net 2 of three past the triggers, and what an audit says of it.
CHANGES = (
    (["UPDATE entry SET V = V + 1 WHERE net = 2 AND mark = 1"], ["net 2: mark 1: V is 3, and 2 by its file"]),
    (["UPDATE entry SET L = L - 1 WHERE net = 2 AND mark = 1"], ["net 2: mark 1: L is 2, and 3 by its file"]),
    (["UPDATE entry SET X = 0 WHERE net = 2 AND mark = 1"], ["net 2: mark 1: X is 0, and 8 by its file"]),
    (["UPDATE entry SET E = 'none' WHERE net = 2 AND mark = 1"], ["net 2: mark 1: E is 'none', and 12 by its file"]),
    (["UPDATE entry SET s = 9 WHERE net = 2 AND mark = 3"], ["net 2: mark 3: s is 9, and 2 by its file"]),
    (["DELETE FROM entry WHERE net = 2 AND mark = 3"], ["net 2: mark 3: missing"]),
    (["INSERT INTO entry VALUES (2, 4, 1, 1, 1, 1, 2)"], ["net 2: mark 4: the file has no such mark"]),
    (["INSERT INTO entry VALUES (7, 1, 1, 1, 1, 1, 2)"], ["net 7: its marks are there, and it is not"]),
    ([("UPDATE net SET file = ? WHERE number = 2", (net(2) + b"\n",))], [f"net 2: {FILE_HASH}", "net 2: its file is not accepted: "]),
    ([("UPDATE net SET file = ?, file_sha256 = ? WHERE number = 2", (OTHER, sha256(OTHER)))], [f"net 2: {LISTING}", "net 2: mark 1: V is 2, and 9 by", ..., f"net 2: {SEAL}"]),
    ([("UPDATE net SET file = ?, file_sha256 = ? WHERE number = 2", (LIAR, sha256(LIAR)))], ["net 2: its file is not accepted: refused with 6, row 1", f"net 2: {SEAL}"]),
    (["UPDATE net SET file = CAST(file AS TEXT) WHERE number = 2"], ["net 2: its file or its listing is not stored as bytes"]),
    ([("UPDATE net SET listing = ? WHERE number = 2", (b"",))], [f"net 2: {LISTING_HASH}", f"net 2: {LISTING}"]),
    ([("UPDATE net SET listing = ?, listing_sha256 = ? WHERE number = 2", (b"", sha256(b"")))], [f"net 2: {LISTING}", f"net 2: {SEAL}"]),
    (["UPDATE net SET file_sha256 = listing_sha256 WHERE number = 2"], [f"net 2: {FILE_HASH}", f"net 2: {SEAL}"]),
    (["UPDATE net SET version = 'kodarfi 2.0.0' WHERE number = 2"], [f"net 2: {SEAL}"]),
    (["UPDATE net SET name = 'other.txt' WHERE number = 2"], [f"net 2: {SEAL}"]),
    (["UPDATE net SET corrects = NULL WHERE number = 3"], [f"net 3: {SEAL}"]),
    (["UPDATE net SET corrects = 1 WHERE number = 2"], [f"net 2: {SEAL}", "net 3: it corrects net 1, which is no earlier one, or is corrected already"]),
    (["UPDATE net SET corrects = 2 WHERE number = 2"], [f"net 2: {SEAL}", "net 2: it corrects net 2, which"]),
    (["UPDATE net SET seal = '' WHERE number = 2"], [f"net 2: {SEAL}", f"net 3: {SEAL}"]),
    (["UPDATE net SET n = 2 WHERE number = 2"], ["net 2: n is 2, and 3 by its file"]),
    (["UPDATE net SET s = X'FF' WHERE number = 2"], ["net 2: s is b'\\xff', and 2 by its file"]),
    (["UPDATE net SET name = CAST(X'FF0A' AS TEXT) WHERE number = 2"], [f"net 2: {SEAL}"]),
    (["DELETE FROM net WHERE number = 2"], ["net 2: its marks are there, and it is not", "net 2: missing, and the next is 3", f"net 3: {SEAL}"]),
    (["DELETE FROM net WHERE number = 2", "DELETE FROM entry WHERE net = 2"], ["net 2: missing, and the next is 3", f"net 3: {SEAL}"]),
    (["DELETE FROM net", "DELETE FROM entry"], ["there is no net, and a register is made with its first"]),
    (["DROP TABLE entry"], ["table entry is missing", "trigger entry_in_order is missing", "trigger entry_no_update is missing", "trigger entry_no_delete is missing"]),
    (["ALTER TABLE net ADD COLUMN note TEXT"], ["table net is altered"]),
    (["DROP INDEX net_by_file"], ["index net_by_file is missing"]),
    (["CREATE TABLE notes (note TEXT)", "UPDATE net SET n = 2 WHERE number = 2"], ["table notes is none of a register", "net 2: n is 2, and 3 by its file"]),
    (["CREATE TRIGGER aside AFTER INSERT ON entry BEGIN SELECT 1; END"], ["trigger aside is none of a register"]),
)  # fmt: skip


def said_as(found, right):
    """Whether what an audit found is what is right, line by line, each by its beginning; three dots are any lines of the same net."""
    if ... in right:
        at = right.index(...)
        return said_as(found[:at], right[:at]) and said_as(found[at + 1 - len(right) :], right[at + 1 :]) and len(found) > len(right)
    return len(found) == len(right) and all(one.startswith(other) for one, other in zip(found, right))


def audits_name_what_does_not_follow(package):
    with folder() as place:
        register = filled(place / "register.db")
        for statements, right in CHANGES:
            if not said_as(faults(changed(register, *statements)), right):
                return False
        return faults(register) == [] and faults(changed(register)) == []


def damage_is_reported(package):
    """Bytes changed anywhere in the file, and a file cut short: an audit names what does not follow or says that the database is damaged, and whatever it calls
    clean has every row as it was."""
    rng, reported = random.Random("damage"), {"clean": 0, "faults": 0, "damaged": 0}
    with folder() as place:
        register, copy = filled(place / "register.db"), place / "copy.db"
        good, tables = register.read_bytes(), (SAME + " ORDER BY number", "SELECT * FROM entry ORDER BY net, mark")
        before = [rows(register, table) for table in tables]
        index = good.index(sha256(net(2)).encode(), good.index(sha256(net(2)).encode()) + 64)
        schema = min(good.index(b"CREATE TRIGGER"), good.index(b"CREATE TABLE"))
        places = [[rng.randrange(len(good)) for _ in range(rng.choice((1, 40)))] for _ in range(150)] + [[rng.randrange(schema, 4096)] for _ in range(40)] + [[index]]
        for changes in places:
            damaged = bytearray(good)
            for at in changes:
                damaged[at] ^= rng.choice((0x80, 0x85, 1))
            copy.write_bytes(damaged[: rng.randrange(1, len(good))] if len(changes) > 1 and rng.randrange(9) == 0 else damaged)
            try:
                kind = "faults" if faults(copy) else "clean"
            except part("register").RegisterError:
                kind = "damaged"
            reported[kind] += 1
            if kind == "clean" and [rows(copy, table) for table in tables] != before:
                return False
        return kind == "faults" and min(reported["clean"], reported["faults"], reported["damaged"]) > 5


def audits_look_at_the_triggers(package):
    """One by one, missing and altered; nothing is entered where one is."""
    triggers = [name for name, sql in part("register").SCHEMA.items() if sql.startswith("CREATE TRIGGER")]
    with folder() as place:
        register = filled(place / "register.db")
        for name in triggers:
            for statement, word in ((f"DROP TRIGGER {name}", "missing"), (f"DROP TRIGGER {name}; CREATE TRIGGER {name} BEFORE UPDATE ON net BEGIN SELECT 1; END", "altered")):
                copy = place / "copy.db"
                shutil.copy(register, copy)
                with closing(sqlite3.connect(str(copy))) as opened:
                    opened.executescript(statement)
                before = copy.read_bytes()
                (place / "file.txt").write_bytes(OTHER)
                status, out, err = called("enter", copy, place / "file.txt")
                refused = (status, out) == (2, b"") and f"trigger {name} is {word}: nothing more is entered".encode() in err and copy.read_bytes() == before
                if faults(copy) != [f"trigger {name} is {word}"] or not refused:
                    return False
        return len(triggers) == 6


def files_and_corrections(package):
    """A file that is there is said to be there; a correction names a net that stands; what was corrected comes again only as a correction."""
    one, two, three = net(1), net(2), net(3)
    with folder() as place:

        def enter(file, *words):
            (place / "file.txt").write_bytes(file)
            status, out, err = called("enter", *words, place / "register.db", place / "file.txt")
            return (status, out.split(b":")[0].decode()) if status == 0 else (status, err.decode().split("file.txt: ")[-1].split(":")[0].strip())

        already = "is this file already, and nothing was entered"
        steps = (
            ((one, "--corrects", "1"), (2, "enter")),
            ((one,), (0, "net 1 entered")), ((one,), (0, f"net 1 {already}")), ((one, "--corrects", "0"), (1, "there is no net 0 to correct")),
            ((one, "--corrects", "1"), (1, "net 1 is this file")), ((two, "--corrects", "2"), (1, "there is no net 2 to correct")),
            ((two, "--corrects", "1"), (0, "net 2 entered, correcting net 1")), ((two, "--corrects", "1"), (0, f"net 2 {already}")), ((two,), (0, f"net 2 {already}")),
            ((three, "--corrects", "1"), (1, "net 2 corrects net 1 already")), ((one,), (1, "it is net 1, which net 2 corrects")),
            ((one, "--corrects", "2"), (0, "net 3 entered, correcting net 2")), ((one,), (0, f"net 3 {already}")), ((two,), (1, "it is net 2, which net 3 corrects")),
            ((three,), (0, "net 4 entered")), ((three, "--corrects", "3"), (0, "net 5 entered, correcting net 3")),
        )  # fmt: skip
        if any(enter(*words) != right for words, right in steps):
            return False
        return rows(place / "register.db", "SELECT number, corrects FROM net ORDER BY number") == [(1, None), (2, 1), (3, 2), (4, None), (5, 3)] and faults(place / "register.db") == []
