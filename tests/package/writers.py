"""Registers while something goes wrong: kills, writers at once, a register that another holds, full disks, and what is no register."""

import os
import random
import signal
import sqlite3
import time
from contextlib import closing

from package.commands import WHOLE
from package.kept import KILLED, called, ended, faults, filled, folder, forked, net, part, rows
from package.loaded import ROOT

MANY, ROUNDS = 200, 6


def enter(place, k):
    return part("enter").enter(str(place), f"net-{k}.txt", net(k))


def killing_at(count):
    """Makes every database kill the process when so many statements were begun."""
    connect, begun = sqlite3.connect, []

    def connected(*words, **options):
        register = connect(*words, **options)
        register.set_trace_callback(lambda _: begun.append(1) if len(begun) < count else os.kill(os.getpid(), signal.SIGKILL))
        return register

    part("register").sqlite3.connect = connected


def kills_at_any_statement(package):
    """Killed at every statement of an entry, of the first and of a later one: all of the net is there or nothing, and the next entry works."""
    with folder() as place:
        for first in (True, False):
            register, killed = place / f"register-{first}.db", 0
            status = KILLED
            if not first:
                filled(register)
            while status == KILLED:
                status = ended(forked(lambda: (killing_at(killed), enter(register, 9), 0)[-1]))
                killed += 1
                is_there = register.exists() and register.stat().st_size > 0
                if is_there and faults(register) or not first and len(rows(register, "SELECT 1 FROM net")) != 3 + (status == 0):
                    return False
            if status != 0 or killed < 8 or faults(register) or len(rows(register, "SELECT 1 FROM net")) != (1 if first else 4):
                return False
    return True


def entering(place, numbers, tell):
    """A process that enters these nets and tells after each."""

    def act():
        for k in numbers:
            enter(place, k)
            os.write(tell, b".")
        return 0

    return forked(act)


def kills_at_any_moment(package):
    """Killed in the middle of many entries, and started again: each that was reported is there, no part of a net is, and in the end all are, once."""
    rng = random.Random("kills")
    with folder() as place:
        register, reported = place / "register.db", 0
        for left in reversed(range(ROUNDS)):
            seen, tell = os.pipe()
            begin = max(0, reported - 3)
            child = entering(register, range(begin, MANY), tell)
            os.close(tell)
            seen_done = sum(len(os.read(seen, 1)) for _ in range(rng.randint(5, MANY // ROUNDS) if left else MANY + 1))
            if left:
                time.sleep(rng.random() / 300)
                os.kill(child, signal.SIGKILL)
            status = ended(child)
            os.close(seen)
            found = part("audit").audit(str(register))
            if status not in ((KILLED, 0) if left else (0,)) or found.faults or found.nets < begin + seen_done or found.marks != 3 * found.nets:
                return False
            reported = found.nets
        return rows(register, "SELECT name FROM net ORDER BY number") == [(f"net-{k}.txt",) for k in range(MANY)]


def writers_at_once_lose_nothing(package):
    """Three at once, who make the register too, and an audit meanwhile: every net of each is there, in its own order."""
    with folder() as place:
        register, each = place / "register.db", 30
        seen, tell = os.pipe()
        children = [entering(register, range(1000 * who, 1000 * who + each), tell) for who in (1, 2, 3)]
        os.read(seen, 1)
        meanwhile = faults(register)
        is_done = [ended(child) for child in children] == [0, 0, 0]
        os.close(seen), os.close(tell)
        names = [name for (name,) in rows(register, "SELECT name FROM net ORDER BY number")]
        orders = [[name for name in names if name.startswith(f"net-{who}")] == [f"net-{1000 * who + k}.txt" for k in range(each)] for who in (1, 2, 3)]
        return is_done and len(names) == 3 * each and all(orders) and meanwhile == faults(register) == []


class Holder:
    """A process that has begun to write and enters a net when it is told to go on."""

    def __init__(self, register):
        ready, tell = os.pipe()
        heard, self.go_on = os.pipe()
        self.child = forked(lambda: self.hold(register, tell, heard))
        os.close(tell), os.close(heard)
        os.read(ready, 1)
        os.close(ready)

    def hold(self, register, tell, heard):
        commit = part("enter")._add

        def add(*words):
            commit(*words)
            os.write(tell, b".")
            os.read(heard, 1)

        part("enter")._add = add
        enter(register, 50)
        return 0

    def ended(self):
        os.write(self.go_on, b".")
        os.close(self.go_on)
        return ended(self.child)


def entries_wait_for_another(package):
    """An entry waits for one under way and comes after it; where that takes too long, one line says so and nothing is changed."""
    with folder() as place:
        register = filled(place / "register.db")
        (place / "file.txt").write_bytes(net(60))
        holder = Holder(register)
        waited = called("enter", register, place / "file.txt", before=lambda: setattr(part("register"), "PATIENCE", 0.3))
        read = faults(register)
        waiting = forked(lambda: (enter(register, 70), 0)[-1])
        time.sleep(0.3)
        is_waiting = os.waitpid(waiting, os.WNOHANG) == (0, 0)
        is_done = holder.ended() == 0 and is_waiting and ended(waiting) == 0
        names = [name for (name,) in rows(register, "SELECT name FROM net WHERE number > 3 ORDER BY number")]
        said = waited == (2, b"", f"enter: {register}: another program has held it for 0.3 s: try again when that has ended\n".encode())
        return said and read == [] and is_done and names == ["net-50.txt", "net-70.txt"] and faults(register) == []


def entries_are_on_the_disk(package):
    """The register is one file when nobody writes, and what is reported is on the disk, its folder's change too."""
    with folder() as place:
        register = filled(place / "register.db")
        with part("register").opened(str(register), "rw") as opened:
            settings = [opened.execute(f"PRAGMA {name}").fetchone()[0] for name in ("journal_mode", "synchronous")]
        return settings == ["delete", 3] and os.listdir(place) == ["register.db"]


def one_line(answer, status, *words):
    return answer[:2] == (status, b"") and answer[2].count(b"\n") == 1 and all(word in answer[2] for word in words)


def as_another_user():
    """A user without every right."""
    if os.geteuid() == 0:
        os.setgroups([]), os.setgid(65534), os.setuid(65534)


def limited(size):
    """No file may grow above so many bytes, as on a full disk."""
    resource = __import__("resource")
    return lambda: resource.setrlimit(resource.RLIMIT_FSIZE, (size, size))


def what_cannot_be_done_is_reported(package):
    """What is no register, what cannot be read or written: one line, a status of 2, and nothing is changed."""
    part("enter").judge(WHOLE)  # the library is loaded before another user asks for it
    with folder() as place:
        file, register, no_register, other = place / "file.txt", filled(place / "register.db"), place / "text.db", place / "other.db"
        file.write_bytes(net(9)), no_register.write_bytes(net(9) * 9), (place / "empty.db").write_bytes(b"")
        with closing(sqlite3.connect(str(other), isolation_level=None)) as opened:
            opened.execute("PRAGMA journal_mode = WAL"), opened.execute("CREATE TABLE net (a)")
        before = register.read_bytes(), other.read_bytes()
        os.chmod(register, 0o444), os.chmod(place, 0o555)
        read_only = called("enter", register, file, before=as_another_user), called("enter", place / "new.db", file, before=as_another_user)
        audited = called("audit", register, before=as_another_user)
        os.chmod(register, 0o644), os.chmod(place, 0o755)
        places = ((place / "no" / "a.db", b"there is no folder"), (no_register, b"not a database"), (other, b"a database of another program"), (place, b"not a file"), ("/dev/full", b"not a file"))
        return (
            all(one_line(called("enter", at, file), 2, f"enter: {at}: ".encode(), word) and one_line(called("audit", at), 2, f"audit: {at}: ".encode(), word) for at, word in places)
            and one_line(called("audit", place / "none.db"), 2, b"no such file") and one_line(called("audit", place / "empty.db"), 2, b"nothing was ever entered there")
            and all(one_line(answer, 2, b"it could not be read or written") for answer in read_only) and audited[0] == 0
            and all(one_line(called("enter", register, at), 2, b"enter: ") for at in (place, place / "nowhere", "no\nfile"))
            and one_line(called("enter", register, file, before=limited(len(before[0]) - 8192)), 2, b"it could not be read or written")
            and one_line(called("enter", place / "new.db", file, before=limited(8192)), 2, b"it could not be read or written")
            and (register.read_bytes(), other.read_bytes()) == before and faults(register) == []
            and called("enter", place / "new.db", file)[0] == called("enter", place / "empty.db", file)[0] == 0 and faults(place / "new.db") == faults(place / "empty.db") == []
        )  # fmt: skip


def lost_words_lose_no_entry(package):
    """Where standard output takes nothing the net is entered, which is said when it is entered again; an audit that finds something has a status of 1."""
    on, file = "python3 -m kodarfi", "examples/whole-file.txt"
    with folder() as place:
        register = place / "register.db"
        full = called("enter", register, ROOT / file, to="/dev/full")
        again = called("enter", register, ROOT / file)
        gone = package.shell(f"{{ sleep 0.2; {on} enter {register} examples/town/net.txt; echo $? >&2; }} | exec true")
        piped = package.shell(f"{on} enter {register} - < examples/tolerance.txt")
        clean = called("audit", register)
        with closing(sqlite3.connect(str(register))) as opened:
            opened.executescript("DROP TRIGGER net_no_delete")
        found = called("audit", register)
        names = [name for (name,) in rows(register, "SELECT name FROM net ORDER BY number")]
        odd = called("enter", place / "odd.db", os.fsdecode(b"%s/a\xff\nb" % os.fsencode(place)), before=lambda: (place / os.fsdecode(b"a\xff\nb")).write_bytes(WHOLE))
        seal = rows(register, "SELECT seal FROM net WHERE number = 3")[0][0]
    return (
        one_line(full, 2, b"standard output could not be written") and again[0] == 0 and again[1].startswith(b"net 1 is this file already, and nothing was entered: 2 marks of /")
        and gone == (0, b"", b"0\n") and piped[0] == 0 and piped[1].startswith(b"net 3 entered: 2 marks of standard input\n") and names[1:] == ["examples/town/net.txt", "-"]
        and clean == (0, f"3 nets, 12 marks, judged by kodarfi {package.calls.__version__}: every entry follows from its file\nseal of the last net: {seal}\n".encode(), b"")
        and found[0] == 1 and found[1].startswith(b"trigger net_no_delete is missing\n3 nets, 12 marks, ") and b": 1 fault\n" in found[1] and found[2] == f"audit: {register}: 1 fault\n".encode()
        and odd[0] == 0 and b"a\\xff?b, the first of a new register\n" in odd[1] and odd[2] == b""
    )  # fmt: skip
