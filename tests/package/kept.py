"""Registers for the tests: nets to enter, the commands in a process of their own, and what a database has."""

import os
import shutil
import signal
import sqlite3
import tempfile
from contextlib import closing, contextmanager
from importlib import import_module
from pathlib import Path

from common.net import file_of
from common.mutated import open_folder


def net(k, marks=3):
    """The file of an accepted net, another one for each k; its limits in steps and in units differ."""
    heights = [k + 5 * i for i in range(marks)]
    unit = lambda i, one: " ".join(str(one * (i == j)) for j in range(marks))
    lines = [f"(problem {marks})", "(scale 2 4)", *(f"(row {i + 1} ({unit(i, 1)}))" for i in range(marks))]
    lines += [f"(right {i + 1} ({height} {1 + (k + i) % 3}))" for i, height in enumerate(heights)]
    lines += [f"(guess {i + 1} {4 * height + (k + i) % 2})" for i, height in enumerate(heights)]
    lines += [f"(inverse {i + 1} ({unit(i, 16)}))" for i in range(marks)]
    return file_of([*lines, *(f"(weight {i + 1} 1)" for i in range(marks)), "(end)"])


def part(name):
    """A module of the package under test."""
    return import_module(f"kodarfi.{name}")


@contextmanager
def folder():
    """A folder for a register."""
    with tempfile.TemporaryDirectory(dir=open_folder()) as name:
        os.chmod(name, 0o777)
        yield Path(name)


def filled(place, count=3):
    """A register with some nets; the last corrects the first."""
    for k in range(1, count + 1):
        part("enter").enter(str(place), f"net-{k}.txt", net(k), 1 if k == count else None)
    return place


def forked(act):
    """Does something in a process of its own, which ends with the number that it gives; the process's id."""
    child = os.fork()
    if child:
        return child
    try:
        status = act()
    except BaseException:
        status = 99
    finally:
        os._exit(status)


def ended(child):
    """The status of a process when it has ended; below 0 the signal that it died of."""
    status = os.waitpid(child, 0)[1]
    return -os.WTERMSIG(status) if os.WIFSIGNALED(status) else os.WEXITSTATUS(status)


def called(*words, before=lambda: None, to=None):
    """Status, standard output and standard error of a command. `before` is done first in its process; `to` is where standard output goes."""
    main = part("__main__").main  # another user may not be allowed to read it
    with tempfile.TemporaryFile() as out, tempfile.TemporaryFile() as err:

        def act():
            os.dup2(os.open(to, os.O_WRONLY) if to else out.fileno(), 1)
            os.dup2(err.fileno(), 2)
            before()
            return main([str(word) for word in words])

        status = ended(forked(act))
        for file in (out, err):
            file.seek(0)
        return status, out.read(), err.read()


def rows(place, question):
    """What a database answers."""
    with closing(sqlite3.connect(str(place))) as register:
        return register.execute(question).fetchall()


def changed(place, *statements):
    """A copy of a register in which something was done past its triggers, which are there again afterwards."""
    copy = place.with_suffix(".changed")
    shutil.copy(place, copy)
    with closing(sqlite3.connect(str(copy), isolation_level=None)) as register:
        triggers = register.execute("SELECT name, sql FROM sqlite_master WHERE type = 'trigger'").fetchall()
        for name, _ in triggers:
            register.execute(f"DROP TRIGGER {name}")
        for statement in statements:
            register.execute(*statement) if isinstance(statement, tuple) else register.execute(statement)
        left = {row[0] for row in register.execute("SELECT name FROM sqlite_master WHERE type = 'table'")}
        for name, sql in triggers:
            if name.split("_")[0] in left:
                register.execute(sql)
    return copy


def faults(place):
    """What an audit finds."""
    return part("audit").audit(str(place)).faults


KILLED = -signal.SIGKILL
