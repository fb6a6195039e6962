"""The programs register and convert by themselves: what they read and write, and where either fails. No contract knows what was read, where a write goes, or
whether a read took place.

A stand-in for each, by the oracle, and mutants of it show that these tests detect what can go wrong there."""

import os
import subprocess
import sys
import tempfile
from pathlib import Path

from command_line.sandbox import PATIENCE, PROGRAMS
from common.mutated import ROOT, named
from common.whole_file import LISTING, WHOLE

ANSWERS = {"register": LISTING, "convert": WHOLE}
UNREAD = "{}: the input could not be read\n"
UNWRITTEN = {"register": "register: the listing could not be written\n", "convert": "convert: the file could not be written\n"}


def run(box, name, **options):
    settings = {"stdout": subprocess.PIPE, "stderr": subprocess.PIPE, "timeout": PATIENCE} | options
    return subprocess.run([str(box.root / "target" / "bin" / name)], check=False, **settings)


def answers(box, name):
    done = run(box, name, input=WHOLE)
    return (done.returncode, done.stdout, done.stderr) == (0, ANSWERS[name], b"")


def reads_a_slow_pipe(box, name):
    """A read may give fewer bytes than asked for."""
    slow = "while IFS= read -r line; do printf '%s\\n' \"$line\"; sleep 0.01; done <examples/whole-file.txt"
    return box.shell(f"{slow} | target/bin/{name}") == (0, ANSWERS[name], b"")


def reads_to_the_end(box, name):
    """A file longer than what decides it and than a pipe holds: the pipe's writer, whom a closed end would end, ends by itself."""
    with tempfile.TemporaryFile() as file:
        file.write(WHOLE + b"x" * 4000000)
        file.seek(0)
        with subprocess.Popen(["cat"], stdin=file, stdout=subprocess.PIPE) as writer:
            done = run(box, name, stdin=writer.stdout)
            writer.stdout.close()
            return (done.stdout, writer.wait(timeout=PATIENCE)) == (b"(refused 14 (14))\n", 0)


def empty_file_is_15(box, name):
    return run(box, name, input=b"").stdout == b"(refused 15 (0))\n"


def failed_read_is_said(box, name):
    """Standard input that is a folder, or open for writing alone: one line on standard error, nothing on standard output."""
    said = []
    for path, mode in (("examples", os.O_RDONLY), ("README.md", os.O_WRONLY)):
        unread = os.open(box.root / path, mode)
        done = run(box, name, stdin=unread)
        os.close(unread)
        said.append((done.stdout, done.stderr.decode()))
    return said == [(b"", UNREAD.format(name))] * 2 and answers(box, name)


def failed_write_is_said(box, name):
    """Standard output that takes nothing: one line on standard error."""
    with open("/dev/full", "wb") as full:
        return run(box, name, input=WHOLE, stdout=full).stderr.decode() == UNWRITTEN[name] and answers(box, name)


BOTH = (answers, reads_a_slow_pipe, reads_to_the_end, empty_file_is_15, failed_read_is_said, failed_write_is_said)
TESTS = named("program", {f"{name} {test.__name__}": lambda box, test=test, name=name: test(box, name) for name in PROGRAMS for test in BOTH})

# Python does not start on an input that cannot be read, so it gets another.
STAND_IN = """#!/bin/sh
exec '{python}' - 3<&0 <<'END'
import os
import sys
sys.path.insert(0, {tests!r})
from calls.convert.oracle import Converter, printed
from calls.listing.oracle import Program
try:
    with open(3, "rb") as given:
        file = given.read()
except OSError:
    os.write(2, {unread!r})
    sys.exit()
try:
    os.write(1, {answer})
except OSError:
    os.write(2, {unwritten!r})
END
"""
REPLIES = {"register": "Program().listing(file)", "convert": "printed(Converter().convert(file))"}


def write_stand_ins(folder):
    for name in PROGRAMS:
        path = Path(folder) / name
        settings = {"python": sys.executable, "tests": str(ROOT / "tests"), "answer": REPLIES[name]}
        path.write_text(STAND_IN.format(unread=UNREAD.format(name).encode(), unwritten=UNWRITTEN[name].encode(), **settings))
        path.chmod(0o755)


def mutants_of(name):
    """Of a stand-in: old text, new text, the test that must detect it."""
    unread, unwritten = (f"    os.write(2, {text.encode()!r})\n" for text in (UNREAD.format(name), UNWRITTEN[name]))
    return {
        "is not built": ("#!/bin/sh\n", f"#!/bin/sh\necho \"{name}: the tool 'rt' is missing\" >&2\nexit 1\n", answers),
        "counts nothing as read": ("file = given.read()", "file = given.read() and b''", answers),
        "answers on standard error": ("os.write(1,", "os.write(2,", answers),
        "stops reading": ("given.read()", "given.read(65536)", reads_to_the_end),
        "hides a failed read": (unread, "", failed_read_is_said),
        "takes a failed read for the end": (f"{unread}    sys.exit()\n", "    file = b''\n", failed_read_is_said),
        "hides a failed write": (unwritten, "    pass\n", failed_write_is_said),
    }


MUTANTS = {
    f"{name} {what}": (f"target/bin/{name}", old, new, TESTS[f"{name} {test.__name__}"]) for name in PROGRAMS for what, (old, new, test) in mutants_of(name).items()
}
