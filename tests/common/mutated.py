"""Tests by name, and mutants: a mutant is an edit of what is tested, and the test that must detect it. Every runner of them ends with the line 'N passed, M failed'.

A test is a function of one box, a fresh folder with what is tested in it; it holds where it gives a true value and raises nothing."""

import contextlib
import inspect
import io
import os
import sys
import tempfile
from pathlib import Path

ROOT = Path(__file__).resolve().parent.parent.parent


class NoText(Exception):
    """A mutant's edit does not fit what it is to change."""


def edit(root, edits):
    """Changes files of a folder; `edits` are triples of a file, a text in it and another text for it."""
    for name, old, new in edits:
        text = (Path(root) / name).read_text(encoding="utf-8")
        if old not in text:
            raise NoText(f"{name} has no text {old!r}")
        (Path(root) / name).write_text(text.replace(old, new), encoding="utf-8")


def open_folder():
    """A temporary folder that another user can pass through, since some tests are those of another user: $TMPDIR where it is one."""
    for folder in (tempfile.gettempdir(), "/tmp", "/var/tmp"):
        path = Path(folder).resolve()
        if all(part.stat().st_mode & 0o001 for part in (path, *path.parents)) and os.access(path, os.W_OK):
            return str(path)
    return None


def another_user():
    """What makes a call one of a user without every right."""
    return {"user": 65534, "group": 65534, "extra_groups": []} if os.geteuid() == 0 else {}


def tests_of(*modules, of="box"):
    """The functions of these modules whose one parameter is `box`, or has the other name, in their order."""
    for module in modules:
        for function in list(vars(module).values()):
            if inspect.isfunction(function) and function.__module__ == module.__name__ and list(inspect.signature(function).parameters) == [of]:
                yield function


def named(module, tests):
    """Tests by name, of a module; each gets its name."""
    for name, test in tests.items():
        test.__name__ = f"{module}: {name}"
    return tests


def holds(test, box):
    """Whether a test holds in the box that a context manager makes."""
    try:
        with box as inside:
            return bool(test(inside))
    except NoText:
        raise
    except Exception as error:
        print(f"{test.__name__}: {type(error).__name__}: {error}")
        return False


def detects(test, box):
    """Whether a test does not hold in a box with a mutant; what is printed there is of no interest."""
    with contextlib.redirect_stdout(io.StringIO()):
        return not holds(test, box)


def results(tests, mutants, box_of, names=()):
    """Each test with whether it holds, and each mutant with whether its test detects it: all, or those of the tests that are named. `box_of(edits)` makes a box."""
    for test in tests:
        if not names or test.__name__ in names:
            yield test.__name__, holds(test, box_of([]))
    for name, (*change, test) in mutants.items():
        if not names or test.__name__ in names:
            yield f"mutant '{name}' is detected by {test.__name__}", detects(test, box_of([change]))


def report(found):
    """Prints what does not hold of pairs of a name and whether it holds, as it comes, and the closing line; gives the exit status."""
    count = failed = 0
    for name, good in found:
        count, failed = count + 1, failed + (not good)
        if not good:
            print("FAILED", name, flush=True)
    if count == 0:
        print("FAILED no test was run: there is none of that name")
        count = failed = 1
    print(f"{count - failed} passed, {failed} failed", flush=True)
    return int(failed > 0)


def close(count, faults):
    """The same of so many tests with these faults."""
    faults = list(faults)
    return report([(fault, False) for fault in faults] + [("", True)] * (count - len(faults)))


def main(run, *needed):
    """Ends a script with the exit status of `run`, or with one line where what it needs is not built, a mutant does not fit, or a file or standard output fails.
    With -h it prints the script's own head."""
    if sys.stdout is None:
        sys.exit(f"{sys.argv[0]}: standard output is closed")
    try:
        if sys.argv[1:2] in (["-h"], ["--help"]):
            print(sys.modules["__main__"].__doc__, flush=True)
            sys.exit(0)
        missing = [str(path) for path in needed if not Path(path).exists()]
        sys.exit(close(1, [f"{missing[0]} is not built"]) if missing else run())
    except NoText as error:
        sys.exit(close(1, [error]))
    except OSError as error:
        os.dup2(os.open(os.devnull, os.O_WRONLY), 1)  # what could not be written is not written again at the end
        sys.exit(f"{sys.argv[0]}: {error}")
