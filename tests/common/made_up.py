"""Made-up files, right and then wrong: each mutant must be detected, by what is said of it, and nothing else."""

import contextlib
import io
import sys
import tempfile
from importlib import import_module
from pathlib import Path

from common.mutated import ROOT, report


def write(folder, files, mutant=None):
    """The files in a folder, one of them changed, or taken away where the mutant has no text; all can be run."""
    for name, text in files.items():
        path = folder / name
        path.parent.mkdir(parents=True, exist_ok=True)
        file, old, new = (mutant or (None, "", ""))[:3]
        if name == file and old is None:
            path.unlink(missing_ok=True)
            continue
        path.write_text(text.replace(old, new, 1) if name == file else text)
        path.chmod(0o755)


def said_of(check, folder):
    said = io.StringIO()
    with contextlib.redirect_stdout(said):
        check(folder)
    return said.getvalue()


def results(check, files, mutants, most=2, begin=lambda folder: ()):
    """Pairs of a name and whether it holds, by what check(folder) prints. A mutant is a file, a text in it, another text for it and what is then said, with at
    most so many failures. `begin` is given the folder with the right files, and may yield more pairs."""
    with tempfile.TemporaryDirectory() as name:
        folder = Path(name)
        write(folder, files)
        yield from begin(folder)
        said = said_of(check, folder)
        yield f"the right files: {said}", said.endswith(" passed, 0 failed\n")
        for title, mutant in mutants.items():
            write(folder, files, mutant)
            said = said_of(check, folder)
            yield f"{title}: {said}", (mutant[1] or "") in files[mutant[0]] and mutant[3] in said and 0 < said.count("FAILED") <= most


def run(check):
    """Runs check(ROOT), or with --self-test the made-up files of self_test.py beside the script; a folder without any must fail too."""
    if sys.argv[1:] == ["--self-test"]:
        made_up = import_module("self_test")
        with tempfile.TemporaryDirectory() as name:
            said = said_of(check, Path(name))
        found = results(check, made_up.FILES, made_up.MUTANTS, begin=getattr(made_up, "begin", lambda folder: ()))
        return report([*found, ("no files at all", not said.endswith(" passed, 0 failed\n"))])
    if not sys.argv[1:]:
        return check(ROOT)
    print(sys.modules["__main__"].__doc__)
    return 2
