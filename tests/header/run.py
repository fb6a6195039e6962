"""The headers of include/: what they say beside the calls' contracts is tried on the library, from C, C++ and Python.

  python3 tests/header/run.py FOLDER   the library is FOLDER/libkodarfi.a; the last line is 'N passed, M failed'

Constants, ranges and the layout of a field line by constants.py, header.cpp and from_python.py; the stack of every call and null pointers by stack.c; the calls
on whole nets by nets.py; the numbers in words by words.py beside docs/refusals.tsv.
Named mutants of the headers and of calls must each be detected by the program that is named with it."""

import ctypes
import re
import shutil
import subprocess
import sys
import tempfile
from pathlib import Path

sys.path.insert(0, str(Path(__file__).resolve().parent.parent))

from common.mutated import ROOT, edit, main, report
from header import mutants
from header.constants import PATIENCE, constant_results, printed
from header.from_python import python_results
from header.nets import net_library, net_results
from header.read import INCLUDE, parameters_of, prototypes, write_calls
from header.texts import text_results
from header.words import word_results, words_library

HERE = ROOT / "tests" / "header"
# What the standards forbid is an error; warnings are shown, and a newer compiler may have more of them.
STRICT = ["-O1", "-Wall", "-Wextra", "-pedantic-errors"]
STANDARDS = {"c99": "cc", "c11": "cc", "c++11": "c++", "c++17": "c++"}

# The programs: source and language standard.
PROGRAMS = {"header++": ("header.cpp", "c++11"), "stack": ("stack.c", "c99")}
# What is tried from Python: how it is made of the headers, and what is tested of it.
FROM_PYTHON = {"constants": (printed, constant_results), "nets": (net_library, net_results), "words": (words_library, word_results)}


class Workshop:
    """A temporary folder with the programs, the library as a shared one, and headers to edit."""

    def __init__(self, library, folder):
        self.library, self.folder = str(library), Path(folder)
        write_calls(self.folder / "calls.h")
        shared = str(self.folder / "libkodarfi.so")
        subprocess.run(["cc", "-shared", "-Wl,--whole-archive", self.library, "-Wl,--no-whole-archive", "-o", shared], check=True, timeout=PATIENCE)
        self.shared = ctypes.CDLL(shared)

    def build(self, name, include=INCLUDE, extra=(), warnings=STRICT):
        """The path of a program, None where it does not compile."""
        source, standard = PROGRAMS[name]
        path = self.folder / f"program-{name}"
        command = [STANDARDS[standard], f"-std={standard}", *warnings, f"-I{include}", f"-I{HERE}", f"-I{self.folder}", str(HERE / source), *extra, self.library, "-o", str(path)]
        done = subprocess.run(command, capture_output=True, text=True, timeout=PATIENCE)
        print(done.stderr[:2000], end="")
        return None if done.returncode else path

    def run(self, name, path):
        """Passed and failed; 0 and 1 where there is no closing line, or one that does not fit its status."""
        done = subprocess.run([str(path)], capture_output=True, text=True, timeout=PATIENCE)
        closing = re.fullmatch(r"(\d+) passed, (\d+) failed", done.stdout.rstrip("\n").rpartition("\n")[2])
        if not closing or (done.returncode == 0) != (closing[2] == "0") or int(closing[1]) == 0:
            return 0, 1, done.stdout
        return int(closing[1]), int(closing[2]), done.stdout

    def fresh(self):
        return Path(tempfile.mkdtemp(dir=self.folder))

    def edited(self, file, old, new):
        """A folder with the headers, one of them edited."""
        folder = shutil.copytree(INCLUDE, self.fresh(), dirs_exist_ok=True)
        edit(folder, [(file, old, new)])
        return folder

    def detects(self, name, include=INCLUDE, extra=()):
        """Whether a program compiles with a mutant, and detects it: by a failed test, or by a stop."""
        if name in FROM_PYTHON:
            make, results_of = FROM_PYTHON[name]
            made = make(self, include)
            return made is not None and not all(good for _, good in results_of(made, self.shared))
        path = self.build(name, include, extra, warnings=["-O0", "-w"])
        return path is not None and self.run(name, path)[1] > 0

    def detects_call(self, program, call, first):
        """Whether a program detects a call that does something else first."""
        parameters, arguments = next(parameters_of(parameters) for _, name, parameters in prototypes() if name == call)
        source = self.folder / "mutant.c"
        source.write_text(f'#include "kodarfi.h"\nuint32_t __real_{call}({parameters});\nuint32_t __wrap_{call}({parameters}) {{ {first} return __real_{call}({arguments}); }}\n')
        done = subprocess.run(["cc", "-O0", f"-I{INCLUDE}", "-c", str(source), "-o", str(self.folder / "mutant.o")], timeout=PATIENCE)
        return done.returncode == 0 and self.detects(program, extra=(str(self.folder / "mutant.o"), f"-Wl,--wrap={call}"))


def compiles_alone(workshop, header, standard):
    """A header twice, and nothing else, without a warning."""
    suffix = ".cpp" if "+" in standard else ".c"
    source = workshop.folder / f"alone{suffix}"
    source.write_text(f'#include "{header}"\n#include "{header}"\nint main(void) {{ return 0; }}\n')
    command = [STANDARDS[standard], f"-std={standard}", *STRICT, f"-I{INCLUDE}", "-c", str(source), "-o", str(workshop.folder / "alone.o")]
    return subprocess.run(command, timeout=PATIENCE).returncode == 0


def example_results(workshop):
    """examples/net.c prints its heights, and where a line has another's key, says so in words."""
    source = (ROOT / "examples" / "net.c").read_text()
    damaged = source.replace("{3, 0, 2, 829, 1}}", "{3, 0, 2, 830, 1}}")
    expected = (0, "mark 1 lies between 1202.799 and 1206.801 mm\nmark 2 lies between 826.199 and 830.201 mm\n", ""), (1, "", "refused with 17, line 4: ")
    for name, text, (status, out, err) in ("examples/net.c", source, expected[0]), ("examples/net.c with a damaged line", damaged, expected[1]):
        path = workshop.folder / "example.c"
        path.write_text(text)
        command = ["cc", "-std=c99", *STRICT, f"-I{INCLUDE}", str(path), workshop.library, "-o", str(workshop.folder / "example")]
        compiled = subprocess.run(command, timeout=PATIENCE).returncode == 0
        done = compiled and subprocess.run([str(workshop.folder / "example")], capture_output=True, text=True, timeout=PATIENCE)
        yield name, done and (done.returncode, done.stdout, done.stderr[: len(err) or None]) == (status, out, err)


def results(workshop):
    """What is tested, and whether it holds."""
    for header in sorted(path.name for path in INCLUDE.glob("*.h")):
        for standard in STANDARDS:
            yield f"{header} compiles as {standard}", compiles_alone(workshop, header, standard)
    for name in PROGRAMS:
        path = workshop.build(name)
        passed, failed, said = workshop.run(name, path) if path else (0, 1, "does not compile")
        print(said, end="")
        yield f"{name}: {passed} tests", failed == 0
    for make, results_of in FROM_PYTHON.values():
        yield from results_of(make(workshop, INCLUDE), workshop.shared)
    yield from text_results()
    yield from python_results(workshop)
    yield from example_results(workshop)
    for name, (program, file, old, new) in {**mutants.HEADERS, **dict(mutants.off_by_one())}.items():
        yield f"mutant '{name}' of a header is detected by {program}", workshop.detects(program, workshop.edited(file, old, new))
    for name, mutant in mutants.CALLS.items():
        yield f"mutant '{name}' of a call is detected by {mutant[0]}", workshop.detects_call(*mutant)


def run(library):
    with tempfile.TemporaryDirectory() as folder:
        return report(results(Workshop(library, folder)))


if __name__ == "__main__":
    LIBRARY = Path(sys.argv[1] if len(sys.argv) == 2 else "target/staticlib").resolve() / "libkodarfi.a"
    main(lambda: run(LIBRARY), LIBRARY)
