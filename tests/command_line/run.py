"""./register, ./convert and ./batch and their programs from the command line, a sandbox for each test, and mutants of the scripts and documents.

  python3 tests/command_line/run.py [TEST..]      on the programs that are built: all tests, or those that are named
  python3 tests/command_line/run.py --self-test   the tests of ./convert and of the programs on stand-ins, with mutants of these

The last line is 'N passed, M failed'."""

import sys
import tempfile
from pathlib import Path

sys.path.insert(0, str(Path(__file__).resolve().parent.parent))

from command_line import batch, building, convert, mutants, program, register, words
from command_line.sandbox import BUILT, PROGRAMS, Sandbox
from common.mutated import main, open_folder, report, results, tests_of


def on_programs():
    tests = [*register.TESTS.values(), *tests_of(register, building, words, batch), *convert.TESTS.values(), *program.TESTS.values()]
    return report(results(tests, mutants.MUTANTS, Sandbox, sys.argv[1:]))


def on_stand_ins():
    with tempfile.TemporaryDirectory(dir=open_folder()) as folder:
        program.write_stand_ins(folder)
        tests = [*convert.TESTS.values(), *program.TESTS.values()]
        return report(results(tests, {**convert.MUTANTS, **program.MUTANTS}, lambda edits: Sandbox(edits, folder)))


if __name__ == "__main__":
    if sys.argv[1:] == ["--self-test"]:
        main(on_stand_ins)
    main(on_programs, *(BUILT / name for name in PROGRAMS))
