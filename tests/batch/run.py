"""Tests of ./batch's program on every kind of folder, and named mutants of it that these tests must detect.

  python3 tests/batch/run.py [TEST..]   the last line is 'N passed, M failed'

It needs target/staticlib/libkodarfi.a, target/bin/register and a compiler for C."""

import os
import sys
import tempfile
from pathlib import Path

sys.path.insert(0, str(Path(__file__).resolve().parent.parent))

from batch import cases
from batch.mutants import MUTANTS
from batch.sandbox import ARCHIVE, REGISTER, Sandbox, compile_program
from common.mutated import main, open_folder, report, results, tests_of


def run():
    with tempfile.TemporaryDirectory(dir=open_folder()) as folder:
        os.chmod(folder, 0o755)
        program = compile_program(folder)
        return report(results(tests_of(cases), MUTANTS, lambda edits: Sandbox(compile_program(folder, edits) if edits else program), sys.argv[1:]))


if __name__ == "__main__":
    main(run, ARCHIVE, REGISTER)
