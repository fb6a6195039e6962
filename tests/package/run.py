"""Tests of the Python package: every call beside the oracle, its commands, how it finds the library, and named mutants of it that these tests must detect.

  python3 tests/package/run.py [TEST..]   after 'make lib'; the last line is 'N passed, M failed'"""

import contextlib
import os
import sys
import tempfile
from pathlib import Path

sys.dont_write_bytecode = True
sys.path.insert(0, str(Path(__file__).resolve().parent.parent))

from common.mutated import main, open_folder, report, results, tests_of
from package import beside, commands, dependent_nets, pages, pictures, region, register_mutants, registers, shape, sheets, writers
from package.loaded import SHARED, SOURCES, Package, copied
from package.mutants import MUTANTS

TESTS = tuple(tests_of(shape, beside, commands, dependent_nets, region, sheets, pictures, registers, writers, pages, of="package"))


def run():
    os.environ["KODARFI_LIBRARY"] = str(SHARED)
    with tempfile.TemporaryDirectory(dir=open_folder()) as folder:
        os.chmod(folder, 0o755)

        @contextlib.contextmanager
        def package_of(edits):
            yield Package(copied(folder, edits) if edits else SOURCES)

        mutants = {name: mutant for name, mutant in {**MUTANTS, **register_mutants.MUTANTS}.items() if mutant[-1] is not shape.installs_by_pip or shape.is_installable()}
        return report(results(TESTS, mutants, package_of, sys.argv[1:]))


if __name__ == "__main__":
    main(run, SHARED)
