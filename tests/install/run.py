"""make, make lib, make install and make uninstall, and what is installed, with named mutants of Makefile, scripts and documents.

  python3 tests/install/run.py [TEST..]   the last line is 'N passed, M failed'

It needs the programs register and convert, the library, make and a compiler for C."""

import os
import sys
from pathlib import Path

sys.path.insert(0, str(Path(__file__).resolve().parent.parent))

from common.mutated import ROOT, main, report, results, tests_of
from install import cases
from install.checkout import Checkout
from install.mutants import MUTANTS

if __name__ == "__main__":
    os.umask(0o022)
    NEEDED = [ROOT / name for name in ("target/bin/register", "target/bin/convert", "target/staticlib/libkodarfi.a")]
    main(lambda: report(results(list(tests_of(cases)), MUTANTS, Checkout, sys.argv[1:])), *NEEDED)
