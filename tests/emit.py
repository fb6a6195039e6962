"""Writes what a call is handed, with the oracle's answers, for programs in other languages; and tests the tests of a call.

  python3 tests/emit.py NAME [--count 1000] [--seed 1]     the cases of tests/calls/NAME, for the replays of tests/link, written as common/replayed.py says
  python3 tests/emit.py NAME --self-test                   its cases meet what they must and detect every mutant; the last line is 'N passed, M failed'
  python3 tests/emit.py NAME --sizes 8 16 32 --each 50     for check and listing: accepted levelling nets of these sizes, written as the head of its cases.py
                                                           says; with --kind office, dense or rough those of common/systems/timed.py"""

import argparse
import os
import sys
from importlib import import_module
from pathlib import Path

from common.net import joined
from common.replayed import file_of
from common.suite import self_test
from common.systems.timed import KINDS, accepted

NAMES = sorted(path.parent.name for path in Path(__file__).resolve().parent.glob("calls/*/cases.py"))


def emit(parts):
    """Writes lists of numbers, a line each, and bytes as they are. The status: 1 where not all could be written."""
    try:
        for part in parts:
            sys.stdout.buffer.write(part if isinstance(part, bytes) else joined(part).encode() + b"\n")
        sys.stdout.buffer.flush()
    except OSError as error:
        os.dup2(os.open(os.devnull, os.O_WRONLY), sys.stdout.fileno())  # what is left is not written at the end either
        print(f"emit: the cases could not be written: {error.strerror}", file=sys.stderr)
        return 1
    return 0


def main():
    parser = argparse.ArgumentParser()
    parser.add_argument("name", choices=NAMES)
    parser.add_argument("--count", type=int)
    parser.add_argument("--seed")
    parser.add_argument("--self-test", action="store_true")
    parser.add_argument("--sizes", type=int, nargs="*")
    parser.add_argument("--each", type=int, default=50)
    parser.add_argument("--kind", choices=KINDS, default="levelling")
    options = parser.parse_args()
    suite = import_module(f"calls.{options.name}.cases").SUITE
    seed = options.seed or suite.seed
    if options.self_test:
        return self_test(suite, seed, options.count)
    if options.sizes is None:
        cases = suite.generate(seed, suite.count if options.count is None else options.count)
        return emit(file_of(suite.answers, (made for case in cases for made in suite.calls(case, suite.answer(case))), options.count is None))
    if suite.of_net is None:
        parser.error(f"{options.name} has no nets of given sizes")
    return emit(part for net in accepted(seed, options.sizes, options.each, KINDS[options.kind]) for part in suite.of_net(net))


if __name__ == "__main__":
    sys.exit(main())
