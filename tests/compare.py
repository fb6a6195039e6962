"""Runs programs on many files beside the oracle: what they print byte for byte, nothing on standard error, status 0.

  python3 tests/compare.py --program target/bin/register [--files 2000] [--seed 1]                       listings
  python3 tests/compare.py --program target/bin/register --convert target/bin/convert [--files 400]      new files for the old edition, which the register lists
                                                                                                         as it lists the old ones
  python3 tests/compare.py --show 17 [--seed 1]                    writes one file: by its number, or by its name in common/given.py
  python3 tests/compare.py --list < FILE                           the oracle's listing of a file

The last line is 'N passed, M failed'; the exit status is 0 only where M is 0."""

import argparse
import shlex
import shutil
import sys
import time
from collections import Counter

from calls.convert import cases as conversions
from calls.convert.oracle import Converter, printed
from calls.listing import cases as listings
from calls.listing.oracle import Program
from common import generate, given
from common.outside import outside
from common.rules import Refusal
from common.suite import Tally


def compare(register, seed, count, tally):
    """Every file through the program."""
    suite, met, total = listings.SUITE, Counter(), 0
    for case in listings.tested(seed, count):
        answer, ran = suite.answer(case), register(case.file)
        tally.test(case.name, ran.differences(answer.listing) + suite.faults(total, case, answer._replace(listing=ran.listing)))
        met.update(suite.coverage(case, answer))
        total += 1
    if count >= suite.tested_count:
        tally.test_coverage(suite.required, met, total)


def compare_conversions(register, convert, seed, count, tally):
    """The program prints what is right; where that is a new file, the register lists it as it lists the old one."""
    for index, file in enumerate(conversions.files(seed, count)):
        expected = Converter().convert(file)
        problems = convert(file).differences(printed(expected))
        if not problems and not isinstance(expected, Refusal) and register(file) != register(expected):
            problems = ["the register lists the new file otherwise"]
        tally.test(f"file {index}", problems)


def file_named(seed, name):
    """File number `name` of the sequence, or the one of given.py with that name."""
    return generate.case(seed, int(name)).file if name.isdigit() else next(case.file for case in given.cases() if case.name == name)


def arguments():
    parser = argparse.ArgumentParser()
    parser.add_argument("--program", help="the command to test; it reads a file from standard input")
    parser.add_argument("--convert", help="the command that converts files")
    parser.add_argument("--files", type=int)
    parser.add_argument("--seed", default="1")
    parser.add_argument("--show", metavar="NAME")
    parser.add_argument("--list", action="store_true")
    return parser.parse_args()


def main():
    options, tally, start = arguments(), Tally(), time.time()
    if options.show is not None or options.list:
        text = Program().listing(sys.stdin.buffer.read()) if options.list else file_named(options.seed, options.show)
        sys.stdout.buffer.write(text)
        return 0
    missing = [f"there is no program '{program}'" for program in (options.program, options.convert) if program and not shutil.which(shlex.split(program)[0])]
    if missing or not options.program:
        tally.test("compare", missing or ["give --program"])
    elif options.convert:
        count = conversions.SUITE.count if options.files is None else options.files
        compare_conversions(outside(options.program), outside(options.convert), options.seed, count, tally)
    else:
        compare(outside(options.program), options.seed, listings.SUITE.tested_count if options.files is None else options.files, tally)
    print(f"{time.time() - start:.0f} s")
    return tally.close()


if __name__ == "__main__":
    sys.exit(main())
