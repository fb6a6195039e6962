"""Files with their listings: those of common/given.py, 01's whole file damaged at every byte, then damaged ones and some whole ones of the sequence of
common/generate.py. The self-test, and tests/compare.py, have all of that sequence in place of the damaged bytes.

What is measured of a net is written as a line with five numbers: the length of its file, 0 for the answer and both places, and the length of its listing; then the
bytes of the file and those of the listing."""

import re
from typing import NamedTuple

from calls.check.oracle import Reckoning
from calls.listing.mutants import PRINTING, READING, by_statements
from calls.listing.oracle import Program, without
from calls.loader.cases import ACCEPTED, OTHERWISE, REQUIRED_OF_READING, reading_coverage
from common import cases_01, checks, examples_002, generate as sequence, given, mutant_programs
from common.checks import entries_in, inverse_limits_in, is_accepted, limits_in, net_from
from common.exact import inverse_of, is_rounded_exact, product, size_sum
from common.generate import Case
from common.net import file_of, flat, lines_of as lines_of_net
from common.replayed import Made, said, text, written
from common.rules import Refusal
from common.suite import NEVER, Suite

# Of the whole files of the sequence one in so many is written: the damaged ones are read, the whole ones computed too, which takes longer.
WHOLE_ONE_IN = 7
# The bytes that a listing is written into.
LONGEST = 32768
# Margins and residuals are looked at in nets of so many equations at most.
NEAR = 12
NUMBERS = re.compile(rb"\d+")

# The program before Paper 9.
NO_ROW_SUMS = without("residuals_within_row_sums")

# 02, Paper 9: what may be said where something else was said before: "8, 15, 3 and 5 never change", the first two of which are said of no problem here.
CHANGES = tuple(f"{before} becomes {now}" for before, now in ((6, 6), (7, 6), (7, 7), (0, 6), (0, 7)))

REQUIRED = {
    "accepted": 0.3,
    "at the edge of demand 3's second half": 50,
    **{f"refusal {number}": 20 for number in (1, 2, 3, 4, 5, 6, 7, 11, 12, 13, 14, 15)},
    **{f"accepted with n = {n}": 5 for n in range(1, 33)},
    **{f"margin {value}": 10 for value in (-1, 0, 1)},
    **{f"residual and slack 2^25 + {beyond}": 10 for beyond in (0, 1)},
    **dict.fromkeys(("limit with rounding above 0", "limit with rounding below 0", "height beyond E/S"), 50),
    "rounded with 3·Σ|A| at most 2T, limits of 0 or 1": 20,
    "rounded with 3·Σ|A| at most 2T, limits above 1": NEVER,
    "rounded with 3·Σ|A| above 2T, limits above 1": 1,
    **dict.fromkeys(("limits of 0", "limits above 1 with tolerances", "limits above 1 without tolerances"), 20),
    **{f"residual of a {of} at its row's sum, {side}, accepted": 10 for of in ("guess", "column") for side in (-1, 0, "below 0")},
    **{f"residual of a {of} at its row's sum, 1, {number}": 10 for of, number in (("guess", 6), ("column", 7))},
    **{f"residual of a {of} at its row's sum, 1, accepted": NEVER for of in ("guess", "column")},
    **dict.fromkeys(CHANGES, 5),
    **{f"{number} stays": 20 for number in (5, 6, 7, 0)},
    OTHERWISE + "9": NEVER,
    **REQUIRED_OF_READING,
}


class Answer(NamedTuple):
    """What a file holds, or its refusal; its listing; and its net where it was read to the end."""

    loaded: object
    listing: bytes
    net: object


def answer(case):
    loaded = Program().load(case.file)
    return Answer(loaded, Program().printed(loaded), None if isinstance(loaded, Refusal) else net_from(loaded))


def every_byte(file):
    """A file with each byte another, taken out or doubled, and cut before it."""
    for at in range(len(file)):
        before, byte, after = file[:at], file[at : at + 1], file[at + 1 :]
        yield from (before, before + after, before + byte * 2 + after)
        yield from (before + other + after for other in (b" ", b"\n", b"0", b"-", b")", b"x", b"\r"))


def generate(seed, count):
    yield from given.cases()
    yield from (Case("damaged", file) for file in every_byte(file_of(lines_of_net(cases_01.whole_file()))))
    for index in range(count):
        if sequence.is_damaged(index) or index % WHOLE_ONE_IN == 0:
            yield sequence.case(f"link {seed}", index)


def tested(seed, count):
    yield from given.cases()
    yield from (sequence.case(seed, index) for index in range(count))


def refusal_in(listing):
    """The refusal that a listing says; its number is 0 where it is a report."""
    if is_accepted(listing):
        return ACCEPTED
    number, *values = map(int, NUMBERS.findall(listing))
    return Refusal(number, tuple(values))


def calls(case, answer):
    number, places = said(refusal_in(answer.listing))
    listing = written(LONGEST, answer.listing, 1), written(1, [len(answer.listing)])
    yield Made("kodarfi_listing", [text(case.file), len(case.file), *listing, written(2, places)], number)


def of_net(net):
    file = file_of(lines_of_net(net))
    listing = Program().listing(file)
    return [len(file), 0, 0, 0, len(listing)], file, listing


def entries_coverage(net, listing):
    """Entries whose limit is larger than E/S rounded up, of guesses above and below 0, and those whose exact height lies beyond that."""
    (q, H), S = inverse_of(net.matrix), 2**net.s
    for X, E, (V, limit), N in zip(net.guess, limits_in(listing), entries_in(listing), product(H, net.right)):
        before = -(-E // S)
        if limit > before:
            yield "limit with rounding above 0" if X > 0 else "limit with rounding below 0"
            if abs(N - q * V) > q * before:
                yield "height beyond E/S"


def limits_coverage(net, listing):
    """Files of which never_far.py says more than of others: rounded proposals, with limits of 0 or 1 alone where the rule for t has its second half, limits of
    0, and limits above 1 that the right sides bring about."""
    limits = limits_in(listing)
    if is_rounded_exact(net):
        largest = max(limits + flat(inverse_limits_in(listing)))
        yield f"rounded with 3·Σ|A| {'at most' if 3 * size_sum(net) <= 2 * 2**net.t else 'above'} 2T, limits {'above 1' if largest > 1 else 'of 0 or 1'}"
    if not any(limits):
        yield "limits of 0"
    if max(limits) > 1:
        yield f"limits above 1 {'with' if any(net.tolerance) else 'without'} tolerances"


def edges_coverage(system, net):
    """Files at the edge of demand 3's second half; margins at 0 and beside it; size of residual and slack together at 2^25 and 2^25 + 1."""
    if 2 * 2**net.t - size_sum(net) in (1, 2) and is_rounded_exact(net):
        yield "at the edge of demand 3's second half"
    if net.n > NEAR:
        return
    reckoning = Reckoning()
    margins = reckoning.margins(system)
    yield from (f"margin {value}" for value in (-1, 0, 1) if value in margins)
    guess = [abs(r) + slack for r, slack in zip(reckoning.guess_residual(system), reckoning.slacks(system))]
    yield from (f"residual and slack 2^25 + {beyond}" for beyond in (0, 1) if 2**25 + beyond in guess)


def first_above(residuals, sums):
    """The lowest row whose residual is above the sum along it, from 1; 0 where there is none."""
    return next((k for k, (residual, most) in enumerate(zip(residuals, sums), 1) if abs(residual) > most), 0)


def sides_coverage(of, columns, sums, said):
    """A residual at its sum, one below it or one above it, of a row with a sum above 1; and one below 0."""
    number = said.number or "accepted"
    pairs = [(residual, most) for column in columns for residual, most in zip(column, sums) if most > 1]
    for side in (-1, 0, 1):
        if any(abs(residual) == most + side for residual, most in pairs):
            yield f"residual of a {of} at its row's sum, {side}, {number}"
    if any(-residual == most for residual, most in pairs):
        yield f"residual of a {of} at its row's sum, below 0, {number}"


def expected_of(before, row, place):
    """What is said now, by what was said before, the first row of the guess above its sum (or 0) and the first place of the inverse (or none)."""
    if before.number in (0, 6, 7) and row and (before.number != 6 or (row,) < before.values):
        return Refusal(6, (row,))
    if before.number in (0, 7) and place and (before.number != 7 or place < before.values):
        return Refusal(7, place)
    return before


def row_sums_coverage(problem, system, listing):
    """Residuals at the sums along their rows and one beside them, by what is said; and what has become of what was said before: the same listing, or the
    refusal that the sums bring."""
    reckoning, said = Reckoning(), refusal_in(listing)
    sums = [sum(map(abs, row)) for row in system.A]
    guess = reckoning.guess_residual(system)
    columns = [reckoning.inverse_residual(system, j) for j in range(system.n)]
    yield from sides_coverage("guess", [guess], sums, said)
    yield from sides_coverage("column", columns, sums, said)
    above = ((j, first_above(column, sums)) for j, column in enumerate(columns, 1))
    place = next(((j, row) for j, row in above if row), None)
    listed = NO_ROW_SUMS.printed(problem)
    before = refusal_in(listed)
    change = f"{before.number} stays" if listing == listed else f"{before.number} becomes {said.number}"
    is_expected = said == expected_of(before, first_above(guess, sums), place) and (listing == listed or change in CHANGES)
    yield change if is_expected else OTHERWISE + "9"


def coverage(case, answer):
    loaded, listing, net = answer
    if is_accepted(listing):
        yield from ("accepted", f"accepted with n = {loaded.n}")
        yield from entries_coverage(net, listing)
        yield from limits_coverage(net, listing)
    else:
        yield f"refusal {refusal_in(listing).number}"
    if net is not None:
        system = Reckoning().system(loaded)
        yield from edges_coverage(system, net)
        yield from row_sums_coverage(loaded, system, listing)
    yield from reading_coverage(case.file, loaded, listing)


def faults(index, case, answer):
    return checks.faults(answer.net, answer.listing) if answer.net else []


def reads_otherwise(mutant, case, answer):
    """It need not compute where it has read the same."""
    read = mutant.load(case.file)
    return read != answer.loaded and mutant.printed(read) != answer.listing


def prints_otherwise(mutant, case, answer):
    return answer.net is not None and mutant.printed(answer.loaded) != answer.listing


def others():
    """The listings that the documents print, and mutants of listings and of programs that are detected without other files."""
    yield from cases_01.tests()
    yield from examples_002.tests()
    yield from by_statements()
    yield from mutant_programs.tests()


SUITE = Suite(
    count=8000, generate=generate, answer=answer, calls=calls, coverage=coverage, required=REQUIRED, faults=faults, others=others,
    answers={"kodarfi_listing": (0, 1, 2, 3, 4, 5, 6, 7, 11, 12, 13, 14, 15)},
    tested=tested, tested_count=2000,
    mutants=((READING, reads_otherwise), (PRINTING, prints_otherwise)),
    of_net=of_net,
)
