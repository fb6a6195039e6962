"""Register entries: document 01's case l, 02's case of Paper 2, the ends of every range, halves of units, and numbers by chance."""

import itertools
import random

from calls.entry.mutants import MUTANTS, OF_CALL
from calls.entry.oracle import Entry
from common.replayed import Made, said, written
from common.rules import Refusal
from common.suite import Suite, mutant


def ends():
    sizes = (0, 1, 2, 7, 8, 9, 23, 24, 25, 2**19 - 1, 2**19, 2**20 - 1, 2**20, 3 * 2**19, 2**36 - 1, 2**36, 2**36 + 1, 2**63 - 1)
    bounds = (0, 1, 2, 15, 16, 17, 2**20 - 1, 2**20, 2**20 + 1, 2**60 - 1, 2**60, 2**60 + 1, 2**63, 2**64 - 1)
    scales = (0, 1, 2, 4, 19, 20, 21, 31, 32, 36, 63, 64, 65, 2**8 + 4, 2**16 + 4, 2**32 - 1)
    guesses = dict.fromkeys([*sizes, *(-size for size in sizes), -(2**63)])
    return itertools.product(guesses, bounds, scales)


def halves():
    """Every half of a unit up to three units, and its neighbours."""
    for s, half, beside in itertools.product(range(1, 21), range(-6, 7), (-1, 0, 1)):
        guess = half * 2 ** (s - 1) + beside
        yield guess, abs(guess), s


def by_chance(seed, count):
    """Numbers of every size, one guess in four at a half of a unit."""
    rng = random.Random(f"entries {seed}")
    for _ in range(count):
        s, size = rng.randrange(22), rng.randrange(2 ** rng.randrange(38))
        guess = size if rng.randrange(4) else size // 2**s * 2**s + 2**s // 2
        yield rng.choice((guess, -guess)), rng.randrange(2 ** rng.randrange(65)), s


def generate(seed, count):
    return itertools.chain([(-24, 0, 4), (24, 10, 4)], ends(), halves(), by_chance(seed, count))


def calls(case, answer):
    number, places = said(answer)
    entry = [(), ()] if isinstance(answer, Refusal) else [[part] for part in answer]
    yield Made("kodarfi_entry", [*case, *(written(1, part) for part in entry), written(2, places)], number)


NAMES = ("entered", "refused 3", "s of 20", "a guess of 2^36 in size", "a half above 0", "a half below 0", "a limit of 0", "a limit of 2^64 - 1")
REQUIRED = dict.fromkeys(NAMES, 100)


def coverage(case, answer):
    guess, bound, s = case
    if isinstance(answer, Refusal):
        yield f"refused {answer.number}"
        return
    yield "entered"
    if s == 20:
        yield "s of 20"
    if abs(guess) == 2**36:
        yield "a guess of 2^36 in size"
    if 2 * guess % 2**s == 0 and guess % 2**s:
        yield "a half above 0" if guess > 0 else "a half below 0"
    if bound in (0, 2**64 - 1):
        yield "a limit of 0" if bound == 0 else "a limit of 2^64 - 1"


SUITE = Suite(
    count=20000, generate=generate, calls=calls, coverage=coverage, required=REQUIRED,
    answers={"kodarfi_entry": (0, 3)},
    answer=lambda case: Entry().enter(*case),
    mutants=(({name: mutant(Entry, **parts) for name, parts in {**MUTANTS, **OF_CALL}.items()}, lambda mutant, case, answer: mutant.enter(*case) != answer),),
)
