"""Conversions (02, Paper 14): files by rule and by chance, each with several lengths of the buffer."""

import random

from calls.check.oracle import Reckoning
from calls.convert.mutants import MUTANTS, REPORTED
from calls.convert.oracle import ROOM, Converter, answered
from calls.listing.oracle import Program, under
from common import damage, given
from common.generate import arranged, thinned
from common.net import file_of, lines_of
from common.replayed import Kept, Made, text, written
from common.rules import Refusal, Rules
from common.suite import Suite
from common.systems import edge, ends, rows, usual
from common.systems.tolerant import respelt, tolerated

FAMILIES = (usual.levelling, usual.general, usual.small, edge.at_edge, ends.at_bounds, ends.near_margins, rows.near_row_sums, usual.singular)
SPOILS = [spoil for share, spoil in damage.SHARES for _ in range(share)]

# The rules of the file are 01's, those of the reckoning the papers': where they agree, old and new file give equal listings.
OLD, OLD_FILES = under(Rules()), under(Rules(entry_covers_rounding=True, residuals_within_row_sums=True))


def whole(rng, index):
    """A net without tolerances, now and then with some."""
    net = FAMILIES[index % len(FAMILIES)](rng, rng.choice((1, 2, 2, 3, 4, 7, 32)))
    net = net.with_(tolerance=[0] * net.n)
    return tolerated(rng, net) if index % 5 == 4 else net


def by_chance(seed, count):
    for index in range(count):
        rng = random.Random(f"conversions {seed}/{index}")
        net = whole(rng, index)
        lines = arranged(rng, respelt(rng, lines_of(net)))
        if index % 4 == 3:
            yield rng.choice(SPOILS)(rng, net, lines)
        else:
            file = file_of(thinned(rng, lines))
            yield file[:-1] if rng.random() < 0.2 else file


def files(seed, count):
    yield from (case.file for case in given.cases())
    yield from by_chance(seed, count)


def rooms(rng, file):
    """Long enough, just as long, one byte shorter, and any."""
    text = Converter().convert(file)
    exact = len(text) if not isinstance(text, Refusal) else min(len(file), ROOM)
    return dict.fromkeys((ROOM, exact, exact - 1, rng.randrange(exact + 1), 0)) if exact else (ROOM, 0)


def generate(seed, count):
    for index, file in enumerate(files(seed, count)):
        for room in rooms(random.Random(f"rooms {seed}/{index}"), file):
            yield file, room


def reported(case, converted):
    """The number and the two values that a call gives, and the refused line."""
    return [*answered(converted)[0], Program().refused_line(case[0])]


def calls(case, converted):
    """A conversion, and the one that gives the refused line."""
    file, room = case
    (number, *places, line), new = reported(case, converted), answered(converted)[1]
    arguments = len(file), written(room, new, 1), room, written(1, [] if number else [len(new)]), written(2, places)
    yield Made("kodarfi_convert", [text(file), *arguments], number)
    yield Made("kodarfi_convert_line", [Kept(0), *arguments, written(1, [line])], number, kept=1)


def reports_otherwise(rule, case, converted):
    right = reported(case, converted)
    return rule(right[:3], right[3]) != right


# By the number of what is said; 0 for an accepted check, 5 to 7 for one that is refused: the file is converted all the same.
REQUIRED = {
    **{f"converted {number}": 20 for number in (0, 5, 6, 7)},
    **{f"refused {number}": 20 for number in (1, 2, 3, 4, 11, 12, 13, 14, 15)},
    **dict.fromkeys(("22 for a tolerance", "22 for the buffer", "just as long"), 20),
}


def coverage(case, converted):
    file, room = case
    if not isinstance(converted, Refusal):
        checked = Reckoning().check(Program().load(file))
        yield f"converted {checked.number if isinstance(checked, Refusal) else 0}"
        if len(converted) == room:
            yield "just as long"
    elif converted.number == 22:
        yield "22 for a tolerance" if isinstance(Converter().convert(file), Refusal) else "22 for the buffer"
    else:
        yield f"refused {converted.number}"


def faults(index, case, text):
    """What is wrong with a new file, a sentence each; once for each file."""
    file, room = case
    if isinstance(text, Refusal) or room != ROOM:
        return []
    old, new, listing = Program().load(file), OLD.load(text), Program().listing(file)
    numbers = lambda problem: [list(part) if isinstance(part, list) else part for part in problem]
    return [
        sentence
        for sentence, holds in (
            ("01 does not read it", not isinstance(new, Refusal)),
            ("other numbers", not isinstance(new, Refusal) and numbers(old) == numbers(new)),
            ("another listing under 01's rules of the file", OLD_FILES.listing(text) == listing),
            ("another listing", Program().listing(text) == listing),
            ("not itself when converted", Converter().convert(text) == text),
            ("above 21,300 bytes", len(text) <= 21300),
        )
        if not holds
    ]


SUITE = Suite(
    count=400, generate=generate, calls=calls, coverage=coverage, required=REQUIRED, faults=faults,
    answers=dict.fromkeys(("kodarfi_convert", "kodarfi_convert_line"), (0, 1, 2, 3, 4, 11, 12, 13, 14, 15, 22)),
    answer=lambda case: Converter().convert(*case),
    mutants=((MUTANTS, lambda mutant, case, converted: mutant.convert(*case) != converted), (REPORTED, reports_otherwise)),
)
