"""Sessions at a loader (01: desk): the lines of a file one at a time, past every refusal, at a new loader or at made-up numbers, and checks; the files are
those of common/given.py and some of the sequence of common/generate.py. Beside them, what files meet of the reading (calls/listing).

A session is answered in steps, each a line's text and numbers that begin with its kind:

  0                                                       a new loader; the six lists hold `before`
  1 and nine numbers                                      the loader is set to these numbers, made by no loader
  2, the list that is one too short (0: none, 1 to 6), the number that is said of the line and the first place; then the nine numbers afterwards, and three for
     each number of the lists that is other than before: list, place and number
  3, the list that is too short (7 and 8: the lists of limits), the number of a check and its two places, and where it is accepted the limits"""

import random
import re

from calls.check.oracle import COLUMN, FULL, Reckoning
from calls.listing.oracle import without
from calls.loader.mutants import MUTANTS
from calls.loader.oracle import BEFORE, ENDED, SIZED, Steps
from common import generate as sequence, given
from common.checks import is_accepted, limits_in
from common.format import RANGES, lines_of, read_form
from common.replayed import Kept, Made, read, text as lent_text, written
from common.rules import Refusal
from common.suite import NEVER, Suite


def made_up(rng):
    """Nine numbers of any loader and of none."""
    sets = [rng.getrandbits(32) >> rng.randrange(32) for _ in range(5)]
    return [rng.choice((0, 1, 2, 2, 2, 2, 3, 4, 2**32 - 1)), rng.choice((1, 2, 2, 2, 3, 32, 33, 0, 2**32 - 1)), rng.randrange(23), rng.randrange(23), *sets]


def actions(rng, file, start):
    """A loader from its start over all lines of a file, past every refusal, and the check."""
    yield ("set", start) if start else ("new",)
    for text in lines_of(file):
        if rng.randrange(60) == 0:
            yield "line", text, rng.randint(1, 6)
            yield "check", rng.choice((0, 0, 0, 1, 6, 7, 8))
        yield "line", text, 0
    yield "check", 0
    if rng.randrange(8) == 0:
        yield "check", rng.randint(1, 8)


def files(seed, count):
    yield from (case.file for case in given.cases())
    yield from (sequence.case(f"loader {seed}", index).file for index in range(count))


def generate(seed, count):
    for index, file in enumerate(files(seed, count)):
        rng = random.Random(f"steps {seed}/{index}")
        session = list(actions(rng, file, None))
        yield session + list(actions(rng, file, made_up(rng))) if index % 4 == 0 else session


def steps_of(session, made=Steps):
    """Each step's numbers and text, one after another."""
    steps = made()
    return (getattr(steps, name)(*words) for name, *words in session)


def differs(mutant, session, answer):
    """Up to the first step that differs: with an n out of range a mutant may count for ever after it."""
    return any(own != right for own, right in zip(steps_of(session, mutant), answer))


def lengths(short):
    """The lengths of all lists; where one, from 1, is too short, by one less and then 0."""
    for stated in (FULL[short - 1] - 1, 0) if short else (FULL[0],):
        yield [stated if place == short else length for place, length in enumerate(FULL, 1)]


def kept_lists(stated, changes=()):
    """The six lists, which stay lent behind the loader, each with its length and with what is then other."""
    right = [[], [], [], [], [], []]
    for which, at, number in zip(changes[::3], changes[1::3], changes[2::3]):
        right[which].append((at, [number]))
    for place, length in enumerate(stated[:6]):
        yield from (Kept(place + 1, 8, right=right[place]), length)


def taken(loader, text, numbers):
    """A line, of which the loader's nine numbers and those of the lists that are others are right afterwards."""
    short, number, place = numbers[:3]
    for stated in lengths(short):
        arguments = [loader._replace(right=((0, numbers[3:12]),)), lent_text(text), len(text), *kept_lists(stated, numbers[12:]), written(2, (place, 0))]
        yield Made("kodarfi_loader_take", arguments, number, kept=7)


def checked(loader, n, numbers):
    short, number, *places = numbers[:4]
    for stated in lengths(short):
        limits = written(FULL.solution, numbers[4 : 4 + n]), stated[6], written(FULL.bounds, numbers[4 + n :]), stated[7]
        yield Made("kodarfi_loader_check", [loader, *kept_lists(stated), *limits, written(2, places)], number, kept=7)


def calls(session, answer):
    """A loader and its lists stay lent from step to step; numbers that it is set to stand there before the next call."""
    for (kind, *numbers), text in answer:
        if kind == 0:
            nine = [0] * 9
            yield Made("kodarfi_loader_new", [written(9, nine, 4)], 0, beside=[read(numbers, len(numbers)) for numbers in BEFORE.values()])
        elif kind == 1:
            loader, nine = Kept(0, 4, before=((0, numbers),)), numbers
            continue
        elif kind == 2:
            yield from taken(loader, text, numbers)
            nine = numbers[3:12]
        else:
            yield from checked(loader, nine[1], numbers)
        loader = Kept(0, 4)


REQUIRED = {
    "a step": 40000,
    **{f"line {number}": 20 for number in (0, 1, 2, 3, 4, 8, 11, 12, 13, 14)},
    **{f"check {number}": 20 for number in (0, 3, 5, 6, 7, 8, 15)},
    **dict.fromkeys(("refused with a first number above 3", "refused with an own n out of range", "accepted after a refusal", "weights filled in"), 20),
    **dict.fromkeys(("accepted from made-up numbers", "a tolerance cleared"), 20),
}


def line_coverage(said, changed, text, numbers, after_refusal, is_made_up):
    """What a line at a loader with these numbers meets; so many numbers of the lists are then others."""
    yield f"line {said}"
    if said and numbers[0] > ENDED:
        yield "refused with a first number above 3"
    if said == 3 and SIZED <= numbers[0] <= ENDED and not 1 <= numbers[1] <= COLUMN:
        yield "refused with an own n out of range"
    if said:
        return
    if after_refusal:
        yield "accepted after a refusal"
    if is_made_up:
        yield "accepted from made-up numbers"
    form = read_form(text)
    if form.kind == "end" and changed:
        yield "weights filled in"
    if form.kind == "right" and len(form.values) == 1 and changed > 1:
        yield "a tolerance cleared"


def coverage(session, answer):
    for (kind, *numbers_said), text in answer:
        yield "a step"
        if kind == 3:
            yield f"check {numbers_said[1]}"
        elif kind == 2:
            said = numbers_said[1]
            yield from line_coverage(said, len(numbers_said[12:]) // 3, text, numbers, after_refusal, is_made_up)
            numbers, after_refusal = numbers_said[3:12], after_refusal or said != 0
        else:
            numbers, after_refusal, is_made_up = numbers_said or [0] * 9, False, kind == 1


SUITE = Suite(
    count=250, generate=generate, calls=calls, coverage=coverage, required=REQUIRED,
    answers={
        "kodarfi_loader_new": (0,),
        "kodarfi_loader_take": (0, 1, 2, 3, 4, 8, 11, 12, 13, 14),
        "kodarfi_loader_check": (0, 3, 5, 6, 7, 8, 15),
    },
    answer=lambda session: list(steps_of(session)),
    mutants=((MUTANTS, differs),),
)

# What files meet of the reading; the program before Papers 1, 5 and 6.
WEIGHTS_ASKED, NO_TOLERANCES, VALUES_FIRST = map(without, ("weights_may_be_left_out", "right_sides_have_tolerances", "repetition_before_values"))
RIGHT_LIST = re.compile(rb"\(right (-?[0-9]+) \((-?[0-9]+(?: -?[0-9]+)*)\)\)")
ACCEPTED = Refusal(0)
OTHERWISE = "an answer changed otherwise by Paper "

# 02, Paper 6: the answers to a line of each word that become 12.
BECOMES_12 = tuple(f"3 for a {word} becomes 12" for word in RANGES if word != "tolerance") + ("4 for a row becomes 12", "4 for a inverse becomes 12")

# What is wrong with a right side in a list, by what is said of it: 2 for a count, 3 for a number, 12 where it comes again.
RIGHT_LISTS = ("list of one 2", "list of three 2", "list of more than 32 2", "tolerance below 0 3", "tolerance above 2^20 3", "right side out of range 3", "i out of range 3", "again 12")
WRITTEN = ("none", "0", "above 0", "0 and none", "above 0 and none", "0 and above 0", "0 and above 0 and none")

REQUIRED_OF_READING = {
    **{f"{given} weights given, {said}": 20 for given in ("no", "some", "all") for said in ("accepted", "refused")},
    **{f"13 of 01's count, now {said}": 20 for said in ("accepted", "fewer")},
    **{f"accepted with right sides written with {kinds}": 20 for kinds in WRITTEN},
    **dict.fromkeys(("refused with tolerances above 0", "6 through slack alone", "larger limits"), 20),
    **{f"right side with a list: {why}": 3 for why in RIGHT_LISTS},
    **dict.fromkeys(BECOMES_12, 5),
    "4 for a right side": NEVER,
    **{OTHERWISE + paper: NEVER for paper in "156"},
}


def repetition_coverage(file, loaded):
    """What was said of a line before Paper 6 and is now 12; nothing else may be said otherwise."""
    before = VALUES_FIRST.load(file)
    if before == loaded:
        return
    name = ""
    if isinstance(before, Refusal) and loaded == before._replace(number=12):
        name = f"{before.number} for a {lines_of(file)[before.values[0] - 1][1:-1].split(b' ')[0].decode('latin-1')} becomes 12"
    yield name if name in BECOMES_12 else OTHERWISE + "6"


def weights_coverage(file, loaded, listing):
    """Files by the weights they give, accepted or refused by their check; and those of which something else is said than in 01's count."""
    if not isinstance(loaded, Refusal):
        count = sum(line.startswith(b"(weight ") for line in lines_of(file))
        given = "no" if count == 0 else "all" if count == loaded.n else "some"
        yield f"{given} weights given, {'accepted' if is_accepted(listing) else 'refused'}"
    asked, now = (found if isinstance(found, Refusal) else ACCEPTED for found in (WEIGHTS_ASKED.load(file), loaded))
    if asked == now:
        return
    is_fewer = now.number == 13 and now.values < asked.values
    if asked.number == 13 and (now == ACCEPTED or is_fewer):
        yield f"13 of 01's count, now {'fewer' if is_fewer else 'accepted'}"
    elif asked.number != 13 or now.number != 14:
        yield OTHERWISE + "1"


def right_list_why(line, number):
    """Why a line `(right i (..))` is refused with this number, as far as that is Paper 5's; None where it is not."""
    match = RIGHT_LIST.fullmatch(line)
    if not match:
        return None
    numbers = [int(number) for number in match.group(2).split()]
    if len(numbers) != 2:
        return f"list of {'more than 32' if len(numbers) > 32 else {1: 'one', 3: 'three'}.get(len(numbers), 'others')} {number}"
    if number != 3:
        return f"again {number}" if number == 12 else None
    (b, d), (lowest, highest) = numbers, RANGES["right"]
    if not lowest <= b <= highest:
        return "right side out of range 3"
    return "tolerance below 0 3" if d < 0 else "tolerance above 2^20 3" if d > 2**20 else "i out of range 3"


def slack_coverage(problem, listing):
    """What a tolerance above 0 brought: 6 where all residuals by themselves are within 2^25, or larger limits."""
    without_slack = Reckoning().check(problem._replace(tolerance=[0] * len(problem.tolerance)))
    if listing.startswith(b"(refused 6 ") and (not isinstance(without_slack, Refusal) or without_slack.number == 7):
        yield "6 through slack alone"
    if is_accepted(listing) and limits_in(listing) != without_slack.solution:
        yield "larger limits"


def tolerances_coverage(file, loaded, listing):
    """Files by how their right sides are written; what is refused of a right side with a list; and files of which something else is said than before Paper 5,
    which must have a line that was no form."""
    if not isinstance(loaded, Refusal):
        lines = [line for line in lines_of(file) if line.startswith(b"(right ")]
        kinds = " and ".join(sorted({"none" if b" (" not in line else "0" if line.endswith(b" 0))") else "above 0" for line in lines}))
        if is_accepted(listing):
            yield f"accepted with right sides written with {kinds}"
        elif "above 0" in kinds:
            yield "refused with tolerances above 0"
        if any(loaded.tolerance):
            yield from slack_coverage(loaded, listing)
    elif loaded.number in (2, 3, 4, 12):
        why = right_list_why(lines_of(file)[loaded.values[0] - 1], loaded.number)
        yield "4 for a right side" if why and loaded.number == 4 else f"right side with a list: {why}"
    before = NO_TOLERANCES.load(file)
    if before != loaded and not (isinstance(before, Refusal) and before.number == 2 and lines_of(file)[before.values[0] - 1].startswith(b"(right ")):
        yield OTHERWISE + "5"


def reading_coverage(file, loaded, listing):
    yield from repetition_coverage(file, loaded)
    yield from weights_coverage(file, loaded, listing)
    yield from tolerances_coverage(file, loaded, listing)
