"""Document 01's desk: it collects forms line by line and fills the lists; and the loader of the library, nine numbers beside six lists, step by step."""

from functools import lru_cache
from typing import NamedTuple

from calls.check.oracle import COLUMN, KINDS, MATRIX, Problem, check
from common.format import LONGEST_LINE, PLACED, are_values_in_range, read_form
from common.net import flat
from common.rules import IN_FORCE, Refusal

# How far a loader has come.
NOTHING, SIZED, SCALED, ENDED = range(4)


class Line(NamedTuple):
    """A line with its form, None where it has none."""

    text: bytes
    form: object


@lru_cache(maxsize=None)
def tests_of(loader, order):
    """The tests of a class of loaders in an order, each with its number."""
    return [(int(test.split("_")[0]), getattr(loader, f"refusal_{test}")) for test in order]


class Loader:
    # 01: "Order for a line: 8, 14, 1, 2, 11, 3, 4, 12, 13." The lists here are never too short.
    VALUES_FIRST = ("14", "1", "2", "11", "3_for_i", "3_for_values", "4", "12", "13")
    # 02, Paper 6: "8, 14, 1, 2, 11, 3 for i, 12, 3 for values, 4, 13."
    REPETITION_FIRST = ("14", "1", "2", "11", "3_for_i", "12", "3_for_values", "4", "13")

    # The kinds of which the count of forms still missing is made. 01: "out of 5n". 02, Paper 1: "The count of forms still missing is now out of 4n."
    ALL_COUNTED = PLACED
    COUNTED = ("row", "right", "guess", "inverse")

    def __init__(self, rules=IN_FORCE):
        self.rules = rules
        self.tests = tests_of(type(self), self.order())
        self.n = self.s = self.t = None
        self.given = set()
        self.ended = False
        self.lists = {kind: [0] * (MATRIX if kind in ("row", "inverse") else COLUMN) for kind in KINDS}

    def take(self, text):
        """Takes a line in; gives its refusal, or None where it is accepted."""
        line = Line(text, self.read(text))
        for number, refusal in self.tests:
            values = refusal(self, line)
            if values is not None:
                return Refusal(number, values)
        self.accept(line.form)
        return None

    def order(self):
        return self.REPETITION_FIRST if self.rules.repetition_before_values else self.VALUES_FIRST

    def read(self, text):
        """The form of a line. Before Paper 5 a right side has no tolerance: 2."""
        form = read_form(text)
        is_older = form is None or len(form.values) == 1 or form.kind != "right"
        return form if is_older or self.rules.right_sides_have_tolerances else None

    def refusal_14(self, line):
        """01: Any line after an accepted end."""
        return () if self.ended else None

    def refusal_1(self, line):
        """01: A line above 320 bytes, its line feed not counted."""
        return () if len(line.text) > LONGEST_LINE else None

    def refusal_2(self, line):
        """01: Not one of the eight forms, spelled exactly; an empty line too."""
        return () if line.form is None else None

    def refusal_11(self, line):
        """01: A form other than problem first, or other than problem or scale before the scale."""
        if self.n is None:
            allowed = ("problem",)
        elif self.s is None:
            allowed = ("problem", "scale")
        else:
            return None
        return None if line.form.kind in allowed else ()

    def refusal_3_for_i(self, line):
        """01: A number outside its range, i above n included: i."""
        place = line.form.place
        return None if place is None or 1 <= place <= self.n else ()

    def refusal_3_for_values(self, line):
        """01: A number outside its range: the others."""
        return None if are_values_in_range(line.form) else ()

    def refusal_4(self, line):
        """01: A row or inverse list with other than n numbers."""
        form = line.form
        return () if form.kind in ("row", "inverse") and len(form.values) != self.n else None

    def refusal_12(self, line):
        """01: A form given already: problem, scale, or this kind and i."""
        return () if (line.form.kind, line.form.place) in self.given else None

    def refusal_13(self, line):
        """01: End with forms outstanding; gives the count of forms still missing."""
        missing = self.missing() if line.form.kind == "end" else 0
        return (missing,) if missing else None

    def missing(self):
        """Counted once for each kind and place."""
        return sum((kind, i) not in self.given for kind in self.counted() for i in range(1, self.n + 1))

    def counted(self):
        return self.COUNTED if self.rules.weights_may_be_left_out else self.ALL_COUNTED

    def accept(self, form):
        """01: An accepted line puts n, or s and t, into the desk, or its form's other numbers at their own places."""
        self.given.add((form.kind, form.place))
        if form.kind == "problem":
            (self.n,) = form.values
        elif form.kind == "scale":
            self.s, self.t = form.values
        elif form.kind == "end":
            self.ended = True
            if self.rules.weights_may_be_left_out:
                self.close()
        elif form.kind == "right":
            self.accept_right(form.place - 1, *form.values)
        else:
            at = (form.place - 1) * len(form.values)
            self.lists[form.kind][at : at + len(form.values)] = form.values

    def accept_right(self, at, right, tolerance=0):
        """02, Paper 5: "(right i b) means d = 0, written like a given one"."""
        self.lists["right"][at] = right
        self.lists["tolerance"][at] = tolerance

    def close(self):
        """02, Paper 1: "A weight not given stands for 1, and an accepted end writes 1 into every such place of the lent list."."""
        for i in range(1, self.n + 1):
            if ("weight", i) not in self.given:
                self.lists["weight"][i - 1] = 1


def before(which, place):
    """What a list holds before a loader is new."""
    return (which * 4099 + place * 31 + 7) % 2001 - 1000


BEFORE = {kind: [before(which, place) for place in range(MATRIX if kind in ("row", "inverse") else COLUMN)] for which, kind in enumerate(KINDS)}


class Numbered(Loader):
    """The loader that nine numbers stand for: how far it has come, n, s and t, and the sets of what was given, a bit for each i."""

    def __init__(self, numbers, lists):
        super().__init__()
        self.stage = self.stage_of(numbers[0])
        self.numbers = list(numbers)
        self.lists = lists
        n, s, t, *sets = numbers[1:]
        self.n = n if self.stage >= SIZED else None
        self.s, self.t = (s, t) if self.stage >= SCALED else (None, None)
        self.ended = self.stage == ENDED
        self.given = {(kind, i + 1) for kind, bits in zip(PLACED, sets) for i in range(32) if bits >> i & 1}
        self.given |= {(word, None) for word, stage in (("problem", SIZED), ("scale", SCALED)) if self.stage >= stage}

    def stage_of(self, number):
        return number if number <= ENDED else NOTHING

    def refusal_3_for_i(self, line):
        """An own n out of range, which no file gives, is 3 of every form."""
        return () if self.n is not None and not 1 <= self.n <= COLUMN else super().refusal_3_for_i(line)

    def accept(self, form):
        super().accept(form)
        if form.kind == "problem":
            self.numbers[:2] = SIZED, self.n
        elif form.kind == "scale":
            self.numbers[:4] = SCALED, self.n, self.s, self.t
        elif form.kind == "end":
            self.numbers[0] = ENDED
        else:
            self.numbers[4 + PLACED.index(form.kind)] |= 1 << (form.place - 1)

    def left(self, refusal):
        """The nine numbers after a line."""
        return self.numbers


class Steps:
    """The steps of one loader after another, of which the first is new; `loader` is what they are right of."""

    def __init__(self, loader=Numbered):
        self.loader = loader

    def new(self):
        self.numbers, self.lists = [0] * 9, {kind: list(numbers) for kind, numbers in BEFORE.items()}
        return [0], b""

    def set(self, numbers):
        self.numbers = list(numbers)
        return [1, *numbers], b""

    def line(self, text, short):
        old = {kind: list(numbers) for kind, numbers in self.lists.items()}
        loader = self.loader(self.numbers, self.lists)
        refusal = Refusal(8) if short else loader.take(text)
        self.numbers = list(self.numbers) if short else loader.left(refusal)
        others = [(which, old[kind], self.lists[kind]) for which, kind in enumerate(KINDS) if old[kind] != self.lists[kind]]
        changed = [(which, place, new) for which, before, after in others for place, (was, new) in enumerate(zip(before, after)) if was != new]
        said = (0, 0) if refusal is None else (refusal.number, *(*refusal.values, 0)[:1])
        return [2, short, *said, *self.numbers, *(number for change in changed for number in change)], text

    def check(self, short):
        answer = self.checked(short)
        said = (answer.number, *answer.values, 0, 0)[:3] if isinstance(answer, Refusal) else (0, 0, 0, *answer.solution, *flat(answer.inverse))
        return [3, short, *said], b""

    def checked(self, short):
        """01: "Order for a check: 8, 15, 3, 5, 6, 7." """
        is_open = short or not self.loader(self.numbers, self.lists).ended
        return Refusal(8 if short else 15) if is_open else check(self.problem())

    def problem(self):
        return Problem(*self.numbers[1:4], *(self.lists[kind] for kind in KINDS))
