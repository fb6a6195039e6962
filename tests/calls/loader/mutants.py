"""Mutants of a loader, by name. READING, as parts of a program, read a file otherwise than document 01 and 02's Papers 1 and 6 say, and the files must detect
them (calls/listing); MUTANTS leave other numbers or lists behind."""

import re
from dataclasses import replace
from functools import partial

from calls.check.oracle import check
from calls.loader.oracle import ENDED, Loader, Numbered, Steps
from common.format import PLACED, RANGES, Form, is_in_range, lines_of, read_form
from common.rules import IN_FORCE, Refusal


def loader(**parts):
    return dict(loader=type("Mutant", (Loader,), parts))


def any_kind_missing(self):
    """Place i counted once for all kinds."""
    return sum(any((kind, i) not in self.given for kind in self.COUNTED) for i in range(1, self.n + 1))


def with_form(test, change):
    """A test that sees another form; change(loader, form) gives it."""
    return lambda self, line: getattr(Loader, test)(self, line._replace(form=change(self, line.form)))


def up_to_32(self, line):
    """i above n taken where it is at most 32."""
    place = line.form.place
    return None if place is not None and self.n < place <= 32 else Loader.refusal_3_for_i(self, line)


def by_place(self, line):
    """A place given already in any kind."""
    form = line.form
    return () if any(place == form.place for _, place in self.given if form.place) else Loader.refusal_12(self, line)


def only_scale(self, line):
    """A second problem before the scale is 11."""
    if self.n is not None and self.s is None:
        return None if line.form.kind == "scale" else ()
    return Loader.refusal_11(self, line)


def end_early(self, line):
    """End is taken before the scale."""
    early = self.n is not None and self.s is None and line.form.kind == "end"
    return None if early else Loader.refusal_11(self, line)


def moved(first, second):
    """The order of a line with the test `first` moved to just before `second`."""
    order = [test for test in Loader.REPETITION_FIRST if test != first]
    order.insert(order.index(second), first)
    return tuple(order)


def before(first, second):
    return loader(REPETITION_FIRST=moved(first, second))


def before_place(place):
    """12 before 3 for i, with i made into a place in range before it is looked up."""
    looked_up = lambda form: (form.kind, None if form.place is None else place(form.place))
    return loader(REPETITION_FIRST=moved("12", "3_for_i"), refusal_12=lambda self, line: () if looked_up(line.form) in self.given else None)


def only_in_range(self, line):
    """A second problem or scale is a repetition only where its numbers are in their ranges."""
    form = line.form
    return None if form.place is None and Loader.refusal_3_for_values(self, line) is not None else Loader.refusal_12(self, line)


def only_of(*kinds):
    """Repetition first for these kinds; for the others as it was, after 3 and 4."""

    def refusal_12(self, line):
        late = line.form.kind not in kinds and any(test(self, line) is not None for test in (Loader.refusal_3_for_values, Loader.refusal_4))
        return None if late else Loader.refusal_12(self, line)

    return loader(refusal_12=refusal_12)


def ones_where(test):
    """An end that writes 1 at the places i of which the test holds."""

    def close(self):
        for i in range(1, self.n + 1):
            if test(self, i):
                self.lists["weight"][i - 1] = 1

    return close


LOADED = {
    "01's order": dict(rules=replace(IN_FORCE, repetition_before_values=False)),
    "12 before 3 for i, i by its size": before_place(abs),
    "12 before 3 for i, i by its last five bits": before_place(lambda i: (i - 1) % 32 + 1),
    "12 after 3 for values": before("3_for_values", "12"),
    "12 after 4 alone": before("4", "12"),
    "a second problem or scale out of range still 3": loader(refusal_12=only_in_range),
    "repetition first for rows alone": only_of("row", "problem", "scale"),
    "repetition first for lists alone": only_of("row", "inverse", "problem", "scale"),
    "repetition first for parts alone": only_of("row", "right", "guess", "inverse", "weight"),
    "3 for values after 4": before("4", "3_for_values"),
    "14 after 1": before("1", "14"),
    "14 after 2": loader(REPETITION_FIRST=("1", "2", "14", *Loader.REPETITION_FIRST[3:])),
    "2 before 1": before("2", "1"),
    "place i counted once for all kinds": loader(missing=any_kind_missing),
    "missing out of 5n": dict(rules=replace(IN_FORCE, weights_may_be_left_out=False)),
    "weights left out and counted": loader(COUNTED=Loader.ALL_COUNTED),
    "missing of the inverse forgotten": loader(COUNTED=("row", "right", "guess")),
    "ones over given weights": loader(close=ones_where(lambda self, i: True)),
    "weights left as they were": loader(close=ones_where(lambda self, i: False)),
    "ones only where no weight is given": loader(close=ones_where(lambda self, i: not any(kind == "weight" for kind, _ in self.given))),
    "no one at the last place": loader(close=ones_where(lambda self, i: i < self.n and ("weight", i) not in self.given)),
    "a second weight accepted": loader(refusal_12=lambda self, line: None if line.form.kind == "weight" else Loader.refusal_12(self, line)),
    "a weight of 0 left out": loader(refusal_3_for_values=lambda self, line: None if line.form.kind == "weight" and line.form.values == (0,) else Loader.refusal_3_for_values(self, line)),
    "an invented missing count": loader(missing=lambda self: Loader.missing(self) or 1),
    "missing count one too high": loader(missing=lambda self: Loader.missing(self) and Loader.missing(self) + 1),
    "place repeated in any kind": loader(refusal_12=by_place),
    "repetition overwrites": loader(refusal_12=lambda self, line: None),
    "320 bytes too long": loader(refusal_1=lambda self, line: () if len(line.text) > 319 else None),
    "321 bytes good": loader(refusal_1=lambda self, line: () if len(line.text) > 321 else None),
    "i up to 32": loader(refusal_3_for_i=up_to_32),
    "i by its size": loader(refusal_3_for_i=with_form("refusal_3_for_i", lambda self, form: form._replace(place=form.place and abs(form.place)))),
    "only n numbers in range": loader(refusal_3_for_values=with_form("refusal_3_for_values", lambda self, form: form._replace(values=form.values[: self.n or 2]))),
    "second problem is 11": loader(refusal_11=only_scale),
    "end before the scale": loader(refusal_11=end_early, missing=lambda self: 5 * self.n - len(self.given) + 1),
    "the end is not kept": loader(accept=lambda self, form: None if form.kind == "end" else Loader.accept(self, form)),
}


def reading(change):
    """A loader that reads a line after changing its text."""
    return loader(read=lambda self, text: read_form(change(text)))


def wrapped(bits):
    """Numbers cut to a machine word."""
    cut = lambda value: (value + 2 ** (bits - 1)) % 2**bits - 2 ** (bits - 1)

    def read(self, text):
        form = read_form(text)
        if form is None:
            return None
        place = None if form.place is None else cut(form.place)
        return Form(form.kind, place, tuple(map(cut, form.values)))

    return loader(read=read)


def long_is_none(self, text):
    """A numeral past 2^63 is no number."""
    form = read_form(text)
    return None if form and any(abs(value) >= 2**63 for value in (form.place or 0, *form.values)) else form


def substituted(pattern, text):
    return lambda line: re.sub(pattern, text, line)


def until_end(self, file):
    """Nothing after an end is looked at."""
    lines = lines_of(file)
    return lines[: lines.index(b"(end)") + 1] if b"(end)" in lines else lines


READ = {
    "leading zeros": reading(substituted(rb"(?<![0-9])0+(?=[0-9])", b"")),
    "minus zero": reading(substituted(rb"-0(?![0-9])", b"0")),
    "plus sign": reading(substituted(rb"\+(?=[0-9])", b"")),
    "several spaces": reading(substituted(rb"  +", b" ")),
    "space at the line's end": reading(lambda line: line.rstrip(b" ")),
    "space before a bracket": reading(substituted(rb" \)", b")")),
    "carriage return dropped": reading(lambda line: line.rstrip(b"\r")),
    "tab for a space": reading(lambda line: line.replace(b"\t", b" ")),
    "capitals": reading(lambda line: line.lower()),
    "bytes after the form": reading(substituted(rb"^(\(.*\))[^)]*$", rb"\1")),
    "64-bit numbers wrap": wrapped(64),
    "32-bit places wrap": loader(read=lambda self, text: (form := read_form(text)) and form._replace(place=form.place and form.place % 2**32)),
    "a long numeral is 2": loader(read=long_is_none),
    "a last line without line feed lost": dict(lines=lambda self, file: file.split(b"\n")[:-1]),
    "an empty line after the last line feed": dict(lines=lambda self, file: file.split(b"\n")),
    "empty lines skipped": dict(lines=lambda self, file: [line for line in lines_of(file) if line]),
    "stops at the end": dict(lines=until_end),
    "carriage return ends a line": dict(lines=lambda self, file: lines_of(file.replace(b"\r", b"\n"))),
}


def ranged(test):
    """A loader whose test of a number in a form is test(kind, number)."""
    return loader(refusal_3_for_values=lambda self, line: None if all(map(test, line.form.kinds(), line.form.values)) else ())


def narrowed(kind, lowest, highest):
    """The range of one kind otherwise."""
    return ranged(lambda of, number: lowest <= number <= highest if of == kind else is_in_range(of, number))


def range_mutants():
    """For each kind the range one too narrow and one too wide at either end."""
    for kind, (lowest, highest) in RANGES.items():
        yield f"{kind} range without its lowest", narrowed(kind, lowest + 1, highest)
        yield f"{kind} range without its highest", narrowed(kind, lowest, highest - 1)
        if kind not in ("problem", "scale"):
            yield f"{kind} range one lower", narrowed(kind, lowest - 1, highest)
            yield f"{kind} range one higher", narrowed(kind, lowest, highest + 1)


READING = {**LOADED, **READ, **dict(range_mutants())}


def numbered(**parts):
    """Steps of a loader with these parts."""
    return partial(Steps, type("Mutant", (Numbered,), parts))


def kept_as(kind, other=None):
    """A loader that keeps a place of one kind in the set of another, or in none."""

    def accept(self, form):
        before = list(self.numbers)
        Numbered.accept(self, form)
        if form.kind == kind:
            self.numbers = before
            if other:
                self.numbers[4 + PLACED.index(other)] |= 1 << (form.place - 1)

    return numbered(accept=accept)


def said_by(rule):
    """A loader that says rule(refusal) for a refusal."""
    return numbered(take=lambda self, text: (refusal := Loader.take(self, text)) and rule(refusal))


def writes_back(self, refusal):
    """A refused line puts a 0 into a list."""
    if refusal:
        self.lists["row"][0] = 0
    return self.numbers


def checked_by(rule):
    """Steps whose checks are rule(steps, the right answer)."""
    return type("Mutant", (Steps,), {"checked": lambda self, short: rule(self, Steps.checked(self, short))})


def scales_exchanged(self, right):
    s, t = self.numbers[2:4]
    return right if right in (Refusal(8), Refusal(15)) else check(self.problem()._replace(s=t, t=s))


def read_back(self, refusal):
    """A refused line leaves the numbers of the loader that it was read as, and not the very numbers."""
    return [self.stage, *self.numbers[1:]]


def old_tolerance(self, at, right, tolerance=None):
    Loader.accept_right(self, at, right, self.lists["tolerance"][at] if tolerance is None else tolerance)


MUTANTS = {
    "a first number above 3 is an end": numbered(stage_of=lambda self, number: min(number, ENDED)),
    "a refused line is read and written back": numbered(left=read_back),
    "an own n out of range is not tested": numbered(refusal_3_for_i=Loader.refusal_3_for_i),
    "an end leaves the weights": numbered(close=lambda self: None),
    "a right side without tolerance leaves the old one": numbered(accept_right=old_tolerance),
    "weights count as missing": numbered(counted=lambda self: self.ALL_COUNTED),
    "values before repetition": numbered(order=lambda self: self.VALUES_FIRST),
    "a given form is given again": numbered(refusal_12=lambda self, line: None),
    "a line after the end is taken": numbered(refusal_14=lambda self, line: None),
    "a guess kept among the inverses": kept_as("guess", "inverse"),
    "a weight kept nowhere": kept_as("weight"),
    "an end kept nowhere": kept_as("end"),
    "a refused line clears the loader": numbered(left=lambda self, refusal: [0] * 9 if refusal else self.numbers),
    "a refused line writes": numbered(left=writes_back),
    "13 without its count": said_by(lambda refusal: Refusal(refusal.number)),
    "a line for 2": said_by(lambda refusal: Refusal(2, (1,)) if refusal.number == 2 else refusal),
    "a check before the end": checked_by(lambda self, right: check(self.problem()) if right == Refusal(15) else right),
    "15 before 8": checked_by(lambda self, right: right if self.numbers[0] == ENDED else Refusal(15)),
    "11 for 15": checked_by(lambda self, right: Refusal(11) if right == Refusal(15) else right),
    "s and t exchanged in a check": checked_by(scales_exchanged),
}
