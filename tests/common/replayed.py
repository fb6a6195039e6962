"""Calls as the replays of tests/link make them, written in numbers: what is lent, the arguments, and what all that is lent holds afterwards.

A file begins with how many calls of include/kodarfi.h it has, and for each its place in the header, from 0, and a bit for each answer that must be met. Then
come the calls. Each begins with seven numbers: the place of the call, how many lists stay lent from the call before, how many are lent anew, how many changes
are made in lists before the call, how many arguments it has, the right answer, and how many changes are right afterwards. Behind them stand

  each list lent anew    its width in bytes, its length, how many numbers are given, how many hold the fill after them, and the fill; then those given
  each change before     the list, the first place, the width and how many; then the numbers
  the arguments          numbers, and lists by their place among those lent, or -1 for a null pointer
  each change after      as those before

Numbers of one byte are written as bytes, after a line feed. A list holds sentinels where it has no number, and what is not changed must stay. A call that is given a length of 0 is
made twice, the second time with a null pointer for that list."""

from itertools import chain
from typing import NamedTuple

from common.rules import Refusal
from header.read import prototypes

# Stands in the lists past the numbers given: outside every range.
UNREAD = -(2**63)

PLACES = {name: place for place, (_, name, _) in enumerate(prototypes())}
# Which arguments of a call are lists, with a length after them.
LISTS = {name: [at - 1 for at, (_, parameter) in enumerate(parameters) if parameter.endswith("_len")] for _, name, parameters in prototypes()}


class List(NamedTuple):
    """A list that is lent, or a place, which is a list of one. `right` has what is written: pairs of a place and the numbers from there on."""

    width: int
    length: int
    given: object = ()
    filled: int = 0
    fill: int = 0
    right: tuple = ()
    before: tuple = ()


class Kept(NamedTuple):
    """A list that stays lent from the call before, by its place among those lent, and the changes before and after the call."""

    place: int
    width: int = 1
    before: tuple = ()
    right: tuple = ()


class Made(NamedTuple):
    """A call, by its name. Its arguments are numbers and lists; lists beside them are lent too."""

    name: str
    arguments: list
    number: int
    kept: int = 0
    beside: tuple = ()
    nulls: tuple = ()

    def empty(self):
        """Which of its lists have the length 0."""
        return tuple(at for at in LISTS[self.name] if self.arguments[at + 1] == 0)

    def parts(self):
        """What is written: numbers, a line of them up to the next bytes, and bytes."""
        line = []
        for numbers in self.numbers():
            if isinstance(numbers, bytes):
                yield from (line, numbers)
                line = []
            else:
                line += numbers
        yield line

    def numbers(self):
        lent = [part for part in (*self.arguments, *self.beside) if isinstance(part, List)]
        placed = [(place, part) for place, part in enumerate(lent, self.kept)]
        placed += [(part.place, part) for part in self.arguments if isinstance(part, Kept)]
        place_of = {id(part): place for place, part in placed}
        before, after = (list(changes(placed, when)) for when in ("before", "right"))
        yield [PLACES[self.name], self.kept, len(lent), len(before) // 2, len(self.arguments), self.number, len(after) // 2]
        for part in lent:
            yield [part.width, part.length, len(part.given), part.filled, part.fill]
            yield bytes(part.given) if part.width == 1 else part.given
        yield from before
        yield [-1 if at in self.nulls else place_of.get(id(part), part) for at, part in enumerate(self.arguments)]
        yield from after


def changes(placed, when):
    for place, part in placed:
        for at, numbers in getattr(part, when):
            if numbers:
                yield [place, at, part.width, len(numbers)]
                yield numbers


def read(numbers, length, fill=UNREAD):
    """A list of 64-bit numbers that is read, with the fill past those given."""
    end = numbers.index(fill) if fill in numbers else len(numbers)
    given = numbers[:end] if numbers.count(fill) == len(numbers) - end else numbers
    return List(8, length, given, length - len(given), fill)


def text(data):
    return List(1, len(data), data)


def written(length, right=(), width=8):
    """A list whose first places are written, with these numbers, or bytes where the width is 1."""
    return List(width, length, right=((0, right),))


def said(answer):
    """The number of an answer, 0 where it is no refusal, and its two places."""
    return (answer.number, (*answer.values, 0, 0)[:2]) if isinstance(answer, Refusal) else (0, (0, 0))


def file_of(answers, made, is_whole):
    """The parts of a file, by the answers that must be met of each call, and its calls. In a whole one each list of each call is once a null pointer."""
    head = ((PLACES[name], sum(1 << number for number in numbers)) for name, numbers in answers.items())
    yield [len(answers), *chain.from_iterable(head)]
    without = {(name, at) for name in answers for at in LISTS[name]}
    for call in made:
        yield from call.parts()
        if call.empty():
            yield from call._replace(nulls=call.empty()).parts()
            without -= {(call.name, at) for at in call.empty()}
    if without and is_whole:
        raise ValueError(f"no call has a null pointer for {sorted(without)}")
