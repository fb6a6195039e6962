"""How the program `samples` prints an answer, and the loader that it has; and mutants of both that its stored output must detect, by name."""

from functools import partial

from calls.loader.mutants import old_tolerance
from calls.loader.oracle import Loader
from common.suite import mutant


class Printing:
    loader = Loader

    def said(self, refusal):
        """An answer: accepted where nothing is refused."""
        return "accepted" if refusal is None else self.refused(refusal.number, refusal.values)

    def refused(self, number, values=()):
        return " ".join(map(str, (number, *values)))

    def limits(self, limits, count):
        """The first places of a limit list: the limits, then a dash where none was written."""
        places = [str(limit) for limit in limits] + ["-"] * count
        return "".join(" " + place for place in places[:count])


mutated = partial(mutant, Printing)


def given_tolerance(self, at, right, tolerance=0):
    Loader.accept_right(self, at, right, tolerance or self.lists["tolerance"][at])


def loading(accept_right):
    return mutated(loader=type("Mutant", (Loader,), {"accept_right": accept_right}))


MUTANTS = {
    "(right i b) leaves the tolerance": loading(old_tolerance),
    "a tolerance of 0 is not written": loading(given_tolerance),
    "3 for a refusal that has no name": mutated(refused=lambda self, number, values=(): Printing.refused(self, number if number in (5, 6, 7, 8) else 3, values)),
    "0 for a refusal that is no line's": mutated(refused=lambda self, number, values=(): Printing.refused(self, number if number in (1, 2) else 0, values)),
    "numbers alone": mutated(refused=lambda self, number, values=(): str(number)),
    "row before column": mutated(refused=lambda self, number, values=(): Printing.refused(self, number, values[::-1])),
    "all accepted": mutated(said=lambda self, refusal: "accepted"),
    "limits of a refused check": mutated(limits=lambda self, limits, count: Printing.limits(self, list(limits) + [0] * count, count)),
}
