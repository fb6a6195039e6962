"""Document 01's program: a file to its listing."""

from dataclasses import replace

from calls.check.oracle import KINDS, Problem, Reckoning
from calls.entry.oracle import Entry
from calls.loader.oracle import Loader
from common.format import lines_of
from common.rules import IN_FORCE, Refusal

# Refusals with which the program prints the line's number: "the line number from 1 for 1 to 4, 11, 12 and 14".
WITH_LINE = (1, 2, 3, 4, 11, 12, 14)


class Program(Entry):
    loader = Loader
    reckoning = Reckoning

    def listing(self, file):
        """01: It stops at its first refusal and prints one line. Else it prints the report."""
        return self.printed(self.load(file))

    def printed(self, loaded):
        """The listing of a problem, or of the refusal met while its file was read."""
        checked = loaded if isinstance(loaded, Refusal) else self.reckoning(self.rules).check(loaded)
        lines = self.refused(checked) if isinstance(checked, Refusal) else self.report(loaded, checked)
        return "".join(line + "\n" for line in lines).encode()

    def load(self, file):
        """The problem of a file, or its first refusal. 01: The program reads to the end of the file before it checks."""
        loader = self.loader(self.rules)
        for number, line in enumerate(self.lines(file), 1):
            refusal = loader.take(line)
            if refusal is not None:
                return Refusal(refusal.number, (number,)) if refusal.number in WITH_LINE else refusal
        return self.problem(loader) if loader.ended else Refusal(15, (0,))

    def refused_line(self, file):
        """The number, from 1, of the first line that is refused; 0 where none is."""
        loader = self.loader(self.rules)
        return next((number for number, line in enumerate(self.lines(file), 1) if loader.take(line) is not None), 0)

    def lines(self, file):
        return lines_of(file)

    def problem(self, loader):
        return Problem(loader.n, loader.s, loader.t, *(loader.lists[kind] for kind in KINDS))

    def refused(self, refusal):
        values = " ".join(map(str, refusal.values))
        return [f"(refused {refusal.number} ({values}))"]

    def report(self, problem, bounds):
        """Bounds, solution, entry and inverse lines, then end."""
        places = range(1, problem.n + 1)
        pairs = list(zip(places, problem.guess, bounds.solution))
        S = 2**problem.s
        return [
            f"(bounds {problem.n})",
            *(f"(solution {i} ({X} {E}))" for i, X, E in pairs),
            *(f"(entry {i} ({self.entry(X, S)} {self.entry_bound(X, E, S)}))" for i, X, E in pairs),
            *(f"(inverse {i} ({' '.join(map(str, row))}))" for i, row in zip(places, bounds.inverse)),
            "(end)",
        ]


def under(rules):
    """The program under other rules."""
    return type("Program", (Program,), {"rules": rules})()


def without(rule):
    """The program before the paper that this rule is of."""
    return under(replace(IN_FORCE, **{rule: False}))
