"""Document 02, Paper 14: a file written anew for offices on the old edition."""

from calls.listing.oracle import WITH_LINE, Program
from common.rules import Refusal

# The length of the program's own buffer.
ROOM = 32768


class Converter:
    program = Program()

    def convert(self, file, room=ROOM):
        """The new file, or the refusal as the program prints it. Paper 14: "The desk's refusals first, and 15 where the file stops before an end. New 22,
        after them, if any tolerance is above 0, or the output buffer is shorter than the new file; nothing is written."."""
        loaded = self.program.load(file)
        if isinstance(loaded, Refusal):
            return loaded
        text = self.text(loaded, file)
        return Refusal(22, (0,)) if self.has_tolerance(loaded) or self.is_too_long(text, room) else text

    def has_tolerance(self, problem):
        return any(problem.tolerance[: problem.n])

    def is_too_long(self, text, room):
        return len(text) > room

    def text(self, problem, file):
        """ "every line with its line feed"."""
        return "".join(line + "\n" for line in self.lines(problem)).encode()

    def lines(self, problem):
        """ "problem, scale, rows, right sides without tolerance, guesses, inverse rows and all n weights, each kind by rising i, then end"."""
        return [
            f"(problem {problem.n})",
            f"(scale {problem.s} {problem.t})",
            *self.rows("row", problem.n, problem.matrix),
            *self.values("right", problem.n, problem.right),
            *self.values("guess", problem.n, problem.guess),
            *self.rows("inverse", problem.n, problem.inverse),
            *self.values("weight", problem.n, problem.weights),
            "(end)",
        ]

    def rows(self, word, n, numbers):
        return [f"({word} {i + 1} ({' '.join(map(str, numbers[i * n : (i + 1) * n]))}))" for i in range(n)]

    def values(self, word, n, numbers):
        return [f"({word} {i + 1} {numbers[i]})" for i in range(n)]


def printed(converted):
    """What the program prints."""
    if not isinstance(converted, Refusal):
        return converted
    return f"(refused {converted.number} ({' '.join(map(str, converted.values))}))\n".encode()


def answered(converted):
    """What a call answers: a number and the two values that it gives, and the bytes that it writes. Only 13 gives a value, its count."""
    if not isinstance(converted, Refusal):
        return [0, 0, 0], converted
    count = 0 if converted.number in WITH_LINE or converted.number == 22 else converted.values[0]
    return [converted.number, count, 0], b""
