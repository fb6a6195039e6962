"""Mutants of the converter, by name. Each breaks one rule of 02's Paper 14."""

from functools import partial

from calls.check.oracle import Reckoning
from calls.convert.oracle import ROOM, Converter
from calls.listing.oracle import Program
from common.format import lines_of, read_form
from common.rules import Refusal
from common.suite import mutant


converter = partial(mutant, Converter)


def lines_by(rule):
    """A converter whose lines are rule(the right lines, the problem)."""
    return converter(lines=lambda self, problem: rule(Converter.lines(self, problem), problem))


def text_by(rule):
    """A converter whose text is rule(the right text, the file)."""
    return converter(text=lambda self, problem, file: rule(Converter.text(self, problem, file), file))


def without_ones(lines, problem):
    """The weights left out where all are 1."""
    all_one = all(weight == 1 for weight in problem.weights[: problem.n])
    return [line for line in lines if not (all_one and line.startswith("(weight "))]


def in_order_given(text, file):
    """The right lines, those that the file has in its own order first."""
    right = text.split(b"\n")[:-1]
    forms = {key_of(line): line for line in right}
    keys = list(dict.fromkeys([key_of(line) for line in lines_of(file)][:-1] + [key_of(line) for line in right][:-1])) + [("end", None)]
    return b"".join(forms[key] + b"\n" for key in keys)


def key_of(line):
    form = read_form(line)
    return form.kind, form.place


def place_after_place(lines, problem):
    """All lines of row 1, then all of row 2."""
    middle = sorted(lines[2:-1], key=lambda line: int(line.split(" ")[1]))
    return lines[:2] + middle + lines[-1:]


def exchanged(lines, problem):
    """Guesses before right sides."""
    n = problem.n
    return lines[: 2 + n] + lines[2 + 2 * n : 2 + 3 * n] + lines[2 + n : 2 + 2 * n] + lines[2 + 3 * n :]


def weights_given(text, file):
    """Only the weights that the file has."""
    given = {key_of(line) for line in lines_of(file)}
    return b"".join(line + b"\n" for line in text.split(b"\n")[:-1] if not line.startswith(b"(weight ") or key_of(line) in given)


def refuses_refused(self, file, room=ROOM):
    """A file whose check is refused is not converted."""
    right = Converter.convert(self, file, room)
    checked = right if isinstance(right, Refusal) else Reckoning().check(Program().load(file))
    return checked if isinstance(checked, Refusal) else right


def unfit_first(self, file, room=ROOM):
    """22 for a buffer that no file fits, before the desk's refusals."""
    return Refusal(22, (0,)) if room < 70 else Converter.convert(self, file, room)


def instead(number, other):
    """A converter that says another number."""

    def convert(self, file, room=ROOM):
        right = Converter.convert(self, file, room)
        return Refusal(other, right.values) if isinstance(right, Refusal) and right.number == number else right

    return converter(convert=convert)


MUTANTS = {
    "weights left out where all are 1": lines_by(without_ones),
    "only the weights that were given": text_by(weights_given),
    "lines in the order they came": text_by(in_order_given),
    "place after place": lines_by(place_after_place),
    "guesses before right sides": lines_by(exchanged),
    "right sides with (b 0)": lines_by(lambda lines, problem: [line.replace(" ", " (", 2).replace(" (", " ", 1)[:-1] + " 0))" if line.startswith("(right ") else line for line in lines]),
    "no last line feed": text_by(lambda text, file: text[:-1]),
    "no end": lines_by(lambda lines, problem: lines[:-1]),
    "places from 0": converter(values=lambda self, word, n, numbers: [f"({word} {i} {numbers[i]})" for i in range(n)]),
    "rows of 32": converter(rows=lambda self, word, n, numbers: Converter.rows(self, word, 32, numbers)[:n]),
    "the matrix for the inverse": lines_by(lambda lines, problem: Converter.lines(Converter(), problem._replace(inverse=problem.matrix))),
    "a tolerance passed over": converter(has_tolerance=lambda self, problem: False),
    "tolerance 1 alone": converter(has_tolerance=lambda self, problem: problem.tolerance[0] > 0),
    "a tolerance of 1 passed over": converter(has_tolerance=lambda self, problem: any(d > 1 for d in problem.tolerance[: problem.n])),
    "a buffer just as long refused": converter(is_too_long=lambda self, text, room: len(text) >= room),
    "a buffer one byte short taken": converter(is_too_long=lambda self, text, room: len(text) > room + 1),
    "a file whose check is refused not converted": converter(convert=refuses_refused),
    "22 before the desk's refusals": converter(convert=unfit_first),
    "3 for 22": instead(22, 3),
    "13 for 15": instead(15, 13),
    "the file as it came": text_by(lambda text, file: file),
}


def lined(number, line):
    """Another line where this number is said."""
    return lambda said, right: [*said[:3], line if said[0] == number else right]


# Of what a call reports beside the new file: rule(number and values, the refused line).
REPORTED = {
    "13 without its count": lambda said, line: [said[0], 0, 0, line],
    "the line among the values": lambda said, line: [said[0], line, 0, line],
    "lines from 0": lambda said, line: [*said, max(line - 1, 0)],
    "no line for 13": lined(13, 0),
    "a line for 15": lined(15, 1),
    "a line for 22": lined(22, 1),
}
