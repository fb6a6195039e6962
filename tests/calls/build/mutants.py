"""Mutants of the builder, by name. Each breaks one rule of 02's Paper 3 or 10."""

from functools import partial

from calls.build.oracle import LEAST, LOWER, MOST, SQUARE, Builder
from calls.half.oracle import lower_half
from common.format import is_within
from common.rules import Refusal
from common.suite import mutant


builder = partial(mutant, Builder)


def compared(*places):
    """A builder that compares these of from, to, difference and weight alone."""
    return builder(is_same=lambda self, line, other: all(line.contents()[k] == other.contents()[k] for k in places))


def turned(line):
    return line._replace(start=line.to, to=line.start, difference=-line.difference)


def put(rule):
    """A builder whose equations are rule(those that are right, n, the distinct lines)."""
    return builder(equations=lambda self, n, lines: rule(Builder.equations(self, n, lines), n, lines))


def off_diagonal(rule):
    """A builder whose numbers beside the diagonal are rule(number, row, column)."""
    return put(lambda right, n, lines: right._replace(matrix=[a if p // n == p % n else rule(a, p // n, p % n) for p, a in enumerate(right.matrix)]))


def keep_twice(self, kept, line):
    kept[line.key if line.key not in kept else (line.key, len(kept))] = line


def opened_by(rule):
    """A builder whose answer is rule(call, what is right)."""
    return builder(build=lambda self, call: rule(call, Builder().build(call)))


def lines_first(call, right):
    """3 for a list above 256 after its lines."""
    if right == Refusal(3) and len(call.lines) > MOST and is_within("problem", [call.n]):
        first = Builder().build(call._replace(lines=call.lines[:MOST]))
        return first if isinstance(first, Refusal) else right
    return right


def last_refusal(call, right):
    """The refusal of the last line that has one."""
    if not isinstance(right, Refusal) or len(call.lines) > MOST or Builder().build(call._replace(lines=())) == right:
        return right
    kept, last, rules = {}, right, Builder()
    for line in call.lines:
        number = rules.refused(call.n, kept, line)
        if number:
            last = Refusal(number)
        else:
            rules.keep(kept, line)
    return last


def refused_by(rule):
    return builder(refused=rule)


def other_contents_first(self, n, kept, line):
    if not self.is_in_range(n, line):
        return 3
    if line.key in kept and not self.is_same(kept[line.key], line):
        return 17
    return 16 if self.is_loop(line) else 0


def ranges_last(self, n, kept, line):
    if self.is_loop(line):
        return 16
    return Builder.refused(self, n, kept, line)


def repeat_refused(self, n, kept, line):
    return Builder.refused(self, n, kept, line) or (17 if line.key in kept else 0)


def within(name, lowest, highest):
    """A builder with one number's range moved: lines that are out of range by it alone are taken, or those at its end refused. 1 is in every range."""

    def is_in_range(self, n, line):
        return lowest <= getattr(line, name) <= highest and Builder.is_in_range(self, n, line._replace(**{name: 1}))

    return builder(is_in_range=is_in_range)


def marks_to(most):
    return builder(is_in_range=lambda self, n, line: Builder.is_in_range(self, most(n), line))


def last_contents(self, kept, line):
    kept[line.key] = line


def cut(line):
    """The contents with a difference of 16 bits."""
    return line._replace(difference=line.difference % 2**16).contents()


def rows_of_32(self, layout, n, matrix):
    right = Builder.laid_out(self, layout, n, matrix)
    return right if layout == LOWER else [number for i in range(n) for number in (*matrix[i * n : i * n + n], *(None,) * (32 - n))]


def lined(rule):
    """A builder whose refused line is rule(call, the right one)."""
    return builder(refused_line=lambda self, call: rule(call, Builder().refused_line(call)))


def line_for(number):
    """Line 1 where the call is refused with this number before any line."""
    return lined(lambda call, line: 1 if Builder().refused_first(call) == number else line)


def halves_by(rule):
    """A builder whose halves are rule(n, the square's numbers)."""
    return builder(laid_out=lambda self, layout, n, matrix: rule(n, matrix) if layout == LOWER else matrix)


def half_least(length):
    """A builder that says 8 for a half under this length."""
    return builder(least=lambda self, layout: LEAST[LOWER]._replace(matrix=length) if layout == LOWER else LEAST[layout])


def diagonal_twice(n, matrix):
    return lower_half(n, [2 * number if place // n == place % n else number for place, number in enumerate(matrix)])


MUTANTS = {
    "a repeated key counted twice": builder(keep=keep_twice),
    "a repeated line refused": refused_by(repeat_refused),
    "from not compared": compared(1, 2, 3),
    "to not compared": compared(0, 2, 3),
    "difference not compared": compared(0, 1, 3),
    "weight not compared": compared(0, 1, 2),
    "the last contents of a key win": builder(is_same=lambda self, line, other: line.contents()[:2] == other.contents()[:2], keep=last_contents),
    "a line turned round is the same": builder(is_same=lambda self, line, other: other.contents() in (line.contents(), turned(line).contents())),
    "differences of 16 bits compared": builder(is_same=lambda self, line, other: cut(line) == cut(other)),
    "17 for 16": opened_by(lambda call, right: Refusal(17) if right == Refusal(16) else right),
    "a short right side taken": builder(least=lambda self, layout: LEAST[layout]._replace(right=0)),
    "rows of 32": builder(laid_out=rows_of_32),
    "the right side turned": put(lambda right, n, lines: right._replace(right=[-b for b in right.right])),
    "the right side without the weight": put(lambda right, n, lines: right._replace(right=Builder().equations(n, [line._replace(weight=1) for line in lines]).right)),
    "the right side of 'to' alone": put(lambda right, n, lines: right._replace(right=[sum(line.weight * line.difference for line in lines if line.to == k) for k in range(1, n + 1)])),
    "a plus beside the diagonal": off_diagonal(lambda a, i, j: -a),
    "one side of the diagonal alone": off_diagonal(lambda a, i, j: a if j < i else 0),
    "lines at the fixed mark lost": builder(equations=lambda self, n, lines: Builder.equations(self, n, [line for line in lines if line.start and line.to])),
    "16 for 0 and 0 left out": builder(is_loop=lambda self, line: line.start == line.to != 0),
    "17 before 16": refused_by(other_contents_first),
    "16 before 3": refused_by(ranges_last),
    "a list of 257 taken": builder(build=lambda self, call: Builder().build(call._replace(lines=call.lines[:MOST]) if len(call.lines) == 257 else call)),
    "a list of 256 refused": opened_by(lambda call, right: Refusal(3) if len(call.lines) == MOST and not (isinstance(right, Refusal) and right.number == 8) else right),
    "a long list after its lines": opened_by(lines_first),
    "n before the lengths": opened_by(lambda call, right: right if is_within("problem", [call.n]) else Refusal(3)),
    "the last refusal": opened_by(last_refusal),
    "an empty list refused": opened_by(lambda call, right: right if call.lines or isinstance(right, Refusal) else Refusal(3)),
    "marks to 32 whatever n is": builder(is_in_range=lambda self, n, line: Builder.is_in_range(self, 32, line)),
    "mark n refused": marks_to(lambda n: n - 1),
    "a key of 0 taken": within("key", 0, 65535),
    "a key of 65,536 taken": within("key", 1, 65536),
    "a key of 65,535 refused": within("key", 1, 65534),
    "a difference of 65,537 taken": within("difference", -65536, 65537),
    "a difference of −65,536 refused": within("difference", -65535, 65536),
    "a weight of 0 taken": within("weight", 0, 64),
    "a weight of 65 taken": within("weight", 1, 65),
    "a weight of 64 refused": within("weight", 1, 63),
    "the upper half built": halves_by(lambda n, matrix: [matrix[i * n + j] for i in range(n) for j in range(i, n)]),
    "a half with stride n": halves_by(lambda n, matrix: [number if place % n <= place // n else None for place, number in enumerate(matrix)]),
    "a square built for a half": halves_by(lambda n, matrix: matrix),
    "a half built for a square": builder(laid_out=lambda self, layout, n, matrix: lower_half(n, matrix)),
    "the diagonal twice in a half": halves_by(diagonal_twice),
    "the diagonal left out of a half": halves_by(lambda n, matrix: [matrix[i * n + j] for i in range(n) for j in range(i)]),
    "a half of 527 taken": half_least(527),
    "a half of 528 refused": half_least(LEAST[SQUARE].matrix),
}

# Of the number of the refused line.
LINES = {
    "a line for 8": line_for(8),
    "a line for n or a long list": line_for(3),
    "copies of lines not counted": lined(lambda call, line: line and len({other.key for other in call.lines[: line - 1]}) + 1),
    "lines from 0": lined(lambda call, line: max(line - 1, 0)),
    "the last line where none is refused": lined(lambda call, line: line or (0 if Builder().refused_first(call) else len(call.lines))),
}
