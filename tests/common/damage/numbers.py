"""Numbers outside their ranges, places that are none, lists of another length."""

import re

from common.format import RANGES
from common.net import SIZE, file_of

NUMBER = re.compile(r"-?[0-9]+")


def word_of(line):
    return line[1:].split(" ")[0]


def with_number(line, which, value):
    """The line with one of its numbers replaced."""
    match = list(NUMBER.finditer(line))[which]
    return line[: match.start()] + str(value) + line[match.end() :]


def with_line(lines, at, line):
    return file_of(lines[:at] + [line] + lines[at + 1 :])


def place_of(rng, lines, words):
    """The place in the file of a random line with one of these words."""
    return rng.choice([at for at, line in enumerate(lines) if word_of(line) in words])


def one_of(rng, line):
    """Which number of a line, other than i, and the ends of its range."""
    word = word_of(line)
    which = rng.randrange(0 if word in ("problem", "scale") else 1, len(NUMBER.findall(line)))
    return which, *RANGES["tolerance" if word == "right" and which == 2 else word]


def changed_range(rng, line):
    """The line with one number just outside its range, or far outside, or at an end of it."""
    which, low, high = one_of(rng, line)
    huge = 10 ** rng.randint(12, 200)
    value = rng.choice((low - 1, high + 1, low - 1, high + 1, low - 1, high + 1, low, high, huge, -huge))
    return with_number(line, which, value)


def changed_number(rng, line):
    """The line with one number other than i replaced by another in its range."""
    which, low, high = one_of(rng, line)
    return with_number(line, which, rng.randint(low, high))


def changed_place(rng, line):
    """The line with another i: 0, below 0, beside it, above 32, or one that wraps to it."""
    i = int(NUMBER.search(line).group())
    return with_number(line, 0, rng.choice((0, -1, -i, i + 1, i + 1, i + 32, 33, 2**32 + i, 2**64 + i)))


def changed_length(rng, line):
    """A list with one number more or fewer, or many more."""
    head, numbers = line[:-2].split(" (")
    numbers = numbers.split(" ")
    longer = numbers + ["7"] * rng.choice((1, 1, 2, 33 - len(numbers), 60))
    shorter = numbers[:-1] or longer
    return f"{head} ({' '.join(rng.choice((shorter, longer)))}))"


# The words of the lines with numbers.
WORDS = tuple(word for word in RANGES if word != "tolerance")


def with_list(rng, line):
    """02, Paper 5: a right side with a list of other than two numbers, one of them now and then out of range; or with two, the second out of range or not."""
    i, b = NUMBER.findall(line)[:2]
    count = rng.choice((1, 1, 2, 3, 3, 4, 32, 33, 34, 100))
    numbers = [b, *(str(rng.choice((0, 1, 7, SIZE, SIZE + 1, -1))) for _ in range(count - 1))]
    return f"(right {i} ({' '.join(numbers)}))"


def other_pair(rng, net, lines):
    at = place_of(rng, lines, ("right",))
    return with_line(lines, at, with_list(rng, lines[at]))


def beyond_range(rng, net, lines):
    at = place_of(rng, lines, (rng.choice((*WORDS, "right")),))
    return with_line(lines, at, changed_range(rng, lines[at]))


def other_length(rng, net, lines):
    at = place_of(rng, lines, ("row", "inverse"))
    return with_line(lines, at, changed_length(rng, lines[at]))


def bad_place(rng, net, lines):
    """A place i of 0, below 0, above n, above 32, or one that wraps to a good one."""
    at = rng.randrange(2, len(lines) - 1)
    good = int(NUMBER.search(lines[at]).group())
    value = rng.choice((0, -1, net.n + 1, net.n + 1, 33, -good, -good, 2**32 + good, 2**64 + good, 2**31, 2**63))
    return with_line(lines, at, with_number(lines[at], 0, value))


def wrapping(rng, net, lines):
    """A number that a machine word would cut to the right one."""
    at = rng.randrange(len(lines) - 1)
    found = NUMBER.findall(lines[at])
    which = rng.randrange(len(found))
    value = int(found[which]) + rng.choice((1, -1)) * 2 ** rng.choice((8, 32, 64, 128))
    return with_line(lines, at, with_number(lines[at], which, value))


def bad_past_count(rng, net, lines):
    """A list longer than n whose last number is outside its range: 3 comes before 4."""
    at = place_of(rng, lines, ("row", "inverse"))
    return with_line(lines, at, f"{lines[at][:-2]} {rng.choice((2**20 + 1, -(2**20) - 1, 2**64))}))")
