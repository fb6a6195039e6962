"""Calls of the check on lists, damaged: lengths, n, s and t, numbers at the ends of ranges, other guesses, tolerances and weights."""

from typing import NamedTuple

from calls.check.oracle import FULL, Bounds, Lengths, Problem
from common.net import flat
from common.replayed import UNREAD, read, written

# Sizes and scales at the ends of their ranges, and past them up to a machine word's.
SIZES, SCALES = (0, 1, 2, 31, 32, 33, 2**32 - 1), (0, 1, 19, 20, 21, 63, 64, 2**32 - 1)

# Lists by their place in a call.
TOLERANCE, GUESS, WEIGHTS = (FULL._fields.index(name) for name in ("tolerance", "guess", "weights"))


def filled(numbers, length):
    """A list at its full length, UNREAD past the numbers given."""
    return list(numbers) + [UNREAD] * (length - len(numbers))


class Call(NamedTuple):
    """What a call is handed: the first count × count or count numbers of each list, and what it is given as lengths of them."""

    count: int
    n: int
    s: int
    t: int
    lengths: Lengths
    lists: tuple

    def problem(self):
        return Problem(self.n, self.s, self.t, *(filled(numbers, length) for numbers, length in zip(self.lists, FULL)))

    def arguments(self, fill=UNREAD):
        """n, s and t, and each list with its length."""
        lists = ((read(numbers, length, fill), stated) for numbers, length, stated in zip(self.lists, FULL, self.lengths))
        return [self.n, self.s, self.t, *(part for pair in lists for part in pair)]

    def limits(self, answer):
        """Both lists of limits, which are written where it is accepted, each with its length."""
        solution, inverse = (answer.solution, flat(answer.inverse)) if isinstance(answer, Bounds) else ((), ())
        return [written(FULL.solution, solution), self.lengths.solution, written(FULL.bounds, inverse), self.lengths.bounds]

    def with_number(self, which, at, value):
        numbers = list(self.lists[which])
        numbers[at] = value
        return self._replace(lists=(*self.lists[:which], numbers, *self.lists[which + 1 :]))


def call_of(net):
    lists = flat(net.matrix), list(net.right), list(net.tolerance), list(net.guess), flat(net.inverse), list(net.weights)
    return Call(net.n, net.n, net.s, net.t, FULL, lists)


def shorter(rng, lengths, first=0):
    """These lengths with one, from `first` on, too short, by one or by more."""
    which = rng.randrange(first, len(lengths))
    return lengths._replace(**{lengths._fields[which]: rng.choice((lengths[which] - 1, lengths[which] - 1, lengths[which] // 2, 0))})


def shortened(rng, call):
    return call._replace(lengths=shorter(rng, FULL))


def other_size(rng, size, others):
    """One of the others, or the same size with a bit more, which an argument of 8 or 16 bits loses."""
    return rng.choice((*others, size + 2**8, size + 2**16))


def resized(rng, call):
    """Another n, s or t: good, at the ends of its range, and past them up to a machine word's."""
    name = rng.choice("nst")
    return call._replace(**{name: other_size(rng, getattr(call, name), (0, 1, 2, 19, 20, 21, 31, 32, 33, 63, 64, 2**32 - 1))})


def odd_number(rng):
    bound = rng.choice((0, 1, 1024, 2**20, 2**25, 2**30, 2**36, 2**63 - 2)) + rng.choice((-1, 0, 1))
    return rng.choice((bound, -bound))


def renumbered(rng, call):
    """A number of any list another: at the end of a range, or one that keeps most systems good."""
    which = rng.randrange(len(call.lists))
    value = rng.choice((odd_number(rng), rng.randint(1, 1024)))
    return call.with_number(which, rng.randrange(len(call.lists[which])), value)


def shifted(rng, call):
    """A guess a few steps further."""
    at = rng.randrange(call.count)
    return call.with_number(GUESS, at, call.lists[GUESS][at] + rng.choice((-3, -2, -1, 1, 2, 3)))


def tolerated(rng, call):
    """A tolerance another, good, at the ends of its range or one beyond."""
    value = rng.choice((-1, 0, 1, 2, 31, 32, 33, 2**20, 2**20 + 1, rng.randint(0, 2 ** rng.randint(0, 20))))
    return call.with_number(TOLERANCE, rng.randrange(call.count), value)


def reweighed(rng, call):
    return call.with_number(WEIGHTS, rng.randrange(call.count), rng.randint(1, 1024))


DAMAGES = (shortened, resized, renumbered, renumbered, shifted, tolerated, reweighed)


def damaged(rng, call, damages=DAMAGES, counts=(1, 2)):
    """One or two damages."""
    for _ in range(rng.choice(counts)):
        call = rng.choice(damages)(rng, call)
    return call
