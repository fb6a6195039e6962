"""Calls of the check of a net and one dependent on it (02, Paper 8): pairs of every family, as they are and damaged: either net's lists and numbers, C, unequal
s."""

import random
from typing import NamedTuple

from calls.check.cases import ANSWERS
from calls.check.oracle import MATRIX, Bounds, Reckoning, check
from calls.dependent.mutants import MUTANTS, UNSOUND
from calls.dependent.oracle import MAIN, DependentCheck, NetRefusal, Nets, Lengths
from common import joint
from common.damage import lists
from common.damage.lists import Call, call_of, filled, odd_number
from common.format import is_within
from common.net import flat
from common.replayed import Made, read, said, written
from common.rules import Refusal
from common.suite import Suite
from common.systems.dependent import RESIDUAL, pair_of

# Damaged pairs have at most so many equations each: reckoning takes its time.
MOST_DAMAGED = 8


class PairCall(NamedTuple):
    """What a call is handed: two calls on lists, and the first numbers of C with the length that is given."""

    main: Call
    dependent: Call
    coupling: list
    coupling_length: int = MATRIX

    def nets(self):
        return Nets(self.main.problem(), self.dependent.problem(), filled(self.coupling, MATRIX))

    def lengths(self):
        return Lengths(self.main.lengths, self.dependent.lengths, self.coupling_length)


def handed(pair):
    return PairCall(call_of(pair.main), call_of(pair.dependent), flat(pair.coupling))


def coupling_shortened(rng, call):
    return call._replace(coupling_length=rng.choice((MATRIX - 1, MATRIX - 1, MATRIX // 2, 0)))


def coupling_changed(rng, call):
    """A number of C another: a little, by its sign, at the end of its range or past it."""
    numbers = list(call.coupling)
    at = rng.choice((0, len(numbers) - 1, rng.randrange(len(numbers))))
    numbers[at] = rng.choice((numbers[at] + 1, numbers[at] - 1, -numbers[at], 2**20, 2**20 + 1, -(2**20) - 1, odd_number(rng)))
    return call._replace(coupling=numbers)


def coupling_longer(rng, call):
    """A number past those of C."""
    return call._replace(coupling=(call.coupling + [rng.choice((-1, 1)) * (2**20 + 1)])[:MATRIX])


def other_scale(rng, call):
    """Unequal s of two nets that are good by themselves."""
    s = call.dependent.s
    others = [k for k in (s - 1, s + 1, rng.randint(0, 20)) if 0 <= k <= 20 and k != s]
    return call._replace(dependent=call.dependent._replace(s=rng.choice(others or [0])))


def main_shortened(rng, call):
    return call._replace(main=lists.shortened(rng, call.main))


def main_damaged(rng, call):
    return call._replace(main=lists.damaged(rng, call.main))


def dependent_damaged(rng, call):
    return call._replace(dependent=lists.damaged(rng, call.dependent))


DAMAGES = (
    *(coupling_shortened, coupling_changed, coupling_changed, coupling_longer, other_scale),
    *(main_shortened, main_damaged, dependent_damaged, dependent_damaged, dependent_damaged),
)


class Sent(NamedTuple):
    """A call, and the pair that it was made of, None where the call is damaged."""

    call: PairCall
    pair: object


def generate(seed, count):
    for index in range(count):
        rng = random.Random(f"dependent {seed}/{index}")
        _, pair = pair_of(rng, index)
        call = handed(pair)
        yield Sent(call, pair)
        if max(pair.main.n, pair.dependent.n) <= MOST_DAMAGED:
            yield from (Sent(lists.damaged(rng, call, DAMAGES, (1, 1, 2)), None) for _ in range(5))


def calls(sent, answer):
    main, dependent, coupling = sent.call.main, sent.call.dependent, read(sent.call.coupling, MATRIX)
    net, *both = (answer.net, answer.refusal, answer.refusal) if isinstance(answer, NetRefusal) else (0, answer.main, answer.dependent)
    number, places = said(both[0])
    first, second = main.arguments() + main.limits(both[0]), dependent.arguments() + dependent.limits(both[1])
    yield Made("kodarfi_check_dependent", [*first, *second[:5], coupling, sent.call.coupling_length, *second[5:], written(1, [net], 4), written(2, places)], number)


REQUIRED = dict.fromkeys(("accepted", *(f"net {net} refused {number}" for net in (1, 2) for number in (3, 5, 6, 7, 8))), 20)
REQUIRED |= dict.fromkeys(
    (
        *("n1 below n2", "n1 above n2", "n1 = 32", "n2 = 32", "n1 = n2 = 1 accepted", "C of zeros accepted", "tolerances in both nets accepted"),
        *("E1 above 2^25 + 1, accepted", "E1 above 2^25 + 1, refused 6", "E1 of 2^25 or one more beside C of 1"),
        *("|residual| + slack of 2^25", "|residual| + slack of 2^25 + 1"),
        *("|C|·E1 above 2^64", "a guess above its row's sum, accepted", "a column above its row's sum", "6 by slack alone"),
        *("unequal s", "C out of range", "out of range just past C, accepted", "C too short"),
    ),
    8,
)


def range_coverage(call, answer):
    """What a call meets of lengths and ranges, whose main net is accepted."""
    nets, n1, n2 = call.nets(), call.main.n, call.dependent.n
    number = answer.refusal.number if isinstance(answer, NetRefusal) else 0
    is_good = 1 <= n2 <= 32
    if number == 3 and nets.main.s != nets.dependent.s and nets.dependent.s <= 20:
        yield "unequal s"
    if number == 3 and is_good and not is_within("row", nets.coupling[: n1 * n2]):
        yield "C out of range"
    if number == 0 and n1 * n2 < len(call.coupling) and not is_within("row", nets.coupling[n1 * n2 : n1 * n2 + 1]):
        yield "out of range just past C, accepted"
    if number == 8 and call.coupling_length < 1024:
        yield "C too short"


def computed(call, main):
    """E1, C as rows, and residuals, slacks and row sums of the dependent net."""
    nets = call.nets()
    rows = DependentCheck().rows(nets)
    reckoning = DependentCheck().reckoning(rows, nets.main.guess[: nets.main.n], main.solution)
    system = reckoning.system(nets.dependent)
    return main.solution, rows, reckoning.guess_residual(system), reckoning.slacks(system), Reckoning.guess_sums(reckoning, system)


def computed_coverage(call, answer, main):
    """What a call meets whose dependent net is computed."""
    number = answer.refusal.number if isinstance(answer, NetRefusal) else 0
    E1, rows, residuals, slacks, sums = computed(call, main)
    sizes = [abs(r) + slack for r, slack in zip(residuals, slacks)]
    far = max(E1) > RESIDUAL + 1
    if number == 7:
        yield "a column above its row's sum"
    if far and number in (0, 6):
        yield "E1 above 2^25 + 1, accepted" if number == 0 else "E1 above 2^25 + 1, refused 6"
    if number in (0, 6) and any(E in (RESIDUAL, RESIDUAL + 1) and abs(row[j]) == 1 for row in rows for j, E in enumerate(E1)):
        yield "E1 of 2^25 or one more beside C of 1"
    if number in (0, 6):
        yield from (f"|residual| + slack of 2^25{' + 1' if more else ''}" for more in (0, 1) if RESIDUAL + more in sizes)
        yield from ("|C|·E1 above 2^64" for _ in range(1) if max(slacks) > 2**64)
    if number == 6 and all(abs(r) <= RESIDUAL for r in residuals):
        yield "6 by slack alone"
    if number == 0 and any(abs(r) > most for r, most in zip(residuals, sums)):
        yield "a guess above its row's sum, accepted"
    if number == 0 and not any(any(row) for row in rows):
        yield "C of zeros accepted"
    if number == 0 and call.main.n == call.dependent.n == 1 and rows[0][0]:
        yield "n1 = n2 = 1 accepted"
    if number == 0 and any(call.nets().main.tolerance[: call.main.n]) and any(call.nets().dependent.tolerance[: call.dependent.n]):
        yield "tolerances in both nets accepted"


def main_answer(call, answer):
    """What is said of the main net, which a refusal of the other leaves out."""
    if isinstance(answer, NetRefusal):
        return answer.refusal if answer.net == MAIN else check(call.main.problem(), call.main.lengths)
    return answer.main


def coverage(sent, answer):
    call = sent.call
    main, is_refused = main_answer(call, answer), isinstance(answer, NetRefusal)
    yield f"net {answer.net} refused {answer.refusal.number}" if is_refused else "accepted"
    n1, n2 = call.main.n, call.dependent.n
    yield from (name for name, holds in (("n1 below n2", n1 < n2), ("n1 above n2", n1 > n2), ("n1 = 32", n1 == 32), ("n2 = 32", n2 == 32)) if holds)
    if isinstance(main, Bounds):
        yield from range_coverage(call, answer)
        if not (is_refused and answer.refusal.number in (3, 8)):
            yield from computed_coverage(call, answer, main)


def differs_alone(call, answer):
    """Whether a dependent net whose C is all zeros, and whose guess is within the sums along its rows, is answered otherwise than by itself."""
    if any(call.coupling[: call.main.n * call.dependent.n]) or answer in (NetRefusal(2, Refusal(3)), NetRefusal(2, Refusal(8))):
        return False
    main = main_answer(call, answer)
    if isinstance(main, Refusal):
        return False
    _, _, residuals, _, sums = computed(call, main)
    alone = check(call.nets().dependent)
    said = answer.refusal if isinstance(answer, NetRefusal) else answer.dependent
    is_near = all(abs(r) <= most for r, most in zip(residuals, sums))
    return said != alone if is_near else alone not in (said, *(Refusal(6, (k + 1,)) for k in range(call.dependent.n)))


def faults(index, sent, answer):
    """What must hold whatever the oracle says: every joint solution lies within the limits."""
    if differs_alone(sent.call, answer):
        yield "C of zeros, and not what the net by itself gets"
    if sent.pair and not isinstance(answer, NetRefusal):
        yield from joint.faults(random.Random(index), sent.pair, answer)


def answer_of(oracle, sent):
    return oracle.check(sent.call.nets(), sent.call.lengths())


def is_left(mutant, sent, answer):
    """Whether a mutant accepts the pair with limits that a joint solution leaves."""
    own = answer_of(mutant, sent) if sent.pair else answer
    return own != answer and not isinstance(own, NetRefusal) and any(joint.faults(random.Random(1), sent.pair, own))


SUITE = Suite(
    count=1460, tested_count=480, generate=generate, calls=calls, coverage=coverage, required=REQUIRED, faults=faults,
    answers={"kodarfi_check_dependent": ANSWERS},
    answer=lambda sent: answer_of(DependentCheck(), sent),
    mutants=(
        (MUTANTS, lambda mutant, sent, answer: answer_of(mutant, sent) != answer),
        ({f"{name}, by joint solutions": MUTANTS[name] for name in UNSOUND}, is_left),
    ),
)
