"""Every call of the package beside the oracle, and in exact fractions where that says more."""

import random
from fractions import Fraction

from calls.build import cases as builds
from calls.build import oracle as field_lines
from calls.build.oracle import LOWER, Builder
from calls.check.oracle import FULL, Reckoning, check
from calls.common import cases as proposals
from calls.common.oracle import CommonInterval, Intervals
from calls.convert.oracle import Converter
from calls.dependent import cases as pairs
from calls.dependent.oracle import DependentCheck, NetRefusal
from calls.doubles import cases as exchanges
from calls.doubles import oracle as doubles
from calls.entry import cases as entries
from calls.entry.oracle import Entry
from calls.half import oracle as half
from calls.listing.oracle import WITH_LINE, Program
from calls.loader.oracle import Loader
from calls.quality import cases as inquiries
from calls.quality import oracle as quality
from calls.weights import cases as searches
from calls.weights import oracle as weights
from common import generate, given
from common.damage.lists import call_of, damaged
from common.exact import inverse_of, product
from common.format import lines_of
from common.rules import Refusal

NETS, PAIRS, SEARCHES, BUILDS, DOUBLES, FILES = 120, 90, 60, 200, 300, 120


def said(act, *words):
    """What a call gives, or what it refuses: number, places, line, net."""
    try:
        return act(*words)
    except Exception as error:
        if type(error).__name__ != "Refused":
            raise
        return error.number, error.places, error.line, error.net


def refusal(refused, net=0, line=0):
    """The same of the oracle's."""
    return refused.number, (*refused.values, 0, 0)[:2], line, net


def right(answer, given=lambda answer: answer):
    """What the oracle's answer is met as, and what the package must give: what `given` makes of it, or the refusal."""
    return (answer.number, refusal(answer)) if isinstance(answer, Refusal) else (0, given(answer))


def met_by(cases):
    """What is met by cases, each of what it is met as, what is right and what is said; nothing where one is wrong."""
    met = set()
    for name, expected, answer in cases:
        if answer != expected:
            return set()
        met.add(name)
    return met


def rows(numbers, n):
    return [list(numbers[i * n : i * n + n]) for i in range(n)]


def nets():
    """Systems of every family, with tolerances."""
    for index in range(NETS):
        rng = random.Random(f"package/{index}")
        make, size, _ = generate.TABLE[generate.ORDER[index % 100]]
        yield rng, generate.made(rng, make, size(rng) if index % 4 else min(32, 8 * (index // 4 % 5)) or 1)


def check_calls():
    """Calls on lists whose n is the lists' own, damaged ones too, and numbers far outside every type."""
    for rng, net in nets():
        call = call_of(net)
        yield call
        for _ in range(2):
            spoilt = damaged(rng, call)
            if spoilt.n == spoilt.count and spoilt.lengths == FULL:
                yield spoilt
        far = rng.choice((2**63, -(2**63) - 1, 2**64 + 1, -(2**64), 2**200))
        which = rng.randrange(6)
        yield call.with_number(which, rng.randrange(len(call.lists[which])), far)
        yield call._replace(**{rng.choice("st"): rng.choice((-1, 2**32, 2**32 + 3, -(2**40)))})


def proposal_of(calls, call, matrix=None):
    """The package's proposal of a call on lists."""
    n, (A, b, d, X, G, w) = call.n, call.lists
    return calls.Proposal(calls.Net(matrix or rows(A, n), b, d), call.s, call.t, X, rows(G, n), w)


def limits(calls):
    return lambda bounds: calls.Limits(bounds.solution, bounds.inverse)


def check_is_the_oracles(package):
    calls = package.calls
    return met_by((*right(check(call.problem()), limits(calls)), said(calls.check, proposal_of(calls, call))) for call in check_calls()) == {0, 3, 5, 6, 7}


def limits_hold_in_fractions(package):
    """The exact solution and inverse of accepted nets lie within the limits that the package hands out."""
    accepted = 0
    for _, net in nets():
        limits = said(package.calls.check, proposal_of(package.calls, call_of(net)))
        if isinstance(limits, tuple):
            continue
        q, H = inverse_of(net.matrix)
        solution = [Fraction(N, q) for N in product(H, net.right)]
        accepted += 1
        if any(abs(x - Fraction(X, 2**net.s)) > Fraction(E, 2**net.s) for x, X, E in zip(solution, net.guess, limits.solution)):
            return False
        if any(abs(Fraction(h, q) - Fraction(g, 2**net.t)) > Fraction(L, 2**net.t) for i in range(net.n) for h, g, L in zip(H[i], net.inverse[i], limits.inverse[i])):
            return False
    return accepted > 20


def halves(calls):
    for call in check_calls():
        lower = half.lower_half(call.n, call.lists[0])
        triangle = [lower[i * (i + 1) // 2 : (i + 1) * (i + 2) // 2] for i in range(call.n)]
        answer = half.HalfEntry().check(call._replace(lists=(lower, *call.lists[1:])).problem())
        yield *right(answer, limits(calls)), said(calls.check_half, proposal_of(calls, call, triangle))


def check_half_is_the_oracles(package):
    return met_by(halves(package.calls)) >= {0, 3, 5, 6}


def files():
    yield from (case.file for case in given.cases())
    yield from (generate.case("package", index).file for index in range(FILES))


def listings(calls):
    for file in files():
        listing, answer = Program().listing(file), calls.listing(file)
        number, form, line = (answer.refused.number, answer.refused.form(), answer.refused.line) if answer.refused else (0, None, 0)
        is_refused = listing.startswith(b"(refused")
        yield number, (listing, listing.decode().strip() if is_refused else None, Program().refused_line(file) if number in WITH_LINE else 0), (answer.text, form, line)


def listing_is_the_oracles(package):
    return met_by(listings(package.calls)) == {0, 1, 2, 3, 4, 5, 6, 7, 11, 12, 13, 14, 15}


def conversions(calls):
    for file in files():
        new = Converter().convert(file)
        number = new.number if isinstance(new, Refusal) else 0
        if number:
            new = refusal(Refusal(number, new.values[:1] if number == 13 else ()), line=0 if number in (15, 22) else Program().refused_line(file))
        yield number, new, said(calls.convert, file)


def convert_is_the_oracles(package):
    return met_by(conversions(package.calls)) >= {1, 2, 3, 4, 11, 12, 13, 14, 15, 22}


def sessions(calls):
    """Line after line, refused ones among them, and the check in between and at the end."""
    for file in files():
        loader, oracle = calls.Loader(), Loader()
        for text in lines_of(file):
            answer, taken = said(loader.take, text), oracle.take(text)
            yield "line", (refusal(taken) if taken else None, oracle.ended), (answer, loader.is_ended)
        if not oracle.ended:
            yield "open", (15, (0, 0), 0, 0), said(loader.check)
            continue
        problem = Program().problem(oracle)
        yield file, right(Reckoning().check(problem), limits(calls))[1], said(loader.check)
        n, net = problem.n, calls.Net(rows(problem.matrix, problem.n), problem.right[: problem.n], problem.tolerance[: problem.n])
        yield file, calls.Proposal(net, problem.s, problem.t, problem.guess[:n], rows(problem.inverse, n), problem.weights[:n]), loader.proposal()


def loader_is_the_oracles(package):
    return len(met_by(sessions(package.calls))) > 22


def entry_is_the_oracles(package):
    odd = [(2**70, 0, 3), (-(2**70), 0, 3), (0, 0, -1), (0, 0, 2**32)]
    every = [*entries.ends(), *entries.halves(), *entries.by_chance("package", 2000), *odd]
    met = met_by((*right(Entry().enter(*words)), said(package.calls.entry, *words)) for words in every)
    return met == {0, 3} and all(raises(ValueError, package.calls.entry, 0, bound, 3) for bound in (-1, 2**64))


def found_weights(calls):
    for request, *_ in searches.generate("package", SEARCHES):
        if request.lengths == weights.FULL and 1 <= request.n <= 32:
            number, expected = right(weights.WeightSearch().find(request), lambda found: (found.weights, found.tried))
            answer = said(calls.find_weights, rows(request.matrix, request.n), rows(request.inverse, request.n), request.t, request.allowance)
            yield number or min(expected[1], 3), expected, answer


def weights_are_the_oracles(package):
    return met_by(found_weights(package.calls)) == {1, 2, 3, 18}


def built(calls):
    for call in builds.generate("package", BUILDS):
        if call.lengths == field_lines.LEAST[call.layout]:
            number, expected = right(Builder().build(call), lambda built: (built.matrix, built.right, [0] * call.n))
            answer = said(calls.build_half if call.layout == LOWER else calls.build, call.n, call.lines)
            if number:
                expected = number, (0, 0), Builder().refused_line(call), 0
            elif call.layout == LOWER:
                yield "filled out", calls.build(call.n, call.lines), answer.filled_out()
            yield (call.layout, number), expected, answer if number else (sum(answer.matrix, []), answer.right, answer.tolerance)


def build_is_the_oracles(package):
    far = [(2**32 + 1, 0, 1, 5, 1), (1, 0, 1, 2**63, 1), (1, 0, 1, -(2**64), 1), (1, -1, 1, 5, 1), (1, 0, 2**32, 5, 1), (1, 0, 1, 5, 2**32 + 1)]
    refused = all(said(package.calls.build, 1, [(9, 0, 1, 5, 1), line]) == (3, (0, 0), 2, 0) for line in far)
    return refused and met_by(built(package.calls)) >= {(layout, number) for layout in field_lines.LEAST for number in (0, 3, 16, 17)}


def exchanged(calls):
    oracle = doubles.Doubles()
    for index in range(DOUBLES):
        rng = random.Random(f"package doubles/{index}")
        inward = exchanges.inward(rng)
        for call in (inward, exchanges.damaged_inward(rng, inward)):
            if call.lengths == doubles.Inward(0, 0, []).lengths and 0 <= call.n <= 32:
                yield *right(oracle.guesses(call)), said(calls.guesses, call.values[: call.n], call.s)
        outward = exchanges.outward(rng)
        for call in (outward, exchanges.damaged_outward(rng, outward)):
            if call.lengths == doubles.Outward(0, 0, [], []).lengths and 0 <= call.n <= 32:
                number, expected = right(oracle.intervals(call))
                yield number or "out", expected, said(calls.intervals, call.guess[: call.n], call.bounds[: call.n], call.s)


def doubles_are_the_oracles(package):
    odd = [said(package.calls.intervals, [0], [bound], 3) for bound in (-1, 2**64)]
    return met_by(exchanged(package.calls)) == {0, 3, 19, "out"} and odd == [(3, (0, 0), 0, 0)] * 2


def dependent_pairs(calls):
    for call, _ in pairs.generate("package", PAIRS):
        one, two = call.main, call.dependent
        if call.lengths() == type(call.lengths())() and (one.n, two.n) == (one.count, two.count) and len(call.coupling) == one.n * two.n:
            coupling = [call.coupling[i * one.n : (i + 1) * one.n] for i in range(two.n)]
            answer = said(calls.check_dependent, proposal_of(calls, one), proposal_of(calls, two), coupling)
            found = DependentCheck().check(call.nets(), call.lengths())
            if isinstance(found, NetRefusal):
                yield (found.net, found.refusal.number), refusal(found.refusal, found.net), answer
            else:
                yield 0, tuple(map(limits(calls), found)), answer


def dependent_is_the_oracles(package):
    return met_by(dependent_pairs(package.calls)) >= {0, (1, 3), (2, 3), (2, 5), (2, 6)}


def common_pairs(calls):
    for handed in proposals.generate("package", PAIRS):
        pair = handed.pair()
        if pair == pair._replace(low=32, high=32) and all(call.lengths[:6] == FULL[:6] and call.n == call.count for call in handed.calls):
            answer = said(calls.common, *(proposal_of(calls, call) for call in handed.calls))
            found = CommonInterval().find(pair)
            if isinstance(found, Intervals):
                yield 0, (max(call.s for call in handed.calls), list(zip(*found))), answer
            else:
                yield found.refusal.number, refusal(found.refusal, found.proposal), answer


def common_is_the_oracles(package):
    return met_by(common_pairs(package.calls)) >= {0, 3, 20, 21}


def rated(calls):
    for inquiry in inquiries.generate("package", SEARCHES):
        n = inquiry.n
        if inquiry.lengths == quality.FULL and 1 <= n <= 32:
            proposal = calls.Proposal(calls.Net(rows(inquiry.matrix, n), [0] * n), 0, inquiry.t, [0] * n, rows(inquiry.inverse, n), inquiry.weights[:n])
            yield *right(quality.Quality().rate(inquiry), tuple), said(calls.quality, proposal)


def quality_is_the_oracles(package):
    return met_by(rated(package.calls)) >= {0, 5}


def raises(kind, act, *words):
    try:
        act(*words)
    except kind:
        return True
    except Exception:
        return False
    return False


def nets_outside_1_to_32_are_3(package):
    """No list is too short, whatever n is."""
    calls = package.calls
    for n in (0, 33, 40):
        net = calls.Net([[0] * n for _ in range(n)], [0] * n)
        proposal = calls.Proposal(net, 0, 0, [0] * n, [[0] * n for _ in range(n)])
        small = calls.Proposal(calls.Net([[1]], [1]), 0, 0, [1], [[1]])
        acts = (
            (calls.check, (proposal,), 0), (calls.quality, (proposal,), 0), (calls.common, (proposal, proposal), 1), (calls.common, (small, proposal), 2),
            (calls.check_dependent, (proposal, proposal, [[0] * n] * n), 1), (calls.check_dependent, (small, proposal, [[0]] * n), 2),
            (calls.find_weights, (net.matrix, net.matrix, 0), 0), (calls.guesses, ([0.0] * n, 0), 0), (calls.intervals, ([0] * n, [0] * n, 0), 0),
            (calls.build, (n, []), 0), (calls.build_half, (n, []), 0),
        )  # fmt: skip
        triangle = calls.Proposal(calls.Net([[0] * i for i in range(1, n + 1)], [0] * n), 0, 0, [0] * n, [[0] * n for _ in range(n)])
        if any(said(act, *words) != (3, (0, 0), 0, of) for act, words, of in (*acts, (calls.check_half, (triangle,), 0))):
            return False
    return all(said(calls.build, n, []) == (3, (0, 0), 0, 0) for n in (-1, 2**32 + 1)) and said(calls.build, 1, [(1, 0, 1, 0, 1)] * 257) == (3, (0, 0), 0, 0)


def other_counts_are_errors(package):
    """A list with another count of numbers, and a number that is not whole, never reach the library."""
    calls = package.calls
    net = calls.Net([[2, 1], [1, 2]], [1, 1])
    good = (net, 0, 0, [1, 1], [[1, 0], [0, 1]], [1, 1])
    changed = [good[:at] + (value,) + good[at + 1 :] for at, value in ((3, [1]), (4, [[1, 0]]), (4, [[1, 0], [0]]), (5, [1]), (3, [1, 1, 1]))]
    lower = calls.Proposal(calls.Net([[2], [1, 2]], [1, 1]), *good[1:])
    return (
        all(raises(ValueError, calls.Proposal, *words) for words in changed)
        and raises(ValueError, calls.Net, [[1, 2], [3]], [1, 1])
        and raises(ValueError, calls.Net, [[1]], [1, 1])
        and raises(ValueError, calls.Net, [[1]], [1], [1, 2])
        and raises(TypeError, calls.Net, [[1.0]], [1])
        and raises(TypeError, calls.Proposal, net, 0.0, *good[2:])
        and raises(ValueError, calls.check, lower)
        and raises(ValueError, calls.check_half, calls.Proposal(*good))
        and raises(ValueError, calls.find_weights, [[1, 2]], [[1]], 0)
        and raises(ValueError, calls.intervals, [1, 2], [1], 0)
        and raises(ValueError, calls.check_dependent, calls.Proposal(*good), calls.Proposal(*good), [[1, 1]])
        and raises(TypeError, calls.build, 1, [(1, 0, 1, 0.5, 1)])
    )
