"""How the tests of a call are described, and the one loop that tests them: their cases must meet what they are made for, and detect every mutant."""

from collections import Counter
from math import ceil
from typing import Callable, NamedTuple

NEVER = 0


def nothing(*_):
    return ()


class Suite(NamedTuple):
    """The tests of one call. A case is what the call is handed; `answer` is what the oracle says of it."""

    count: int  # how many cases, or problems with several cases each, where nothing else is said
    generate: Callable  # generate(seed, count): the cases
    answer: Callable  # answer(case)
    calls: Callable  # calls(case, answer): the calls that the replays make of it (replayed.py)
    answers: dict  # by the name of each such call, the answers that must be met
    coverage: Callable  # coverage(case, answer): names of what the case meets
    required: dict  # how often each name must be met; below 1 by which share of the cases, and NEVER
    mutants: tuple  # pairs: mutants by name, and detects(mutant, case, answer)
    faults: Callable = nothing  # faults(index, case, answer): what is wrong with an answer whatever the oracle says, a sentence each
    others: Callable = nothing  # others(): tests beside the cases, each a name and what is wrong
    tested: Callable = None  # tested(seed, count): the cases of the self-test, where they are others than those generated
    tested_count: int = None
    seed: str = "1"
    of_net: Callable = None  # of_net(net): what is measured of a net, for other programs: lists of numbers, a line each, and bytes as they are


def mutant(base, **parts):
    """An oracle with some of its parts changed."""
    return type("Mutant", (base,), parts)()


class Tally:
    """How many tests passed and failed; the first failures are printed."""

    def __init__(self):
        self.passed = self.failed = 0

    def test(self, name, problems):
        if not problems:
            self.passed += 1
            return
        self.failed += 1
        if self.failed <= 20:
            print(f"FAILED {name}: {'; '.join(problems)}")

    def test_coverage(self, required, met, total):
        print(f"{total} cases: {', '.join(f'{name} {met[name]}' for name in required)}")
        for name, least in required.items():
            wanted = ceil(least * total) if least < 1 else least
            is_good = met[name] == 0 if least == NEVER else met[name] >= wanted
            self.test("coverage", [] if is_good else [f"{name}: {met[name]} met, {'none' if least == NEVER else wanted} wanted"])

    def close(self):
        print(f"{self.passed} passed, {self.failed} failed")
        return int(self.failed > 0 or self.passed == 0)


def is_detected(detects, mutant, case, answer):
    """A mutant may also divide by 0."""
    try:
        return detects(mutant, case, answer)
    except ZeroDivisionError:
        return True


def self_test(suite, seed, count):
    """The status; a mutant that is detected is not run again. With fewer cases than usual not all need be met."""
    tally, met, usual = Tally(), Counter(), suite.tested_count or suite.count
    mutants = [(name, mutant, detects) for by_name, detects in suite.mutants for name, mutant in by_name.items()]
    left, total = mutants, 0
    for name, problems in suite.others():
        tally.test(name, problems)
    for case in (suite.tested or suite.generate)(seed, usual if count is None else count):
        answer = suite.answer(case)
        met.update(suite.coverage(case, answer))
        if suite.faults is not nothing:
            tally.test(f"case {total}", list(suite.faults(total, case, answer)))
        left = [(name, mutant, detects) for name, mutant, detects in left if not is_detected(detects, mutant, case, answer)]
        total += 1
    if count is None or count >= usual:
        tally.test_coverage(suite.required, met, total)
    undetected = {name for name, *_ in left}
    for name, *_ in mutants:
        tally.test(f"mutant '{name}'", ["not detected"] if name in undetected else [])
    return tally.close()
