"""A property test of the papers' sentences across calls: nets by chance, in whole numbers, through the shared library and the Python package.

  python3 tests/properties/run.py [--nets N] [--seed S] [PROPERTY..]   N nets, 10,000 where it is left out; the last line is 'N passed, M failed'
  python3 tests/properties/run.py --net I [--seed S] [PROPERTY..]      one net again, by its index

It needs target/lib/libkodarfi.so: make lib. Each property must hold of every net to which its sentence applies, and one net in 100 at least must be such a
net. Then each named mutant must be detected by its property on the first 1,000 nets."""

import argparse
import os
import sys
from collections import Counter
from functools import partial
from pathlib import Path

sys.dont_write_bytecode = True
ROOT = Path(__file__).resolve().parent.parent.parent
SHARED = ROOT / "target" / "lib" / "libkodarfi.so"
sys.path[1:1] = [str(ROOT / "python"), str(ROOT / "tests")]

from common.mutated import main, report
from given import SENTENCES, Given, calls
from mutants import MUTANTS
from nets import case_at

PROPERTIES = {each.__name__: each for each in SENTENCES}
MUTANT_NETS, LEAST_SHARE = 1000, 100


def holds(each, given):
    """Whether a property holds, None where it does not apply; what it raises is reported."""
    try:
        return each(given)
    except Exception as error:
        return f"{type(error).__name__}: {error}"


def tallies(properties, indices, seed):
    """How often each property applied, how often it failed, and where first, with what was reported."""
    real, applied, failed, first = calls(), Counter(), Counter(), {}
    for index in indices:
        given = Given(case_at(seed, index), real)
        for name, good in [(name, holds(each, given)) for name, each in properties.items()]:
            applied[name] += good is not None
            if good is not None and good is not True:
                failed[name] += 1
                first.setdefault(name, (index, "" if good is False else f" ({good})"))
    return applied, failed, first


def property_results(properties, indices, seed):
    """Each property, with whether it held and was met often enough."""
    least, (applied, failed, first) = len(indices) // LEAST_SHARE, tallies(properties, indices, seed)
    for name in properties:
        print(f"{name}: {applied[name]} nets", flush=True)
        if failed[name]:
            index, reported = first[name]
            yield f"{name}: {failed[name]} nets{reported}; the first again: python3 tests/properties/run.py --seed {seed} --net {index} {name}", False
        else:
            yield f"{name}: fewer than {least} nets", applied[name] >= least


def detected(cases, call, mutant, each):
    """Whether a property detects a mutant on one of the nets: it does not hold, or a call refuses. Any other error would be the mutant's own."""
    called = calls(**{call: partial(mutant, getattr(calls(), call))})
    return any(good is False or str(good).startswith("Refused: ") for good in (holds(each, Given(case, called)) for case in cases))


def mutant_results(properties, seed):
    """Each mutant of the properties, with whether it is detected; and each property that has none."""
    cases = [case_at(seed, index) for index in range(MUTANT_NETS)]
    for name, (call, mutant, each) in MUTANTS.items():
        if each.__name__ in properties:
            yield f"mutant '{name}' of {call}, by {each.__name__}", detected(cases, call, mutant, each)
    for name in set(properties) - {each.__name__ for _, _, each in MUTANTS.values()}:
        yield f"{name} has no mutant", False


def results(options):
    yield from ((f"there is no property {name}", False) for name in options.names if name not in PROPERTIES)
    properties = {name: each for name, each in PROPERTIES.items() if not options.names or name in options.names}
    if options.net is not None:
        yield from property_results(properties, [options.net], options.seed)
    else:
        yield from property_results(properties, range(options.nets), options.seed)
        yield from mutant_results(properties, options.seed)


def run():
    parser = argparse.ArgumentParser()
    parser.add_argument("names", metavar="PROPERTY", nargs="*")
    parser.add_argument("--nets", type=int, default=10000)
    parser.add_argument("--net", type=int)
    parser.add_argument("--seed", type=int, default=1)
    os.environ["KODARFI_LIBRARY"] = str(SHARED)
    return report(results(parser.parse_args()))


if __name__ == "__main__":
    main(run, SHARED)
