"""include/kodarfi_net.h beside the calls that it wraps, on nets by chance, good and damaged: equal answers, and what is written is equal byte for byte. The
header's calls can be made from Python where a compiler knows no `static` and no `inline`."""

import ctypes
import random
import re
import subprocess
from collections import Counter
from functools import lru_cache

from calls.half.oracle import lower_half
from common.damage.lists import call_of, damaged
from common.systems import usual
from common.whole_file import WHOLE
from header.constants import PATIENCE, TYPES, Observation
from header.read import INCLUDE, constants, prototypes

NETS, UNWRITTEN, ENOUGH = 1000, b"\x5a", 20
MET = (0, 3, 5, 6, 7, 16, 17, 18, 19, 20)

# The header's calls: what each is handed, the call that it wraps, and whose lists that reads.
WRAPPED = (
    ("net_check", "net bounds refusal", "check", "net"),
    ("net_check", "other bounds refusal", "check", "other"),
    ("half_net_check", "half bounds refusal", "check_half", "half"),
    ("net_check_dependent", "net other coupling bounds more_bounds refusal", "check_dependent", "net"),
    ("net_common", "net other common refusal", "common", "net"),
    ("net_build", "net lines count refusal", "build_line", "net"),
    ("half_net_build", "half lines count refusal", "build_half_line", "half"),
    ("net_find_weights", "net allowance tried refusal", "find_weights", "net"),
    ("net_quality", "net factor refusal", "quality", "net"),
    ("net_guesses", "net heights refusal", "guesses", "net"),
    ("half_net_guesses", "half heights refusal", "guesses", "half"),
    ("net_intervals", "net bounds ends refusal", "intervals", "net"),
    ("half_net_intervals", "half bounds ends refusal", "intervals", "half"),
)
# Where the other arguments of the wrapped calls stand.
PLACES = {
    "places": "refusal.places", "net": "refusal.net", "proposal": "refusal.net", "line": "refusal.line", "coupling": "coupling.numbers", "values": "heights.heights",
    "solution_bounds": "bounds.solution", "inverse_bounds": "bounds.inverse", "solution_bounds1": "bounds.solution", "inverse_bounds1": "bounds.inverse",
    "solution_bounds2": "more_bounds.solution", "inverse_bounds2": "more_bounds.inverse", "bounds": "bounds.solution", "low": "ends.low", "high": "ends.high",
    "numerator": "factor.numerator", "denominator": "factor.denominator",
}  # fmt: skip
# Files, and what is refused of them: number, line and places.
FORMS = b"(problem 1)\n(scale 0 0)\n(row 1 (1))\n(right 1 5)\n(guess 1 5)\n(inverse 1 (1))\n(end)\n"
FILES = (
    (b"", 15, 0, (0, 0)), (b"(problem 1)\n(scale 0 0)\nx\n", 2, 3, (0, 0)), (b"(problem 33)\n", 3, 1, (0, 0)), (b"(problem 2)\n(scale 0 0)\n(row 1 (1))\n", 4, 3, (0, 0)),
    (b"(scale 0 0)\n", 11, 1, (0, 0)), (b"(problem 1)\n(problem 1)\n", 12, 2, (0, 0)), (b"(problem 1)\n(scale 0 0)\n(end)\n", 13, 0, (4, 0)), (FORMS + b"\n", 14, 8, (0, 0)),
    (FORMS, 0, 0, (0, 0)), (FORMS.replace(b"inverse 1 (1)", b"inverse 1 (0)"), 5, 0, (1, 0)), (FORMS.replace(b"guess 1 5", b"guess 1 9"), 6, 0, (1, 0)),
    (FORMS.replace(b"scale 0 0", b"scale 0 4").replace(b"inverse 1 (1)", b"inverse 1 (4)"), 7, 0, (1, 1)), (WHOLE, 0, 0, (0, 0)), (b"x" * 321, 1, 1, (0, 0)),
)  # fmt: skip


def structs():
    """The structs of the header, by name."""
    for name, fields in re.findall(r"(?ms)^struct kodarfi_(\w+) \{\n(.*?)^\};", re.sub(r"/\*.*?\*/", "", (INCLUDE / "kodarfi_net.h").read_text(), flags=re.S)):
        found = []
        for kind, names in re.findall(r"(\w+) ([^;]+);", fields):
            for field, length in re.findall(r"(\w+)(?:\[(\w+)\])?", names):
                count = int(length) if length.isdigit() else constants().get(length)
                found.append((field, TYPES[kind] * count if count else TYPES[kind]))
        yield name, type(name, (ctypes.Structure,), {"_fields_": found})


STRUCTS = dict(structs())
PARAMETERS = {name: parameters for _, name, parameters in prototypes()}


def compiled(workshop, include, source):
    """A library of this source and ours; None where it does not compile."""
    path = workshop.fresh() / "nets.c"
    path.write_text(source)
    command = ["cc", "-shared", "-fPIC", "-O0", "-w", f"-I{include}", str(path), "-Wl,--whole-archive", workshop.library, "-Wl,--no-whole-archive", "-o", f"{path}.so"]
    return None if subprocess.run(command, timeout=PATIENCE).returncode else ctypes.CDLL(f"{path}.so")


def net_library(workshop, include):
    """The header's calls."""
    return compiled(workshop, include, '#include <inttypes.h>\n#include <stdio.h>\n#include <string.h>\n#define static\n#define inline\n#include "kodarfi_net.h"\n')


def filled(kind, **fields):
    """A struct whose bytes are all UNWRITTEN but for these fields."""
    made = STRUCTS[kind].from_buffer_copy(UNWRITTEN * ctypes.sizeof(STRUCTS[kind]))
    for name, value in fields.items():
        if isinstance(value, int):
            setattr(made, name, value)
        else:
            getattr(made, name)[: len(value)] = value
    return made


def net_by_chance(rng, is_symmetric, s=None):
    """What a check is handed, good or damaged; its lists hold other numbers past those in use."""
    make = usual.levelling if is_symmetric else rng.choice((usual.general, usual.small))
    net = make(rng, rng.randint(1, 5))
    call = call_of(net if s is None else usual.proposal(rng, net.matrix, s, net.t, net.right, net.weights) or net)
    call = damaged(rng, call) if rng.randrange(2) else call
    return call._replace(n=min(call.n, 33), s=min(call.s, 21), t=min(call.t, 21))


@lru_cache(maxsize=None)
def memory(index):
    """What the calls are handed, by name."""
    rng = random.Random(f"header {index}")
    call = net_by_chance(rng, index % 2)
    other = call._replace(s=rng.choice((call.s, 0))) if rng.randrange(2) else net_by_chance(rng, False, min(call.s, 20))
    lists = lambda of: dict(zip(("matrix", "right", "tolerance", "guess", "inverse", "weights"), of.problem()[3:]))
    whole = {"n": call.n, "s": call.s, "t": call.t, **lists(call)}
    n = call.n if 1 <= call.n <= 32 else 1
    half = {name: part for name, part in whole.items() if name != "matrix"} | {"half": lower_half(n, whole["matrix"])}
    lines = [Observation(rng.randint(1, 60), at := rng.randrange(2), rng.choice((1 - at, 1 - at, 1 - at, 1 - at, 1 - at, 1 - at, at, 2)), rng.randint(-2, 2), rng.randint(0, 9) or 1) for _ in range(rng.choice((257, *range(9))))]
    heights = [rng.randint(-99999, 99999) / 7 if rng.randrange(100) else 1e300 for _ in range(32)]
    return {
        "net": filled("net", **whole), "other": filled("net", n=other.n, s=other.s, t=other.t, **lists(other)), "half": filled("half_net", **half),
        "bounds": filled("bounds", solution=[rng.randrange(1000) for _ in range(32)]), "more_bounds": filled("bounds"), "common": filled("common_intervals"), "ends": filled("ends"),
        "coupling": filled("coupling", numbers=[rng.randint(-1, 1) for _ in range(1024)]), "heights": filled("heights", heights=heights), "factor": filled("factor"),
        "refusal": filled("refusal"), "tried": ctypes.c_uint32(7), "lines": (Observation * 300)(*lines), "count": len(lines), "allowance": rng.choice((65, *range(1, 7), *range(1, 7))),
    }  # fmt: skip


def handed(value):
    return ctypes.c_size_t(value) if isinstance(value, int) else ctypes.byref(value)


def wrapped_arguments(call, own, given):
    """The arguments of a wrapped call, out of what the header's call is handed; each list with the length that it has."""
    length = None
    for kind, name in PARAMETERS[f"kodarfi_{call}"]:
        place = PLACES.get(name)
        if name.endswith("_len"):
            yield ctypes.c_size_t(length)
        elif name in ("allowance", "tried"):
            yield handed(given[name])
        elif name == "observations":
            length = given["count"]
            yield given["lines"]
        else:
            of, field = ("common" if call == "common" and name in ("low", "high") else place.split(".")[0], place.split(".")[1]) if place else ("other" if name.endswith("2") else own, name.rstrip("12"))
            value, offset = getattr(given[of], field), getattr(type(given[of]), field).offset
            length = len(value) if hasattr(value, "__len__") else None
            yield ctypes.byref(given[of], offset) if kind.endswith("*") else TYPES[kind](value)


def copied(handed, names):
    return {name: handed[name] if isinstance(handed[name], int) else type(handed[name]).from_buffer_copy(handed[name]) for name in names}


def is_same(one, other):
    return all(value == other[name] if isinstance(value, int) else bytes(value) == bytes(other[name]) for name, value in one.items())


def compare(calls, library, index):
    """Of each call, its name, the answer, and whether it is the same as that of the call that it wraps."""
    for wrapper, words, call, own in WRAPPED:
        names = words.split()
        expected, given = copied(memory(index), names), copied(memory(index), names)
        expected["refusal"] = STRUCTS["refusal"]()
        number = getattr(library, f"kodarfi_{call}")(*wrapped_arguments(call, own, expected))
        expected["refusal"].number = number
        if call == "common" and number == 0:
            expected["common"].s = max(expected["net"].s, expected["other"].s)
        said = getattr(calls, f"kodarfi_{wrapper}")(*(handed(given[name]) for name in names))
        yield wrapper, number, said == number != 8 and is_same(expected, given)
    half, net, (one, two) = given["half"], filled("net"), (STRUCTS["bounds"](), STRUCTS["bounds"]())
    calls.kodarfi_half_net_fill_out(handed(half), handed(net))
    numbers = calls.kodarfi_half_net_check(handed(half), handed(one), handed(given["refusal"])), calls.kodarfi_net_check(handed(net), handed(two), handed(given["refusal"]))
    yield "a half filled out", numbers[0], numbers[0] == numbers[1] and bytes(one) == bytes(two) and bytes(half)[:12] == bytes(net)[:12]


def numbers_of(struct):
    """Its numbers, without what lies between them."""
    fields = (getattr(struct, name) for name, _ in struct._fields_)
    return [list(field) if hasattr(field, "__len__") else field for field in fields]


def cleared(calls):
    for kind in ("net", "half_net"):
        given, expected = filled(kind), STRUCTS[kind](n=2, s=3, t=4)
        expected.weights[:] = [1] * 32
        getattr(calls, f"kodarfi_{kind}_clear")(handed(given), 2, 3, 4)
        yield f"a {kind} cleared", numbers_of(given) == numbers_of(expected)


def files(calls, library):
    for file, number, line, places in FILES:
        listing, direct, refusal, written, at = filled("listing_bytes"), filled("listing_bytes"), filled("refusal"), ctypes.c_size_t(), (ctypes.c_uint64 * 2)()
        said = calls.kodarfi_file_listing(file, ctypes.c_size_t(len(file)), handed(listing), handed(refusal))
        library.kodarfi_listing(file, ctypes.c_size_t(len(file)), direct.bytes, handed(written), at)
        yield f"the refusal of {file[:40]}", (said, refusal.number, refusal.net, refusal.line, tuple(refusal.places)) == (number, number, 0, line, places)
        yield f"the listing of {file[:40]}", listing.length == written.value and bytes(listing.bytes) == bytes(direct.bytes)
        new, direct, refusal, own = filled("converted_bytes"), filled("converted_bytes"), filled("refusal"), STRUCTS["refusal"]()
        place = lambda of, field: ctypes.byref(of, getattr(type(of), field).offset)
        own.number = library.kodarfi_convert_line(file, ctypes.c_size_t(len(file)), direct.bytes, ctypes.c_size_t(21300), place(direct, "length"), own.places, place(own, "line"))
        said = calls.kodarfi_file_convert(file, ctypes.c_size_t(len(file)), handed(new), handed(refusal))
        yield f"the conversion of {file[:40]}", said == own.number and bytes(refusal) == bytes(own) and bytes(new) == bytes(direct)


def net_results(calls, library):
    """What is tested of a header, and whether it holds."""
    met = Counter()
    yield from cleared(calls)
    yield from files(calls, library)
    for index in range(NETS):
        for name, number, good in compare(calls, library, index):
            met[number] += 1
            yield f"{name} of net {index}", good
    yield from ((f"{number} is met {met[number]} times", met[number] >= ENOUGH) for number in MET)
