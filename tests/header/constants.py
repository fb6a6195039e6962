"""The constants of include/kodarfi.h, printed by a program in C, and each tried on the calls of the library: its own number is taken, one more or less is not."""

import ctypes
import subprocess

from common.mutated import ROOT
from header.read import WIDEST, constants, prototypes

PATIENCE = 600
FIELDS = ("key", "from", "to", "difference", "weight")
TYPES = {"uint32_t": ctypes.c_uint32, "int64_t": ctypes.c_int64, "uint64_t": ctypes.c_uint64, "size_t": ctypes.c_size_t, "double": ctypes.c_double, "uint8_t": ctypes.c_uint8}
SQUARE = [int(at % 33 == 0) for at in range(1024)]
WIDE = {"n": 2, "s": 0, "t": 0, "matrix": [1, 2**20, 0, 1], "tolerance": [1, 65536], "inverse": [1, -(2**20), 0, 1]}


class Observation(ctypes.Structure):
    """A field line, with the layout that the header states for other languages."""

    _fields_ = list(zip(("key", "from_", "to", "difference", "weight"), (ctypes.c_uint32,) * 3 + (ctypes.c_int64, ctypes.c_uint32)))


# What a call is handed where nothing else is said: a net of 32 marks that is accepted, and a field line. Other lists hold 0.
NUMBERS = {"n": 32, "s": 10, "t": 20, "allowance": 64, "guess": 0, "bound": 0}
LISTS = {"matrix": SQUARE, "inverse": [number << 20 for number in SQUARE], "weights": [1] * 32, "observations": [Observation(1, 0, 1, 0, 1)], "file": WIDEST}
LENGTHS = {"matrix": 1024, "inverse": 1024, "inverse_bounds": 1024, "half": 528, "out": 32768}
EXACT, LONG = ("observations", "file", "line"), {"listing": 32800, "out": 32768}

# A call, a number or the first of a list, and its range; None is the other end with its sign.
RANGES = (
    *(("check", "n", 1, "N_MAX"), ("check", "s", 0, "SCALE_MAX"), ("check", "t", 0, "SCALE_MAX"), ("check", "matrix", None, "MATRIX_MAX")),
    *(("check", "right", None, "RIGHT_MAX"), ("check", "tolerance", 0, "TOLERANCE_MAX"), ("check", "guess", None, "GUESS_MAX")),
    *(("check", "inverse", None, "INVERSE_MAX"), ("check", "weights", 1, "WEIGHT_MAX"), ("find_weights", "allowance", 1, "ALLOWANCE_MAX")),
    *(("intervals", "bounds", 0, "BOUND_MAX"), ("entry", "guess", None, "GUESS_MAX"), ("entry", "s", 0, "SCALE_MAX"), ("build", "key", 1, "KEY_MAX")),
    *(("build", "from", 0, "N_MAX"), ("build", "to", 0, "N_MAX"), ("build", "difference", None, "DIFFERENCE_MAX"), ("build", "weight", 1, "LINE_WEIGHT_MAX")),
)
# Calls by what they answer; files of examples/refused answer the rest.
ANSWERS = (
    ("ACCEPTED", "check", {}), ("MARGIN", "check", {"inverse": [0]}), ("RESIDUAL", "check", {"guess": [5]}), ("NONE_GOOD", "find_weights", {"inverse": [0]}),
    ("INVERSE_RESIDUAL", "check", {"n": 1, "matrix": [1024], "inverse": [1022]}), ("NO_GUESS", "guesses", {"values": [1e300]}), ("ACCEPTED", "common", {}),
    ("SAME_MARK", "build", {"observations": [Observation(1, 1, 1, 0, 1)]}), ("DIFFERENT", "common", {"tolerance2": [1]}),
    ("OTHER_CONTENTS", "build", {"observations": [Observation(1, 0, 1, 0, 1), Observation(1, 0, 2, 0, 1)]}),
    ("SAME_MARK", "build", {"observations": [Observation(1, 1, 1, 0, 1), Observation(1, 0, 2, 0, 1)]}),
    ("TOO_WIDE", "common", {f"{name}{net}": value for net in (1, 2) for name, value in WIDE.items()}),
)  # fmt: skip
FILES = ("TOO_LONG", "NO_FORM", "OUT_OF_RANGE", "WRONG_COUNT", "MARGIN", "RESIDUAL", "INVERSE_RESIDUAL", "TOO_EARLY", "REPEATED", "MISSING", "AFTER_END", "NOT_ENDED")


def printed(workshop, include):
    """The constants as a compiler has them, and size and places of a field line; None where it does not compile."""
    fields = [f"offsetof(struct kodarfi_observation, {field})" for field in FIELDS]
    numbers = {**{name: name for name in constants()}, "LAYOUT": "sizeof(struct kodarfi_observation)", **dict(zip(FIELDS, fields))}
    lines = [f'    printf("{name} %llu\\n", (unsigned long long)({number}));\n' for name, number in numbers.items()]
    source, program = workshop.folder / "constants.c", workshop.folder / "constants"
    source.write_text(f'#include "kodarfi.h"\n#include <stdio.h>\n\nint main(void) {{\n{"".join(lines)}    puts(KODARFI_VERSION " 0");\n    return 0;\n}}\n')
    if subprocess.run(["cc", "-std=c99", "-Wall", "-pedantic-errors", f"-I{include}", str(source), "-o", str(program)], timeout=PATIENCE).returncode:
        return None
    words = [line.split() for line in subprocess.run([str(program)], capture_output=True, text=True, timeout=PATIENCE).stdout.splitlines()]
    return {name.removeprefix("KODARFI_"): int(number) for name, number in words}


class Calls:
    """The library's calls; the lists that the last one was handed."""

    def __init__(self, library):
        self.library, self.parameters, self.lists = library, {name: parameters for _, name, parameters in prototypes()}, {}

    def said(self, call, **given):
        """What a call answers where these arguments are given."""
        return getattr(self.library, f"kodarfi_{call}")(*(self.handed(kind, name, given) for kind, name in self.parameters[f"kodarfi_{call}"]))

    def handed(self, kind, name, given):
        base, of = name.rstrip("12"), name.removesuffix("_len")
        if of != name:
            return TYPES[kind](given.get(name, len(self.lists[of]) if of in EXACT else LENGTHS.get(of.rstrip("12"), 32)))
        if not kind.endswith("*"):
            return TYPES[kind](given.get(name, NUMBERS.get(base)))
        numbers = given.get(name, LISTS.get(base, []))
        if base not in EXACT:
            numbers = [*numbers, *LISTS.get(base, [])[len(numbers) :]]
        element = Observation if base == "observations" else TYPES[kind.removeprefix("const").rstrip("*")]
        self.lists[name] = (element * (len(numbers) if base in EXACT else LONG.get(base, 1024)))(*numbers)
        return self.lists[name]


def is_outside(calls, call, name, number):
    if name in FIELDS and call == "build":
        line = [1, 0, 1, 0, 1]
        line[FIELDS.index(name)] = number
        line[2] = 0 if name == "from" else line[2]
        return calls.said(call, observations=[Observation(*line)]) == 3
    is_list = any(kind.endswith("*") for kind, parameter in calls.parameters[f"kodarfi_{call}"] if parameter == name)
    return calls.said(call, **{name: [number] if is_list else number}) == 3


def length_results(c, calls):
    lists = [name for kind, name in calls.parameters["kodarfi_check"] if name.endswith("_len")]
    stated = {name: c["MATRIX_LENGTH" if LENGTHS.get(name[:-4]) else "COLUMN_LENGTH"] for name in lists}
    yield "lists of full length", calls.said("check", **stated) == 0
    yield from ((f"{name} one shorter", calls.said("check", **{**stated, name: stated[name] - 1}) == c["TOO_SHORT"]) for name in lists)
    yield "the length of a half", [calls.said("check_half", half_len=c["HALF_LENGTH"] - less) for less in (0, 1)] == [c["MARGIN"], c["TOO_SHORT"]]
    lines = [Observation(1, 0, 1, 0, 1)] * (c["OBSERVATIONS_MAX"] + 1)
    yield "the most field lines", [calls.said("build", observations=lines[less:]) for less in (1, 0)] == [c["ACCEPTED"], c["OUT_OF_RANGE"]]
    calls.said("loader_new", loader=[7] * 40)
    yield "the length of a loader", list(calls.lists["loader"][:40]) == [0] * c["LOADER_LENGTH"] + [7] * (40 - c["LOADER_LENGTH"])
    yield "the longest line", [calls.said("loader_take", line=bytes(c["LINE_LENGTH"] + more)) for more in (0, 1)] == [c["NO_FORM"], c["TOO_LONG"]]


def file_results(c, calls):
    """The longest file that a conversion writes, the bytes of a file that decide, and the listing's buffer."""
    length = c["CONVERTED_LENGTH"]
    yield "the longest new file", calls.said("convert", out_len=length) == 0 and calls.lists["written"][0] == length and calls.said("convert", out_len=length - 1) == c["NOT_CONVERTIBLE"]
    yield "so many bytes hold it", len(WIDEST) <= c["FILE_LENGTH"] and calls.said("listing") == 5
    yield "the listing's buffer", calls.said("listing", listing=[7] * 32800) == 5 and calls.lists["listing"][c["LISTING_LENGTH"]] == 7
    for byte in b"x\n":
        file = WIDEST + bytes([byte]) * (2**20 - len(WIDEST))
        yield "so many bytes decide", calls.said("listing", file=file[: c["FILE_LENGTH"]]) == calls.said("listing", file=file) == c["AFTER_END"]


def constant_results(c, library):
    """What is tested of constants, and whether it holds."""
    calls = Calls(library)
    yield "the version by its parts", "{VERSION_MAJOR}.{VERSION_MINOR}.{VERSION_PATCH}".format(**c) in c
    yield "the layout of a field line", [c[name] for name in ("LAYOUT", *FIELDS)] == [32, 0, 4, 8, 16, 24]
    for call, name, lowest, highest in RANGES:
        high = c[highest]
        low = -high if lowest is None else lowest
        yield f"{highest} of {call}", [is_outside(calls, call, name, number) for number in (low - 1, low, high, high + 1)] == [True, False, False, True]
    for answer, call, given in ANSWERS:
        yield f"{answer} of {call}", calls.said(call, **given) == c[answer]
    for answer in FILES:
        for path in (ROOT / "examples" / "refused").glob(f"{constants()['KODARFI_' + answer]}-*.txt"):
            yield path.name, calls.said("listing", file=path.read_bytes()) == c[answer]
    yield from length_results(c, calls)
    yield from file_results(c, calls)
