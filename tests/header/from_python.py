"""The header's words tried from Python: the layout of a field line, and a build. Its rule for t is tried by tests/properties, on listings by calls/listing."""

import ctypes
import re

from header.constants import Observation
from header.read import INCLUDE


def python_results(workshop):
    """The same from Python: the layout in the header's words, a build by it, and None for an empty list."""
    reported = re.search(r"(\d+) bytes, aligned to (\d+); key stands at byte (\d+), from at (\d+), to at (\d+), difference at (\d+) and weight at (\d+)", (INCLUDE / "kodarfi.h").read_text())
    fields = [getattr(Observation, name).offset for name, _ in Observation._fields_]
    yield "Python's layout is the one that the header states", reported and [int(number) for number in reported.groups()] == [ctypes.sizeof(Observation), ctypes.alignment(Observation), *fields]
    build = workshop.shared.kodarfi_build
    build.restype = ctypes.c_uint32
    build.argtypes = [ctypes.c_uint32, ctypes.c_void_p, ctypes.c_size_t, ctypes.c_void_p, ctypes.c_size_t, ctypes.c_void_p, ctypes.c_size_t]
    matrix, right = (ctypes.c_int64 * 1024)(), (ctypes.c_int64 * 32)()
    lines = (Observation * 2)((1, 0, 1, 5, 2), (2, 1, 2, -3, 4))
    number = build(2, lines, 2, matrix, 1024, right, 32)
    yield "a build from Python", (number, matrix[:5], right[:3]) == (0, [6, -4, -4, 4, 0], [22, -12, 0])
    yield "no lines from Python", build(2, None, 0, matrix, 1024, right, 32) == 0 and matrix[:4] == [0] * 4
    yield "no lists from Python", build(2, None, 0, None, 0, None, 0) == 8
