"""The numbers in words (include/kodarfi_text.h, and kodarfi_text of include/kodarfi_net.h) beside docs/refusals.tsv, and the writing into buffers of any length."""

import ctypes

from common.mutated import ROOT
from header.nets import STRUCTS, compiled

SOURCE = """#include "kodarfi_net.h"
const struct kodarfi_words *words_of(uint32_t number) { return kodarfi_words_of(number); }
size_t text_of(const struct kodarfi_refusal *refusal, char *text, size_t length) { return kodarfi_text(refusal, text, length); }
"""
ENOUGH = 2048
# Refusals: number, net, line and places, and how their text says where.
REFUSALS = {
    (2, 0, 17, (0, 0)): ", line 17", (5, 0, 0, (3, 0)): ", row 3", (6, 2, 0, (4, 0)): ", the second of the two, row 4", (3, 2, 0, (0, 0)): ", the second of the two",
    (7, 1, 0, (5, 6)): ", the first of the two, column 5, row 6", (8, 0, 0, (0, 0)): "", (13, 0, 0, (9, 0)): ", 9 missing", (16, 0, 0, (0, 0)): "", (20, 0, 0, (0, 0)): "",
    (0, 0, 0, (0, 0)): "", (999, 0, 0, (0, 0)): "",
}  # fmt: skip


class Words(ctypes.Structure):
    _fields_ = [("number", ctypes.c_uint32), ("what", ctypes.c_char_p), ("expected", ctypes.c_char_p), ("to_do", ctypes.c_char_p)]


def words_library(workshop, include):
    library = compiled(workshop, include, SOURCE)
    if library:
        library.words_of.restype, library.text_of.restype = ctypes.POINTER(Words), ctypes.c_size_t
    return library


def text_of(number, where, rows):
    if number not in rows:
        return f"refused with {number}\n"
    what, expected, to_do = rows[number]
    if number == 0:
        return f"{what}\n  concluded: {expected}\n  to do: {to_do}\n"
    return f"refused with {number}{where}: {what}\n  expected: {expected}\n  for whoever wrote it: {to_do}\n"


def is_written(library, refusal, text):
    """In a buffer of every length, from none on: as snprintf."""
    for length in range(len(text) + 3):
        buffer = (ctypes.c_char * (ENOUGH + 1)).from_buffer_copy(b"\7" * (ENOUGH + 1))
        right = (text[: max(length - 1, 0)] + b"\0" * (length > 0)).ljust(len(text) + 4, b"\7")
        if library.text_of(ctypes.byref(refusal), buffer if length else None, ctypes.c_size_t(length)) != len(text) or bytes(buffer)[: len(text) + 4] != right:
            return False
    return len(text) < ENOUGH


def word_results(library, _):
    """What is tested of a header, and whether it holds."""
    lines = (line.split("\t") for line in (ROOT / "docs" / "refusals.tsv").read_text().replace("`", "").splitlines()[1:])
    rows = {int(number): tuple(words[:3]) for number, *words in lines}
    found = {number: words.contents for number in range(1000) for words in [library.words_of(number)] if words}
    yield "the rows of the table", {number: tuple(text.decode() for text in (row.what, row.expected, row.to_do)) for number, row in found.items()} == rows
    yield "the row of its number", all(row.number == number for number, row in found.items())
    for (number, net, line, places), where in REFUSALS.items():
        refusal = STRUCTS["refusal"](number, net, line, places)
        yield f"the text of {number}", is_written(library, refusal, text_of(number, where, rows).encode())
