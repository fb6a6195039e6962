"""The table docs/refusals.tsv in the library's languages: include/kodarfi_text.h for C, python/kodarfi/words.py for Python.

  python3 docs/refusals.py --c | --python           prints one of them
  python3 docs/refusals.py --c | --python --write   writes it

The gate compares them (tests/header/run.py, tests/package/run.py)."""

import sys
from pathlib import Path

ROOT = Path(__file__).resolve().parent.parent

C_HEAD = """/* The papers' numbers in words, for C and C++: docs/refusals.tsv as docs/refusals.py writes it. Not to be edited here. */
#ifndef KODARFI_TEXT_H
#define KODARFI_TEXT_H

#include <stddef.h>
#include <stdint.h>

/* A row of the table: what a number says, what was expected (of 0: what may be concluded), and what to do for whoever wrote what is refused. */
struct kodarfi_words {
    uint32_t number;
    const char *what, *expected, *to_do;
};

/* The row of a number, null where there is none. */
static inline const struct kodarfi_words *kodarfi_words_of(uint32_t number) {
    static const struct kodarfi_words ROWS[] = {
"""
C_FOOT = """    };
    for (size_t k = 0; k < sizeof ROWS / sizeof *ROWS; k++) {
        if (ROWS[k].number == number) return &ROWS[k];
    }
    return NULL;
}

#endif
"""
PYTHON_HEAD = '''"""The papers' numbers in words: docs/refusals.tsv as docs/refusals.py writes it. Not to be edited here."""

from typing import Dict, NamedTuple


class Words(NamedTuple):
    """What a number says, what was expected (of 0: what may be concluded), and what to do for whoever wrote what is refused."""

    what: str
    expected: str
    to_do: str


WORDS: Dict[int, Words] = {
'''


def rows():
    """The number of each row and its cells, without back quotes, as --explain leaves them out."""
    for line in (ROOT / "docs" / "refusals.tsv").read_text(encoding="utf-8").splitlines()[1:]:
        number, *cells = line.replace("`", "").split("\t")[:4]
        yield int(number), cells


def literal(cell):
    """A cell as a string of C."""
    return '"' + "".join(chr(byte) if 32 <= byte < 127 else f"\\{byte:03o}" for byte in cell.replace("\\", "\\\\").replace('"', '\\"').encode()) + '"'


def for_c():
    return C_HEAD + "".join(f"        {{{number}, " + ",\n         ".join(map(literal, cells)) + "},\n" for number, cells in rows()) + C_FOOT


def for_python():
    return PYTHON_HEAD + "".join(f"    {number}: Words(\n" + "".join(f"        {cell!r},\n" for cell in cells) + "    ),\n" for number, cells in rows()) + "}\n"


MADE = {"--c": (for_c, ROOT / "include" / "kodarfi_text.h"), "--python": (for_python, ROOT / "python" / "kodarfi" / "words.py")}


def hand_out(text):
    """Standard output takes all of a text, or this fails; nothing is left to be written at the end."""
    with open(1, "w", encoding="utf-8", closefd=False) as out:
        out.write(text)


def main(words):
    try:
        if words[:1] in (["-h"], ["--help"]):
            hand_out(f"{__doc__}\n")
        elif words[:1] in (["--c"], ["--python"]) and words[1:] in ([], ["--write"]):
            make, path = MADE[words[0]]
            path.write_text(make(), encoding="utf-8") if words[1:] else hand_out(make())
        else:
            raise ValueError("usage: refusals.py --c | --python [--write], or refusals.py --help")
    except (OSError, ValueError) as error:
        print(f"refusals.py: {error}", file=sys.stderr)
        return 2
    return 0


if __name__ == "__main__":
    sys.exit(main(sys.argv[1:]))
