"""The largest numbers in docs/DESIGN.md beside the laws that the table names: what a law's statement ends with is what stands in the column 'At most', and
the product in the column 'From' is no larger."""

import re

from svg import Fault

SECTION = "\n## Why 64 bits are enough\n"
NAMED = {"largest_magnitude": 2**50, "largest_bound": 2**60}
LAW = re.compile(r"`([\w-]+)` in `([\w/]+\.antt)`|`([\w-]+)`(?=, `[\w-]+` in `([\w/]+\.antt)`)")
NUMBER = re.compile(r"[\d^·*+() ]+")


def value_of(text):
    """The value of sums and products of powers; None where it is something else."""
    try:
        return eval(text.replace("^", "**").replace("·", "*")) if NUMBER.fullmatch(text) else None
    except SyntaxError:
        return None


def most_of(statement):
    """What the last inequality of a statement ends with."""
    found = re.search(r"[≤<] ([^≤<→]+)$", statement)
    text = found[1].strip(" )") if found else ""
    return NAMED.get(text, value_of(text) if text else None)


def statement_of(name, source):
    found = re.search(rf"^ *(?:pub )?{re.escape(name)} : ((?:.*\n)+?) *(?:unfolding\b|{re.escape(name)}\b)", source, re.MULTILINE)
    if not found:
        raise Fault(f"docs/DESIGN.md: no statement of {name} can be read")
    return " ".join(found[1].split())


def rows_of(text):
    for line in text.partition(SECTION)[2].partition("\n## ")[0].splitlines():
        cells = [cell.strip() for cell in re.split(r"(?<!\\)\|", line)[1:-1]]
        if len(cells) == 5 and cells[4].startswith("`"):
            yield cells[1:]


def fault_of(text, read):
    """The first row whose figures do not agree; nothing where all do."""
    compared = 0
    for number, most, origin, proved in rows_of(text):
        figure = value_of(most.removeprefix("below ").removesuffix(", unsigned"))
        product = value_of(origin.split(" = ")[0].replace(" lines", "")) if origin else None
        if figure is None or (product is not None and product > figure):
            return f"docs/DESIGN.md: {number}: {origin} is not at most {most}"
        for found in LAW.finditer(proved):
            law, file = found[1] or found[3], found[2] or found[4]
            said = most_of(statement_of(law, read(f"crates/{file}"))) if "/proofs/" in file else None
            compared += said is not None
            if said not in (None, figure):
                return f"docs/DESIGN.md: {number}: {most} is not what {law} says"
    return "" if compared else "docs/DESIGN.md: no row has a law whose figure can be read"
