"""Mutant programs: they print the right listing, or die before, and go wrong beside it; the run of a program (outside.py) must detect each."""

import shlex

from calls.listing.oracle import Program
from common.outside import outside
from common.whole_file import WHOLE

PRINT = 'cat >/dev/null; printf "%s" "$1"'
RIGHT = "right"
PROGRAMS = {
    RIGHT: PRINT,
    "dies": f"{PRINT}; kill -SEGV $$",
    "fails": f"{PRINT}; exit 1",
    "complains": f"{PRINT}; echo all is well >&2",
    "dies first": "kill -SEGV $$",
}


def tests():
    """Of a file with a report and of one that is refused."""
    for file in (WHOLE, b"x\n"):
        listing = Program().listing(file)
        for name, script in PROGRAMS.items():
            differences = outside(shlex.join(["sh", "-c", script, "sh", listing.decode()]))(file).differences(listing)
            yield f"program '{name}'", differences if name == RIGHT else [] if differences else ["not detected"]
