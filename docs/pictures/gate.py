"""Where the time of the gate went, from docs/pictures/gate.tsv, which is made from what a gate printed (`table`) with an older kit, whose `rt ci` told the seconds
of each crate and edit.

A line of the table has four fields with tabs between them: a storey, or AFTER, and the seconds of its proofs, of its must-fail edits and of its tests.
The last line begins with '# ' and says of which gate they are."""

import re

from storeys import storeys_of
from svg import FAINT, Fault, Page

HEAD = "storey\tproofs\tedits\ttests"
AFTER = "The parts of tests/registry"
COLOURS = {"proofs": "#4878b0", "edits": "#d08a3c", "tests": "#6a9a5b"}
CRATE = re.compile(r"([a-z_]+) +(\d+) +(\d+) +(\d+)$")
ALL = re.compile(r"all: (\d+) s$")
PART = re.compile(r"proofs +(\d+) s +\d+ passed +\d+ failed$")
WIDTH, LEFT, TOP, BAR, STEP = 760, 250, 62, 15, 22


def rows_of(text):
    """The rows of the table, and its last line."""
    *lines, last = text.splitlines() or [""]
    if lines[:1] != [HEAD] or not last.startswith("# "):
        raise Fault(f"docs/pictures/gate.tsv: its first line is not '{HEAD}' with tabs, or its last does not begin with '# '")
    try:
        rows = [(name, tuple(map(int, cells))) for name, *cells in (line.split("\t") for line in lines[1:])]
    except ValueError as error:
        raise Fault(f"docs/pictures/gate.tsv: {error}") from None
    if not rows or any(len(cells) != 3 for _, cells in rows):
        raise Fault("docs/pictures/gate.tsv: a line has not four fields, or there is none")
    return rows, last[2:]


def table(log, crates):
    """The table of a gate's log: seconds of proofs and edits by storey, and those by the clock after the proofs."""
    storeys, _ = storeys_of(crates)
    home = {crate: title for title, found in storeys.items() for crate in found}
    sums = {title: [0, 0] for title in storeys}
    lines = log.splitlines()
    whole = [int(found[1]) for found in map(ALL.match, lines) if found]
    proofs = [int(found[1]) for found in map(PART.match, lines) if found]
    crates = [found for found in map(CRATE.match, lines) if found and found[1] in home]
    for found in crates:
        sums[home[found[1]]][0] += int(found[2])
        sums[home[found[1]]][1] += int(found[4])
    if not whole or not proofs or not any(map(any, sums.values())):
        raise Fault("the log has no times of crates: '.ci/run' printed them with an older kit")
    lacking = home.keys() - {found[1] for found in crates}
    if lacking:
        raise Fault(f"the log has no time of {', '.join(sorted(lacking))}: it is of a gate that failed, or of other crates")
    made = [HEAD, *(f"{title}\t{proof}\t{edits}\t0" for title, (proof, edits) in sums.items() if proof or edits)]
    after, count = whole[-1] - proofs[-1], sum(int(found[3]) for found in crates)
    of_gate = f"# {len(crates)} crates and {count} must-fail edits. By the clock: {proofs[-1]:,} s for proofs, edits and programs, then {after:,} s for the tests."
    return "\n".join([*made, f"{AFTER}\t0\t0\t{after}", of_gate]) + "\n"


def draw(text):
    rows, of_gate = rows_of(text)
    totals = dict(zip(COLOURS, (sum(cells[k] for _, cells in rows) for k in range(3))))
    longest = max(sum(cells) for _, cells in rows)
    page = Page("Where the time of the gate goes, in seconds", WIDTH, TOP + STEP * len(rows) + 50)
    x = 16
    for kind, colour in COLOURS.items():
        page.box(x, 38, 11, 11, colour, "none")
        said = f"{kind} {totals[kind]:,}"
        page.words(x + 16, 48, said, size=11)
        x += 40 + 6.4 * len(said)
    for at, (name, cells) in enumerate(rows):
        y = TOP + STEP * at
        page.words(LEFT - 8, y + BAR - 3, name, anchor="end")
        x = LEFT
        for seconds, colour in zip(cells, COLOURS.values()):
            width = (WIDTH - LEFT - 60) * seconds / longest
            if seconds:
                page.box(x, y, width, BAR, colour, "none")
            x += width
        page.words(x + 6, y + BAR - 3, f"{sum(cells):,}", size=11)
    y = TOP + STEP * len(rows) + 18
    page.words(16, y, "Proofs and edits: the seconds of each, which run two at a time. Tests: by the clock, after the proofs.", size=11, fill=FAINT)
    page.words(16, y + 16, of_gate, size=11, fill=FAINT)
    return page.text()
