"""Prints the ratios that bench/run measured as one table of Markdown, after a line with the machine.

  python3 bench/table.py COMPILER FILE..

Each FILE has lines of four fields with tabs between them: what is measured, what it is compared with, n, the ratio. Where several files have the same three, the median counts."""

import os
import statistics
import subprocess
import sys
import time
from pathlib import Path

SIZES = ("8", "16", "32")
ARB = ("check, office", "Arb's arb_mat_solve_preapprox")


def read(paths):
    """The ratios by what is measured and what it is compared with, and by n."""
    rows = {}
    for path in paths:
        for line in Path(path).read_text().splitlines():
            what, to, n, ratio = line.split("\t")
            rows.setdefault((what, to), {}).setdefault(n, []).append(float(ratio))
    return rows


def table(rows):
    yield "| Time of | as a part of that of | n = 8 | n = 16 | n = 32 |"
    yield "|---|---|---|---|---|"
    for (what, to), found in rows.items():
        cells = [f"{statistics.median(found[n]):.2f}" if n in found else "" for n in SIZES]
        yield f"| {what} | {to} | {' | '.join(cells)} |"
    if ARB not in rows:
        yield f"| {' | '.join(ARB)} | not installed | | |"


def machine(compiler):
    """The day, the commit, the processors and the compiler, as far as they are known."""
    commit = subprocess.run(["git", "rev-parse", "--short", "HEAD"], capture_output=True, text=True).stdout.strip() or "unknown"
    models = [line.split(":", 1)[1].strip() for line in Path("/proc/cpuinfo").read_text().splitlines() if line.startswith("model name")]
    model = models[0] if models else "unknown"
    return f"{time.strftime('%-d %B %Y')}, commit {commit}, {len(os.sched_getaffinity(0))} processors {model}, {compiler}:"


def put(text):
    data = text.encode()
    while data:
        data = data[os.write(1, data) :]


def main():
    try:
        put("\n".join([machine(sys.argv[1]), "", *table(read(sys.argv[2:]))]) + "\n")
    except (OSError, ValueError) as error:
        print(f"bench: no table: {error}", file=sys.stderr)
        return 2
    return 0


if __name__ == "__main__":
    sys.exit(main())
