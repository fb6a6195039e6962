"""A page for the records: the heights of an accepted file with their limits, as text and as HTML."""

import hashlib
from html import escape
from typing import List, NamedTuple, Tuple

from . import __version__
from .calls import entry
from .names import Names
from .nets import Limits, Proposal

PROMISE = "Each exact height lies within its limit of the height beside it, for every right side within the file's tolerances."
NOT_PROMISED = "That the file's equations are those of the field, and the true right sides within the tolerances, is for the office to see."


class Row(NamedTuple):
    """A mark, its name, V and its limit."""

    mark: int
    name: str
    value: int
    limit: int


class Page(NamedTuple):
    """What a page says: the fixed mark, the unit, the marks, and where it comes from."""

    fixed: str
    unit: str
    rows: List[Row]
    sha256: str


def page(file: bytes, proposal: Proposal, limits: Limits, named: Names) -> Page:
    """The page of a file that is accepted with these limits."""
    entries = [entry(X, E, proposal.s) for X, E in zip(proposal.guess, limits.solution)]
    rows = [Row(mark, named.marks[mark], V, limit) for mark, (V, limit) in enumerate(entries, 1)]
    return Page(named.marks[0], named.unit, rows, hashlib.sha256(file).hexdigest())


def _source(one: Page) -> List[Tuple[str, str]]:
    return [("sha256 of the file", one.sha256), ("judged by", f"kodarfi {__version__}")]


def text(one: Page) -> str:
    """The page as text."""
    table = [("mark", "name", "height", "limit")]
    table += [(str(row.mark), row.name, f"{row.value} {one.unit}", f"{row.limit} {one.unit}") for row in one.rows]
    mark, name, height, limit = (max(map(len, column)) for column in zip(*table))
    lines = [f"Heights above the fixed mark {one.fixed}", ""]
    lines += [f"{a:>{mark}}  {b:<{name}}  {c:>{height}}  {d:>{limit}}" for a, b, c, d in table]
    lines += ["", PROMISE, NOT_PROMISED, "", *(f"{what}: {which}" for what, which in _source(one))]
    return "".join(line + "\n" for line in lines)


STYLE = """
:root { color-scheme: light dark; --paper: #fff; --ink: #1a1a1a; --faint: #5a5a5a; --rule: #c8c8c8; }
@media (prefers-color-scheme: dark) { :root { --paper: #16181c; --ink: #ececec; --faint: #a8a8a8; --rule: #45484e; } }
@media print {
  :root { --paper: #fff; --ink: #000; --faint: #333; --rule: #999; }
  body { margin: 0; }
  thead { display: table-header-group; }
  tr { break-inside: avoid; }
}
body { max-width: 48rem; margin: 2rem auto; padding: 0 1rem; background: var(--paper); color: var(--ink); font: 1rem/1.45 system-ui, sans-serif; }
h1 { font-size: 1.35rem; font-weight: 600; overflow-wrap: anywhere; }
.table { overflow-x: auto; }
table { border-collapse: collapse; width: 100%; }
th, td { padding: 0.3rem 0.6rem; border-bottom: 1px solid var(--rule); text-align: left; vertical-align: baseline; }
th { color: var(--faint); font-weight: 600; }
td.name { overflow-wrap: break-word; }
.number { text-align: right; white-space: nowrap; font-variant-numeric: tabular-nums; }
dl { color: var(--faint); font-size: 0.85rem; }
dt { float: left; clear: left; margin-right: 0.5rem; }
dt::after { content: ":"; }
dd { margin: 0; overflow-wrap: anywhere; }
"""


def html(one: Page) -> str:
    """The page as HTML, in one file that needs nothing else."""
    unit = escape(one.unit)
    title = f"Heights above the fixed mark {escape(one.fixed)}"
    columns = (("number", "mark"), ("name", "name"), ("number", "height"), ("number", "limit"))
    head = "".join(f'<th scope="col" class="{kind}">{what}</th>' for kind, what in columns)
    rows = [
        f'<tr><td class="number">{row.mark}</td><td class="name">{escape(row.name)}</td>'
        f'<td class="number">{row.value} {unit}</td><td class="number">{row.limit} {unit}</td></tr>'
        for row in one.rows
    ]
    lines = ["<!DOCTYPE html>", '<html lang="en">', "<head>", '<meta charset="utf-8">', '<meta name="viewport" content="width=device-width, initial-scale=1">']
    lines += [f"<title>{title}</title>", f"<style>{STYLE}</style>", "</head>", "<body>", f"<h1>{title}</h1>", '<div class="table">', "<table>"]
    lines += [f"<thead><tr>{head}</tr></thead>", "<tbody>", *rows, "</tbody>", "</table>", "</div>"]
    lines += [f"<p>{escape(sentence)}</p>" for sentence in (PROMISE, NOT_PROMISED)]
    lines += ["<dl>", *(f"<dt>{what}</dt><dd>{escape(which)}</dd>" for what, which in _source(one)), "</dl>", "</body>", "</html>"]
    return "".join(line + "\n" for line in lines)
