"""A net's drawing written as SVG, for light and dark screens and for paper."""

import textwrap
from html import escape
from typing import List, Sequence

from .draw import DOT, LARGEST_RING, LEADING, SMALL, TEXT, Drawing, Picture, arranged
from .labels import Box, width_of

MARGIN, NARROWEST, HEAD_TEXT, BESIDE_RING = 16.0, 440.0, 16.0, 2 * LARGEST_RING + 10
# Each colour comes twice: viewers without custom properties, such as librsvg, take the first.
STYLE = """
svg { --paper: #fff; --ink: #1a1a1a; --line: #9aa0a8; --faint: #50555c; --ring: #1f6feb; --red: #c62828; }
@media (prefers-color-scheme: dark) { svg { --paper: #16181c; --ink: #ececec; --line: #6b7280; --faint: #b8bec8; --ring: #6ea8ff; --red: #ff6b6b; } }
@media print { svg { --paper: #fff; --ink: #000; --line: #888; --faint: #333; --ring: #1f6feb; --red: #c62828; } }
text { font: 13px system-ui, "DejaVu Sans", sans-serif; fill: #1a1a1a; fill: var(--ink); text-anchor: middle; }
text { paint-order: stroke; stroke: #fff; stroke: var(--paper); stroke-width: 3px; stroke-linejoin: round; }
.paper { fill: #fff; fill: var(--paper); } .dot { fill: #1a1a1a; fill: var(--ink); }
.line { stroke: #9aa0a8; stroke: var(--line); stroke-width: 1.4; } .ring { fill: #1f6feb; fill: var(--ring); fill-opacity: 0.13; stroke: #1f6feb; stroke: var(--ring); stroke-width: 1.2; }
.weight { font-size: 11px; fill: #50555c; fill: var(--faint); } .left { text-anchor: start; } .right { text-anchor: end; } .heading { font-size: 16px; font-weight: 600; }
.refused.line { stroke: #c62828; stroke: var(--red); stroke-width: 2; } .refused.dot, text.refused { fill: #c62828; fill: var(--red); }
"""


def _number(value: float) -> str:
    return f"{value:.1f}".replace("-0.0", "0.0") if abs(value) < 0.05 else f"{value:.1f}"


def _element(name: str, kind: str, inside: str = "", **places: float) -> str:
    """An element with its class and places; names of places have _ for -."""
    where = "".join(f' {place.replace("_", "-")}="{_number(value)}"' for place, value in places.items())
    return f'<{name} class="{kind}"{where}>{inside}</{name}>' if inside else f'<{name} class="{kind}"{where}/>'


def _title(text: str) -> str:
    """What a screen shows under the pointer."""
    return f"<title>{escape(text)}</title>"


def _text(lines: Sequence[str], kind: str, x: float, top: float, leading: float = LEADING) -> List[str]:
    return [_element("text", kind, escape(line), x=x, y=top + leading * at + 0.78 * leading) for at, line in enumerate(lines)]


def _lines(drawing: Drawing) -> List[str]:
    one = drawing.picture
    made = []
    for (i, j), weight in one.joined:
        (x1, y1), (x2, y2) = drawing.points[i], drawing.points[j]
        kind = "refused line" if one.marks[i].is_refused or one.marks[j].is_refused else "line"
        made.append(_element("line", kind, _title(f"weight {weight}, {one.marks[i].name} to {one.marks[j].name}"), x1=x1, y1=y1, x2=x2, y2=y2))
    return made


def _marks(drawing: Drawing) -> List[str]:
    made = []
    for at, (mark, (x, y), radius) in enumerate(zip(drawing.picture.marks, drawing.points, drawing.radii)):
        kind = "refused dot" if mark.is_refused else "dot"
        if mark.limit:
            made.append(_element("circle", "ring", _title(f"limit {mark.limit} {drawing.picture.unit}"), cx=x, cy=y, r=radius))
        if at:
            made.append(_element("circle", kind, _title(mark.name), cx=x, cy=y, r=DOT))
        else:
            corners = " ".join(f"{_number(x + dx)},{_number(y + dy)}" for dx, dy in ((0, -2 * DOT), (1.8 * DOT, DOT), (-1.8 * DOT, DOT)))
            made.append(f'<polygon class="{kind}" points="{corners}">{_title(mark.name)}</polygon>')
    return made


def _words(drawing: Drawing) -> List[str]:
    """Weights, then labels."""
    made = []
    for (_, weight), box in zip(drawing.picture.joined, drawing.placed.weights):
        if box is not None:
            made += _text([weight], "weight", (box.left + box.right) / 2, box.top, SMALL + 3)
    for mark, (x, _), box in zip(drawing.picture.marks, drawing.points, drawing.placed.labels):
        kind = "refused" if mark.is_refused else "label"
        side, at = ("left", box.left) if box.left > x else ("right", box.right) if box.right < x else ("middle", (box.left + box.right) / 2)
        made += _text(mark.label, f"{kind} {side}", at, box.top)
    return made


def _extent(drawing: Drawing) -> Box:
    boxes = [*drawing.placed.labels, *(box for box in drawing.placed.weights if box is not None)]
    boxes += [Box(x - radius, y - radius, x + radius, y + radius).wider(2 * DOT) for (x, y), radius in zip(drawing.points, drawing.radii)]
    return Box(min(box.left for box in boxes), min(box.top for box in boxes), max(box.right for box in boxes), max(box.bottom for box in boxes))


def _meaning(drawing: Drawing) -> List[str]:
    """What rings and numbers mean."""
    one = drawing.picture
    limits = [mark.limit for mark in one.marks if mark.limit is not None]
    hidden = drawing.placed.weights.count(None)
    said = [f"at each mark: height ± limit, in {one.unit}"] if limits else []
    said += [f"a ring of this size: a limit of {max(limits)} {one.unit}, the largest; others in scale"] if any(limits) else []
    return said + ["numbers on lines: weights" + (f"; of {hidden} there is no room, and they are shown under the pointer" if hidden else "")]


def _legend(drawing: Drawing, left: float, top: float) -> List[str]:
    if not any(drawing.radii):
        return _text(_meaning(drawing), "weight left", left, top)
    x, y = left + LARGEST_RING, top + LARGEST_RING
    ring = [_element("circle", "ring", cx=x, cy=y, r=LARGEST_RING), _element("circle", "dot", cx=x, cy=y, r=DOT)]
    return ring + _text(_meaning(drawing), "weight left", left + BESIDE_RING, top + 8)


def svg(one: Picture) -> str:
    """The whole picture."""
    drawing = arranged(one)
    extent = _extent(drawing)
    width = max(NARROWEST, extent.right - extent.left, *(BESIDE_RING + width_of(line, SMALL) for line in _meaning(drawing)))
    heading = textwrap.wrap(one.heading, int(width / (0.58 * HEAD_TEXT)))
    refused = textwrap.wrap(one.refused, int(width / (0.58 * TEXT)))
    above = 22.0 * len(heading) + LEADING * len(refused) + 10
    left = (extent.left + extent.right - width) / 2
    top = extent.top - above
    below = 2 * LARGEST_RING + 14
    view = Box(left, top, left + width, extent.bottom + below).wider(MARGIN)
    size = [view.left, view.top, view.right - view.left, view.bottom - view.top]
    made = [f'<svg xmlns="http://www.w3.org/2000/svg" width="{size[2]:.0f}" height="{size[3]:.0f}" viewBox="{" ".join(map(_number, size))}" role="img">']
    made += [_title(one.heading), f"<style>{STYLE}</style>", _element("rect", "paper", x=size[0], y=size[1], width=size[2], height=size[3])]
    made += _text(heading, "heading left", left, top, 22.0) + _text(refused, "refused left", left, top + 22.0 * len(heading))
    made += _lines(drawing) + _marks(drawing) + _words(drawing) + _legend(drawing, left, extent.bottom + 14) + ["</svg>"]
    return "".join(line + "\n" for line in made)
