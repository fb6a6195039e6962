"""The storeys of crates, from crates.txt: a box for each, above all storeys that its crates name."""

import re
import textwrap

from svg import FAINT, Fault, Page, width_of

WIDTH, COLUMNS, GAP = 1000, 6, 10
LINE, HEAD, FOOT = 15, 17, 13
FILLS = ("#e6eefb", "#e3f3ea", "#fdf3dc", "#fbe9e3", "#f0e8f8", "#e9ecf0")
ROW = re.compile(r"^\| ?([^|`]*?) ?\| `([a-z_]+)` \|", re.MULTILINE)
TITLE = "The storeys of crates: each stands on those below that it names"


def storeys_of(text):
    """Each storey's title with its crates, from below, and for each crate those that it names."""
    storeys, named = {}, {}
    for count, line in enumerate(text.splitlines(), 1):
        if line.startswith("# NAME") or not line.strip():
            continue
        if line.startswith("# "):
            title = line[2:].strip()
            if title in storeys:
                raise Fault(f"crates.txt: line {count}: the storey '{title}' is there already")
            storeys[title] = []
            continue
        crate, colon, rest = line.partition(":")
        crate = crate.removesuffix(" staticlib")
        if not colon or not storeys:
            raise Fault(f"crates.txt: line {count}: neither a storey, '# TITLE', nor a crate below one, 'NAME: DEP ..'")
        storeys[title].append(crate)
        named[crate] = rest.split()
    return storeys, named


def grounds_of(storeys, named):
    """The storeys that each storey names directly."""
    home = {crate: title for title, crates in storeys.items() for crate in crates}
    order = list(storeys)
    grounds = {}
    for title, crates in storeys.items():
        below = {home[other]: (crate, other) for crate in crates for other in named[crate] if other in home and home[other] != title}
        for ground, (crate, other) in below.items():
            if order.index(ground) > order.index(title):
                raise Fault(f"crates.txt: {crate} looks up: it names {other}, which is in the later storey '{ground}'")
        grounds[title] = [ground for ground in order if ground in below]
    return grounds


def all_below(title, grounds):
    return {title}.union(*(all_below(ground, grounds) for ground in grounds[title]))


def nearest(title, grounds):
    """The grounds of a storey that no other ground of it stands on."""
    return [one for one in grounds[title] if not any(one in all_below(other, grounds) for other in grounds[title] if other != one)]


def floors_of(grounds):
    """The titles floor by floor, from below."""
    level = {}
    for title, below in grounds.items():
        level[title] = 1 + max((level[ground] for ground in below), default=-1)
    return [[title for title in level if level[title] == floor] for floor in range(max(level.values(), default=-1) + 1)]


def columns_of(titles, storeys):
    """How many columns each box of a floor has: one more, again and again, for the one with the most lines."""
    columns = dict.fromkeys(titles, 1)
    for _ in range(COLUMNS - len(titles)):
        columns[max(reversed(titles), key=lambda title: -(-len(storeys[title]) // columns[title]))] += 1
    return columns


def heading(title, count, width):
    return textwrap.wrap(f"{title} ({count})", int(width / (12 * 0.6)))


def footing(title, grounds, width):
    below = [one.split(" (")[0] for one in nearest(title, grounds)]
    return textwrap.wrap("on " + (", ".join(below) or "nothing but the kit"), int(width / (10 * 0.56)))


def draw(text):
    storeys, named = storeys_of(text)
    grounds = grounds_of(storeys, named)
    boxes, y = [], 42
    for floor, titles in reversed(list(enumerate(floors_of(grounds)))):
        if len(titles) > COLUMNS:
            raise Fault(f"a floor has {len(titles)} storeys, and there is room for {COLUMNS}")
        columns = columns_of(titles, storeys)
        unit = (WIDTH - 32 - GAP * (len(titles) - 1)) / sum(columns.values())
        heads = {title: heading(title, len(storeys[title]), unit * columns[title] - 16) for title in titles}
        feet = {title: footing(title, grounds, unit * columns[title] - 16) for title in titles}
        rows = {title: -(-len(storeys[title]) // columns[title]) for title in titles}
        tallest = max(HEAD * len(heads[title]) + LINE * rows[title] + FOOT * len(feet[title]) for title in titles) + 16
        x = 16
        for title in titles:
            boxes.append((x, y, unit * columns[title], tallest, FILLS[floor % len(FILLS)], title, heads[title], feet[title], columns[title]))
            x += unit * columns[title] + GAP
        y += tallest + GAP
    page = Page(f"{TITLE}; {sum(map(len, storeys.values()))} crates", WIDTH, y + 6)
    for x, y, width, height, fill, title, head, foot, columns in boxes:
        page.box(x, y, width, height, fill, rx=4)
        for at, line in enumerate(head):
            page.words(x + 8, y + HEAD * (at + 1), line, weight="600")
        rows = -(-len(storeys[title]) // columns)
        for at, crate in enumerate(storeys[title]):
            page.code(x + 8 + (width - 8) / columns * (at // rows), y + HEAD * len(head) + LINE * (at % rows + 1), crate)
        for at, line in enumerate(foot):
            page.words(x + 8, y + height - 8 - FOOT * (len(foot) - 1 - at), line, size=10, fill=FAINT)
        if any(width_of(crate, 11, True) > (width - 8) / columns for crate in storeys[title]):
            raise Fault(f"the storey '{title}' has no room for its longest name")
    return page.text()


def fault_of_map(text, crates):
    """What is wrong with the map of docs/CRATES.md, a row for each crate, the storey in the first row of its crates; nothing where it is that of crates.txt."""
    found, title = {}, ""
    for storey, crate in ROW.findall(text.partition("\n## Map\n")[2]):
        title = storey or title
        found.setdefault(title, []).append(crate)
    storeys, _ = storeys_of(crates)
    for title in [*storeys, *found]:
        if found.get(title) != storeys.get(title):
            return f"docs/CRATES.md: its map has not the crates of crates.txt in the storey '{title}'"
    return ""
