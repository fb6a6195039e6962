"""Where the marks of a net are drawn. Marks that are k lines apart are drawn about k apart, by making the stress small, the sum of squared relative errors.
Nothing depends on chance, on a library of mathematics or on how Python adds floats, so a net has one picture everywhere."""

from math import sqrt
from typing import List, Tuple

Point = Tuple[float, float]
Pair = Tuple[int, int]

ROUNDS, OFF_ROUNDS = 80, 12
GAP = 0.22  # of a line's length


def steps_apart(count: int, pairs: List[Pair]) -> List[List[int]]:
    """How many lines lie between each two marks; between marks that do not hang together one more than between any others."""
    far = count + 1
    apart = [[0 if i == j else far for j in range(count)] for i in range(count)]
    for i, j in pairs:
        apart[i][j] = apart[j][i] = 1
    for middle in range(count):
        through = apart[middle]
        for row in apart:
            first = row[middle]
            for j in range(count):
                if first + through[j] < row[j]:
                    row[j] = first + through[j]
    largest = max((step for row in apart for step in row if step < far), default=0)
    return [[min(step, largest + 1) for step in row] for row in apart]


def _on_a_square(order: List[int]) -> List[Point]:
    """Marks in an order around a square."""
    places: List[Point] = [(0.0, 0.0)] * len(order)
    for at, mark in enumerate(order):
        side, along = divmod(4 * at, len(order))
        t = along / len(order)
        places[mark] = ((t, 0.0), (1.0, t), (1.0 - t, 1.0), (0.0, 1.0 - t))[side]
    return [(x * len(order) / 2, y * len(order) / 2) for x, y in places]


def _distance(one: Point, other: Point) -> float:
    x, y = one[0] - other[0], one[1] - other[1]
    return sqrt(x * x + y * y)


def _stress(places: List[Point], apart: List[List[int]]) -> float:
    total = 0.0
    for i, one in enumerate(places):
        for j in range(i):
            error = _distance(one, places[j]) / apart[i][j] - 1
            total += error * error
    return total


def _moved(i: int, places: List[Point], apart: List[List[int]]) -> Point:
    """The place for mark i that makes the stress least while the others stay, nearly: each other mark draws it to its distance from there."""
    x = y = weights = 0.0
    for j, (other_x, other_y) in enumerate(places):
        if j != i:
            steps = apart[i][j]
            away = _distance(places[i], places[j])
            over = steps / away if away > 1e-9 else 0.0
            weight = 1.0 / (steps * steps)
            x += weight * (other_x + over * (places[i][0] - other_x))
            y += weight * (other_y + over * (places[i][1] - other_y))
            weights += weight
    return x / weights, y / weights


def _settled(order: List[int], apart: List[List[int]]) -> List[Point]:
    places = _on_a_square(order)
    for _ in range(ROUNDS):
        for i in range(len(places)):
            places[i] = _moved(i, places, apart)
    return places


def _away(mark: Point, start: Point, end: Point) -> Point:
    """How far a mark is to move so that it lies at least GAP from a line that is not its own."""
    along_x, along_y = end[0] - start[0], end[1] - start[1]
    length = along_x * along_x + along_y * along_y
    from_x, from_y = mark[0] - start[0], mark[1] - start[1]
    at = (from_x * along_x + from_y * along_y) / length if length > 1e-9 else 0.0
    if not 0.0 < at < 1.0:
        return 0.0, 0.0
    x, y = from_x - at * along_x, from_y - at * along_y
    distance = sqrt(x * x + y * y)
    if distance >= GAP:
        return 0.0, 0.0
    if distance < 1e-6:
        x, y, distance = -along_y, along_x, sqrt(length)
        return GAP * x / distance, GAP * y / distance
    return (GAP - distance) * x / distance, (GAP - distance) * y / distance


def _off_the_lines(places: List[Point], pairs: List[Pair]) -> List[Point]:
    """The places with marks moved off lines that only pass by: such a line would look as if it ended there."""
    moved = list(places)
    for _ in range(OFF_ROUNDS):
        for mark in range(len(moved)):
            for i, j in pairs:
                if mark not in (i, j):
                    x, y = _away(moved[mark], moved[i], moved[j])
                    moved[mark] = moved[mark][0] + x, moved[mark][1] + y
    return moved


def positions(count: int, pairs: List[Pair]) -> List[Point]:
    """A place for each mark, a line being about 1 long: the best of a few beginnings. The first mark lies at the left."""
    apart = steps_apart(count, pairs)
    by_number = list(range(count))
    by_steps = sorted(by_number, key=lambda mark: (apart[0][mark], mark))
    by_ends = sorted(by_number, key=lambda mark: (apart[0][mark] - apart[by_steps[-1]][mark], mark))
    found = min((_settled(order, apart) for order in (by_number, by_steps, by_ends)), key=lambda places: _stress(places, apart))
    found = _off_the_lines(found, pairs)
    middle = (min(x for x, _ in found) + max(x for x, _ in found)) / 2
    return [(-x, y) for x, y in found] if found[0][0] > middle else found
