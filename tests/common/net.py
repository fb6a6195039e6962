"""A system with its proposal, and its file as lines of text."""

from dataclasses import dataclass, replace

SIZE, WHOLE, LARGE = 2**20, 2**30, 2**36


@dataclass(frozen=True)
class Net:
    """n equations: matrix and inverse as tuples of rows, right side, tolerances, guess and weights as tuples."""

    s: int
    t: int
    matrix: tuple
    right: tuple
    tolerance: tuple
    guess: tuple
    inverse: tuple
    weights: tuple

    @property
    def n(self):
        return len(self.matrix)

    def with_(self, **changes):
        return replace(self, **{name: frozen(value) for name, value in changes.items()})

    def is_in_range(self):
        """01: Every form has its own range."""
        return (
            all(-SIZE <= min(row) and max(row) <= SIZE for row in self.matrix + self.inverse)
            and all(abs(value) <= WHOLE for value in self.right)
            and all(0 <= value <= SIZE for value in self.tolerance)
            and all(abs(value) <= LARGE for value in self.guess)
            and all(1 <= value <= 1024 for value in self.weights)
        )


def frozen(value):
    """Lists of numbers and lists of lists as tuples."""
    is_list = lambda part: isinstance(part, (list, tuple))
    if not is_list(value):
        return value
    return tuple(map(frozen, value)) if any(map(is_list, value[:1])) else tuple(value)


def net_of(s, t, matrix, right, guess, inverse, weights):
    """A net whose right sides have no tolerance."""
    return Net(s, t, *(frozen(part) for part in (matrix, right, [0] * len(right), guess, inverse, weights)))


def right_line(i, b, d):
    """02, Paper 5: "(right i b) means d = 0"."""
    return f"(right {i} ({b} {d}))" if d else f"(right {i} {b})"


def lines_of(net):
    """The file's lines, kind after kind, without line feeds."""
    places = range(1, net.n + 1)
    return [
        f"(problem {net.n})",
        f"(scale {net.s} {net.t})",
        *(f"(row {i} ({joined(row)}))" for i, row in zip(places, net.matrix)),
        *map(right_line, places, net.right, net.tolerance),
        *(f"(guess {i} {X})" for i, X in zip(places, net.guess)),
        *(f"(inverse {i} ({joined(row)}))" for i, row in zip(places, net.inverse)),
        *(f"(weight {i} {w})" for i, w in zip(places, net.weights)),
        "(end)",
    ]


def flat(rows):
    """The numbers of rows, row after row."""
    return [value for row in rows for value in row]


def joined(numbers):
    return " ".join(map(str, numbers))


def file_of(lines):
    """Lines of text as a file, each ended by one line feed."""
    return b"".join(line.encode("latin-1") + b"\n" for line in lines)


def direct_sum(nets):
    """Several systems with equal s and t as one, along the diagonal."""
    n = sum(net.n for net in nets)
    matrix, inverse, at = [], [], 0
    for net in nets:
        pad = lambda row: (0,) * at + row + (0,) * (n - at - net.n)
        matrix += [pad(row) for row in net.matrix]
        inverse += [pad(row) for row in net.inverse]
        at += net.n
    lists = (sum((getattr(net, name) for net in nets), ()) for name in ("right", "guess", "weights", "tolerance"))
    right, guess, weights, tolerance = lists
    return net_of(nets[0].s, nets[0].t, matrix, right, guess, inverse, weights).with_(tolerance=tolerance)


def relabelled(net, rows, columns):
    """The equations in the order `rows` and the unknowns in the order `columns`, the proposal along with them."""
    pick = lambda values, order: tuple(values[i] for i in order)
    return net.with_(
        matrix=[pick(net.matrix[i], columns) for i in rows],
        right=pick(net.right, rows),
        tolerance=pick(net.tolerance, rows),
        guess=pick(net.guess, columns),
        inverse=[pick(net.inverse[i], rows) for i in columns],
        weights=pick(net.weights, columns),
    )
