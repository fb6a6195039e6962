"""Files: the forms of document 01, read by the proved loader and written as ./register reads them."""

from typing import Callable, List

from .calls import entry
from .loader import Loader
from .nets import Limits, Net, Proposal, Refused

# The bytes of a file that decide its answer (KODARFI_FILE_LENGTH): no more need be read.
FILE_LENGTH = 65536
# What the forms of a proposal begin with, beside the equations.
PROPOSED = (b"(scale ", b"(guess ", b"(inverse ", b"(weight ", b"(end)")


def _lines(file: bytes) -> List[bytes]:
    """A last line may lack its line feed."""
    pieces = file[:FILE_LENGTH].split(b"\n")
    return pieces if pieces[-1] else pieces[:-1]


def _each(file: bytes, take: Callable[[bytes], None]) -> None:
    """Takes a file's lines; what is refused gets the line's number."""
    for count, line in enumerate(_lines(file), 1):
        try:
            take(line)
        except Refused as refused:
            raise Refused(refused.number, refused.places, count) from None


def read(file: bytes) -> Proposal:
    """The equations and the proposal of a whole file. Refused as a listing of it is, but for 5, 6 and 7, which are a check's."""
    loader = Loader()
    _each(file, loader.take)
    if not loader.is_ended:
        raise Refused(15)
    return loader.proposal()


def read_net(file: bytes) -> Net:
    """The equations of a file that has problem, rows and right sides; a proposal that is there too is passed over. Refused as a listing is: 15 where there
    is no problem, 13 where rows or right sides are missing."""
    loader = Loader()

    def take(line: bytes) -> None:
        if not line.startswith(PROPOSED):
            loader.take(line)
        if loader.numbers[0] == 1:
            loader.take(b"(scale 0 0)")  # the loader wants one before rows; it has no say in them

    _each(file, take)
    _, n, _, _, rows, rights, *_ = loader.numbers
    if not n:
        raise Refused(15)
    missing = 2 * n - bin(rows).count("1") - bin(rights).count("1")
    if missing:
        raise Refused(13, (missing, 0))
    return loader.net()


def _list(numbers: List[int]) -> str:
    return " ".join(map(str, numbers))


def _net_lines(net: Net) -> List[str]:
    """Rows and right sides, each kind by rising i."""
    rows = [f"(row {i} ({_list(row)}))" for i, row in enumerate(net.filled_out().matrix, 1)]
    return rows + [f"(right {i} ({b} {d}))" if d else f"(right {i} {b})" for i, (b, d) in enumerate(zip(net.right, net.tolerance), 1)]


def _file(lines: List[str]) -> bytes:
    return "".join(line + "\n" for line in lines).encode()


def net_text(net: Net) -> bytes:
    """Problem, rows and right sides, with their tolerances where they are above 0."""
    return _file([f"(problem {net.n})", *_net_lines(net)])


def proposal_text(proposal: Proposal) -> bytes:
    """A whole file."""
    lines = [f"(problem {proposal.net.n})", f"(scale {proposal.s} {proposal.t})", *_net_lines(proposal.net)]
    lines += [f"(guess {i} {X})" for i, X in enumerate(proposal.guess, 1)]
    lines += [f"(inverse {i} ({_list(row)}))" for i, row in enumerate(proposal.inverse, 1)]
    lines += [f"(weight {i} {w})" for i, w in enumerate(proposal.weights, 1)]
    return _file(lines + ["(end)"])


def listing_text(proposal: Proposal, limits: Limits) -> bytes:
    """An accepted proposal's listing, as ./register prints one."""
    heights = list(zip(proposal.guess, limits.solution))
    entries = [entry(X, E, proposal.s) for X, E in heights]
    lines = [f"(bounds {proposal.net.n})"]
    lines += [f"(solution {i} ({X} {E}))" for i, (X, E) in enumerate(heights, 1)]
    lines += [f"(entry {i} ({V} {limit}))" for i, (V, limit) in enumerate(entries, 1)]
    lines += [f"(inverse {i} ({_list(row)}))" for i, row in enumerate(limits.inverse, 1)]
    return _file(lines + ["(end)"])
