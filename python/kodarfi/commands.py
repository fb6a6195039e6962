"""The commands, from the bytes that each reads to the bytes that it prints. Each has a row of COMMANDS; what is more than a few lines has a module."""

from typing import Callable, Dict, List, NamedTuple, Optional, Sequence, Tuple

from . import audit, calls, draw, enter, field, forms, names, propose, sheet, svg
from .forms import FILE_LENGTH
from .nets import Proposal, Refused
from .texts import TEXT_LENGTH, TextError


class Given(NamedTuple):
    """What a command is given: the bytes of its files, how many lists of weights may be tried, the finest s of a proposal, whether a page is to be HTML, the
    names of its files, and the net that is corrected."""

    files: List[bytes]
    allowance: int = 64
    scale: int = propose.FINEST_S
    is_html: bool = False
    names: Sequence[str] = ()
    net: Optional[int] = None


class Unmade(Exception):
    """Nothing can be made of what was read, though no number is refused: one line, and a status of 1."""


class Pictured(Exception):
    """A picture of a file that is refused, which is printed in place of the refusal's line."""

    def __init__(self, picture: bytes, refused: Refused) -> None:
        super().__init__(picture, refused)
        self.picture, self.refused = picture, refused


def build(given: Given) -> bytes:
    return forms.net_text(field.net(field.read(given.files[0])))


def make_proposal(given: Given) -> bytes:
    if given.files[0].startswith(b"(refused "):
        raise Unmade("what made the equations has refused them")
    try:
        return forms.proposal_text(propose.propose(forms.read_net(given.files[0]), given.scale))
    except propose.NoInverse as error:
        raise Unmade(str(error)) from None


def check(given: Given) -> bytes:
    answer = calls.listing(given.files[0])
    if answer.refused:
        raise answer.refused
    return answer.text


def weights(given: Given) -> bytes:
    proposal = forms.read(given.files[0])
    found = calls.find_weights(proposal.net.matrix, proposal.inverse, proposal.t, given.allowance)
    return forms.proposal_text(Proposal(proposal.net, proposal.s, proposal.t, proposal.guess, proposal.inverse, found.weights))


def _of(place: int, refused: Refused) -> Refused:
    """The refusal as one of two nets' or proposals', 1 or 2."""
    return Refused(refused.number, refused.places, refused.line, place, refused.note)


def common(given: Given) -> bytes:
    proposals = []
    for place, file in enumerate(given.files, 1):
        try:
            proposals.append(forms.read(file))
        except Refused as refused:
            raise _of(place, refused) from None
    found = calls.common(*proposals)
    return _listed(f"(common {len(found.intervals)} {found.s})", [f"(interval {i} ({low} {high}))" for i, (low, high) in enumerate(found.intervals, 1)])


def intervals(given: Given) -> bytes:
    proposal = forms.read(given.files[0])
    ends = calls.intervals(proposal.guess, calls.check(proposal).solution, proposal.s)
    return _listed(f"(intervals {len(ends)})", [f"(interval {i} ({low!r} {high!r}))" for i, (low, high) in enumerate(ends, 1)])


def quality(given: Given) -> bytes:
    factor = calls.quality(forms.read(given.files[0]))
    return f"(quality {factor.numerator} {factor.denominator})\n".encode()


def dependent(given: Given) -> bytes:
    """The main net is judged before the dependent net's lines are looked at, as Paper 8 has it."""
    try:
        main = forms.read(given.files[0])
        limits = calls.check(main)
    except Refused as refused:
        raise _of(1, refused) from None
    try:
        book = field.read(given.files[1], has_main=True)
        net = field.net(book, main.net.n)
        coupling = field.coupling(book, net.n, main.net.n)
        proposal = propose.propose_dependent(main, limits, net, coupling)
    except TextError as error:
        error.file = 1
        raise
    except Refused as refused:
        raise _of(2, refused) from None
    except propose.NoInverse as error:
        raise Unmade(str(error)) from None
    return b"".join(map(forms.listing_text, (main, proposal), calls.check_dependent(main, proposal, coupling)))


def _named(given: Given, proposal: Proposal) -> names.Names:
    """The names of the second file, one for each mark."""
    try:
        return names.read(given.files[1], proposal.net.n)
    except TextError as error:
        error.file = 1
        raise


def make_sheet(given: Given) -> bytes:
    proposal = forms.read(given.files[0])
    limits = calls.check(proposal)
    page = sheet.page(given.files[0], proposal, limits, _named(given, proposal))
    return (sheet.html if given.is_html else sheet.text)(page).encode()


def make_drawing(given: Given) -> bytes:
    proposal = forms.read(given.files[0])
    named = _named(given, proposal) if len(given.files) > 1 else None
    try:
        return svg.svg(draw.picture(proposal, named, calls.check(proposal))).encode()
    except Refused as refused:
        raise Pictured(svg.svg(draw.picture(proposal, named, refused)).encode(), refused) from None


def enter_net(given: Given) -> bytes:
    return enter.report(enter.enter(given.names[0], given.names[1], given.files[1], given.net)).encode()


def look_through(given: Given) -> bytes:
    return audit.look(given.names[0]).encode()


def _listed(head: str, lines: List[str]) -> bytes:
    return "".join(line + "\n" for line in (head, *lines, "(end)")).encode()


class Command(NamedTuple):
    """A command: what it does, how it is called, what it gives, the most bytes of each of its files that are read, and how many it needs."""

    act: Callable[[Given], bytes]
    files: str
    gives: str
    lengths: Tuple[int, ...] = (FILE_LENGTH,)
    least: int = 0


# One byte more than a text may have shows that it is too long.
_TEXT = TEXT_LENGTH + 1
# A register is opened by its command, and not read before.
REGISTER = 0

COMMANDS: Dict[str, Command] = {
    "build": Command(build, "[FIELD]", "field lines, as text or CSV, to the equations, by the proved builder", (_TEXT,)),
    "propose": Command(make_proposal, "[--scale S] [FILE]", "equations to a whole file, with a proposal by floating point"),
    "check": Command(check, "[FILE]", "the listing of a file, byte for byte that of ./register"),
    "weights": Command(weights, "[--allowance N] [FILE]", "the file with weights that the library finds"),
    "common": Command(common, "A B", "what two files for the same equations together say of each height", (FILE_LENGTH, FILE_LENGTH), 2),
    "intervals": Command(intervals, "[FILE]", "the doubles between which each exact height lies, in units"),
    "quality": Command(quality, "[FILE]", "how far the file's limits can lie above true errors: a factor"),
    "dependent": Command(dependent, "MAIN FIELD", "the listings of a file and of a net that hangs from it, one after the other", (FILE_LENGTH, _TEXT), 2),
    "sheet": Command(make_sheet, "[--html] FILE NAMES", "an accepted file as a page for the records, text or HTML", (FILE_LENGTH, _TEXT), 2),
    "draw": Command(make_drawing, "[FILE [NAMES]]", "the net of a file as a picture (SVG), a refused row in red", (FILE_LENGTH, _TEXT)),
    "enter": Command(enter_net, "[--corrects NET] REGISTER FILE", "an accepted file into a register that keeps it", (REGISTER, FILE_LENGTH), 2),
    "audit": Command(look_through, "REGISTER", "every file of a register judged again, and what does not follow named", (REGISTER,), 1),
}
