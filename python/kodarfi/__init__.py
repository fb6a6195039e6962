"""Kodarfi's checker of error limits for levelling nets, from Python.

A solver that nobody needs to trust proposes heights, an inverse and weights for a net; the proved library says how far the exact heights can lie from
them, or refuses with a number:

    from kodarfi import Net, Proposal, Refused, check, entry

    net = Net([[4, -1], [-1, 3]], [10, 5], tolerance=[1, 0])
    proposal = Proposal(net, s=3, t=4, guess=[25, 22], inverse=[[4, 1], [1, 6]])
    try:
        limits = check(proposal)
    except Refused as refused:
        print(refused.text())
    else:
        for guess, limit in zip(proposal.guess, limits.solution):
            print(entry(guess, limit, proposal.s))

Lists go in and lists come out; matrices are lists of rows. A list with another count of numbers is a ValueError, a number that is not whole a TypeError,
and everything that the papers refuse is Refused, with its number, its place and the plain words.

The functions: check, check_half, listing, entry, find_weights, build, build_half, guesses, intervals, check_dependent, common, convert, quality, and the
Loader. The types: Net, Proposal, Limits, FieldLine, Entry, Found, Common, Factor, Listing, Refused. Beside them: kodarfi.forms reads and writes files,
kodarfi.field reads field books and makes equations of them, also of a net that hangs from another, kodarfi.propose is a solver, kodarfi.names reads the
names of marks, kodarfi.sheet makes pages and kodarfi.draw pictures, kodarfi.enter and kodarfi.audit keep a register, and python3 -m kodarfi has commands.
What is promised of each call is proved, and include/kodarfi.h states it in full, with all ranges; this package only hands the numbers over, and is tested.

The package needs the shared object libkodarfi.so. It is looked for at the first call: what KODARFI_LIBRARY names, the checkout's target/lib (made by
'make lib'), the lib folder of Python's own prefix and of /usr/local, and wherever the system's loader looks; LibraryMissing says so where there is none."""

from .calls import build, build_half, check, check_dependent, check_half, common, convert, entry, find_weights, guesses, intervals, listing, quality
from .library import LibraryMissing
from .loader import Loader
from .nets import Common, Entry, Factor, FieldLine, Found, Limits, Listing, Net, Proposal, Refused

__version__ = "3.0.0"

__all__ = [
    "Common", "Entry", "Factor", "FieldLine", "Found", "LibraryMissing", "Limits", "Listing", "Loader", "Net", "Proposal", "Refused",
    "build", "build_half", "check", "check_dependent", "check_half", "common", "convert", "entry", "find_weights", "guesses", "intervals", "listing", "quality",
]  # fmt: skip
