"""What a property is handed: a net by chance and the package's calls, or those of a mutant."""

from functools import cached_property, wraps
from types import SimpleNamespace
from typing import Any, Callable, List, NamedTuple, Tuple

import kodarfi
from kodarfi import Limits, Refused
from kodarfi.forms import proposal_text
from nets import Case, dependent_net

SENTENCES: List[Callable] = []


def sentence(applies: str = "case") -> Callable:
    """Notes a property: a function that is handed a Given, and says whether a sentence holds of it, or None where it does not apply; it applies only where the
    Given `applies`."""

    def noted(each: Callable) -> Callable:
        SENTENCES.append(wraps(each)(lambda given: each(given) if getattr(given, applies) else None))
        return SENTENCES[-1]

    return noted


class No(NamedTuple):
    """A refusal that can be compared."""

    number: int
    places: Tuple[int, int] = (0, 0)
    line: int = 0
    net: int = 0


def calls(**other: Any) -> SimpleNamespace:
    """The package's calls; some of them may be others."""
    return SimpleNamespace(**{**{name: getattr(kodarfi, name) for name in kodarfi.__all__}, **other})


def refusal(refused: Refused) -> No:
    return No(refused.number, refused.places, refused.line, refused.net)


def outcome(call, *words):
    """What a call gives, or what it refuses, as a No."""
    try:
        return call(*words)
    except Refused as refused:
        return refusal(refused)


class Given:
    """A case before some calls, with what several properties ask of it."""

    def __init__(self, case: Case, called: SimpleNamespace) -> None:
        self.case, self.calls, self.proposal, self.exact = case, called, case.proposal, case.exact

    @cached_property
    def checked(self) -> Any:
        """The limits of the proposal, or what is refused."""
        return outcome(self.calls.check, self.proposal)

    @property
    def is_accepted(self) -> bool:
        return isinstance(self.checked, Limits)

    @property
    def is_solved(self) -> bool:
        return self.is_accepted and self.exact is not None

    @property
    def has_lines(self) -> bool:
        return bool(self.case.lines)

    @property
    def hangs(self) -> bool:
        """Whether another net hangs from this one, which is accepted."""
        return self.dependent is not None and self.is_accepted

    @property
    def is_in_range(self) -> bool:
        return self.checked != No(3)

    @cached_property
    def dependent(self) -> Any:
        """A net that depends on this one, its coupling and its exact inverse; for every other case."""
        return dependent_net(self.case, self.case.chance("dependent")) if self.case.index % 2 == 0 else None

    @cached_property
    def lines(self) -> List[bytes]:
        """The proposal's file, each kind by rising i."""
        return proposal_text(self.proposal).splitlines()
