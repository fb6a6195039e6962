"""Document 01's refusals, and which papers of document 02 are in force."""

from dataclasses import dataclass
from typing import NamedTuple


class Refusal(NamedTuple):
    """A number, and the places or the count that it gives."""

    number: int
    values: tuple = ()


@dataclass(frozen=True)
class Rules:
    """A switch for each paper that changes a listing or an answer. With none, the rules are those of document 01."""

    weights_may_be_left_out: bool = False  # Paper 1: Loader.counted, Loader.close
    entry_covers_rounding: bool = False  # Paper 2: Program.entry_bound
    right_sides_have_tolerances: bool = False  # Paper 5: Loader.read; a tolerance of 0 everywhere is no slack in Reckoning
    repetition_before_values: bool = False  # Paper 6: Loader.order
    residuals_within_row_sums: bool = False  # Paper 9: Reckoning.row_sums


IN_FORCE = Rules(
    weights_may_be_left_out=True,
    entry_covers_rounding=True,
    right_sides_have_tolerances=True,
    repetition_before_values=True,
    residuals_within_row_sums=True,
)
