"""The loader: a file's lines one at a time, as they come."""

import ctypes
from typing import List

from .calls import COLUMN_LENGTH, MATRIX_LENGTH, _answer, _Bounds, _Places, _signed
from .library import library
from .nets import Limits, Net, Proposal


class Loader:
    """Takes a file's lines as they come (kodarfi_loader_new, kodarfi_loader_take) and checks what they gave (kodarfi_loader_check). A refused line is as if
    it had not been handed over: the next may be the corrected one.

        loader = Loader()
        for line in file.split(b"\\n"):
            loader.take(line)
        limits = loader.check()"""

    def __init__(self) -> None:
        self._numbers = (ctypes.c_uint32 * 9)()
        self._lists = [part for length in (MATRIX_LENGTH, *[COLUMN_LENGTH] * 3, MATRIX_LENGTH, COLUMN_LENGTH) for part in _signed([], length)]
        library().kodarfi_loader_new(self._numbers)

    @property
    def numbers(self) -> List[int]:
        """The loader's nine numbers: how far it has come (3: an accepted end), n, s, t, and the rows, right sides, guesses, inverse rows and weights that
        were given, the number i at bit i - 1."""
        return list(self._numbers)

    @property
    def is_ended(self) -> bool:
        """Whether an end was accepted."""
        return self._numbers[0] == 3

    def take(self, line: bytes) -> None:
        """Takes one line, without its line feed. Refused: 14, 1, 2, 11, 3, 12, 4 and 13, in the header's order; refused.line is not set."""
        places = _Places()
        _answer(library().kodarfi_loader_take(self._numbers, bytes(line), len(line), *self._lists, places), places)

    def check(self) -> Limits:
        """The limits of what was given. Refused: 15 no end was accepted; 3, 5, 6, 7 as in check."""
        bounds, places = _Bounds(), _Places()
        _answer(library().kodarfi_loader_check(self._numbers, *self._lists, *bounds.lists, places), places)
        return bounds.limits(self._numbers[1])

    def net(self) -> Net:
        """The equations as they were given so far, 0 where nothing was."""
        n = self._numbers[1]
        matrix, right, tolerance = self._lists[0], self._lists[2], self._lists[4]
        return Net([matrix[i * n : i * n + n] for i in range(n)], right[:n], tolerance[:n])

    def proposal(self) -> Proposal:
        """The equations and the proposal; after an accepted end it is the whole file's."""
        n, s, t = self._numbers[1:4]
        guess, inverse, weights = self._lists[6], self._lists[8], self._lists[10]
        return Proposal(self.net(), s, t, guess[:n], [inverse[i * n : i * n + n] for i in range(n)], weights[:n])
