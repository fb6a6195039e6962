"""A program under test, and what it leaves: standard output, standard error and its status."""

import shlex
import subprocess
from typing import NamedTuple

# Seconds until a program hangs: far above what a slow machine takes.
LONGEST_RUN = 600


class Ran(NamedTuple):
    listing: bytes
    complaint: bytes = b""
    status: int = 0

    def differences(self, expected):
        """What is wrong beside a right listing, nothing on standard error and the status 0, a sentence each."""
        return [
            sentence
            for sentence, holds in (
                (f"printed {shortened(self.listing)}, expected {shortened(expected)}", self.listing == expected),
                (f"said {shortened(self.complaint)} on standard error", not self.complaint),
                (f"ended with status {self.status}", self.status == 0),
            )
            if not holds
        ]


def shortened(text):
    return repr(text.decode("latin-1")[:120])


def outside(command):
    """A program that reads standard input and prints a listing, as a function of the file."""
    words = shlex.split(command)

    def run(file):
        try:
            done = subprocess.run(words, input=file, capture_output=True, timeout=LONGEST_RUN, check=False)
        except subprocess.TimeoutExpired as late:
            return Ran(late.stdout or b"", f"no end after {LONGEST_RUN} s".encode(), -1)
        return Ran(done.stdout, done.stderr, done.returncode)

    return run
