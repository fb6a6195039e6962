"""Lines as they are typed, from Python by ctypes: loader.py LIBRARY, where LIBRARY is the shared object.

Takes standard input line by line, names each refused line and goes on; at the end of the input it checks what was collected and prints the solution's limits.
Exit status 0 where the check accepts it, 1 where it is refused, 2 where nothing can be read or written."""

import ctypes
import os
import signal
import sys

NUMBERS = ctypes.c_uint32 * 9
PLACES = ctypes.c_uint64 * 2
# the matrix, the right sides, the tolerances, the guesses, the inverse and the weights; then the limits of the solution and of the inverse
LISTS = tuple(ctypes.c_int64 * length for length in (1024, 32, 32, 32, 1024, 32))
LIMITS = tuple(ctypes.c_uint64 * length for length in (32, 1024))


def lent(lists):
    """The lists as a call takes them, each with its length."""
    return [value for numbers in lists for value in (numbers, len(numbers))]


def types_of(lists):
    return [kind for numbers in lists for kind in (numbers, ctypes.c_size_t)]


class Loader:
    def __init__(self, library):
        self.take_line, self.check_lists = library.kodarfi_loader_take, library.kodarfi_loader_check
        self.take_line.restype = self.check_lists.restype = ctypes.c_uint32
        self.take_line.argtypes = [NUMBERS, ctypes.c_char_p, ctypes.c_size_t, *types_of(LISTS), PLACES]
        self.check_lists.argtypes = [NUMBERS, *types_of(LISTS), *types_of(LIMITS), PLACES]
        library.kodarfi_loader_new.restype, library.kodarfi_loader_new.argtypes = None, [NUMBERS]
        self.numbers, self.places = NUMBERS(), PLACES()
        self.lists, self.limits = [kind() for kind in LISTS], [kind() for kind in LIMITS]
        library.kodarfi_loader_new(self.numbers)

    def take(self, line):
        """What is said of a line without its line feed, 0 where it is accepted; the count of 13 is in places."""
        return self.take_line(self.numbers, line, len(line), *lent(self.lists), self.places)

    def check(self):
        return self.check_lists(self.numbers, *lent(self.lists), *lent(self.limits), self.places)

    def solution(self):
        """Of each height the guess and its limit."""
        return list(zip(self.lists[3], self.limits[0]))[: self.numbers[1]]


def load(loader, lines):
    for count, line in enumerate(lines, 1):
        number = loader.take(line[:-1] if line.endswith(b"\n") else line)
        if number:
            print(f"line {count} is refused: {number} ({loader.places[0]})", flush=True)
    number = loader.check()
    if number:
        print(f"the check is refused: {number} ({loader.places[0]} {loader.places[1]})", flush=True)
    else:
        print("".join(f"(solution {i} ({guess} {limit}))\n" for i, (guess, limit) in enumerate(loader.solution(), 1)), end="", flush=True)
    return int(number != 0)


def main():
    if len(sys.argv) != 2:
        print("usage: loader.py LIBRARY", file=sys.stderr)
        return 2
    signal.signal(signal.SIGINT, signal.SIG_DFL)  # whoever types may stop at any line
    for name, stream in ("input", sys.stdin), ("output", sys.stdout):
        if stream is None:
            print(f"standard {name}: closed", file=sys.stderr)
            return 2
    try:
        return load(Loader(ctypes.CDLL(os.path.abspath(sys.argv[1]))), sys.stdin.buffer)
    except (OSError, AttributeError) as error:
        print(error, file=sys.stderr)
        # what is left in the buffer of standard output has nowhere to go
        os.dup2(os.open(os.devnull, os.O_WRONLY), 1)
        return 2


if __name__ == "__main__":
    sys.exit(main())
