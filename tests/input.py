"""The program `input_samples` on standard inputs: what `fill`, `read_front` and `skip_rest` of the crate `program_input` give, and why a read failed. No contract knows
what was read, or why a read failed.

  python3 tests/input.py    the last line is 'N passed, M failed'"""

import contextlib
import errno
import os
import socket
import subprocess

from common.mutated import ROOT, holds, main, report

PROGRAM = ROOT / "target" / "bin" / "input_samples"
PATIENCE = 60
# fill of 4 bytes, read_front of 8, fill, skip_rest: how many bytes or why not, and the buffer.
PRINTED = "fill {}\nread_front {}\nfill {}\nskip_rest{}\n"


def run(**options):
    return subprocess.run([str(PROGRAM)], check=False, stdout=subprocess.PIPE, stderr=subprocess.PIPE, timeout=PATIENCE, **options)


def prints(done, fill="0 ----", front="0 --------", last="0 ----", rest=""):
    expected = PRINTED.format(fill, front, last, rest).encode()
    assert (done.returncode, done.stdout, done.stderr) == (0, expected, b""), f"{done.stdout} and not {expected}, {done.stderr}, status {done.returncode}"
    return True


def why(number):
    return f"{os.strerror(number)} (os error {number})"


def in_pieces(*pieces):
    """What the program gives where each piece comes as a write of its own, a moment after the one before it."""
    slow = "; sleep 0.02; ".join(f"printf %s {piece}" for piece in pieces)
    with subprocess.Popen(["sh", "-c", slow], stdout=subprocess.PIPE) as writer, writer.stdout:
        return run(stdin=writer.stdout)


def failing_after(data):
    """What the program gives where one read fails after these bytes: the other end of a socket is closed with a byte unread."""
    given, other = socket.socketpair()
    with given:
        given.sendall(b"x")
        other.sendall(data)
        other.close()
        return run(stdin=given)


def never_read(path, mode):
    """What the program gives where every read fails."""
    given = os.open(path, mode)
    try:
        return run(stdin=given)
    finally:
        os.close(given)


def never(number):
    reason = why(number)
    return {"fill": f"{reason} ----", "front": f"{reason} --------", "last": f"{reason} ----", "rest": f" {reason}"}


RESET = why(errno.ECONNRESET)
TESTS = {
    "nothing": lambda: prints(run(input=b"")),
    "less than the first buffer": lambda: prints(run(input=b"ab"), "2 ab--"),
    "less than both": lambda: prints(run(input=b"abcdef"), "4 abcd", "2 ef------"),
    "just both": lambda: prints(run(input=b"abcdefghijkl"), "4 abcd", "8 efghijkl"),
    "four million bytes more": lambda: prints(run(input=b"abcdefghijkl" + b"x" * 4000000), "4 abcd", "8 efghijkl"),
    "in pieces": lambda: prints(in_pieces("abc", "defghij", "k", "lm", "n"), "4 abcd", "8 efghijkl"),
    "a read fails in fill": lambda: prints(failing_after(b"ab"), f"{RESET} ab--"),
    "a read fails in read_front": lambda: prints(failing_after(b"abcdef"), "4 abcd", f"{RESET} ef------"),
    "a read of what is skipped fails": lambda: prints(failing_after(b"abcdefghijklmn"), "4 abcd", f"{RESET} efghijkl"),
    "a folder": lambda: prints(never_read(ROOT, os.O_RDONLY), **never(errno.EISDIR)),
    "open for writing alone": lambda: prints(never_read(os.devnull, os.O_WRONLY), **never(errno.EBADF)),
}


def results():
    for name, test in TESTS.items():
        held = lambda _, test=test: test()
        held.__name__ = name
        yield name, holds(held, contextlib.nullcontext())


if __name__ == "__main__":
    main(lambda: report(results()), PROGRAM)
