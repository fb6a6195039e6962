"""The stored script of the program `samples` and its stored output (crates/samples/stdin and stdout), from the oracle.

  python3 tests/store.py               writes both
  python3 tests/store.py --check       compares them kind by kind, and runs the program on a script that fills its buffer: it prints nothing
  python3 tests/store.py --self-test   the output detects each mutant of the printing, meets every refusal, and a stored file changed in any kind is detected

The last line of the last two is 'N passed, M failed'."""

import re
import subprocess
import sys
from pathlib import Path

from common.suite import Tally
from samples import builds, files, lines, loader
from samples.printing import MUTANTS, Printing

ROOT = Path(__file__).resolve().parent.parent
FOLDER = ROOT / "crates" / "samples"
PROGRAM = ROOT / "target" / "bin" / "samples"
# The program reads so many bytes, and runs no script that fills them.
BUFFER = 262144
KINDS = {"lines": lines, "loader": loader, "files": files, "builds": builds}
REFUSALS = {*range(1, 9), *range(11, 18)}


def script_of(entries):
    assert not any(b"\xff" in entry for entry, _ in entries), "a byte of 255 ends an entry"
    return b"".join(entry + b"\xff" for entry, _ in entries)


def output_of(entries):
    return "".join(text for _, text in entries).encode()


def parts(printing=Printing()):
    """Script and output of each kind."""
    for name, kind in KINDS.items():
        entries = list(kind.entries(printing))
        yield name, script_of(entries), output_of(entries)


def faults(expected, script, output):
    """What is wrong with a script and an output, a sentence each; every kind stands at its own place."""
    if len(script) >= BUFFER:
        yield f"the script has {len(script)} bytes and fills the program's buffer"
    at = printed = 0
    for name, own_script, own_output in expected:
        if script[at : at + len(own_script)] != own_script:
            yield f"the stored script of the {name} differs"
        if output[printed : printed + len(own_output)] != own_output:
            yield f"the stored output of the {name} differs"
        at, printed = at + len(own_script), printed + len(own_output)
    if (len(script), len(output)) != (at, printed):
        yield "there is more, or less, than the kinds give"


def whole(expected):
    return b"".join(script for _, script, _ in expected), b"".join(output for _, _, output in expected)


def cut_faults(script):
    """What is wrong with the program's run on a script that fills its buffer, and beside it on one that just does not."""
    if not PROGRAM.is_file():
        return ["there is no target/bin/samples: run the gate first"]
    fills, fits = (script + b"\xfet" + b"x" * (length - len(script) - 3) + b"\xff" for length in (BUFFER, BUFFER - 1))
    run = lambda text: subprocess.run([str(PROGRAM)], input=text, capture_output=True, timeout=600)
    filled, fitted = run(fills), run(fits)
    run_anyway = [] if filled.stdout == b"" and filled.stderr else ["a script that fills the buffer is run, or refused in silence"]
    return run_anyway + ([] if fitted.stdout.endswith(b"x") else ["a script that does not fill the buffer is not run to its end"])


def check():
    stored = [(FOLDER / name).read_bytes() if (FOLDER / name).is_file() else b"" for name in ("stdin", "stdout")]
    tally, expected = Tally(), list(parts())
    tally.test("stored", list(faults(expected, *stored)))
    tally.test("buffer", cut_faults(stored[0]))
    return tally.close()


def self_test():
    tally, expected = Tally(), list(parts())
    script, output = whole(expected)
    tally.test("stored", list(faults(expected, script, output)))
    for name, printing in MUTANTS.items():
        tally.test(f"mutant '{name}'", ["not detected"] if whole(parts(printing))[1] == output else [])
    met = {int(number) for number in re.findall(rb"^(?:refused |[A-Za-z]: )?(\d+)\b", output, re.MULTILINE)}
    for number in sorted(REFUSALS):
        tally.test(f"refusal {number}", [] if number in met else ["not met"])
    changed = {
        "a script without its end": (script[:-1], output),
        "an output without its end": (script, output[:-1]),
        "a script that fills the buffer": (script + b"\xfet" + b"x" * BUFFER, output),
        **{f"a byte of the {name}": (script, output.replace(own, own[:-2] + b"?\n")) for name, _, own in expected},
    }
    for name, stored in changed.items():
        tally.test(name, [] if list(faults(expected, *stored)) else ["not detected"])
    return tally.close()


def write():
    for name, text in zip(("stdin", "stdout"), whole(list(parts()))):
        (FOLDER / name).write_bytes(text)
        print(f"crates/samples/{name}: {len(text)} bytes")
    return 0


def main():
    commands = {(): write, ("--check",): check, ("--self-test",): self_test}
    if tuple(sys.argv[1:]) in commands:
        return commands[tuple(sys.argv[1:])]()
    print(__doc__)
    return 2


if __name__ == "__main__":
    sys.exit(main())
