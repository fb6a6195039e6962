"""How ./convert is called, what it prints, and its exit status: 0 converted, 1 refused, 2 where nothing could be converted; mutants of the script."""

import hashlib

from command_line.sandbox import failed
from common.mutated import named
from common.whole_file import WHOLE

FILE = "examples/whole-file.txt"


def run(sandbox, *words, text=b""):
    return sandbox.run(*words, text=text, script="convert")


def version_beside_the_program(sandbox):
    """What was written beside the program when it was built is said, and nothing of another program."""
    digest = hashlib.sha256((sandbox.root / "target/bin/convert").read_bytes()).hexdigest()
    said = []
    for beside in (digest, "0" * 64):
        sandbox.write("target/bin/convert.version", f"version 3, commit abc, kit k\n{beside}\nnames\n")
        said.append(run(sandbox, "--version")[1])
    (sandbox.root / "target/bin/convert.version").unlink()
    return said == [b"convert: version 3, commit abc, kit k\n", run(sandbox, "--version")[1]]


def program_that_cannot_read(sandbox):
    """It is replaced by one that says so."""
    sandbox.put_program("printf 'convert: the input could not be read\\n' >&2\n", name="convert")
    return run(sandbox, FILE) == (2, b"", f"convert: {FILE}: the input could not be read\n".encode())


def with_tolerance(sandbox, *words):
    """A file with a tolerance, whose name is like an option."""
    (sandbox.root / "-tolerance").symlink_to("examples/tolerance.txt")
    return run(sandbox, *words, "-tolerance")


TESTS = named("convert", {
    "a file by its name": lambda box: run(box, FILE) == (0, WHOLE, b""),
    "standard input": lambda box: run(box, text=WHOLE) == (0, WHOLE, b""),
    "standard input as -": lambda box: run(box, "-", text=WHOLE) == (0, WHOLE, b""),
    "weights left out": lambda box: run(box, text=WHOLE.replace(b"(weight 1 1)\n(weight 2 1)\n", b"")) == (0, WHOLE, b""),
    "a tolerance": lambda box: with_tolerance(box, "--") == (1, b"(refused 22 (0))\n", b""),
    "a refused line": lambda box: run(box, text=b"(problem 2)\n(row 1 (1 1))\n") == (1, b"(refused 11 (2))\n", b""),
    "an empty input": lambda box: run(box) == (1, b"(refused 15 (0))\n", b""),
    "no such file": lambda box: run(box, "none.txt") == (2, b"", b"convert: none.txt: no such file\n"),
    "a folder": lambda box: run(box, "crates") == (2, b"", b"convert: crates: a folder, not a file\n"),
    "two files": lambda box: run(box, FILE, FILE)[:2] == (2, b""),
    "no such option": lambda box: with_tolerance(box)[:2] == (2, b""),
    "help": lambda box: run(box, "--help")[1].startswith(b"usage: convert [FILE]"),
    "help by -h": lambda box: run(box, "-h") == run(box, "--help") and run(box, "-h")[0] == 0,
    "a version that is not known": lambda box: run(box, "--version") == (0, b"convert: commit unknown, kit unknown: the program was not built by ./convert\n", b""),
    "a version beside the program": version_beside_the_program,
    "a full output": lambda box: failed(box.shell(f"./convert {FILE} >/dev/full"), f"convert: {FILE}: standard output could not be written"),
    "a reader that has gone": lambda box: box.shell(f"./convert {FILE} | exec true; echo ${{PIPESTATUS[0]}}") == (0, b"0\n", b""),
    "a program that cannot read": program_that_cannot_read,
})

CONVERT, SHARED = "convert", "scripts/command_line.sh"
MUTANTS = {
    "refused with status 0": (CONVERT, "  converted=1\n", "  converted=0\n", TESTS["a refused line"]),
    "converted with status 1": (CONVERT, "  converted=0\n", "  converted=1\n", TESTS["a file by its name"]),
    "any output taken": (CONVERT, "if [[ $ended$said == '0(problem '*$'\\n(end)\\n' ]]; then", "if true; then", TESTS["a tolerance"]),
    "no such file taken for an empty one": (SHARED, '  [ -e "$file" ] || fail "$name: no such file"\n', '  [ -e "$file" ] || exec </dev/null\n', TESTS["no such file"]),
    "two files taken": (SHARED, '[ ${#names[@]} -le 1 ] || misused "one file at a time"\n', "", TESTS["two files"]),
    "an option taken for a name": (SHARED, '      no-?*) own_option "$word" || misused "there is no option $word" ;;\n', "", TESTS["no such option"]),
    "the last line feed lost": (CONVERT, 'hand_out "$said" "$name"\n', "hand_out \"${said%$'\\n'}\" \"$name\"\n", TESTS["standard input"]),
    "help on standard error": (SHARED, 'hand_out "$help"; exit 0', 'echo "$help" >&2; exit 0', TESTS["help"]),
    "another program's version": (SHARED, '[ "${lines[1]}" = "$(digest "$program" 2>/dev/null)" ]', "true", TESTS["a version beside the program"]),
    "-h is a file": (SHARED, "no-h | no--help)", "no--help)", TESTS["help by -h"]),
    "a gone reader is a fault": (SHARED, "[[ $trouble == *'Broken pipe'* ]] || fail", "fail", TESTS["a reader that has gone"]),
    "a full output is a gone reader": (SHARED, "[[ $trouble == *'Broken pipe'* ]] || fail", "true || fail", TESTS["a full output"]),
    "a program that fails taken": (SHARED, "    fail \"$name: ${said%$'\\n'}\"\n", "    converted=0\n", TESTS["a program that cannot read"]),
}
