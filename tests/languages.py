"""The library in each language: the compile lines of docs/API.md, section "Linking", are run as they stand there, each program lists files, and those with a
loader take lines as they are typed.

  python3 tests/languages.py   after `make archive`; the last line is 'N passed, M failed'"""

import select
import subprocess
import tempfile

from common.mutated import ROOT, main, report
from common.whole_file import LISTING
from common.whole_file import WHOLE as EXAMPLE

PROGRAMS = {
    "C": ["target/listing-c"],
    "C++": ["target/listing-c++"],
    "Rust": ["target/listing-rust"],
    "Python": ["python3", "examples/listing.py", "target/libkodarfi.so"],
}
# a file's bytes, its listing and the exit status
FILES = (
    (EXAMPLE, LISTING, 0),
    (b"", b"(refused 15 (0))\n", 1),
    (EXAMPLE + b"\0\n", b"(refused 14 (14))\n", 1),
    (b"x" * 1000000, b"(refused 1 (1))\n", 1),
)
LOADERS = {
    "C": ["target/loader-c"],
    "Python": ["python3", "examples/loader.py", "target/libkodarfi.so"],
}
SOLUTION = b"(solution 1 (23 1))\n(solution 2 (13 1))\n"
# what is typed, what is answered and the exit status
TYPED = (
    (EXAMPLE, SOLUTION, 0),
    (EXAMPLE[:-1], SOLUTION, 0),
    (b"", b"the check is refused: 15 (0 0)\n", 1),
    (b"x" * 1000000, b"line 1 is refused: 1 (0)\nthe check is refused: 15 (0 0)\n", 1),
    (EXAMPLE.replace(b"(guess 1 23)", b"(guess 1 2300)"), b"the check is refused: 6 (1 0)\n", 1),
    (
        EXAMPLE.replace(b"(row 2 (-1 3))\n", b"(row 2 (-1))\n(row 2 (-1 3))\n(row 1 (4 -1))\n")
        .replace(b"(guess 1 23)\n", b"(guess 3 23)\n(guess  1 23)\n\n(guess 1 23)\n(end)\n")
        + b"(weight 1 1)\n\0",
        b"".join(b"line %d is refused: %s (%d)\n" % said for said in ((4, b"4", 0), (6, b"12", 0), (9, b"3", 0), (10, b"2", 0), (11, b"2", 0), (13, b"13", 3), (20, b"14", 0), (21, b"14", 0)))
        + SOLUTION,
        0,
    ),
)
# mutants: programs that the tests must detect, by what is wrong in them
MUTANTS = {
    "prints the file": ["cat"],
    "has status 0 for a refused file": ["sh", "-c", 'target/listing-c "$1"; exit 0', "sh"],
    "prints nothing": ["sh", "-c", 'target/listing-c "$1" >/dev/null', "sh"],
}


def compile_lines():
    """The indented lines of the section, after the sentence that says of them that they are run."""
    section = (ROOT / "docs" / "API.md").read_text().split("\n## Linking\n")[1].split("\n## ")[0].split("The gate runs these lines as they stand")[1]
    return [line.strip() for line in section.split("\n") if line.startswith("    ")]


def compiles(line):
    return subprocess.run(["sh", "-c", line], cwd=ROOT, timeout=600).returncode == 0


def run(program, path):
    """What a program prints of a file, on standard error too, and its exit status; nothing where there is no such program."""
    try:
        done = subprocess.run([*program, path], cwd=ROOT, capture_output=True, timeout=600)
    except FileNotFoundError:
        return None
    return done.stdout, done.stderr, done.returncode


def lists(program, file, listing, status):
    with tempfile.NamedTemporaryFile() as named:
        named.write(file)
        named.flush()
        return run(program, named.name) == (listing, b"", status)


def tells_a_missing_file(program):
    done = run(program, "target/no-such-file")
    return done is not None and (done[0], done[2]) == (b"", 2)


def answers(program, typed, answer, status):
    done = subprocess.run(program, cwd=ROOT, input=typed, capture_output=True, timeout=600)
    return (done.stdout, done.stderr, done.returncode) == (answer, b"", status)


def answers_at_once(program):
    """Whether a refused line is answered before another is typed, and what follows it is taken."""
    with subprocess.Popen(program, cwd=ROOT, stdin=subprocess.PIPE, stdout=subprocess.PIPE) as run:
        run.stdin.write(b"(problem)\n")
        run.stdin.flush()
        is_there = select.select([run.stdout], [], [], 600)[0] != []
        answer = run.stdout.readline() if is_there else b""
        run.stdin.write(EXAMPLE)
        run.stdin.close()
        rest = run.stdout.read()
    return (answer, rest, run.returncode) == (b"line 1 is refused: 2 (0)\n", SOLUTION, 0)


def tells_a_full_disk(program):
    with open("/dev/full", "wb") as full:
        done = [subprocess.run(program, cwd=ROOT, input=typed, stdout=full, stderr=subprocess.PIPE, timeout=600) for typed in (EXAMPLE, b"x\n")]
    return all(run.returncode == 2 and run.stderr.count(b"\n") == 1 for run in done)


def tells_a_closed_stream(program, closed):
    """Where standard input or output is closed: one line and status 2."""
    done = subprocess.run(["sh", "-c", f'exec "$@" {closed}', "sh", *program], cwd=ROOT, input=EXAMPLE, capture_output=True, timeout=600)
    return (done.stdout, done.returncode) == (b"", 2) and done.stderr.startswith(b"standard ") and done.stderr.count(b"\n") == 1


def loader_results():
    for language, program in LOADERS.items():
        for index, lines in enumerate(TYPED):
            yield f"{language}: lines {index}", answers(program, *lines)
        yield f"{language}: each line as it is typed", answers_at_once(program)
        yield f"{language}: a full disk", tells_a_full_disk(program)
        yield f"{language}: a closed input", tells_a_closed_stream(program, "<&-")
        yield f"{language}: a closed output", tells_a_closed_stream(program, ">&-")
    stops = ["sh", "-c", "head -n 3 | target/loader-c"]
    yield "a program that stops at a refused line is detected", not all(answers(stops, *lines) for lines in TYPED)


def results():
    """What is tested, and whether it holds."""
    lines = compile_lines()
    yield "one compile line a language, and one for the loader", len(lines) == len(PROGRAMS) + 1
    for line in lines:
        yield line, compiles(line)
    right = {language: [lists(program, *file) for file in FILES] for language, program in PROGRAMS.items()}
    for language, program in PROGRAMS.items():
        for index, holds in enumerate(right[language]):
            yield f"{language}: file {index}", holds
        yield f"{language}: a missing file", all(right[language]) and tells_a_missing_file(program)
    yield from loader_results()
    for mutant, program in MUTANTS.items():
        yield f"a program that {mutant} is detected", all(right["C"]) and not all(lists(program, *file) for file in FILES)


if __name__ == "__main__":
    main(lambda: report(results()), ROOT / "target" / "staticlib" / "libkodarfi.a")
