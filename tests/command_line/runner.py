"""tests/run and .ci/run on made-up parts, and tests/README.md beside the registry, with mutants of them all.

  python3 tests/command_line/runner.py   needs nothing built; the last line is 'N passed, M failed'"""

import contextlib
import io
import os
import re
import shlex
import signal
import subprocess
import sys
import time
from pathlib import Path

sys.path.insert(0, str(Path(__file__).resolve().parent.parent))

from common.box import Box
from common.mutated import ROOT, main, named, report, results, tests_of

RUN, GATE, PARTS, README = "tests/run", ".ci/run", "tests/parts.sh", "tests/README.md"
OK = "rt: ok; handles allowed: none; must-fail edits: 3 refused{}; every proof and must-fail edit was done in this run"
GOOD = "good | proofs | sh | - | echo '3 passed, 0 failed' | what is good"
MORE = "more | native | sh | - | cat; echo '4 passed, 0 failed' | what is more"
LAST = "last | python | sh | - | echo '5 passed, 0 failed' | what is last"


def says_ok(last, more=""):
    """A stand-in for `rt ci` that ends well, with more said of its edits."""
    return f"echo '{OK.format(more)}'; echo '{last}'"


def calls(root):
    """The calls that have tests of their own, by their folders."""
    return {path.parent.name for path in (root / "tests").glob("calls/*/oracle.py")}


class Scripts(Box):
    """The two scripts, what they read, and a stand-in for rt that proves six crates."""

    def __init__(self, edits=()):
        names = [RUN, GATE, PARTS, README, "tests/registry", "scripts/command_line.sh", *(f"tests/calls/{call}" for call in calls(ROOT))]
        super().__init__(edits, names)
        self.rt(says_ok("6 passed, 0 failed"))

    def rt(self, script):
        self.write("tools/rt", f"#!/bin/sh\n{script}\n", 0o755)

    def registry(self, *lines):
        self.write("tests/registry", "# a head\nbuilt thing | target/thing | make thing\n" + "".join(f"{line}\n" for line in lines))

    def start(self, *command):
        environment = os.environ | {"PATH": f"{self.root / 'tools'}:{os.environ['PATH']}", "LC_ALL": "C", "TMPDIR": str(self.root)}
        return subprocess.Popen(command, cwd=self.root, env=environment, stdin=subprocess.PIPE, stdout=subprocess.PIPE, stderr=subprocess.PIPE, text=True)

    def shell(self, command):
        """Status, lines of standard output and of standard error of a command of bash."""
        process = self.start("bash", "-c", command)
        out, err = process.communicate("input\n", timeout=600)
        return process.returncode, out.splitlines(), err.splitlines()


def is_one_line(answer, status, *words):
    return answer[0] == status and len(answer[2]) == 1 and all(word in answer[2][0] for word in words)


def has_failed(sandbox, command, count, *words, tools="sh", built="-"):
    """Whether a part with this command fails so many times, beside a good one, in both scripts: one line says why, and the sum and the status tell."""
    sandbox.registry(GOOD, f"bad | proofs | {tools} | {built} | {command} | what is bad")
    answers = sandbox.shell("tests/run"), sandbox.shell("bash .ci/run")
    return all(is_one_line(answer, 1, "bad: ", *words) and answer[1][-1].endswith(f" passed, {count} failed") for answer in answers)


def missing_build(sandbox):
    """It fails until it is built."""
    fails = has_failed(sandbox, "echo '1 passed, 0 failed'", 1, "target/thing is not built: 'make thing' builds it", built="thing")
    return fails and sandbox.shell("mkdir target; touch target/thing; tests/run bad")[1][-1] == "1 passed, 0 failed"


# Parts that have failed, by what is wrong with them.
BAD = named("a bad part", {
    "crashes": lambda box: has_failed(box, "exit 3", 1, "no closing line", "exit status 3"),
    "has no closing line": lambda box: has_failed(box, "echo '3 passed, 0 failed'; echo all is well", 1, "no closing line", "exit status 0"),
    "is killed": lambda box: has_failed(box, "kill -9 $$", 1, "no closing line", "killed by signal 9"),
    "tells no failure": lambda box: has_failed(box, "echo '3 passed, 0 failed'; exit 4", 1, "no failure in its closing line", "exit status 4"),
    "tells no status": lambda box: has_failed(box, "echo '3 passed, 2 failed'", 2, "2 failed, and its exit status is 0"),
    "has no tests": lambda box: has_failed(box, "echo '0 passed, 0 failed'", 1, "no failure in its closing line, with 0 passed"),
    "has no tool": lambda box: has_failed(box, "echo '1 passed, 0 failed'", 1, "the tool 'no-such-tool' is missing", tools="sh no-such-tool"),
    "is not built": missing_build,
})


def parts_add_up(box):
    """All of them, or those that are named; none reads what the caller's input has."""
    box.registry(GOOD, MORE)
    every, one, two = box.shell("tests/run"), box.shell("tests/run more"), box.shell("tests/run more good")
    names = [[line for line in answer[1] if line.startswith("== ")] for answer in (every, one, two)]
    added = [(status, out[-1], err) for status, out, err in (every, one, two)] == [(0, "7 passed, 0 failed", []), (0, "4 passed, 0 failed", []), (0, "7 passed, 0 failed", [])]
    return added and "input" not in every[1] and names == [["== good", "== more", "== times"], ["== more", "== times"], ["== more", "== good", "== times"]]


def gate_adds_up(box):
    """The proofs and the parts of every lane; its last lines are the times, the time of all and the sum."""
    box.registry(GOOD, MORE, LAST)
    status, out, err = box.shell("bash .ci/run")
    at = out.index("== times")
    times = [re.sub(r"\d+ s", "s", " ".join(line.split())) for line in out[at + 1 :]]
    expected = ["proofs s 6 passed 0 failed", "good s 3 passed 0 failed", "more s 4 passed 0 failed", "last s 5 passed 0 failed", "all: s", "18 passed, 0 failed"]
    box.rt("exit 1")
    return (status, err, times) == (0, [], expected) and is_one_line(box.shell("bash .ci/run"), 1, "proofs: no closing line")


def gate_runs_all_of_rt(box):
    """With no names, at the top of the checkout, and with nothing taken away before."""
    box.registry(GOOD)
    box.write("target/thing", "")
    box.rt('[ "$1" = version ] || echo "$PWD: $*: $(ls target)" >asked; ' + says_ok("6 passed, 0 failed"))
    return box.shell("cd tests && bash ../.ci/run")[0] == 0 and (box.root / "asked").read_text() == f"{box.root.resolve()}: ci: thing\n"


def bad_edits_have_failed(box):
    """As many as the line `rt: ok` names, though `rt ci` itself passes; and a run without this line has failed."""
    box.registry(GOOD)
    found = []
    for script in (says_ok("6 passed, 0 failed", ", 2 bad"), says_ok("6 passed, 0 failed", ", 1 of them only by a limit, 2 bad"), says_ok("6 passed, 0 failed", ", 0 bad"), "echo '6 passed, 0 failed'"):
        box.rt(script)
        status, out, err = box.shell("bash .ci/run")
        found.append((status, out[-1], err))
    bad = (1, "9 passed, 2 failed", ["proofs: 2 bad must-fail edits"])
    return found == [bad, bad, (0, "9 passed, 0 failed", []), (1, "9 passed, 1 failed", ["proofs: no line 'rt: ok'"])]


def gate_takes_what_is_proved(box):
    """The programs that `rt ci` built go to target/bin with what they were built from, and what it said of edits to target/must-fail.log."""
    box.registry(GOOD)
    edits = ["rt: must-fail sum/sign.edit: refused, as it must be: ./proofs/Sum.antt:1:1: error: `sum`: no", "rt: must-fail sum/size.edit: refused, as it must be"]
    said = "; ".join(f"echo '{line}'" for line in edits)
    box.rt("[ \"$1\" != version ] || { echo the kit; exit; }; mkdir -p crates/register/out; echo made >crates/register/out/register; chmod 755 crates/register/out/register; " + said + "; " + says_ok("8 passed, 0 failed"))
    status, out, _ = box.shell("bash .ci/run")
    counted = [" ".join(line.split()) for line in out[out.index("== edits") + 1 : out.index("== times")]]
    place = box.root / "target" / "bin"
    noted = (place / "register.version").read_text().startswith("commit unknown, kit the kit\n")
    taken = (place / "register").read_text() == "made\n" and noted and not (place / "convert").exists()
    return status == 0 and taken and (box.root / "target/must-fail.log").read_text().splitlines() == edits and counted == ["crate edits", "sum 2", "all 2"]


def unknown_name_runs_nothing(box):
    box.registry("good | proofs | sh | - | touch ran; echo '3 passed, 0 failed' | what is good")
    answers = [box.shell(f"tests/run {words}") for words in ("good goods", "''", "--what")]
    return all(answer[:2] == (2, []) for answer in answers) and is_one_line(answers[0], 2, "there is no part 'goods'", "--list") and not (box.root / "ran").exists()


def failed_part_has_failed(box):
    box.registry(GOOD, "bad | proofs | sh | - | echo '2 passed, 1 failed'; exit 1 | what is bad")
    answers = [box.shell("tests/run"), box.shell("bash .ci/run")]
    return [(status, out[-1], err) for status, out, err in answers] == [(1, "5 passed, 1 failed", []), (1, "11 passed, 1 failed", [])]


def unwritten_output_is_2(box):
    """The gate, which takes long, looks for a closed output first."""
    box.registry(GOOD)
    box.rt("touch proved; " + says_ok("6 passed, 0 failed"))
    early = is_one_line(box.shell("bash .ci/run >&-"), 2, "standard output could not be written") and not (box.root / "proved").exists()
    commands = [f"{command} {to}" for command in ("tests/run", "tests/run --list", "bash .ci/run") for to in (">/dev/full", ">&-")]
    return early and all(is_one_line(box.shell(command), 2, "standard output could not be written") for command in commands)


def killed_gate_ends(box):
    """With nothing said, its folders taken away, and no further part begun."""
    box.registry("first | native | sh | - | touch begun; while [ -e begun ]; do sleep 0.1; done | what is first", "second | native | sh | - | touch second | what is second")
    gate = box.start("bash", GATE)
    while not (box.root / "begun").exists() and gate.poll() is None:
        time.sleep(0.01)
    gate.terminate()
    gate.wait(timeout=600)
    (box.root / "begun").unlink()
    _, err = gate.communicate(timeout=600)
    return (gate.returncode, err) == (-signal.SIGTERM, "") and not (box.root / "second").exists() and not list(box.root.glob("tmp.*"))


def damaged_registry_is_2(box):
    for lines in ((GOOD, "short | proofs | sh | - | true"), (GOOD, GOOD), ("built x | y", GOOD), ("other | proofs | sh | thing things | true | what is other",)):
        box.registry(*lines)
        if not all(is_one_line(box.shell(command), 2, "tests/registry: line ") for command in ("tests/run", "bash .ci/run")):
            return False
    return all(is_one_line(box.shell(f"rm -f tests/registry; {command}"), 2, "tests/registry cannot be read") for command in ("tests/run", "bash .ci/run"))


def readme_has_the_list(box):
    status, out, err = box.shell("tests/run --list")
    return (status, err) == (0, []) and len(out) > 20 and "\n".join(["", *out, ""]) in (box.root / README).read_text()


def every_call_has_a_line(box):
    """Each folder of tests/calls is named by a command, and each command of the emitter names a folder."""
    commands = re.findall(r"tests/emit\.py (\w+)", (box.root / "tests" / "registry").read_text())
    return calls(box.root) == set(commands)


def mutants_are_counted(box):
    """By mutated.py: a mutant that its test does not detect has failed, and so has a test that raises; an edit that does not fit is no mutant."""
    tests = named("made up", {"sees": lambda edits: not edits, "is blind": lambda edits: True, "raises": lambda edits: 1 // 0})
    change = ("thing", "old", "new")
    with contextlib.redirect_stdout(io.StringIO()):
        found = [good for _, good in results(tests.values(), {name: (*change, test) for name, test in tests.items()}, contextlib.nullcontext)]
    script = "import sys; sys.path.insert(0, sys.argv[1]); from common.mutated import *; main(lambda: report([('a', True), ('b', False)]) and edit('.', [('tests/run', 'no such text', '')]))"
    status, out, err = box.shell(f"{sys.executable} -c {shlex.quote(script)} {shlex.quote(str(ROOT / 'tests'))}")
    return found == [True, True, False, True, False, True] and (status, err) == (1, []) and out[:2] == ["FAILED b", "1 passed, 1 failed"] and out[3] == "0 passed, 1 failed"


MUTANTS = {
    "any last line will do": (PARTS, "    said=\"no closing line", "    passed=1 failed=0 unsaid=\"no closing line", BAD["has no closing line"]),
    "a signal is a status": (PARTS, 'echo "killed by signal $(($2 - 128))"', 'echo "exit status $2"', BAD["is killed"]),
    "a status is not looked at": (PARTS, '{ [ "$2" -ne 0 ] || ', "{ ", BAD["tells no failure"]),
    "a failure with status 0 in silence": (PARTS, 'said="$failed failed, and', 'unsaid="$failed failed, and', BAD["tells no status"]),
    "no tests will do": (PARTS, '|| [ "$passed" -eq 0 ]; }', "; }", BAD["has no tests"]),
    "the first tool is enough": (PARTS, "for tool in $1; do", "for tool in ${1%% *}; do", BAD["has no tool"]),
    "nothing must be built": (PARTS, '|| [ -e "$file" ] ||', "|| true ||", BAD["is not built"]),
    "a part reads the caller's input": (PARTS, ' </dev/null 2>&1 |', " 2>&1 |", parts_add_up),
    "a failure leaves the status": (PARTS, '[ "$failed" -eq 0 ] && [ "$passed" -gt 0 ]', '[ "$passed" -gt 0 ]', failed_part_has_failed),
    "parts of a gate that was killed": (PARTS, '    [ -d "$logs" ] || exit', "    :", killed_gate_ends),
    "a name twice": (PARTS, " || seen[$1]++", "", damaged_registry_is_2),
    "anything may be built": (PARTS, "&& !(words[k] in built)", "&& 0", damaged_registry_is_2),
    "a field less": (PARTS, "NF != (/^built / ? 3 : 6)", "NF < 3", damaged_registry_is_2),
    "an unknown name is passed over": (RUN, "|| fail \"there is no part", "|| : \"there is no part", unknown_name_runs_nothing),
    "a full output is no matter": (RUN, 'hand_out "== $name"$', "printf '%s' \"== $name\"$", unwritten_output_is_2),
    "a closed output is no matter": (GATE, '{ : 3>&1; } 2>/dev/null || fail "$unwritten"\n', "", unwritten_output_is_2),
    "one part alone": (RUN, "for name; do\n  hand_out", "for name in \"$1\"; do\n  hand_out", parts_add_up),
    "the gate forgets the proofs": (GATE, 'add_up proofs "${names[@]}"', 'add_up "${names[@]}"', gate_adds_up),
    "the gate forgets a lane": (GATE, "grep -vx proofs", "grep -vx -e proofs -e native", gate_adds_up),
    "rt ci with names": (GATE, "part proofs rt - 'rt ci'", "part proofs rt - 'rt ci sum'", gate_runs_all_of_rt),
    "something is taken away before": (GATE, "part proofs rt - 'rt ci'", "part proofs rt - 'rm -rf target; rt ci'", gate_runs_all_of_rt),
    "bad edits are no matter": (GATE, 'failed=$((failed + BASH_REMATCH[1])) said=', "said=", bad_edits_have_failed),
    "no bad edit is one": (GATE, ' && [ "${BASH_REMATCH[1]}" -gt 0 ]', "", bad_edits_have_failed),
    "a run that is not ok will do": (GATE, "    failed=1 said=\"no line 'rt: ok'\"", "    :", bad_edits_have_failed),
    "no program is taken": (GATE, 'put "crates/$name/out/$name" target/bin &&', "true &&", gate_takes_what_is_proved),
    "an edit of which no more is said does not count": (GATE, "/^rt: must-fail .*: refused, as it must be/", "/^rt: must-fail .*: refused, as it must be:/", gate_takes_what_is_proved),
    "README's own list": (README, "\n| places | ", "\n| place | ", readme_has_the_list),
    "a call without a line": ("tests/registry", "\nplaces | ", "\nextra | proofs | python3 | - | python3 tests/emit.py no_such_call --self-test | nothing\nplaces | ", every_call_has_a_line),
}

if __name__ == "__main__":
    main(lambda: report(results([*BAD.values(), *tests_of(sys.modules[__name__])], MUTANTS, Scripts, sys.argv[1:])))
