"""How ./register is called, and its exit status: 0 accepted, 1 refused, 2 where nothing could be judged."""

import os
import random
import subprocess

from common import generate, given
from command_line.sandbox import PROGRAM, ended, failed
from common.mutated import ROOT, another_user, named

WHOLE = "examples/whole-file.txt"
REFUSED = "examples/refused/2-two-spaces.txt"


def listing_of(file):
    return subprocess.run([PROGRAM], input=file, capture_output=True, check=True).stdout


TESTS = named("register", {
    "accepted is 0": lambda box: box.run(WHOLE) == (0, listing_of((box.root / WHOLE).read_bytes()), b""),
    "refused is 1": lambda box: box.run(REFUSED) == (1, b"(refused 2 (5))\n", b""),
    "missing file is 2": lambda box: failed(box.run("nets/a.txt"), "nets/a.txt: no such file"),
    "folder is 2": lambda box: failed(box.run("examples"), "examples: a folder"),
    "folder on standard input is 2": lambda box: all(failed(box.shell(f"./register {option} <examples"), "standard input: the input could not be read") for option in ("", "--explain")),
    "closed input is 2": lambda box: all(failed(box.shell(f"./register {option} <&-"), "standard input is closed") for option in ("", "-", "--explain")),
    "file needs no input": lambda box: box.shell(f"./register {REFUSED} <&-") == (1, b"(refused 2 (5))\n", b""),
    "closed output is 2": lambda box: all(failed(box.shell(f"./register {words} >&-"), "could not be written") for words in (WHOLE, "--help", "--version")),
    "full output is 2": lambda box: all(failed(box.shell(f"./register {words} >/dev/full"), "could not be written") for words in (WHOLE, REFUSED, "--help", "--version")),
})


def standard_output_is_the_programs(box):
    """To the byte, and the status says what it is."""
    files = [case.file for case in random.Random(1).sample(list(given.cases()), 50)]
    files += [generate.case("command line", index).file for index in range(50)]
    for file in files:
        listing = listing_of(file)
        if box.run(text=file) != (int(listing.startswith(b"(refused ")), listing, b""):
            return False
    return True


def reads_standard_input(box):
    file = (box.root / WHOLE).read_bytes()
    return all(box.run(*words, text=file) == (0, listing_of(file), b"") for words in ((), ("-",), ("--",), ("--", "-")))


def reads_what_follows_two_dashes(box):
    box.write("--help", (box.root / REFUSED).read_bytes())
    return box.run("--", "--help") == (1, b"(refused 2 (5))\n", b"")


def dangling_link_is_2(box):
    (box.root / "link.txt").symlink_to("nowhere")
    return failed(box.run("link.txt"), "link.txt: no such file")


def unreadable_file_is_2(box):
    path = box.write("locked.txt", "(problem 1)\n")
    path.chmod(0)
    return failed(box.run("locked.txt", **another_user()), "locked.txt: no right to read it")


def gone_reader_is_no_fault(box):
    """The reader of the pipe has gone before the listing is written: the status says what was judged, and nothing is said, whether a signal would kill or is ignored."""
    for words, status in ((WHOLE, 0), (REFUSED, 1), ("--help", 0), ("--version", 0)):
        for first in ("", "trap '' PIPE; "):
            reader, writer = os.pipe()
            os.close(reader)
            answer = ended(box.started(["bash", "-c", f"{first}./register {words}"], True, {"stdout": writer}))
            os.close(writer)
            if answer != (status, b"", b""):
                return False
    return True


def explains_without_a_temporary_folder(box):
    """Neither a folder nor room for temporary files is needed."""
    plain = box.run("--explain", REFUSED)
    return plain[:2] == (1, b"(refused 2 (5))\n") and box.shell(f"TMPDIR=/nowhere ./register --explain {REFUSED}") == plain


def copied_away_is_2(box):
    """One line, and no folder is made: for the script alone, and with what it shares."""
    for folder, names in (("alone", ("register", "convert")), ("beside", ("register", "convert", "scripts"))):
        (box.root / folder).mkdir()
        for name in names:
            box.shell(f"cp -r {name} {folder}")
        for name in ("register", "convert"):
            for words in ((REFUSED,), ("--version",), ()):
                if not failed(box.run(*words, script=f"{folder}/{name}"), "is no checkout"):
                    return False
        if sorted(path.name for path in (box.root / folder).iterdir()) != sorted(names):
            return False
    return box.calls() == []


def installed_needs_no_checkout(box):
    """A script with its program and what it shares in ../lib/kodarfi judges, explains and reports its version; without the program it says so."""
    box.shell("mkdir -p away/bin away/lib/kodarfi && cp register away/bin && cp scripts/command_line.sh docs/explain.awk docs/refusals.tsv program away/lib/kodarfi")
    box.shell("cd away/lib/kodarfi && mv program register && printf 'version 3, commit c, kit k\\n%s\\nnames\\n' $(sha256sum <register | cut -d ' ' -f 1) >register.version")
    script = "away/bin/register"
    judged = box.run(WHOLE, script=script, rt=False) == box.run(WHOLE) and box.run("--explain", REFUSED, script=script, rt=False) == box.run("--explain", REFUSED)
    said = box.run("--version", script=script, rt=False) == (0, b"register: version 3, commit c, kit k\n", b"")
    (box.root / "away/lib/kodarfi/register").unlink()
    return judged and said and failed(box.run(WHOLE, script=script), "install it again") and sorted(path.name for path in (box.root / "away").iterdir()) == ["bin", "lib"]


def status_stays_without_standard_error(box):
    closed = (WHOLE, 0), (REFUSED, 1), (f"--explain {REFUSED}", 1), ("nowhere", 2), ("--what", 2)
    return all(box.shell(f"./register {words} 2>&-")[0] == status for words, status in closed)


def program_without_a_listing_is_2(box):
    """A program that dies, says half, says too much, or says nothing has judged nothing."""
    listing = "printf '(bounds 1)\\n(solution 1 (0 0))\\n(entry 1 (0 0))\\n(inverse 1 (3))\\n(end)\\n'"
    wrong = (
        "", "kill -9 $$", "echo '(bounds 1)'", f"{listing}; kill -9 $$", f"{listing}; exit 3", f"{listing}; echo more", f"{listing}; echo more >&2",
        "echo '(refused 5 (1))'; exit 1", "printf '(refused 5 (1)'", "echo '(refused 5 (1))'; echo '(refused 6 (1))'", "echo '(refused 5 ())'",
    )
    for script in wrong:
        box.put_program(script)
        if not failed(box.run(WHOLE), WHOLE):
            return False
    box.put_program(listing)
    return box.run(WHOLE)[0] == 0


def wrong_use_is_2(box):
    """It is said before anything else: neither a file nor the program is looked at."""
    box.put_program("kill -9 $$").unlink()
    wrong = ("--what",), ("-x",), (WHOLE, REFUSED), (WHOLE, "--what"), ("--explain", WHOLE, "--", WHOLE)
    answers = [box.run(*words) for words in wrong]
    return all(status == 2 and out == b"" and b"usage: register" in err for status, out, err in answers) and box.calls() == []


def help_needs_no_program(box):
    box.put_program("kill -9 $$").unlink()
    status, out, err = box.run("--help", rt=False)
    return (status, err, box.calls()) == (0, b"", []) and out.startswith(b"usage: register [--explain] [FILE]\n")


def short_help_is_help(box):
    """Of every script that a user starts."""
    for name in (".ci/run", "bench/run", "tests/run", "tests/link/run"):
        box.write(name, (ROOT / name).read_bytes()).chmod(0o755)
    scripts = ("./register", "./convert", "./batch", ".ci/run", "bench/run", "tests/run", "tests/link/run")
    said = [[box.shell(f"{script} {word}") for word in ("-h", "--help")] for script in scripts]
    return all(short == full and short[0] == 0 and len(short[1]) > 100 and short[2] == b"" for short, full in said)


# A stand-in for git: the folder is a clone, its commit is in the file `at`, and `changed` is there where a source is not the commit's.
GIT = """#!/bin/sh
case "$*" in
  *--show-toplevel) [ -e at ] && pwd -P ;;
  *'--short HEAD') cat at ;;
  *status*crates*) [ ! -e changed ] || echo ' M crates/register/src/main.rt' ;;
  *) exit 1 ;;
esac
"""


def version_after(box, *commands):
    """What --version prints after commands of a shell and a use of the program."""
    for command in commands:
        box.shell(command)
    box.run(REFUSED)
    return box.run("--version")[1].decode().removeprefix("register: ").removesuffix("\n")


def version_says_what_was_built(box):
    """The commit, whether a source was changed, and the kit, all of the time of building: what is checked out afterwards does not count. Elsewhere it is unknown."""
    box.write("with-rt/git", GIT).chmod(0o755)
    again = "touch -d @0 target/bin/register"
    return [
        version_after(box),
        version_after(box, "echo abc >at", again),
        version_after(box, "echo def >at; sed -i s/kit-of/other-kit-of/ with-rt/rt; touch changed"),
        version_after(box, again),
        version_after(box, "rm changed; echo 1.2 >VERSION", again),
        version_after(box, "cp program other; echo >>other; mv other target/bin/register"),
        version_after(box, "rm at VERSION", again),
        version_after(box, "rm -r target/bin/register program crates/register/out"),
    ] == [
        "commit unknown, kit unknown: the program was not built by ./register",
        "commit abc, kit kit-of-the-tests",
        "commit abc, kit kit-of-the-tests",
        "commit def-dirty, kit other-kit-of-the-tests",
        "version 1.2, commit def, kit other-kit-of-the-tests",
        "commit unknown, kit unknown: the program was not built by ./register",
        "commit unknown, kit other-kit-of-the-tests",
        "commit unknown, kit unknown: the program is not built yet",
    ]


def commit_is_that_of_git(box):
    """By git itself, where there is one: the sources alone make it dirty, an editor's files and documents do not, and a clone around the folder is another's."""
    commit = lambda: box.shell("here=$(pwd -P); . scripts/command_line.sh; commit")[1].decode().strip()
    if box.shell("command -v git")[0] != 0:
        return commit() == "unknown"
    box.shell("git init -q . && git add . && git -c user.name=a -c user.email=b commit -qm c")
    clean = box.shell("git rev-parse --short HEAD")[1].decode().strip()
    found = []
    for command in ("touch crates/register/src/.main.rt.swp; echo >>README.md", "echo >crates/register/src/more.rt", "rm crates/register/src/more.rt; echo >>crates.txt"):
        box.shell(command)
        found.append(commit())
    box.shell("mkdir inner && cp -r scripts crates crates.txt inner")
    found.append(box.shell("cd inner; here=$(pwd -P); . scripts/command_line.sh; commit")[1].decode().strip())
    return len(clean) > 5 and found == [clean, f"{clean}-dirty", f"{clean}-dirty", "unknown"]


def works_through_a_link(box):
    (box.root / "elsewhere").mkdir()
    (box.root / "elsewhere" / "register").symlink_to("../with-rt/second")
    (box.root / "with-rt" / "second").symlink_to(box.root / "register")
    expected = (1, b"(refused 2 (5))\n", b"")
    by_name = box.shell(f"PATH=$PWD/elsewhere:$PATH; cd /; register '{box.root / REFUSED}'")
    return box.run(REFUSED, script="elsewhere/register") == expected and by_name == expected and box.calls() == []
