"""When ./register builds the program, and what it says where it cannot. A stand-in for rt writes down each call (sandbox.py)."""

import fcntl
import os
import shutil
import subprocess
import time

from command_line.register import REFUSED, WHOLE, listing_of
from command_line.sandbox import LONG_AGO, SOURCE, ended, failed
from common.mutated import ROOT, another_user

ASKED = ["register: run"]


def newer_source(sandbox):
    """One source changed after the program was built."""
    later = time.time() + 5
    os.utime(sandbox.root / SOURCE, (later, later))


def older_program(sandbox):
    """Every source is newer than the program."""
    os.utime(sandbox.put_program(), (LONG_AGO - 1, LONG_AGO - 1))


def refuses(box, **options):
    return box.run(REFUSED, **options)[:2] == (1, b"(refused 2 (5))\n")


def good_program_is_not_built(box):
    return refuses(box) and refuses(box, rt=False) and box.calls() == []


def first_use_builds(box):
    box.put_program().unlink()
    return refuses(box) and refuses(box) and box.calls() == ASKED


def first_uses_at_once_build_once(box):
    box.put_program().unlink()
    started = [box.start(REFUSED) for _ in range(4)]
    answers = [ended(process)[:2] for process in started]
    return answers == 4 * [(1, b"(refused 2 (5))\n")] and box.calls() == ASKED


def newer_source_builds_again(box):
    """Once, whichever of the sources it is."""
    for name in (SOURCE, "crates.txt"):
        older_program(box)
        (box.root / "calls").unlink(missing_ok=True)
        if not (refuses(box) and refuses(box) and box.calls() == ASKED):
            return False
        os.utime(box.root / name)
        if not (refuses(box) and refuses(box) and box.calls() == 2 * ASKED):
            return False
    return True


def source_changed_while_building_builds_again(box):
    box.put_program().unlink()
    box.write("changed-meanwhile", "")
    return refuses(box) and refuses(box) and refuses(box) and box.calls() == 2 * ASKED


def building_leaves_the_input(box):
    """rt reads nothing of what the program is to read."""
    box.put_program().unlink()
    file = (box.root / WHOLE).read_bytes()
    return box.run(text=file)[:2] == (0, listing_of(file)) and box.calls() == ASKED


def progress_is_a_line_a_crate(box):
    older_program(box)
    _, out, err = box.run(REFUSED)
    lines = err.decode().splitlines()
    crates = len(below("register"))
    return out == b"(refused 2 (5))\n" and lines[1:] == [f"register: 1 of {crates} crates", f"register: 2 of {crates} crates"] and "is newer than the program" in lines[0]


def below(name):
    """A crate and all crates of crates.txt that it depends on."""
    lines = (line.split(":") for line in (ROOT / "crates.txt").read_text().splitlines() if ":" in line and not line.startswith("#"))
    needs = {crate: rest.split() for crate, rest in lines}
    found, more = set(), {name}
    while more:
        found |= more
        more = {crate for one in more for crate in needs[one] if crate in needs} - found
    return found


def waiting_is_said_at_once(box):
    """While another call holds the lock, before it gives it back."""
    box.put_program().unlink()
    with open(box.root / "crates.txt") as lock:
        fcntl.flock(lock, fcntl.LOCK_EX)
        process = box.start(REFUSED, stderr=subprocess.STDOUT)
        said = process.stdout.readline()
        fcntl.flock(lock, fcntl.LOCK_UN)
    status, rest, _ = ended(process)
    return b"another call is building" in said and status == 1 and rest.endswith(b"(refused 2 (5))\n") and box.calls() == ASKED


EDITORS_FILES = (".main.rt.swp", "main.rt~", "#main.rt#", ".#main.rt", "main.rt.bak", "notes.txt")


def editors_files_are_no_sources(box):
    """Beside the sources, with rt and without, after a building by the script; and without rt where the program came otherwise."""
    put = lambda: [box.write(f"{SOURCE.rsplit('/', 1)[0]}/{name}", "") for name in EDITORS_FILES]
    put()
    otherwise = refuses(box, rt=False)
    older_program(box)
    built = refuses(box)
    [path.unlink() for path in put()]
    put()
    return otherwise and built and refuses(box) and box.run(REFUSED, rt=False) == (1, b"(refused 2 (5))\n", b"") and box.calls() == ASKED


def what_the_kit_keeps_is_no_source(box):
    """In the folder out of a crate, though it is newer than the program."""
    older_program(box)
    built, later = refuses(box), time.time() + 5
    kept = box.write("crates/register/out/rlib/kept.antt", "")
    for path in (kept, kept.parent, kept.parent.parent):
        os.utime(path, (later, later))
    return built and refuses(box) and refuses(box, rt=False) and box.calls() == ASKED


def gone_source_builds_again(box):
    older_program(box)
    more = box.write("crates/register/src/more.rt", "")
    built = refuses(box)
    more.unlink()
    return built and refuses(box) and refuses(box) and box.calls() == 2 * ASKED


def as_built_is_said(box):
    """Where it is asked for, the program that is there judges though a source is newer, with rt and without; nothing can be asked of none."""
    newer_source(box)
    for rt in (True, False):
        status, out, err = box.shell(f"KODARFI_AS_BUILT=1 ./register {REFUSED}", rt=rt)
        if (status, out, err.count(b"\n")) != (1, b"(refused 2 (5))\n", 1) or f"{SOURCE} is newer than the program".encode() not in err or b"as it was built" not in err:
            return False
    silent = box.shell(f"KODARFI_AS_BUILT=silent ./register {REFUSED}", rt=False) == (1, b"(refused 2 (5))\n", b"")
    box.put_program().unlink()
    return silent and failed(box.shell(f"KODARFI_AS_BUILT=1 ./register {REFUSED}", rt=False), "not built") and box.calls() == []


def rt_has_its_files_in_memory(box):
    """Where there is box, by a stand-in for df, and a folder from which programs run; it is gone afterwards, after a failure too.
    Else they are where they were, unless no other user can pass through that folder, whom rt of root needs."""
    can = box.shell("f=$(mktemp -p /dev/shm) && echo '#!/bin/sh' >$f && chmod 700 $f && $f; s=$?; rm -f $f; exit $s")[0] == 0
    found = []
    (box.root / "closed").mkdir(mode=0o700)
    for size, place in ((9_000_000, "/var/tmp"), (9_000, "$PWD/closed"), (9_000, "/var/tmp"), (9_000_000, "/var/tmp")):
        box.write("with-rt/df", f"#!/bin/sh\necho head\necho shm 1 1 {size}\n").chmod(0o755)
        older_program(box)
        (box.root / "folder").unlink(missing_ok=True)
        status = box.shell(f"TMPDIR={place} ./register {REFUSED}")[0]
        folder = (box.root / "folder").read_text().strip()
        found.append((status, folder if folder in ("/tmp", "/var/tmp") else folder[:9], os.path.exists(folder)))
        if folder.startswith("/dev/shm/tmp."):
            shutil.rmtree(folder, ignore_errors=True)
        if (size, place) == (9_000, "/var/tmp"):
            box.write("broken", "")
    memory = ("/dev/shm/", False) if can else ("/var/tmp", True)
    return found == [(1, *memory), (1, "/tmp", True), (1, "/var/tmp", True), (2, *memory)]


def old_program_without_rt_is_2(box):
    newer_source(box)
    return failed(box.run(REFUSED, rt=False), f"{SOURCE} is newer than the program", "'rt' that builds it is missing")


def no_program_without_rt_is_2(box):
    box.put_program().unlink()
    return failed(box.run(REFUSED, rt=False), "not built", "'rt' that builds it is missing")


def old_program_without_a_right_to_write_is_2(box):
    newer_source(box)
    for path in (box.root / "target", box.root / "target" / "bin"):
        path.chmod(0o555)
    answer = box.run(REFUSED, **another_user())
    return failed(answer, f"{SOURCE} is newer than the program", "no right to write") and box.calls() == []


def failed_build_is_2(box):
    """And stays so at the next use, though rt has left a program that is newer than every source; which crate is not proved is said, and what rt says."""
    older_program(box)
    box.write("broken", "")
    for _ in range(2):
        status, out, err = box.run(REFUSED)
        if (status, out) != (2, b"") or b"register: listing is not proved\nrt: mend this first\n" not in err or not err.endswith(b"tells more\n"):
            return False
    (box.root / "broken").unlink()
    return refuses(box) and box.calls() == 3 * ASKED


def failed_first_build_leaves_nothing(box):
    """Where there was no program there is none afterwards, though rt has left one, and --version says so."""
    box.put_program().unlink()
    box.write("broken", "")
    status = box.run(REFUSED)[0]
    return status == 2 and not (box.root / "target/bin/register").exists() and b"not built yet" in box.run("--version")[1]


def build_without_a_program_is_2(box):
    box.put_program().unlink()
    (box.root / "program").unlink()
    status, out, err = box.run(REFUSED)
    return (status, out) == (2, b"") and b"rt: it has left no crates/register/out/register\n" in err


def nothing_is_built_for_a_mistake(box):
    box.put_program().unlink()
    for words in (("--what",), ("nowhere",), ("examples",), (WHOLE, WHOLE), ("--help",), ("--version",)):
        box.run(*words)
    return box.calls() == []
