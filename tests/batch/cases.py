"""What a batch does: each test takes a sandbox and answers whether it holds."""

import fcntl
import functools
import os
import pty
import random
import resource
import shutil
import signal
import subprocess
import threading
import time

from batch.nets import LARGE, REFUSED, WHOLE, listing_of, odd_files, odd_places, some_files
from common.mutated import another_user


listed = functools.cache(listing_of)


def listings_of(count):
    return {name: listed(file) for name, file in some_files(count).items()}


def write_nets(box, files, folder="nets"):
    for name, file in files.items():
        box.write(f"{folder}/{name}", file)


def make_open(root):
    """The folders of a batch, which another user may write to."""
    for folder in (root / "listings", root / "listings.batch"):
        folder.mkdir()
        folder.chmod(0o777)


def shown(name):
    return "".join("?" if ord(letter) < 32 else letter for letter in name)


def lists_as_register_does(box):
    """Each listing is byte for byte what `register` prints, at the place of its file; what has failed has none."""
    files = odd_files()
    write_nets(box, files)
    odd_places(box.root / "nets")
    (box.root / "nets/link").symlink_to("north/net.txt")
    box.run("nets", "listings")
    return box.files() == {name: listing_of(file) for name, file in (files | {"link": WHOLE}).items()}


def reports_what_is_not_accepted(box):
    """A line for each net that is refused or has failed, in the order of their names, and the closing line."""
    files = odd_files()
    write_nets(box, files)
    failures = odd_places(box.root / "nets")
    status, out, err = box.run("--jobs", 3, "nets", "listings")
    lines = {name: listing_of(file).decode().splitlines()[0] for name, file in files.items()}
    lines = {name: line for name, line in lines.items() if line.startswith("(refused ")} | {name: "failed" for name in failures}
    wanted = [f"{line} {shown(name)}" for name, line in sorted(lines.items(), key=lambda pair: pair[0].replace("\\", "\\134").replace("\n", "\\012").replace("\t", "\\011"))]
    count = len(files) - len(lines) + len(failures)
    closing = f"{count} accepted, {len(lines) - len(failures)} refused, {len(failures)} failed"
    reasons = all(f"batch: nets/{name}: " in err for name in failures)
    return status == 2 and out[:-1] == wanted and out[-1] == closing and reasons


def status_is_the_worst(box):
    answers = []
    for number, file in enumerate((WHOLE, REFUSED, None)):
        if file is None:
            (box.root / "nets" / "2").symlink_to("nowhere")
        else:
            box.write(f"nets/{number}", file)
        status, out, _ = box.run("nets", f"listings-{number}")
        answers.append((status, out[-1]))
    return answers == [(0, "1 accepted, 0 refused, 0 failed"), (1, "1 accepted, 1 refused, 0 failed"), (2, "1 accepted, 1 refused, 1 failed")]


def unreadable_net_fails(box):
    box.write("nets/net", WHOLE)
    box.write("nets/closed", WHOLE).chmod(0)
    make_open(box.root)
    status, out, err = box.run("nets", "listings", **another_user())
    return status == 2 and out == ["failed closed", "1 accepted, 0 refused, 1 failed"] and "closed: no right to read it" in err


def unseen_folder_is_2(box):
    box.write("nets/net", WHOLE)
    box.write("nets/closed/net", WHOLE)
    (box.root / "nets/closed").chmod(0)
    make_open(box.root)
    status, out, _ = box.run("nets", "listings", **another_user())
    return status == 2 and out == ["failed: a folder under nets that cannot be read", "1 accepted, 0 refused, 0 failed"]


def unseen_folder_keeps_its_listings(box):
    """Nets in a folder that cannot be read are not gone."""
    box.write("nets/net", WHOLE)
    box.write("nets/closed/net", WHOLE)
    make_open(box.root)
    first = box.run("nets", "listings", **another_user())[0]
    (box.root / "nets/closed").chmod(0)
    status, _, err = box.run("nets", "listings", **another_user())
    return first == 0 and status == 2 and set(box.files()) == {"net", "closed/net"} and "no longer there" not in err


def names_may_begin_with_a_dash(box):
    box.write("-nets/net", WHOLE)
    return box.run("--jobs", 1, "--", "-nets", "--listings")[0] == 0 and set(box.files("--listings")) == {"net"}


def place_that_is_taken_fails(box):
    """A listing that was written stands where the folder of another should."""
    box.write("nets/a", WHOLE)
    box.run("nets", "listings")
    (box.root / "nets/a").unlink()
    box.write("nets/a/net", WHOLE)
    box.write("nets/b", WHOLE)
    (box.root / "listings.batch" / "done").unlink()
    (box.root / "listings.batch" / "journal").unlink()
    status, out, err = box.run("nets", "listings")
    return status == 2 and out == ["failed a/net", "1 accepted, 0 refused, 1 failed"] and err.count("\n") == 1


def nothing_to_judge_is_2(box):
    """No folder, no file, a folder that no batch wrote, wrong use: one line on standard error, and nothing is written."""
    box.write("nets/net", WHOLE)
    box.write("old/net", b"(refused 15 (0))\n")
    (box.root / "empty").mkdir()
    wrong = [
        ("nowhere", "a"), ("empty", "a"), ("nets", "old"), ("nets",), ("nets", "a", "b"), ("--what", "nets", "a"), ("--jobs", "0", "nets", "a"), ("--jobs", "x", "nets", "a"),
        ("--jobs",), ("--summary", "a/table", "nets", "a"), ("--explain-to", "a/words", "nets", "a"), ("nets/net", "a"),
        ("--summary", "nets/net", "nets", "a"), ("--summary", "a.batch/done", "nets", "a"), ("--explain-to", "nets", "nets", "a"), ("--explain-to", "nets/words", "nets", "a"),
        ("--explain-to", ".", "nets", "a"), ("--", "--fresh", "nets", "a"),
    ]
    box.write("nets/refused", REFUSED)
    answers = [box.run(*words) for words in wrong]
    alone = all(status == 2 and not out and err.startswith("batch: ") and err.count("\n") == 1 for status, out, err in answers) and "no batch wrote it" in answers[2][2]
    nets = box.files("nets") == {"net": WHOLE, "refused": REFUSED}
    return alone and nets and box.files("old") == {"net": b"(refused 15 (0))\n"} and box.files("a") == {}


def lost_report_is_2(box):
    """A full device and a closed output are faults, with one line; a reader that has gone is none."""
    write_nets(box, {"a": WHOLE, "b": REFUSED})
    with open("/dev/full", "wb") as full:
        status, _, err = box.run("nets", "full", stdout=full)
    is_full = status == 2 and err == "batch: standard output could not be written\n"
    status, _, err = box.run("nets", "closed", stdout=None, before=lambda: os.close(1))
    is_closed = status == 2 and err == "batch: standard output could not be written\n" and not (box.root / "closed").exists()
    reader, writer = os.pipe()
    os.close(reader)
    status, _, err = box.run("nets", "gone", stdout=writer)
    os.close(writer)
    return is_full and is_closed and (status, err) == (1, "") and len(box.files("gone")) == 2


def numbers_of(box, folder="listings"):
    """The number of each file: it changes where a listing is written again."""
    root = box.root / folder
    return {str(path.relative_to(root)): path.stat().st_ino for path in root.rglob("*") if path.is_file()}


def goes_on_where_it_was(box):
    """What has not changed is left alone; what has another size or another time is judged again, and what has gone loses its listing."""
    write_nets(box, {"a": WHOLE, "b": WHOLE, "c": REFUSED, "d": WHOLE, "e/f": WHOLE, "z": WHOLE})
    first = box.run("nets", "listings")
    before = numbers_of(box)
    box.write("nets/b", REFUSED)
    touched = box.root / "nets/c"
    os.utime(touched, (1, 1))
    (box.root / "nets/d").unlink()
    (box.root / "nets/z").unlink()
    box.write("nets/g", WHOLE)
    keeper = [os.open(path, os.O_RDONLY) for path in (box.root / "listings").rglob("*") if path.is_file()]
    status, out, err = box.run("nets", "listings")
    after = numbers_of(box)
    for file in keeper:
        os.close(file)
    same = {name for name in after if before.get(name) == after[name]}
    report = out == ["(refused 2 (5)) b", "(refused 2 (5)) c", "3 accepted, 2 refused, 0 failed"]
    return first[0] == 1 and status == 1 and report and same == {"a", "e/f"} and set(after) == {"a", "b", "c", "e/f", "g"} and "2 of these were judged before" in err


def size_counts_where_the_time_is_the_same(box):
    path = box.write("nets/a", WHOLE)
    os.utime(path, (5, 5))
    box.run("nets", "listings")
    box.write("nets/a", REFUSED)
    os.utime(path, (5, 5))
    return box.run("nets", "listings")[1] == ["(refused 2 (5)) a", "0 accepted, 1 refused, 0 failed"]


def lost_listing_is_written_again(box):
    write_nets(box, {"a": WHOLE, "b": WHOLE})
    box.run("nets", "listings")
    (box.root / "listings/a").unlink()
    return box.run("nets", "listings")[0] == 0 and set(box.files()) == {"a", "b"}


def net_that_fails_loses_its_listing(box):
    write_nets(box, {"a": WHOLE, "b": WHOLE})
    box.run("nets", "listings")
    (box.root / "nets/a").unlink()
    (box.root / "nets/a").symlink_to("nowhere")
    return box.run("nets", "listings")[0] == 2 and set(box.files()) == {"b"}


def fresh_and_another_version_judge_all(box):
    """--fresh, and a program with other bytes; a run of another version that is broken off leaves nothing of the first that counts."""
    write_nets(box, {"a": WHOLE, "b": WHOLE})
    box.run("nets", "listings")
    keeper = [os.open(path, os.O_RDONLY) for path in (box.root / "listings").iterdir()]
    first = numbers_of(box)
    box.run("--fresh", "nets", "listings")
    keeper += [os.open(path, os.O_RDONLY) for path in (box.root / "listings").iterdir()]
    second = numbers_of(box)
    box.program = shutil.copy(box.program, box.root / "other")
    with open(box.program, "ab") as program:
        program.write(b"another version")
    _, _, err = box.run("nets", "listings")
    third = numbers_of(box)
    for file in keeper:
        os.close(file)
    fresh = all(first[name] != second[name] != third[name] for name in first)
    return fresh and "another version" in err


def other_nets_are_refused(box):
    write_nets(box, {"a": WHOLE})
    write_nets(box, {"a": WHOLE}, "others")
    box.run("nets", "listings")
    status, out, err = box.run("others", "listings")
    return (status, out) == (2, []) and "has the listings of" in err


def listings_may_stand_below_the_nets(box):
    write_nets(box, {"a": WHOLE})
    for _ in range(2):
        status, out, _ = box.run("nets", "nets/listings")
        if (status, out) != (0, ["1 accepted, 0 refused, 0 failed"]):
            return False
    return box.files("nets/listings") == {"a": listing_of(WHOLE)}


def two_at_once(box):
    """The second batch into one folder says so and ends with 2; the first is not touched."""
    write_nets(box, some_files(400))
    (box.root / "listings.batch").mkdir(parents=True)
    lock = open(box.root / "listings.batch" / "lock", "w")
    fcntl.flock(lock, fcntl.LOCK_EX)
    status, out, err = box.run("nets", "listings")
    fcntl.flock(lock, fcntl.LOCK_UN)
    return (status, out, err) == (2, [], "batch: another batch is writing to listings\n") and box.run("nets", "listings")[0] == 1


# A call of the C library: a worker dies at the net "deadly".
DEADLY = """int openat(int folder, const char *name, int flags, ...) {
    __builtin_va_list more;
    __builtin_va_start(more, flags);
    if (!strcmp(name, "deadly")) raise(SIGKILL);
    return syscall(SYS_openat, folder, name, flags, __builtin_va_arg(more, int));
}
"""


def kills_lose_nothing(box):
    """Killed ten times at moments by chance and started again: no part of a listing is ever seen, and in the end all are those of one run."""
    files, wanted, rng = some_files(500), listings_of(500), random.Random(9)
    write_nets(box, files)
    began = time.monotonic()
    box.run("nets", "whole")
    whole = time.monotonic() - began
    for _ in range(10):
        process = box.start("nets", "listings", stdout=subprocess.DEVNULL, stderr=subprocess.DEVNULL)
        time.sleep(rng.random() * whole)
        os.killpg(process.pid, signal.SIGKILL) if rng.random() < 0.5 else process.kill()
        process.wait()
        if any(wanted[name] != listing for name, listing in box.files().items()):
            return False
    status, out, _ = box.run("nets", "listings")
    return status == 1 and box.files() == wanted == box.files("whole") and out == box.run("nets", "again")[1]


def torn_journal_is_no_harm(box):
    """A line of the journal that was cut, at each of its bytes: the net is judged again, and the table says what it said."""
    write_nets(box, {"a": REFUSED, "b": LARGE})
    box.run("--summary", "table", "nets", "listings")
    wanted = (box.root / "table").read_bytes()
    journal = box.root / "listings.batch" / "journal"
    text = journal.read_bytes()
    for end in range(len(text)):
        (box.root / "listings.batch" / "done").unlink(missing_ok=True)
        journal.write_bytes(text[:end])
        report = box.run("--summary", "table", "nets", "listings")[1]
        if report != ["(refused 2 (5)) a", "1 accepted, 1 refused, 0 failed"] or (box.root / "table").read_bytes() != wanted:
            return False
    return True


def state_does_not_grow(box):
    """Judged again and again, a batch keeps one line for each net, and one more for each of the last run."""
    write_nets(box, {"a": WHOLE, "b": REFUSED})
    for _ in range(5):
        box.run("--fresh", "nets", "listings")
    return sum((box.root / "listings.batch" / name).read_bytes().count(b"\n") for name in ("done", "journal")) == 4


def writer_that_is_left_does_no_harm(box):
    """A process of a batch that was killed still writes to the file that it had open: no listing is touched by it."""
    write_nets(box, some_files(60))
    held = [open(box.write(f"listings.batch/{number}", b""), "wb", buffering=0) for number in range(4)]
    status = box.run("--jobs", 4, "nets", "listings")[0]
    for file in held:
        file.write(b"what is left")
        file.close()
    return status == 1 and box.files() == listings_of(60)


def interrupt_stops_and_goes_on(box):
    write_nets(box, some_files(3000))
    process = box.start("--summary", "table", "nets", "listings", stdout=subprocess.DEVNULL)
    while not (box.root / "listings/0").exists() and process.poll() is None:
        time.sleep(0.001)
    process.send_signal(signal.SIGINT)
    _, err = process.communicate(timeout=600)
    if (box.root / "table.part").exists():
        return False
    broken = process.returncode == -signal.SIGINT and b"start the batch again to go on" in err
    return (broken or process.returncode == 1) and box.run("nets", "listings")[0] == 1 and box.files() == listings_of(3000)


def kill_workers(box, process, most):
    """Kills workers once listings are there; how many."""
    killed = 0
    while process.poll() is None and killed < most:
        try:
            children = open(f"/proc/{process.pid}/task/{process.pid}/children").read().split()
            if children and (box.root / "listings/0").exists():
                os.kill(int(children[-1]), signal.SIGKILL)
                killed += 1
                time.sleep(0.02)
        except OSError:
            continue  # it has ended meanwhile
    return killed


def dead_worker_is_replaced(box):
    """A batch that was over before a worker could be killed is run again."""
    write_nets(box, some_files(3000))
    killed = 0
    while not killed:
        for name in ("listings", "listings.batch"):
            shutil.rmtree(box.root / name, ignore_errors=True)
        with open(box.root / "report", "wb") as report:
            process = box.start("--jobs", 2, "nets", "listings", stdout=report)
        killed = kill_workers(box, process, 3)
        process.communicate(timeout=600)
    lines = (box.root / "report").read_text().splitlines()
    in_order = lines[:-1] == sorted(lines[:-1], key=lambda line: line.split(")) ")[-1])
    return process.returncode == 1 and box.files() == listings_of(3000) and in_order and lines[-1].endswith(" 0 failed")


def deadly_net_fails(box):
    """Two workers die at one net: it has failed, and those before and after it are judged."""
    write_nets(box, {"a": WHOLE, "b": REFUSED, "deadly": WHOLE, "e": REFUSED, "f": WHOLE})
    status, out, err = box.run("nets", "listings", library=box.standing_in(DEADLY))
    report = out == ["(refused 2 (5)) b", "failed deadly", "(refused 2 (5)) e", "2 accepted, 2 refused, 1 failed"]
    return status == 2 and report and err == "batch: nets/deadly: a worker ended by signal 9 while judging it\n" and set(box.files()) == {"a", "b", "e", "f"}


def full_disk_is_one_line(box):
    """No byte more can be written: one line, status 2; with room again the batch goes on."""
    write_nets(box, {"a": LARGE, "b": LARGE, "c": REFUSED})

    def no_room():
        signal.signal(signal.SIGXFSZ, signal.SIG_IGN)
        resource.setrlimit(resource.RLIMIT_FSIZE, (700, 700))

    box.run("nets", "other")
    status, out, err = box.run("nets", "listings", before=no_room)
    stopped = status == 2 and err.count("\n") == 1 and not any(line.endswith("failed") for line in out[-1:])
    part = all(box.files("other")[name] == listing for name, listing in box.files().items())
    return stopped and part and box.run("nets", "listings")[0] == 1 and box.files() == box.files("other")


def vanished_folder_is_2(box):
    """NETS or LISTINGS are taken away while they are judged: status 2, with one line where nothing is left, or one for each net that went while the folder was there;
    or all was done before."""
    good = True
    for folder in ("nets", "listings"):
        write_nets(box, some_files(3000))
        with open(box.root / "report", "wb") as report:
            process = box.start("nets", "listings", stdout=report)
        while not (box.root / "listings/0").exists() and process.poll() is None:
            time.sleep(0.001)
        (box.root / folder).rename(box.root / "away")
        while (box.root / "away").exists():
            shutil.rmtree(box.root / "away", ignore_errors=True)
        _, err = process.communicate(timeout=600)
        last = [line for line in err.decode().splitlines() if not line.endswith(": no such file")]  # workers may still report nets after it
        stopped = len(last) == 1 and "what is done stays done" in last[0]
        good &= process.returncode == 1 or (process.returncode == 2 and (stopped or (folder == "nets" and not last)))
        for name in ("nets", "listings", "listings.batch"):
            shutil.rmtree(box.root / name, ignore_errors=True)
    return good


def net_that_goes_meanwhile_keeps_its_listing(box):
    """Found, and gone when it is its turn: it has failed, and what the run before had finished stays until the next."""
    write_nets(box, {"a": WHOLE, "b": WHOLE})
    box.run("nets", "listings")
    sort = shutil.which("sort")
    box.write("tools/sort", f'#!/bin/sh\ncase " $* " in *" found "*) rm -f ../nets/a ;; esac\nexec {sort} "$@"\n'.encode()).chmod(0o755)
    status, out, _ = box.run("nets", "listings", path=box.root / "tools")
    kept = set(box.files()) == {"a", "b"}
    return status == 2 and out[0] == "failed a" and kept and box.run("nets", "listings")[0] == 0 and set(box.files()) == {"b"}


def shows_progress_on_a_terminal(box):
    write_nets(box, some_files(3000))
    main, side = pty.openpty()
    seen = []

    def read():
        try:
            while part := os.read(main, 4096):
                seen.append(part)
        except OSError:
            pass

    reader = threading.Thread(target=read)
    reader.start()
    process = box.start("--jobs", 1, "nets", "listings", stderr=side, stdout=subprocess.DEVNULL)
    process.wait()
    os.close(side)
    reader.join(timeout=60)
    text = b"".join(seen).decode()
    return process.returncode == 1 and (" of 3000, " in text and " a second, " in text and " s left" in text or text.endswith("\r\x1b[K"))


def summary_is_a_table(box):
    write_nets(box, {"a": WHOLE, "b": REFUSED, "c\td": WHOLE})
    (box.root / "nets/e").symlink_to("nowhere")
    box.run("--summary", "table", "nets", "listings")
    first = (box.root / "table").read_text()
    box.run("--summary", "table", "nets", "listings")
    wanted = "file\tnumber\tplaces\tlargest limit\na\t0\t\t1\nb\t2\t5 0\t\nc\\011d\t0\t\t1\ne\tfailed\t\t\n"
    return first == wanted == (box.root / "table").read_text()


def summary_leaves_what_is_no_file(box):
    """A table for a pipe is read from it, and the pipe stays one: so does a device, which is everybody's."""
    write_nets(box, {"a": WHOLE})
    os.mkfifo(box.root / "pipe")
    reader = os.open(box.root / "pipe", os.O_RDONLY | os.O_NONBLOCK)
    status = box.run("--summary", "pipe", "nets", "listings")[0]
    return status == 0 and os.read(reader, 4096).endswith(b"\na\t0\t\t1\n") and (box.root / "pipe").is_fifo() and not (box.root / "pipe.part").exists()


def explains_refused_nets(box):
    write_nets(box, {"a": WHOLE, "b/c": REFUSED})
    for _ in range(2):
        status, _, err = box.run("--explain-to", "words", "nets", "listings")
        words = box.files("words")
        if status != 1 or "words/a" in err or set(words) != {"b/c"} or not words["b/c"].startswith(b"register: nets/b/c is refused with 2"):
            return False
        shutil.rmtree(box.root / "words")
    return True


def words_are_of_the_present(box):
    """A net that is accepted now, cannot be read, or has gone has no words; words that cannot be written are status 2."""
    write_nets(box, {"a": REFUSED, "b": REFUSED, "c": REFUSED, "d": REFUSED})
    first = box.run("--explain-to", "words", "nets", "listings")[0], set(box.files("words"))
    box.write("nets/a", WHOLE)
    (box.root / "nets/b").unlink()
    (box.root / "nets/c").unlink()
    (box.root / "nets/c").symlink_to("nowhere")
    box.run("--explain-to", "words", "nets", "listings")
    second = set(box.files("words"))
    (box.root / "nets/c").unlink()
    box.write("taken/d/file", b"")
    status, _, err = box.run("--explain-to", "taken", "nets", "listings")
    return first == (1, {"a", "b", "c", "d"}) and second == {"d"} and status == 2 and "taken/d: the plain words could not be written" in err


def memory_does_not_grow(box):
    """The most memory that the process itself held, in kilobytes, on some nets and on many."""
    most = []
    for count in (3000, 15000):
        folder = box.root / f"nets-{count}"
        folder.mkdir()
        for number in range(count):
            (folder / f"a rather long name for a net {number}").write_bytes(b"")
        process = box.start(folder.name, f"listings-{count}", stdout=subprocess.DEVNULL)
        held = 0
        while process.poll() is None:
            with open(f"/proc/{process.pid}/status") as status:
                held = max([held, *(int(line.split()[1]) for line in status if line.startswith("VmHWM:"))])
            time.sleep(0.002)
        most.append(held)
    return most[1] < most[0] + 256


# A stand-in for GNU parallel: one machine that says this and that between its listings.
PARALLEL = r"""#!/bin/bash
echo "$*" >>asked
printf 'Welcome!\n\0a[$(touch owned)]\0(bounds 1)\n(end)\n\0more\0net-0 0 0 0 0 x\n(bounds 1)\n(end)\n\0'
eval "${*: -2}"
version=$(echo 'net-0 0 0 0 0 ' | eval "${*: -2}" | tr '\0' '\n' | grep -x '[0-9a-f]\{16\}')
printf '\0net-0 0 0 0 0 %s\n(bounds 1)\n(entry 1 (1 1))\n(end)\n\0' "$version"
echo Goodbye
"""


def stand_in(box, script):
    box.write("tools/parallel", script.encode()).chmod(0o755)
    return box.root / "tools"


def many_machines_list_the_same(box):
    files = odd_files()
    write_nets(box, files)
    odd_places(box.root / "nets")
    here = box.run("nets", "here")
    status, out, _ = box.run("--jobs", 2, "--sshlogin", "4/:,8/name@host", "nets", "listings", path=stand_in(box, PARALLEL))
    asked = (box.root / "asked").read_text()
    same = box.files() == box.files("here") and (status, out) == here[:2] and not list(box.root.rglob("owned"))
    return same and "--jobs 2 --sshlogin 4/:,8/name@host" in asked


def machine_that_dies_loses_nothing(box):
    """A machine that does not answer, one that dies after some nets, one with another version: the others' nets are judged again."""
    files = some_files(120)
    write_nets(box, files)
    dying = "#!/bin/bash\nhead -n 20 | eval \"${*: -2}\"\nkill -9 $$\n"
    silent = "#!/bin/sh\ncat >/dev/null\nexit 255\n"
    torn = "#!/bin/bash\neval \"${*: -2}\" | head -c 5000\n"
    other = "#!/bin/bash\neval \"${*: -2}\" | sed 's/^\\(net-[^ ]* [0-9]* [0-9]* [0-9]* [0-9]*\\) [0-9a-f]*$/\\1 0/; s/^\\(.*net-[^ ]* [0-9]* [0-9]* [0-9]* [0-9]*\\) [0-9a-f]*$/\\1 0/'\n"
    endless = "#!/bin/bash\neval \"${*: -2}\" | sed '/^(end)$/d'\n"
    for number, script in enumerate((dying, silent, torn, other, endless)):
        status, _, err = box.run("--sshlogin", "host", "nets", f"listings-{number}", path=stand_in(box, script))
        if status != 1 or box.files(f"listings-{number}") != listings_of(120):
            return False
        if script is other and "another version" not in err:
            return False
    return True


def real_parallel_lists_the_same(box):
    """By GNU parallel itself on this machine, where it is installed."""
    if not shutil.which("parallel"):
        print("parallel is not installed: its stand-in alone was tried")
        return True
    write_nets(box, some_files(120))
    status, _, _ = box.run("--sshlogin", "2/:", "nets", "listings")
    return status == 1 and box.files() == listings_of(120)


def no_parallel_is_2(box):
    write_nets(box, {"a": WHOLE})
    tools = box.root / "tools"
    tools.mkdir()
    for name in ("sort", "sh", "bash"):
        (tools / name).symlink_to(shutil.which(name))
    process = subprocess.run([box.program, "--sshlogin", "host", "nets", "listings"], cwd=box.root, env={"PATH": str(tools), "KODARFI_BATCH": "x", "KODARFI_REGISTER": "x"}, capture_output=True)
    return process.returncode == 2 and process.stderr == b"batch: the tool 'parallel' (GNU parallel) is missing\n"
