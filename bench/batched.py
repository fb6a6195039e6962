"""Times a batch beside a program that reads the same files and writes as many bytes (copied.c), in turns, on this folder's file system and from a warm cache.

  python3 bench/batched.py BATCH COPIED FOLDER COUNT ROUNDS

FOLDER gets COUNT files of levelling nets of n = 32 as offices send them (`office` of tests/common/systems/timed.py). Both have as many processes as there are
processors. Each round writes to folders of its own, and nothing is removed before the last: some file systems work long after a removal. Every other round begins
with the copies. A ratio is that of times within a round, once by the clock and once by the processors' time; the median of all ROUNDS is printed, as table.py reads it,
and the least and the largest go to standard error."""

import os
import random
import resource
import shutil
import subprocess
import sys
import time
from pathlib import Path

ROOT = Path(__file__).resolve().parent.parent
sys.path.insert(0, str(ROOT / "tests"))

from common.net import file_of, lines_of
from common.systems.timed import office

KINDS, IN_A_FOLDER = 100, 1000


def write_nets(folder, count):
    rng = random.Random(1)
    files = [file_of(lines_of(office(rng, 32))) for _ in range(min(KINDS, count))]
    for number in range(count):
        place = folder / f"{number // IN_A_FOLDER}" / f"{number}.txt"
        place.parent.mkdir(parents=True, exist_ok=True)
        place.write_bytes(files[number % len(files)])


def timed(command, **options):
    """Seconds by the clock, and of the processors."""
    os.sync()  # so that neither pays for what the other wrote
    used, began = resource.getrusage(resource.RUSAGE_CHILDREN), time.monotonic()
    subprocess.run(command, check=True, stdout=subprocess.DEVNULL, **options)
    clock, after = time.monotonic() - began, resource.getrusage(resource.RUSAGE_CHILDREN)
    return clock, after.ru_utime + after.ru_stime - used.ru_utime - used.ru_stime


def show(what, ratios):
    ratios.sort()
    print(f"{what}\tread and written alone\t32\t{ratios[len(ratios) // 2]:.4f}")
    print(f"{what}: {ratios[0]:.2f} to {ratios[-1]:.2f}", file=sys.stderr)


def main():
    batch, copied, above = map(Path, sys.argv[1:4])
    count, all_rounds = map(int, sys.argv[4:6])
    folder = above / "batched"
    shutil.rmtree(folder, ignore_errors=True)
    nets = folder / "nets"
    write_nets(nets, count)
    names = "".join(f"{path}\n" for path in sorted(nets.rglob("*.txt"))).encode()
    environment = os.environ | {"KODARFI_BATCH": str(batch), "KODARFI_REGISTER": str(ROOT / "register")}
    processes = str(len(os.sched_getaffinity(0)))
    listings = folder / "listings"
    subprocess.run([batch, nets, listings], check=True, stdout=subprocess.DEVNULL, env=environment)  # it warms the cache
    length = str(sum(path.stat().st_size for path in listings.rglob("*.txt")) // count)
    rounds = []
    for number in range(all_rounds):
        copies = folder / f"copies-{number}"
        for part in range(0, count, IN_A_FOLDER):
            (copies / str(part // IN_A_FOLDER)).mkdir(parents=True)
        turns = [
            lambda: timed([batch, "--jobs", processes, nets, folder / f"listings-{number}"], env=environment),
            lambda: timed([copied, processes, length, copies], input=names),
        ]
        if number % 2:
            rounds.append((turns[0](), turns[1]()))
        else:
            rounds.append((turns[1](), turns[0]())[::-1])
    clock = sorted(judged[0] for judged, _ in rounds)[all_rounds // 2]
    show(f"batch, office, by the clock: {count / clock:.0f} files a second", [judged[0] / moved[0] for judged, moved in rounds])
    show("batch, office, by the processors' time", [judged[1] / moved[1] for judged, moved in rounds])
    shutil.rmtree(folder, ignore_errors=True)


if __name__ == "__main__":
    main()
