"""Nets for the tests of batches: every kind of file that a folder may hold."""

import os
import random
import subprocess

from common import generate

from batch.sandbox import REGISTER, ROOT

WHOLE = (ROOT / "examples" / "whole-file.txt").read_bytes()
LARGE = generate.case("batches", 46).file  # 9,347 bytes, accepted, with a largest limit of several digits
REFUSED = (ROOT / "examples" / "refused" / "2-two-spaces.txt").read_bytes()


def odd_files():
    """Good, refused, empty, huge and binary files, with names that a shell would trip over."""
    rng = random.Random(5)
    files = {
        "north/net.txt": WHOLE, "south/net.txt": REFUSED, "south/old/net.txt": WHOLE, "net.txt": b"", "-it's a\n\"net\" $x": WHOLE, "back\\slash\ttab": REFUSED,
        "huge": WHOLE * 2000, "binary": bytes(rng.randrange(256) for _ in range(70000)), "no line feed": WHOLE.rstrip(b"\n"), ".batch": WHOLE, "names": REFUSED, "large": LARGE,
    }
    for number in range(40):
        files[f"by chance/{number}"] = generate.case("batch", number).file
    return files


def odd_places(root):
    """What is no file: a link to nowhere, a link to a folder, a pipe. They have failed."""
    (root / "north").mkdir(parents=True, exist_ok=True)
    (root / "north" / "gone.txt").symlink_to("nowhere")
    (root / "south").mkdir(parents=True, exist_ok=True)
    (root / "south" / "north").symlink_to("../north")
    os.mkfifo(root / "pipe")
    return ["north/gone.txt", "pipe", "south/north"]


def some_files(count):
    """Files by chance, accepted and refused, in a few folders."""
    return {f"{number % 7}/{number}": generate.case("batches", number % 60).file for number in range(count)}


def listing_of(file):
    """What the program `register` prints, through a pipe."""
    return subprocess.run([REGISTER], input=file, capture_output=True, check=True).stdout
