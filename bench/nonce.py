#!/usr/bin/env python3
"""What the look at the numbers of the cipher takes: nonce.py PROGRAM BEFORE

Before a command writes objects, the program compares the file `nonce` with the number behind the last block of the objects in the target's segments, by their heads
alone. BEFORE is a program that doesn't, of commit db196f3 or earlier. Both are asked to delete an archive that isn't there, which opens the target and ends: what the first takes more is the look.
For each kind of target: its objects and bytes, the medians of five runs of each in processor seconds, and the look's share of the opening.
"""
import os
import random
import statistics
import subprocess
import sys
import tempfile

sys.dont_write_bytecode = True
sys.path.insert(0, os.path.join(os.path.dirname(os.path.abspath(__file__)), "..", "checks"))
import segments
from repositories import Keys, fields, repository

SEGMENT = 500_000_000
MEGABYTE = 1_000_000
# The name of each kind, the bytes of its objects, and the sizes of its objects.
KINDS = {
    "blocks of 2 MiB": (2000 * MEGABYTE, lambda some: 2 << 20),
    "uneven, 2 MiB on average": (2000 * MEGABYTE, lambda some: min(8 << 20, (512 << 10) + int(some.expovariate(1 / (1.5 * (1 << 20)))))),
    "uneven, 64 KiB on average": (1000 * MEGABYTE, lambda some: min(1 << 20, 16384 + int(some.expovariate(1 / 49152)))),
    "8000 bytes": (500 * MEGABYTE, lambda some: 8000),
    "200 bytes": (100 * MEGABYTE, lambda some: 200),
}


def fill(folder, keys, size, of):
    """Adds segments of objects in front of the manifest, and answers how many objects these are."""
    some, number, count = random.Random(1), 0, 0
    text = some.randbytes(9 << 20)
    os.makedirs(os.path.join(folder, "data/0"))
    while size > 0:
        with open(os.path.join(folder, "data/0", str(number)), "wb") as file:
            file.write(segments.MAGIC)
            left = min(size, SEGMENT)
            while left > 0:
                length = of(some)
                at = some.randrange(len(text) - length)
                blob = bytes([3]) + text[:32] + (count % 1000).to_bytes(8, "big") + text[at : at + length]
                file.write(segments.put(some.randbytes(32), blob))
                left, count = left - length, count + 1
        size, number = size - SEGMENT, number + 1
    last = repository(keys, b"passphrase", keys.blob(keys.tagged(fields())))
    for name, content in last.items():
        place = name if name == "config" else f"data/0/{number + int(name.split('/')[-1])}"
        with open(os.path.join(folder, place), "wb") as file:
            file.write(content)
    with open(os.path.join(folder, "nonce"), "wb") as file:
        file.write(b"00000000ffffffff")
    return count


def seconds_of(words):
    """The processor seconds of a run, its output thrown away."""
    ran = subprocess.Popen(words, stdout=subprocess.DEVNULL, stderr=subprocess.DEVNULL)
    used = os.wait4(ran.pid, 0)[2]
    return used.ru_utime + used.ru_stime


def medians(commands):
    """The medians of five runs of each command, which are run by turns."""
    rounds = [[seconds_of(words) for words in commands] for _ in range(5)]
    return map(statistics.median, zip(*rounds))


def main(program, before):
    os.environ["BORG_PASSPHRASE"] = "passphrase"
    for kind, (size, of) in KINDS.items():
        with tempfile.TemporaryDirectory() as folder:
            target = os.path.join(folder, "target")
            count = fill(target, Keys(), size, of)
            words = ["-", target, "delete", "none"]
            now, then = medians([[program, *words], [before, *words]])
            print(f"{kind}: {count} objects, {size // MEGABYTE} MB: {now:.3f} s and {then:.3f} s, {(now - then) / then:.3f} of the opening", flush=True)


main(*map(os.path.abspath, sys.argv[1:3]))
