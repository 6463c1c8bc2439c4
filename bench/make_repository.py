#!/usr/bin/env python3
"""Writes a repository for measuring: make_repository.py FOLDER MEGABYTES

Blobs of 4 KiB to 1 MiB of random bytes stand under random keys, in segments of about 2 MiB. As Borg does at the end of each
run, a commit is a segment of its own; now and then a commit stands at the end of a segment of data, as Borg leaves one within a
run. About one entry in ten puts a key again that is there, and one in ten deletes one. The `config` is one that Borg opens.
"""
import os
import random
import sys

sys.dont_write_bytecode = True
sys.path.insert(0, os.path.join(os.path.dirname(os.path.abspath(__file__)), "..", "checks"))
import segments

SEGMENT = 2 << 20
PER_FOLDER = 1000
CONFIG = f"""[repository]
version = 1
segments_per_dir = {PER_FOLDER}
max_segment_size = {SEGMENT}
append_only = 0
storage_quota = 0
additional_free_space = 0
id = {"ab" * 32}
"""


def write(folder, number, content):
    path = os.path.join(folder, "data", str(number // PER_FOLDER), str(number))
    os.makedirs(os.path.dirname(path), exist_ok=True)
    with open(path, "wb") as file:
        file.write(content)


def entry(numbers, keys):
    """One more entry: mostly a new key, else one that is there."""
    choice = numbers.random()
    if choice < 0.1 and keys:
        return segments.delete(keys.pop(numbers.randrange(len(keys))))
    if choice < 0.2 and keys:
        key = numbers.choice(keys)
    else:
        key = numbers.randbytes(32)
        keys.append(key)
    return segments.put(key, numbers.randbytes(int(4096 * 256 ** numbers.random())))


def main(folder, most):
    numbers = random.Random(1)
    os.makedirs(folder)
    with open(os.path.join(folder, "config"), "w", encoding="utf-8") as file:
        file.write(CONFIG)
    with open(os.path.join(folder, "README"), "w", encoding="utf-8") as file:
        file.write("This is a Borg Backup repository.\n")
    keys, number, total = [], 0, 0
    while total < most:
        content = [segments.MAGIC]
        while sum(map(len, content)) < SEGMENT:
            content.append(entry(numbers, keys))
        if numbers.random() < 0.05:
            content.append(segments.COMMIT)
        write(folder, number, b"".join(content))
        total += sum(map(len, content))
        number += 1
        if numbers.random() < 0.05 or total >= most:
            write(folder, number, segments.COMMIT_SEGMENT)
            number += 1
    print(f"{total / 1e6:.0f} MB in {number} segments, {len(keys)} live keys")


main(sys.argv[1], int(float(sys.argv[2]) * 1e6))
