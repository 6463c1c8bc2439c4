#!/usr/bin/env python3
"""Writes a log for measuring: make_log.py FOLDER KEYS SIZE SEGMENT

So many random keys, each with a blob of SIZE bytes, in segments that are closed once they have SEGMENT bytes; the last segment is
a commit. All keys are live.
"""
import os
import random
import struct
import sys
import zlib

sys.dont_write_bytecode = True
sys.path.insert(0, os.path.join(os.path.dirname(os.path.abspath(__file__)), "..", "checks"))
import segments

PER_FOLDER = 1000


def opened(folder, number):
    """A new segment's file, with the magic."""
    path = os.path.join(folder, "data", str(number // PER_FOLDER), str(number))
    os.makedirs(os.path.dirname(path), exist_ok=True)
    file = open(path, "wb")
    file.write(segments.MAGIC)
    return file


def main(folder, keys, size, most):
    numbers = random.Random(1)
    noise = numbers.randbytes(size)
    head = struct.pack("<IB", 41 + size, segments.PUT)
    number = 0
    file = opened(folder, number)
    for _ in range(keys):
        rest = head + numbers.randbytes(32) + noise
        file.write(struct.pack("<I", zlib.crc32(rest)) + rest)
        if file.tell() >= most:
            file.close()
            number += 1
            file = opened(folder, number)
    file.close()
    with opened(folder, number + 1) as file:
        file.write(segments.COMMIT)


main(sys.argv[1], *map(int, sys.argv[2:]))
