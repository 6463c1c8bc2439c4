#!/usr/bin/env python3
"""Tells what a transfer spends its processor time on: shares.py [--program PATH] [--megabytes N]

Borg makes a source with one archive of random bytes, stored plain; `perf record` watches its transfer into a new target. Printed is the share of the
samples that fell on the hashes, the cipher, the CRC, on copying bytes (in the program and in the system), on the rest of the system, and on the rest of
the program. Without Borg 1.2 or perf it says `skipped`.
"""
import argparse
import os
import shutil
import subprocess
import tempfile

from transfer import TOP, borg, environment, has_borg

GROUPS = (
    ("hashes", ("sha2::", "ferry_mac::", "ferry_lanes::")),
    ("cipher", ("ferry_aes::",)),
    ("CRC", ("ferry_segment::crc", "ferry_segment::folding")),
    ("copies", ("memmove", "memcpy", "memset", "rep_movs", "copy_", "clear_page")),
)


def group_of(symbol, in_kernel):
    for name, parts in GROUPS:
        if any(part in symbol for part in parts):
            return name
    return "system" if in_kernel else "program"


def shares(record):
    """The share of each group, in percent."""
    report = subprocess.run(
        ["perf", "report", "-i", record, "--no-children", "--stdio", "-g", "none", "-F", "overhead,symbol"],
        check=True, capture_output=True, text=True)
    sums = {}
    for line in report.stdout.splitlines():
        words = line.split(maxsplit=2)
        if len(words) == 3 and words[0].endswith("%"):
            group = group_of(words[2], words[1] == "[k]")
            sums[group] = sums.get(group, 0.0) + float(words[0][:-1])
    return sums


def main():
    parser = argparse.ArgumentParser()
    parser.add_argument("--program", default=os.path.join(TOP, "crates", "borgferry", "out", "borgferry"))
    parser.add_argument("--megabytes", type=int, default=60)
    options = parser.parse_args()
    program = os.path.abspath(options.program)
    if not has_borg() or not shutil.which("perf"):
        print("skipped: Borg 1.2 or perf isn't there")
        return
    with tempfile.TemporaryDirectory() as root:
        os.mkdir(os.path.join(root, "data"))
        for number in range(options.megabytes):
            with open(os.path.join(root, "data", str(number)), "wb") as file:
                file.write(os.urandom(1 << 20))
        borg(root, "init", "-e", "repokey", "source")
        borg(root, "create", "--compression", "none", "source::a", "data")
        run = {"cwd": root, "env": environment(root), "check": True, "capture_output": True}
        subprocess.run([program, "source", "target", "init"], **run)
        record = os.path.join(root, "record")
        subprocess.run(["perf", "record", "-g", "-o", record, program, "source", "target", "transfer", "a"], **run)
        for name, share in sorted(shares(record).items(), key=lambda one: -one[1]):
            print(f"{name} {share:.1f} %")


if __name__ == "__main__":
    main()
