#!/usr/bin/env python3
"""Measures a series of archives of which each changes a little: series.py PROGRAM [--before OLD] [--rounds N] [--root FOLDER] [--archives N] [--megabytes N] [--percent P] [--many N]

A person starts it, on a machine that does nothing else. Borg makes the series, stored plain: 20 archives of 200 MB, of which each changes 5 %: a quarter of
the bytes is one image, of which four places change, the rest are files from 300 bytes to 5 MB, of which some are written anew, some grow, and some come. In each
round are measured the transfer of all into a new target, the same again, `plan` where all are present, `plan` into an empty target, for each archive
in turn `borg export-tar` with `borg import-tar` behind it, and `restic copy` of a repository of the same trees, where there is a restic; then the
transfer of 1,000 archives over one tree of 1 MB, and `check` of the target. With --before the same of an older program stands beside it.

Told are the medians of the rounds, in seconds of the processor in user and in system mode, with how many times as long as the others they are, by the median
of the rounds' ratios; and in front of them what the programs and the processor are. Without Borg 1.2 it says `skipped`. The disk needs ten times an archive's
megabytes.
"""
import argparse
import os
import random
import shutil
import statistics
import subprocess
import sys
import tempfile

from transfer import borg, environment, has_borg, measured, write

sys.path.insert(0, os.path.join(os.path.dirname(os.path.abspath(__file__)), "..", "checks"))
from borgs import interpreter

PLAIN = ("--compression", "none")
TAR = "borg export-tar | borg import-tar"
RESTIC = "restic copy"
OWN = ("transfer", "transfer again", "plan, all present", "plan, none present")
PLACES, PLACE = 4, 300000

# Borg in one process, for many archives of one tree: a start of its own for each takes ten times as long.
MANY = """
import sys
from borg.archiver import Archiver
for number in range(int(sys.argv[1])):
    archiver = Archiver()
    words = ["create", "--compression", "none", f"many::a{number:05d}", "many tree"]
    status = archiver.run(archiver.parse_args(words))
    if status:
        sys.exit(status)
"""


# ---- the series


class Tree:
    """Files of random bytes in a folder: the first is an image, and the others are documents and small files."""

    def __init__(self, folder, size):
        self.folder, self.size, self.numbers, self.files = folder, size, random.Random(7), []
        self.new(size // 4, "image")
        while self.total() < size * 0.85:
            self.new(int(10 ** self.numbers.uniform(5, 6.7)), f"docs/{len(self.files) % 20}")
        while self.total() < size:
            self.new(int(10 ** self.numbers.uniform(2.5, 5)), f"small/{len(self.files) % 40}")

    def new(self, size, folder):
        size = min(size, self.size // 4)
        path = os.path.join(self.folder, folder, f"{len(self.files):05d}")
        write(path, self.numbers.randbytes(size))
        self.files.append(path)
        return size

    def total(self):
        return sum(map(os.path.getsize, self.files))

    def change(self, left):
        """Changes about this many bytes."""
        numbers, image, place = self.numbers, self.files[0], min(PLACE, left // PLACES)
        with open(image, "r+b") as file:
            for _ in range(PLACES):
                file.seek(numbers.randrange(os.path.getsize(image) - place + 1))
                file.write(numbers.randbytes(place))
                left -= place
        while left > 0:
            path, kind = numbers.choice(self.files[1:]), numbers.random()
            if kind < 0.5:
                size = os.path.getsize(path)
                write(path, numbers.randbytes(size))
            elif kind < 0.8:
                size = 20000
                with open(path, "ab") as file:
                    file.write(numbers.randbytes(size))
            else:
                size = self.new(min(int(10 ** numbers.uniform(3, 6)), left + 1), "new")
            left -= size


def restic(root, *words):
    subprocess.run(["restic", "-q", *words], cwd=root, env=environment(root), check=True, capture_output=True)


def make_series(root, options, has_restic):
    """Makes the repositories `series`, and `restic series`: the names of their archives."""
    size = int(options.megabytes * 1e6)
    tree, names = Tree(os.path.join(root, "tree"), size), [f"a{number:03d}" for number in range(options.archives)]
    borg(root, "init", "-e", "repokey", "series")
    if has_restic:
        restic(root, "-r", "restic series", "init", "--repository-version", "2")
    for name in names:
        if name != names[0]:
            tree.change(int(size * options.percent / 100))
        borg(root, "create", *PLAIN, f"series::{name}", "tree")
        if has_restic:
            restic(root, "-r", "restic series", "--compression", "off", "backup", "tree")
    print(f"{len(names)} archives, the last of {tree.total() / 1e6:.0f} MB in {len(tree.files)} files; {size_of(root, 'series') / 1e6:.0f} MB in all", flush=True)
    shutil.rmtree(os.path.join(root, "tree"))
    return names


def size_of(root, folder):
    return sum(os.path.getsize(os.path.join(at, name)) for at, _, names in os.walk(os.path.join(root, folder)) for name in names)


def make_many(root, count):
    """Makes the repository `many`: so many archives over one tree of 1 MB."""
    numbers = random.Random(8)
    for number in range(50):
        write(os.path.join(root, "many tree", f"{number:02d}"), numbers.randbytes(20000))
    borg(root, "init", "-e", "repokey", "many")
    subprocess.run([interpreter(), "-c", MANY, str(count)], cwd=root, env=environment(root), check=True, capture_output=True)
    shutil.rmtree(os.path.join(root, "many tree"))


# ---- what is measured


def seconds(root, *commands):
    """The processor time of commands, the output of each the input of the next."""
    _, user, system, _, _ = measured(root, *commands)
    return user + system


def own(root, program, has_many):
    """The times of a program by name."""
    for target in ("target", "empty", "many target"):
        measured(root, [program, "-", target, "init"])
    times = {
        "transfer": seconds(root, [program, "series", "target", "transfer"]),
        "transfer again": seconds(root, [program, "series", "target", "transfer"]),
        "plan, all present": seconds(root, [program, "series", "target", "plan"]),
        "plan, none present": seconds(root, [program, "series", "empty", "plan"]),
    }
    if has_many:
        times["transfer of many"] = seconds(root, [program, "many", "many target", "transfer"])
        times["check of many"] = seconds(root, [program, "many target", "-", "check"])
    for target in ("target", "empty", "many target"):
        shutil.rmtree(os.path.join(root, target))
    return times


def by_tar(root, names):
    """The time of Borg's own way, which cuts there into pieces of the same size."""
    borg(root, "init", "-e", "repokey", "imported")
    cut = (*PLAIN, "--chunker-params", "fixed,2097152")
    total = sum(seconds(root, ["borg", "export-tar", f"series::{name}", "-"], ["borg", "import-tar", *cut, f"imported::{name}", "-"]) for name in names)
    shutil.rmtree(os.path.join(root, "imported"))
    return total


def by_restic(root):
    restic(root, "-r", "restic target", "init", "--repository-version", "2")
    words = ["restic", "-q", "-r", "restic target", "--compression", "off", "copy", "--from-repo", "restic series"]
    total = seconds(root, words)
    shutil.rmtree(os.path.join(root, "restic target"))
    return total


def round_of(root, programs, names, options, has_restic):
    """One round: the time of each measure by who did it and what it is."""
    times = {}
    for who, program in programs.items():
        times.update({(who, name): one for name, one in own(root, program, options.many > 0).items()})
    times["others", TAR] = by_tar(root, names)
    if has_restic:
        times["others", RESTIC] = by_restic(root)
    return times


def beside(who, name, times):
    """With what a measure is compared: how it is called, and its times."""
    if who == "program" and ("before", name) in times:
        yield "before", times["before", name]
    if who != "others" and name in OWN:
        yield from ((other, times["others", other]) for other in (TAR, RESTIC) if ("others", other) in times)


def tell(rounds, options):
    """Prints the medians and the ratios."""
    times = {key: [one[key] for one in rounds] for key in rounds[0]}
    for (who, name), all_times in times.items():
        called = name.replace("many", f"{options.many} archives over one tree of 1 MB")
        each = ", ".join(f"{one:.2f}" for one in all_times)
        ratios = ""
        for other, others in beside(who, name, times):
            ratio = statistics.median(mine / max(its, 0.01) for mine, its in zip(all_times, others))
            ratios += f"; {ratio:.2f} of {other}"
        print(f"{who}: {called}: {statistics.median(all_times):.2f} s of the processor ({each}){ratios}", flush=True)


def level():
    """Which of the instructions that matter the processor has."""
    with open("/proc/cpuinfo", encoding="ascii", errors="replace") as file:
        flags = {flag for line in file if line.startswith("flags") for flag in line.split()}
    return ", ".join(f"{flag} {'yes' if flag in flags else 'no'}" for flag in ("avx2", "sha_ni", "aes"))


def main():
    words = argparse.ArgumentParser(description=__doc__.splitlines()[0])
    words.add_argument("program")
    words.add_argument("--before", metavar="OLD", help="an older program, which is measured beside it")
    words.add_argument("--rounds", type=int, default=3)
    words.add_argument("--root", metavar="FOLDER", help="where the repositories are made, a temporary folder where it isn't given")
    words.add_argument("--archives", type=int, default=20)
    words.add_argument("--megabytes", type=float, default=200)
    words.add_argument("--percent", type=float, default=5)
    words.add_argument("--many", type=int, default=1000, help="how many archives over one tree, 0 for none")
    options = words.parse_args()
    if not has_borg():
        print("skipped: there is no borg of 1.2")
        return 0
    given = {"program": options.program, "before": options.before}
    programs = {who: os.path.abspath(path) for who, path in given.items() if path}
    print(f"processor: {level()}")
    for who, program in programs.items():
        print(f"{who}: {subprocess.run([program, '--version'], check=True, capture_output=True, text=True).stdout.strip()}", flush=True)
    has_restic = shutil.which("restic") is not None
    if not has_restic:
        print("skipped: restic, which isn't there")
    with tempfile.TemporaryDirectory(dir=options.root) as root:
        os.environ.update({"RESTIC_PASSWORD": "p", "RESTIC_FROM_PASSWORD": "p", "RESTIC_CACHE_DIR": os.path.join(root, "restic cache")})
        names = make_series(root, options, has_restic)
        if options.many:
            make_many(root, options.many)
        tell([round_of(root, programs, names, options, has_restic) for _ in range(options.rounds)], options)
    return 0


if __name__ == "__main__":
    sys.exit(main())
