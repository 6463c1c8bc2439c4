#!/usr/bin/env python3
"""Measures `delete`, `compact` and `plan` beside Borg: upkeep.py [--program PATH] [--archives N] [--files N] [--megabytes N] [--small N] [--block B] [--folder PATH]

- `delete`: Borg makes N archives of small files, no two alike, a chunk each, stored plain; they are transferred, and one of them is deleted in the target, and by
  `borg delete` in Borg's own, whose cache is warm. The same with twice the files. The memory of `keys` over the target is what its log takes.
- `compact`: a repository that Borg made of random bytes, half of which is dead, is copied, and each copy is compacted by one of both, in turn: three times each, of
  which the medians are told. In `whole` each second one of twenty archives is deleted, so that most segments are dead or live as a whole. In `mixed` an archive of
  forty files was made, then one of each second file, and the first is deleted, so that each segment is half dead. `small` is as `mixed` of small files. That
  both leave as many bytes is looked at.
- `plan` of three archives, of which each shares half with the one before, into an empty target, and the transfer.

Figures are those of transfer.py: each is one run, but those of `compact`. Without Borg 1.2 it says `skipped`. The disk needs five times the megabytes.
"""
import argparse
import os
import random
import shutil
import statistics
import sys
import tempfile

from transfer import ARCHIVES, TOP, borg, has_borg, make_source, measured, told, transfer

PLAIN = ("--compression", "none")


def small_archives(root, repository, archives, files):
    """Makes a repository of this many archives, each of as many small files, no two alike."""
    numbers, tree = random.Random(3), os.path.join(root, "tree")
    borg(root, "init", "-e", "repokey", repository)
    for archive in range(archives):
        os.makedirs(tree)
        for number in range(files):
            with open(os.path.join(tree, f"{number:06d}"), "wb") as file:
                file.write(numbers.randbytes(numbers.randrange(16, 200)))
        borg(root, "create", *PLAIN, f"{repository}::a{archive:03d}", "tree")
        shutil.rmtree(tree)


def large_archives(root, repository, archives, size):
    """Makes a repository of this many archives, each of about so many random bytes in files of uneven sizes."""
    numbers, tree = random.Random(4), os.path.join(root, "tree")
    borg(root, "init", "-e", "repokey", repository)
    for archive in range(archives):
        os.makedirs(tree)
        for number in range(8):
            with open(os.path.join(tree, f"{number}"), "wb") as file:
                file.write(numbers.randbytes(numbers.randrange(size // 16, size * 3 // 16 + 1)))
        borg(root, "create", *PLAIN, f"{repository}::a{archive:03d}", "tree")
        shutil.rmtree(tree)


def deletions(root, program, options):
    times = []
    for files in (options.files // 2, options.files):
        source, target, last = f"source {files}", f"target {files}", f"a{options.archives // 2:03d}"
        small_archives(root, source, options.archives, files)
        measured(root, [program, "-", target, "init"])
        told(f"transfer of {options.archives} archives of {files} small files", transfer(root, program, options, source, target))
        keys = measured(root, [program, target, "-", "keys"])
        print(f"keys: {len(keys[4])} live keys, peak {keys[3][0]:.1f} MB", flush=True)
        run = measured(root, [program, "-", target, "delete", last])
        times.append(told("delete of one", run))
        print(f"beside the log: {(run[3][0] - keys[3][0]) * 1e6 / len(keys[4]):.0f} bytes a live chunk", flush=True)
        told("borg delete of one", measured(root, ["borg", "delete", f"{source}::{last}"]))
    print(f"delete: twice the chunks take {times[1] / max(times[0], 0.001):.2f} times the processor time", flush=True)


def half_dead(root, repository, files, least, most):
    """Makes a repository of an archive of so many files of random bytes, and of one of each second file, and deletes the first."""
    numbers, tree = random.Random(5), os.path.join(root, "tree")
    borg(root, "init", "-e", "repokey", repository)
    os.makedirs(tree)
    for number in range(files):
        with open(os.path.join(tree, f"{number:06d}"), "wb") as file:
            file.write(numbers.randbytes(numbers.randrange(least, most + 1)))
    borg(root, "create", *PLAIN, f"{repository}::all", "tree")
    for number in range(0, files, 2):
        os.remove(os.path.join(tree, f"{number:06d}"))
    borg(root, "create", *PLAIN, f"{repository}::half", "tree")
    shutil.rmtree(tree)
    borg(root, "delete", f"{repository}::all")


def dead_archives(root, repository, archives, size):
    """Makes a repository of this many archives of about so many bytes each, and deletes each second one."""
    large_archives(root, repository, archives, size)
    for archive in range(0, archives, 2):
        borg(root, "delete", f"{repository}::a{archive:03d}")


def bytes_in(folder):
    return sum(os.path.getsize(os.path.join(at, name)) for at, _, names in os.walk(folder) for name in names)


def compacted(root, name, repository, *words):
    """Compacts a copy of what was kept of a repository, in its place, by these words: the processor time, the peak of memory and the bytes that are left."""
    shutil.copytree(os.path.join(root, "kept"), os.path.join(root, repository))
    run = measured(root, list(words))
    time, left = told(f"{name} of {repository}", run), bytes_in(os.path.join(root, repository, "data"))
    shutil.rmtree(os.path.join(root, repository))
    return time, run[3][0], left


def compared(root, program, repository):
    """Compacts copies of a repository in turn, three times each, and tells the medians. The repository is gone afterwards."""
    os.rename(os.path.join(root, repository), os.path.join(root, "kept"))
    own, theirs = [], []
    for _ in range(3):
        theirs.append(compacted(root, "borg compact", repository, "borg", "compact", repository))
        own.append(compacted(root, "compact", repository, program, "-", repository, "compact"))
    shutil.rmtree(os.path.join(root, "kept"))
    medians = [statistics.median(run[0] for run in runs) for runs in (own, theirs)]
    peaks = [max(run[1] for run in runs) for runs in (own, theirs)]
    left = " and ".join(f"{runs[0][2] / 1e6:.1f}" for runs in (own, theirs))
    print(
        f"compact of {repository}: {medians[0]:.2f} s of the processor, peak {peaks[0]:.1f} MB; borg {medians[1]:.2f} s, {peaks[1]:.1f} MB:"
        f" {medians[0] / max(medians[1], 0.001):.2f} times; {left} MB are left",
        flush=True,
    )
    return medians[0]


def compactions(root, program, options):
    times = []
    for megabytes in (options.megabytes / 2, options.megabytes):
        repository = f"whole-{megabytes:.0f}"
        dead_archives(root, repository, 20, int(megabytes * 1e6 / 20))
        times.append(compared(root, program, repository))
    print(f"compact: twice the bytes take {times[1] / max(times[0], 0.001):.2f} times", flush=True)
    repository, size = f"mixed-{options.megabytes:.0f}", int(options.megabytes * 1e6 / 40)
    half_dead(root, repository, 40, size // 2, size * 3 // 2)
    compared(root, program, repository)
    half_dead(root, f"small-{options.small}", options.small, 16, 200)
    compared(root, program, f"small-{options.small}")


def plans(root, program, options):
    make_source(root, options.plan, 400)
    measured(root, [program, "-", "target", "init"])
    words = ["--block", str(options.block), *ARCHIVES]
    planned = told("plan of three archives", measured(root, [program, "source", "target", "plan", *words]))
    done = told("transfer of three archives", transfer(root, program, options, "source", "target", *ARCHIVES))
    print(f"plan: {planned / max(done, 0.001):.2f} of the transfer", flush=True)


def main():
    words = argparse.ArgumentParser(description=__doc__.splitlines()[0])
    words.add_argument("--program", default=os.path.join(TOP, "target", "borgferry"))
    words.add_argument("--archives", type=int, default=100)
    words.add_argument("--files", type=int, default=2000)
    words.add_argument("--megabytes", type=float, default=2000)
    words.add_argument("--small", type=int, default=40000)
    words.add_argument("--plan", type=float, default=300)
    words.add_argument("--block", type=int, default=2097152)
    words.add_argument("--folder", help="where the repositories are made, a temporary folder where it isn't given")
    options = words.parse_args()
    if not has_borg():
        print("skipped: there is no borg of 1.2")
        return 0
    for measure in (deletions, compactions, plans):
        with tempfile.TemporaryDirectory(dir=options.folder) as root:
            measure(root, os.path.abspath(options.program), options)
    return 0


if __name__ == "__main__":
    sys.exit(main())
