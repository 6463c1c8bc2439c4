#!/usr/bin/env python3
"""Measures `restore` beside `borg extract`: restore.py [--program PATH] [--megabytes N] [--small N] [--zeros N] [--times N] [--folder PATH] [CASES ..]

- `odd`: no figure: an archive of odd names, sparse files, symbolic and hard links and a pipe is restored by both, and compared.
- `uneven`: an archive of so many megabytes of random bytes in files of uneven sizes, cut by Borg's own cutter.
- `small`: an archive of so many files of up to 200 bytes, and one of half as many.
- `zeros`: an archive of one file of so many gigabytes of zeros.
- `segments`: the files of `uneven` in chunks of about 256 kB, in segments of 300 kB and of 2.7 MB.

Each archive is stored plain. `restore` and `borg extract --sparse` run in turn, three times each, into a new folder, and the medians are told: processor time in user
and in system mode, the greatest peak of memory, and the disk's blocks. What both made is compared: kinds, contents, targets, which files are one, and that the
blocks of each file are no more than Borg's. Without Borg 1.2 it says `skipped`. The disk needs four times the megabytes.
"""
import argparse
import filecmp
import os
import random
import shutil
import stat
import statistics
import sys
import tempfile

from transfer import TOP, borg, has_borg, measured

PLAIN = ("--compression", "none")


def write(path, content):
    os.makedirs(os.path.dirname(path), exist_ok=True)
    with open(path, "wb") as file:
        file.write(content)


def sparse(path, pieces, length):
    """A file of this length with pieces at their places, and holes between them."""
    with open(path, "wb") as file:
        for at, content in pieces:
            file.seek(at)
            file.write(content)
        file.truncate(length)


def make_odd(tree):
    """Odd names, sparse files, links and a pipe."""
    numbers = random.Random(6)
    for name in ("ä ö", "-- x", "a\nb", "back\\slash", "x" * 255, "tab\t", "q'\"", "日本", ".hidden", "..x", "[a]*?", " "):
        write(f"{tree}/names/{name}", name.encode())
    write(f"{tree}/empty", b"")
    write(f"{tree}/deep/" + "/".join("d" * 40 for _ in range(20)) + "/file", b"deep")
    os.makedirs(f"{tree}/empty folder")
    for size in (1, 4095, 4096, 4097, 8192, 8193, 2**20 + 1):
        write(f"{tree}/sizes/{size}", numbers.randbytes(size))
        write(f"{tree}/zeros/{size}", bytes(size))
    write(f"{tree}/zeros/mixed", numbers.randbytes(4096) + bytes(4096) + b"x" + bytes(4095) + bytes(12288))
    sparse(f"{tree}/holes", [(2**20, b"one"), (2**24, numbers.randbytes(10000))], 2**25)
    sparse(f"{tree}/holes at both ends", [(2**23, b"middle")], 2**24 + 3)
    os.symlink("empty", f"{tree}/link")
    os.symlink("/nowhere/at all", f"{tree}/dangling")
    os.symlink("../names/ä ö", f"{tree}/sizes/up")
    os.symlink("names", f"{tree}/folder link")
    for name in ("first", "names/second", "zz third"):
        os.link(f"{tree}/sizes/4097", f"{tree}/{name}")
    os.mkfifo(f"{tree}/pipe")
    os.chmod(f"{tree}/empty", 0o400)


def make_uneven(tree, megabytes):
    numbers, files = random.Random(7), 40
    for number in range(files):
        size = int(megabytes * 1e6 / files)
        write(f"{tree}/{number:03d}", numbers.randbytes(numbers.randrange(size // 2, size * 3 // 2 + 1)))


def make_small(tree, count):
    numbers = random.Random(8)
    for number in range(count):
        write(f"{tree}/folder {number // 1000}/file {number:07d}", numbers.randbytes(numbers.randrange(200)))


def make_zeros(tree, gigabytes):
    os.makedirs(tree)
    sparse(f"{tree}/zeros", [], int(gigabytes * 1e9))


# ---- comparing


def paths_of(folder):
    return sorted(os.path.relpath(os.path.join(top, name), folder) for top, folders, files in os.walk(folder) for name in folders + files)


def links_of(folder, paths):
    """For each file the first path of the same file."""
    first = {}
    return {path: first.setdefault(os.lstat(os.path.join(folder, path)).st_ino, path) for path in paths}


def kind_of(path):
    return stat.S_IFMT(os.lstat(path).st_mode)


def same_node(own, other):
    """Whether two paths have the same kind of node, and the same content or target; of a file no more blocks are used than Borg's."""
    if kind_of(own) != kind_of(other):
        return False
    if os.path.islink(own):
        return os.readlink(own) == os.readlink(other)
    if stat.S_ISDIR(os.lstat(own).st_mode):
        return True
    return filecmp.cmp(own, other, shallow=False) and os.lstat(own).st_blocks <= os.lstat(other).st_blocks


def compared(name, own, other):
    """Compares what both made, pipes apart, which aren't restored."""
    theirs = [path for path in paths_of(other) if not stat.S_ISFIFO(os.lstat(os.path.join(other, path)).st_mode)]
    ours = paths_of(own)
    differ = sorted(set(ours) ^ set(theirs)) or [path for path in ours if not same_node(os.path.join(own, path), os.path.join(other, path))]
    files = [path for path in ours if stat.S_ISREG(os.lstat(os.path.join(own, path)).st_mode)]
    if differ or links_of(own, files) != links_of(other, files):
        raise SystemExit(f"{name}: {differ[:10] or 'hard links'} differ")
    return len(ours)


def blocks_of(folder):
    return sum(os.lstat(os.path.join(folder, path)).st_blocks for path in paths_of(folder))


# ---- measuring


def extracted(root, folder):
    """Extracts by Borg into a new folder."""
    os.makedirs(os.path.join(root, folder))
    return measured(root, ["sh", "-c", 'cd "$1" && exec borg extract --sparse ../source::a', "sh", folder])


def restored(root, program, folder):
    return measured(root, [program, "source", folder, "restore", "a"])


def medians(runs):
    return [statistics.median(run[index] for run in runs) for index in (1, 2)] + [max(run[3][0] for run in runs)]


def turn(root, program, options, name, make, *how, segment=None):
    """One archive, restored and extracted in turn, compared and told. Answers the processor time of `restore`."""
    tree = os.path.join(root, "tree")
    make(tree, *how)
    borg(root, "init", "-e", "repokey", "source")
    cut = ("--chunker-params", "fixed,4194304", "--sparse") if make is make_zeros else ("--sparse",)
    if segment:
        borg(root, "config", "source", "max_segment_size", str(segment))
        cut = ("--chunker-params", "10,23,18,4095")
    borg(root, "create", *PLAIN, *cut, "source::a", "tree")
    shutil.rmtree(tree)
    segments = sum(len(files) for top, folders, files in os.walk(os.path.join(root, "source", "data")))
    own, theirs = [], []
    for number in range(options.times):
        theirs.append(extracted(root, "theirs"))
        own.append(restored(root, program, "own"))
        if number == 0:
            count, blocks = compared(name, os.path.join(root, "own"), os.path.join(root, "theirs")), [blocks_of(os.path.join(root, made)) for made in ("own", "theirs")]
        for made in ("own", "theirs"):
            shutil.rmtree(os.path.join(root, made))
    shutil.rmtree(os.path.join(root, "source"))
    (user, system, peak), (their_user, their_system, their_peak) = medians(own), medians(theirs)
    ratio = (user + system) / max(their_user + their_system, 0.001)
    print(
        f"{name}, {segments} segments: {own[0][4][-1]}; {user:.2f} s in user and {system:.2f} s in system mode, peak {peak:.1f} MB, {blocks[0] // 2} kB on disk;"
        f" borg extract --sparse {their_user:.2f} and {their_system:.2f} s, {their_peak:.1f} MB, {blocks[1] // 2} kB: {ratio:.2f} times; {count} paths are the same",
        flush=True,
    )
    return user + system


def main():
    words = argparse.ArgumentParser(description=__doc__.splitlines()[0])
    words.add_argument("--program", default=os.path.join(TOP, "target", "borgferry"))
    words.add_argument("--megabytes", type=float, default=285)
    words.add_argument("--small", type=int, default=300000)
    words.add_argument("--zeros", type=float, default=10)
    words.add_argument("--times", type=int, default=3)
    words.add_argument("--folder", help="where the repositories are made, a temporary folder where it isn't given")
    words.add_argument("cases", nargs="*", default=["odd", "uneven", "small", "zeros", "segments"])
    options = words.parse_args()
    if not has_borg():
        print("skipped: there is no borg of 1.2")
        return 0
    program = os.path.abspath(options.program)
    with tempfile.TemporaryDirectory(dir=options.folder) as root:
        if "odd" in options.cases:
            turn(root, program, options, "odd", make_odd)
        if "uneven" in options.cases:
            turn(root, program, options, f"{options.megabytes:.0f} MB of uneven chunks", make_uneven, options.megabytes)
        if "small" in options.cases:
            half = turn(root, program, options, f"{options.small // 2} small files", make_small, options.small // 2)
            whole = turn(root, program, options, f"{options.small} small files", make_small, options.small)
            print(f"twice the small files take {whole / max(half, 0.001):.2f} times", flush=True)
        if "zeros" in options.cases:
            turn(root, program, options, f"{options.zeros:.0f} GB of zeros", make_zeros, options.zeros)
        if "segments" in options.cases:
            few, many = (
                turn(root, program, options, f"{options.megabytes:.0f} MB in segments of {size // 1000} kB", make_uneven, options.megabytes, segment=size)
                for size in (2700000, 300000)
            )
            print(f"the small segments take {many / max(few, 0.001):.2f} times as long as the large ones", flush=True)
    return 0


if __name__ == "__main__":
    sys.exit(main())
