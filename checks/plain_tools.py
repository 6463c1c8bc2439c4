"""What the cases of plain.py share: how the script and the program are run, what has to hold behind that, and trees and repositories that compress."""
import os
import random
import re
import shutil
import subprocess
import sys
import time

import borgs
from borgs import borg, facts, run, trees
from counting import judge

TOP = os.path.dirname(os.path.dirname(os.path.abspath(__file__)))
SCRIPT = os.environ.get("BORGFERRY_PLAIN", os.path.join(TOP, "tools/borgferry-plain"))
PROGRAM = os.path.abspath(sys.argv[1])


def write(path, content):
    os.makedirs(os.path.dirname(path), exist_ok=True)
    with open(path, "wb") as file:
        file.write(content)


def plain(root, folder, *words, own=None):
    return run(root, SCRIPT, *words, folder, own=own)


def check(root, folder, own=None):
    """What the program's `check` says of a repository."""
    return run(root, PROGRAM, folder, "-", "check", own=own)


def is_refused(root, folder, what, own=None):
    ran = check(root, folder, own)
    judge(ran.returncode != 0 and "blob 4" in ran.stdout, f"{what}: before, the program says {ran.stdout!r}, status {ran.returncode}")


def reads(root, folder, what, own=None):
    """Both programs find the repository right."""
    ran = check(root, folder, own)
    judge(ran.returncode == 0 and ran.stdout.startswith("ok archives "), f"{what}: behind, the program says {ran.stdout!r} {ran.stderr!r}")
    ran = run(root, "borg", "check", "--verify-data", folder)
    judge(ran.returncode == 0, f"{what}: behind, borg check says {ran.stdout!r} {ran.stderr!r}")


def becomes_plain(root, folder, what, *words):
    """The script ends well, both checks are run, and all that Borg says and extracts is as before."""
    before, trees_before = facts(root, folder), trees(root, folder)
    is_refused(root, folder, what)
    ran = plain(root, folder, *words)
    judge(ran.returncode == 0, f"{what}: the script ends with {ran.returncode}: {ran.stdout!r} {ran.stderr!r}")
    for said in ("well: borg check --verify-data ", "ok archives ", "well: borgferry "):
        judge(f"\n{said}" in ran.stdout, f"{what}: the script doesn't say {said!r}: {ran.stdout!r}")
    behind = facts(root, folder)
    judge(behind == before, f"{what}: Borg says {behind}, and said {before}")
    judge(trees(root, folder) == trees_before, f"{what}: what Borg extracts isn't as before")
    ran = plain(root, folder, "--dry-run")
    judge((ran.returncode, re.search(r" (\d+) to be written again", ran.stdout)[1]) == (0, "0"), f"{what}: a second run says {ran.stdout!r} {ran.stderr!r}")
    return trees_before


def goes_on(root, folder, what, archives=None):
    """The program carries all archives into a new target, Borg extracts the same trees there, and goes on with both repositories."""
    target = f"{folder}-target"
    ran = run(root, PROGRAM, "-", target, "init", "--iterations", "1000")
    judge(ran.returncode == 0, f"{what}: init says {ran.stdout!r}")
    ran = run(root, PROGRAM, folder, target, "transfer", "--block", "65536")
    judge(ran.returncode == 0, f"{what}: transfer says {ran.stdout!r} {ran.stderr!r}")
    judge(archives is None or trees(root, target, list(archives)) == archives, f"{what}: what Borg extracts of the target isn't the same")
    for place in (folder, target):
        ran = run(root, "borg", "create", "--compression", "none", f"{place}::behind", "bin")
        judge(ran.returncode == 0, f"{what}: borg create in {place} says {ran.stderr!r}")
        reads(root, place, f"{what}: {place} with one more archive")
    ran = run(root, PROGRAM, "-", target, "delete", "behind")
    judge(ran.returncode == 0, f"{what}: delete says {ran.stdout!r} {ran.stderr!r}")
    shutil.rmtree(os.path.join(root, target))


def words_of(number, size=8000):
    """Text that each compression makes smaller, of this number alone."""
    some = random.Random(number)
    return b" ".join(some.choice([b"some", b"words", b"%d" % number, b"that", b"repeat"]) for _ in range(size // 5))


def make_tree(root, number, files_of=3):
    """A folder `tree` of files that compress, and one that doesn't."""
    shutil.rmtree(f"{root}/tree", ignore_errors=True)
    for name in range(files_of):
        write(f"{root}/tree/folder/{name}", words_of(100 * number + name))
    write(f"{root}/tree/random", random.Random(number).randbytes(6000))


def many(root, folder="old", archives=3, files_of=20):
    """A repository of 400 kB that compress, in many segments."""
    borgs.init(root, folder)
    for number in range(archives):
        make_tree(root, number, files_of)
        borg(root, "create", "--compression", "lz4", f"{folder}::{number}", "tree")
    # Compaction has something to do beside what the script puts.
    borg(root, "delete", f"{folder}::0")


def segments(folder):
    return {name for place, _, inside in os.walk(f"{folder}/data") for name in inside}


def started(root, folder, *words):
    return subprocess.Popen([SCRIPT, *words, folder], cwd=root, env=borgs.variables(root), stdout=subprocess.PIPE, stderr=subprocess.STDOUT, text=True)


def writes(root, folder, *words):
    """The script at work, at its first segment."""
    known = segments(f"{root}/{folder}")
    process = started(root, folder, "--unchecked", *words)
    while process.poll() is None and segments(f"{root}/{folder}") <= known:
        time.sleep(0.001)
    return process
