#!/usr/bin/env python3
"""Commands to which memory is refused: memory.py PROGRAM [STEP [COMMAND ..]]

A person starts it; no part of the gate does. Each command runs on an input of four chunks of 1 MiB again and again, each time with a limit of its address space that is STEP KiB larger than before (64 where it
isn't given), from 128 KiB above the least in which the program can say its version, for its stack, up to that in which the command ends well. Each run ends with status 3 and the line `memory`, or as it ends without a
limit. After each, what was there is looked at: a source is as it was, the target opens and has its archives as before the command or as after it, and the same words run again without a
limit end well. A program with a sanitizer, as `rt try` builds it, takes so much address space that nothing can be told of it: that is said, and nothing is tried. A line for each
command says how many runs ended in which way. One line for each thing that differs, and at the end 'N passed, M failed, K skipped'; status 1 where M isn't 0.
"""
import collections
import os
import resource
import shutil
import sys
import tempfile

sys.dont_write_bytecode = True
from counting import finish, judge, skip
from repositories import Item, Keys
from running import ITEM, make_archive, run, state, write

STEP = int(sys.argv[2]) if len(sys.argv) > 2 else 64
CHOSEN = sys.argv[3:]
# How many KiB the stack of a command grows by beyond that of `--version`.
STACK = 128
# The bytes of a chunk: what a command takes for some of them has to be more than what the program takes to start, or nothing is refused to it.
SIZE = 1 << 20
# The most address space that is tried, in KiB. A program with a sanitizer takes far more.
MOST = 1 << 20
EMPTY = b"ok archives 0 chunks 0 orphans 0 untagged 0\n"


class Command:
    """A command: its words, whether it is run over a new target, and how it may end where it is run once more: where it was done already, and where it wasn't."""

    def __init__(self, words, has_target=True, again=(0,)):
        self.words, self.has_target, self.again = words, has_target, again
        self.name = " ".join(words[2:4]) if words[2] in ("list", "drill") else words[2]


COMMANDS = [
    *(Command(("source", "-", *words)) for words in (("keys",), ("key",), ("list",), ("list", "a"), ("check",), ("extract", "a", "file"))),
    Command(("source", "folder", "restore", "a"), again=(0, 14)), Command(("source", "target", "plan")), Command(("source", "target", "transfer", "--block", "262144", "--checkpoint", "1")),
    Command(("-", "target", "init", "--iterations", "1"), has_target=False, again=(0, 9)), Command(("-", "target", "delete", "b"), again=(0, 11)),
    Command(("-", "target", "tag-archives")), Command(("-", "target", "compact", "--threshold", "0")), Command(("-", "-", "make-key", "--iterations", "1")), Command(("-", "-", "drill", "1")),
]


def limited_to(kib):
    return lambda: resource.setrlimit(resource.RLIMIT_AS, (kib * 1024, kib * 1024))


def least(ends_well, too_little=0):
    """The least limit, to a STEP, in which something ends well; `None` where the most isn't enough."""
    enough = MOST
    if not ends_well(enough):
        return None
    while enough - too_little > STEP:
        middle = (too_little + enough) // 2
        if ends_well(middle):
            enough = middle
        else:
            too_little = middle
    return enough


class Folder:
    """A source with the archive `a`, and a target with the archive `b` whose record has no tag, as they are before each run."""

    def __init__(self, root):
        self.root, self.laid = root, os.path.join(root, "laid")
        items = [Item(b"file", [bytes([65 + number]) * SIZE for number in range(4)], more=ITEM), Item(b"folder", more={**ITEM, b"mode": 0o40755}), Item(b"link", source=b"file", more=ITEM)]
        make_archive(self.laid, "source", items)
        make_archive(self.laid, "target", items[:1], Keys(b"target"), name=b"b", how={"tam": "none"})
        write(os.path.join(self.laid, "target/nonce"), b"00000000000f4240")

    def path(self, name=""):
        return os.path.join(self.root, "trial", name)

    def begin(self, command):
        shutil.rmtree(self.path(), ignore_errors=True)
        shutil.copytree(self.laid, self.path())
        if not command.has_target:
            shutil.rmtree(self.path("target"))

    def run(self, command, kib=None):
        self.begin(command)
        return run(self.path(), *command.words, **({} if kib is None else {"preexec_fn": limited_to(kib)}))

    def check(self):
        """What `check` says of the target, and the contents of the archives in it."""
        ran = run(self.path(), "target", "-", "check")
        contents = [run(self.path(), "target", "-", "extract", name, "file").stdout for name in ("a", "b")]
        return ran.returncode, contents


def limits_of(folder, command, floor):
    """The limits to run a command with, up to the least in which it ends as without one."""
    wanted = folder.run(command)
    most = least(lambda kib: folder.run(command, kib).returncode == wanted.returncode, floor)
    return wanted, range(floor, (most or floor) + 1, STEP)


def look(folder, command, what, before, after):
    """Looks at what is there behind a run, and runs the command again."""
    source = state(folder.path("source"))
    judge(source == state(os.path.join(folder.laid, "source")), f"{what}: the source has changed")
    if command.has_target and "target" in command.words:
        status, contents = folder.check()
        judge(status == 0, f"{what}: check of the target ends with {status}")
        # A transfer that didn't end has put some of the archive, of which nothing is listed yet.
        judge(contents in (before[1], after[1]), f"{what}: the target has other archives")
    again = run(folder.path(), *command.words)
    judge(again.returncode in command.again, f"{what}: the command again ends with {again.returncode}: {again.stdout!r}")
    if "target" in command.words:
        judge(folder.check() == after, f"{what}: the target isn't as it is to be behind the command again")


def tried(folder, command, floor):
    wanted, limits = limits_of(folder, command, floor)
    judge(wanted.returncode == 0, f"{command.name} ends with {wanted.returncode}: {wanted.stdout!r}")
    after = folder.check() if "target" in command.words else None
    folder.begin(command)
    before = folder.check() if command.has_target else None
    ends = collections.Counter()
    for kib in limits:
        ran = folder.run(command, kib)
        ends[ran.returncode] += 1
        what = f"{command.name} in {kib} KiB"
        is_end = ran.returncode == 0 and (ran.stdout == wanted.stdout or command.words[2] in ("init", "make-key"))
        judge(is_end or (ran.returncode == 3 and ran.stdout.endswith(b"memory\n")), f"{what}: status {ran.returncode}: {ran.stdout!r} {ran.stderr!r}")
        look(folder, command, what, before, after)
    told = ", ".join(f"{count} with status {status}" for status, count in sorted(ends.items()))
    print(f"{command.name}: {len(limits)} limits from {floor} to {limits[-1]} KiB, of which {told}", flush=True)


def main():
    names = [command.name for command in COMMANDS]
    unknown = set(CHOSEN) - set(names)
    if unknown:
        sys.exit(f"memory.py: no command {' '.join(sorted(unknown))}; there are {', '.join(names)}")
    with tempfile.TemporaryDirectory() as root:
        floor = least(lambda kib: run(root, "--version", preexec_fn=limited_to(kib)).returncode == 0)
        # The stack grows, which the limit counts too: where it can't, the system ends a program by a signal.
        floor = floor and floor + STACK
        if floor is None:
            skip(f"all: the program doesn't start in {MOST} KiB, as one that is built with a sanitizer doesn't")
        else:
            folder = Folder(root)
            for command in COMMANDS:
                if not CHOSEN or command.name in CHOSEN:
                    tried(folder, command, floor)
    finish()


main()
