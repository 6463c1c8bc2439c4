"""Cases of checks/devices.py: lines about locks and files of Borg, each alone, and help that isn't taken."""
import os
import re
import shutil

import tracing
from counting import judge
from running import ended, injected, make_target, run, write

# What each command is given, so that it writes: an archive without a tag, and segments that are compacted though all of them is in use.
COMMANDS = {"delete": ("a",), "tag-archives": (), "compact": ("--threshold", "0")}
OUTDATED = b"TARGET has files index.*, hints.* or integrity.* of Borg that are out of date now"
LOCKED = b"TARGET has a lock of Borg"


def said_of(root, words, made):
    """A command over a target in which these files are made beside: what it says on standard error."""
    shutil.rmtree(os.path.join(root, "target"), ignore_errors=True)
    make_target(root, how={"tam": "none"})
    for name, content in made.items():
        write(os.path.join(root, "target", name), content)
    ran = run(root, "-", "target", *words)
    ended(f"{' '.join(words)} beside {sorted(made)}", ran, 0)
    gone = [name for name in made if not os.path.exists(os.path.join(root, "target", name))]
    judge(not gone, f"{' '.join(words)} removes {gone}")
    return ran.stderr


def files_of_borg(root):
    """Each of Borg's files alone is told behind each command that has taken something out, in one line; without one nothing is told."""
    for command, words in COMMANDS.items():
        said = said_of(root, (command, *words), {})
        judge(said == b"", f"{command} says {said!r}")
        for name in ("index.5", "hints.5", "integrity.5"):
            said = said_of(root, (command, *words), {name: b""})
            judge(said.startswith(OUTDATED) and said.count(b"\n") == 1, f"{command} beside {name} says {said!r}")
        for name in ("index", "hint.5", "nindex.5", "README.index.5"):
            said = said_of(root, (command, *words), {name: b""})
            judge(said == b"", f"{command} beside {name} says {said!r}")


LOCKS = {"lock.exclusive": b"", "lock.exclusive/host@1.2-3": b"", "lock.roster": b'{"shared": [["host@1", 2, 0]]}'}


def locks(root):
    """Each kind of lock alone is told before each command that takes something out, in one line."""
    for command, words in COMMANDS.items():
        for name, content in LOCKS.items():
            said = said_of(root, (command, *words), {name: content})
            judge(said.startswith(LOCKED) and said.count(b"\n") == 1, f"{command} beside {name} says {said!r}")


HELPS = (("--help",), ("-h",), ("--version",), *((command, "--help") for command in ("keys", "restore", "transfer", "drill")))


def help_cut(root):
    """Help that isn't taken, as a whole or from some part on, is told by the status, and nothing of it is printed behind the gap."""
    for words in HELPS:
        whole = run(root, *words)
        ended(" ".join(words), whole, 0)
        with open("/dev/full", "wb") as full:
            ran = run(root, *words, stdout=full)
        ended(f"{' '.join(words)} into a full device", ran, 7)
        judge(ran.stderr.startswith(b"standard output can't be written"), f"{' '.join(words)} into a full device says {ran.stderr!r}")
        if shutil.which("strace") is None:
            continue
        log = os.path.join(root, "calls")
        ended(" ".join(words), run(root, *words, prefix=injected(root, "-e", "trace=write")), 0)
        parts = sum(line.startswith("write(1,") for line in tracing.lines_of(log))
        for part in range(1, parts + 1):
            ran = run(root, *words, prefix=injected(root, "-e", "trace=write", "-e", f"inject=write:error=ENOSPC:when={part}"))
            ended(f"{' '.join(words)}: part {part} of {parts} isn't taken", ran, 7)
            outputs = [line for line in tracing.lines_of(log) if re.match(r"write\(1,", line)]
            judge(len(outputs) == part and whole.stdout.startswith(ran.stdout), f"{' '.join(words)}: behind part {part}, which isn't taken, {len(outputs) - part} are written")


CASES = (files_of_borg, locks, help_cut)
NEED_STRACE = ()
