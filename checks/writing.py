#!/usr/bin/env python3
"""The calls of the system that a command makes on its target: writing.py PROGRAM [CASE ..]

`init` on a folder that isn't there, `init` over what an earlier one left, a `transfer` with a commit behind each chunk and a `delete`, both over a segment that was
left, run under strace. All that each changes or makes stable in the target, in order, each call by its path, has to be the list that stands here: the place is synced
once a name in it was changed, and what is above it once it was made. Then each write, sync, rename and folder to be made of an `init` is refused in turn: the
status has to be that of the target's device, no name that is written beside stays, and an `init` after it has to end with 0, or with 9 where the
commit was made. So is each write, sync, rename and removal of a `delete`: the one after it has to end with 0, or with 11 where the archive is gone. And `init` is killed at each of its calls in turn, with the status of a kill: the next `init` has to end so too, and `list` and `check` have to
open what is there then. With names of cases, those alone are tried. One line for each thing that differs, and at the end 'N passed, M failed, K skipped';
status 1 where M isn't 0. Without strace all of it is skipped.
"""
import os
import shutil
import signal
import subprocess
import sys
import tempfile

sys.dont_write_bytecode = True
import tracing
from counting import finish, judge, skip
from repositories import Archive, Item, Keys, fields, repository

PROGRAM = os.path.abspath(sys.argv[1])
ENVIRONMENT = {**os.environ, "BORG_PASSPHRASE": "passphrase", "BORG_OTHER_PASSPHRASE": "passphrase"}
INIT = ("-", "target", "init", "--iterations", "1")
TRANSFER = ("source", "target", "transfer", "--block", "64", "--checkpoint", "1", "a")
DELETE = ("-", "target", "delete", "a")
LEFT = b"BORG_SEG" + b"\0" * 9
REFUSED = {"write": "ENOSPC", "fsync": "EIO", "rename": "EIO", "mkdir": "EACCES", "openat": "EMFILE"}
REFUSED_OF_DELETE = {"write": "ENOSPC", "fsync": "EIO", "rename": "EIO", "unlink": "EACCES", "openat": "EMFILE"}


def replaced(name):
    """A file is written beside, synced, and renamed, and then its folder is synced."""
    beside = f"{name}.borgferry-new"
    return [("write", beside), ("fsync", beside), ("rename", f"{beside} {name}"), ("fsync", ".")]


def appended(path):
    """A segment is written and synced, and its folder too, which has a new name."""
    return [("write", path), ("fsync", path), ("fsync", os.path.dirname(path))]


# The folders above a new place are synced once it has its first name, those above a new segment once that is synced.
NEW = [
    ("mkdir", "."), *replaced("README"), ("fsync", ".."), *replaced("config"), *replaced("nonce"),
    ("mkdir", "data"), ("mkdir", "data/0"), *appended("data/0/0"), ("fsync", "data"), ("fsync", "."), *appended("data/0/1"),
]  # fmt: skip

# All that is there is made stable first, and then what isn't committed is removed.
SETTLED = [("fsync", "data/0"), ("fsync", "data"), ("fsync", "."), ("fsync", "..")]
OVER = [
    ("fsync", "data/0/0"), *SETTLED, ("unlink", "data/0/0"), ("fsync", "data/0"), ("unlink", "README.borgferry-new"),
    *replaced("README"), *replaced("config"), *replaced("nonce"), *appended("data/0/0"), *appended("data/0/1"),
]  # fmt: skip
ON = [
    *[("fsync", name) for name in ("config", "nonce", "README", "data/0/0", "data/0/1", "data/0/2")], *SETTLED,
    ("unlink", "data/0/2"), ("fsync", "data/0"), *replaced("nonce"),
    *[call for number in range(2, 8) for call in appended(f"data/0/{number}")],
]  # fmt: skip
# The DELETEs are written before the manifest's numbers are reserved: nothing of them counts until the commit.
GONE = [
    *[("fsync", name) for name in ("config", "nonce", "README", *(f"data/0/{number}" for number in range(9)))], *SETTLED,
    ("unlink", "data/0/8"), ("fsync", "data/0"), ("write", "data/0/8"), *replaced("nonce"), *appended("data/0/8"), *appended("data/0/9"),
]  # fmt: skip


def run(root, *words, prefix=(), **others):
    ran = subprocess.run([*prefix, PROGRAM, *words], cwd=root, env=ENVIRONMENT, stdin=subprocess.DEVNULL, capture_output=True, **others)
    return ran.returncode


def traced(root, words, *inject):
    """Runs a command in a folder under strace: its status, and the trace."""
    log = os.path.join(root, "calls")
    return run(root, *words, prefix=tracing.tracing(log, *inject)), log


def write(path, content):
    os.makedirs(os.path.dirname(path), exist_ok=True)
    with open(path, "wb") as file:
        file.write(content)


def in_new_folder(look):
    with tempfile.TemporaryDirectory() as root:
        # Of a link in its path a trace has the other path.
        return look(os.path.realpath(root))


def lists(what, words, before, wanted):
    """Whether a command makes these calls on the target that `before` makes."""

    def look(root):
        before(root)
        status, log = traced(root, words)
        made = tracing.changes(log, root, "target")
        judge(status == 0, f"{what} ends with {status}")
        judge(made == wanted, f"{what} makes\n  {made}\n  and not\n  {wanted}")

    in_new_folder(look)


def leave(root):
    """What an `init` may leave that was stopped: a segment, and a file that is written beside."""
    write(os.path.join(root, "target/data/0/0"), LEFT)
    write(os.path.join(root, "target/README.borgferry-new"), b"This is")


def make_both(root):
    """A source with an archive of two chunks of 64 bytes, and a target with a segment that isn't committed."""
    keys = Keys()
    archive = Archive(keys, b"a", [Item(b"file", [b"a" * 64, b"b" * 64])], length=1000)
    blob = keys.blob(keys.tagged(fields(archive.named(b"a"))))
    for place, content in repository(keys, b"passphrase", blob, *dict(archive.chunks()).items()).items():
        write(os.path.join(root, "source", place), content)
    judge(run(root, *INIT) == 0, "init before a transfer")
    write(os.path.join(root, "target/data/0/2"), LEFT)


def make_filled(root):
    """A target with that archive, and a segment that isn't committed."""
    make_both(root)
    judge(run(root, *TRANSFER) == 0, "transfer before a deletion")
    write(os.path.join(root, "target/data/0/8"), LEFT)


def goes_on(root, what):
    """Whether no file that is written beside was left, and the next `init` ends well or finds the commit."""
    again = run(root, *INIT)
    judge(again in (0, 9), f"{what}: the next init ends with {again}")
    for command, wanted in (("list", b""), ("check", b"ok archives 0 chunks 0 orphans 0 untagged 0\n")):
        ran = subprocess.run([PROGRAM, "target", "-", command], cwd=root, env=ENVIRONMENT, capture_output=True)
        judge((ran.returncode, ran.stdout) == (0, wanted), f"{what}: {command} ends with {ran.returncode}: {ran.stdout}")


def deletes_on(root, what):
    """Whether the archive is there as it was, and the next `delete` takes it out, or it is gone."""
    ran = subprocess.run([PROGRAM, "target", "-", "extract", "a", "file"], cwd=root, env=ENVIRONMENT, capture_output=True)
    is_there = ran.returncode == 0
    judge(ran.stdout == (b"a" * 64 + b"b" * 64 if is_there else b"not found: a\n"), f"{what}: extract ends with {ran.returncode}: {ran.stdout}")
    again = run(root, *DELETE)
    judge(again == (0 if is_there else 11), f"{what}: the next delete ends with {again}")
    ran = subprocess.run([PROGRAM, "target", "-", "check"], cwd=root, env=ENVIRONMENT, capture_output=True)
    judge((ran.returncode, ran.stdout) == (0, b"ok archives 0 chunks 0 orphans 0 untagged 0\n"), f"{what}: check ends with {ran.returncode}: {ran.stdout}")


def refuse(words, before, place, error, look_on):
    """A command over what `before` makes, with a call of it refused, and what is there then."""

    def look(root):
        before(root)
        what = f"{words[2]}: the {place[0]} of number {place[1]} refused with {error}"
        status, log = traced(root, words, *tracing.refusing(place, error))
        judge(any("INJECTED" in line for line in tracing.lines_of(log)), f"{what}: nothing was refused")
        judge(status in ((5, 6) if place[0] == "openat" else (5,)), f"{what}: status {status}")
        beside = [name for _, _, names in os.walk(os.path.join(root, "target")) for name in names if name.endswith(".borgferry-new")]
        judge(not beside, f"{what}: {beside} stay")
        look_on(root, what)

    in_new_folder(look)


def kill(place):
    def look(root):
        what = f"killed at the {place[0]} of number {place[1]}"
        status, _ = traced(root, INIT, *tracing.killing(place))
        judge(status == -signal.SIGKILL, f"{what}: status {status}")
        goes_on(root, what)

    in_new_folder(look)


def nothing(root):
    """Makes nothing."""


def calls_of(words, before):
    """The calls of a command over what `before` makes, but the last one: a line, or what is looked at for one, once all is done."""

    def look(root):
        before(root)
        status, log = traced(root, words)
        judge(status == 0, f"{words[2]} ends with {status}")
        return [place for place in tracing.places(log, "target")][:-1]

    return in_new_folder(look)


def lists_of_calls():
    lists("an init on a folder that isn't there", INIT, nothing, NEW)
    lists("an init over what was left", INIT, leave, OVER)
    lists("a transfer over a segment that was left", TRANSFER, make_both, ON)
    lists("a deletion over a segment that was left", DELETE, make_filled, GONE)


def refusals():
    for words, before, refused, look_on in ((INIT, nothing, REFUSED, goes_on), (DELETE, make_filled, REFUSED_OF_DELETE, deletes_on)):
        for place in calls_of(words, before):
            if place[0] in refused:
                refuse(words, before, place, refused[place[0]], look_on)


def kills():
    places = calls_of(INIT, nothing)
    judge(len(places) > 30, f"an init makes {len(places)} calls")
    for place in places:
        kill(place)


def main(chosen):
    for case in (lists_of_calls, refusals, kills):
        if shutil.which("strace") is None:
            skip(f"{case.__name__}: there is no strace")
        elif not chosen or case.__name__ in chosen:
            case()
    finish()


main(sys.argv[2:])
