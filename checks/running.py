"""How the checks of the system run the program: in a folder with a source and a target, with variables of their own, and with calls of the system that strace changes."""
import os
import subprocess
import sys

from counting import judge
from repositories import Archive, Item, Keys, fields, repository

PROGRAM = os.path.abspath(sys.argv[1])
VARIABLES = {"BORG_PASSPHRASE": "passphrase", "BORG_OTHER_PASSPHRASE": "passphrase"}
INIT = ("-", "target", "init", "--iterations", "1")
TRANSFER = ("source", "target", "transfer", "--block", "64", "--checkpoint", "1", "a")
DELETE = ("-", "target", "delete", "a")
NONCE = b"00000000000f4240"
# How long one run may last, in seconds. One that doesn't end has failed.
LIMIT = 600


def environment(variables=None):
    env = {name: value for name, value in os.environ.items() if not name.startswith("BORG_")}
    return {**env, **(VARIABLES if variables is None else variables)}


def run(root, *words, prefix=(), variables=None, **others):
    pipes = {"stdout": subprocess.PIPE, "stderr": subprocess.PIPE, "stdin": subprocess.DEVNULL, "timeout": LIMIT}
    return subprocess.run([*prefix, PROGRAM, *words], cwd=root, env=environment(variables), **{**pipes, **others})


def injected(root, *rules):
    """The words in front of a program of which strace refuses or changes calls, those on some path alone where a rule names one."""
    return ["strace", "-o", os.path.join(root, "calls"), *rules]


def write(path, content):
    os.makedirs(os.path.dirname(path), exist_ok=True)
    with open(path, "wb") as file:
        file.write(content)


# What Borg's check wants of a record and of an item, beside what is read of them here.
RECORD = {b"cmdline": [b"borg"], b"time": b"2020-01-01T00:00:00.000000"}
ITEM = {b"mtime": 0}


def make_source(root, folder="source", contents=4, size=64):
    """A source with an archive `a` of a file of so many chunks of that size."""
    make_archive(root, folder, [Item(b"file", [bytes([65 + number]) * size for number in range(contents)], more=ITEM)])


def make_archive(root, folder, items, keys=None, passphrase=b"passphrase", name=b"a", how=None):
    """A repository with an archive of these items, under these keys, this passphrase and this name; `how` changes its record."""
    keys = keys or Keys()
    archive = Archive(keys, name, items, length=1000, how={**RECORD, **(how or {})})
    blob = keys.blob(keys.tagged(fields(archive.named(name))))
    for place, content in repository(keys, passphrase, blob, *dict(archive.chunks()).items()).items():
        write(os.path.join(root, folder, place), content)


def make_target(root, folder="target", **how):
    """The same repository as a target, which has a number for its first blob too."""
    make_archive(root, folder, [Item(b"file", [b"a" * 64, b"b" * 64], more=ITEM)], **how)
    write(os.path.join(root, folder, "nonce"), NONCE)


def state(root):
    """All names below a folder, with the contents of files and where links lead."""
    found = {}
    for folder, folders, files in os.walk(root):
        for name in folders + files:
            path = os.path.join(folder, name)
            is_file = os.path.isfile(path) and not os.path.islink(path)
            found[os.path.relpath(path, root)] = open(path, "rb").read() if is_file else os.readlink(path) if os.path.islink(path) else None
    return found


def ended(what, ran, status, out=None):
    judge(ran.returncode == status, f"{what}: status {ran.returncode} for {status}: {ran.stdout!r} {ran.stderr!r}")
    if out is not None:
        judge(ran.stdout == out, f"{what}: {ran.stdout!r} for {out!r}")
