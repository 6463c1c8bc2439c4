#!/usr/bin/env python3
"""Transfers out of a repository that Borg wrote: transfer.py PROGRAM

Borg makes a source: trees with links, special files, sparse files, extended attributes and odd names, in archives that share data, with a
prune and a compaction between. The program makes targets and transfers into them, by several block sizes. Of each transfer are looked at: the
lines, whose numbers are those of the files cut into pieces; that the source stays as it was; that a second one puts nothing; the program's `check`;
and Borg's `list`, `check --verify-data` and `extract`, whose trees are compared with those out of the source. At last Borg goes on in a target.
One line for each thing that differs, and at the end 'N passed, M failed, K skipped'; status 1 where M isn't 0. Without Borg 1.2 all of it is skipped.
"""
import hashlib
import os
import random
import re
import shutil
import stat
import subprocess
import sys
import tempfile

sys.dont_write_bytecode = True
from counting import finish, judge, skip
from repositories import escaped

PROGRAM = os.path.abspath(sys.argv[1])
DEFAULT_BLOCK = 2097152
SECRETS = {"source": "the source's passphrase", "target": "the target's passphrase"}
TOTAL = re.compile(rb"total (\d+) transferred (\d+) present (\d+) chunks (\d+) bytes (\d+) meta\n")
FORMAT = "{mode} {user} {group} {uid} {gid} {size} {isomtime} {health} {extra} {bpath}{NL}"


def has_borg():
    """Whether a Borg of 1.2 is there."""
    if not shutil.which("borg"):
        return False
    said = subprocess.run(["borg", "--version"], capture_output=True, text=True)
    return said.stdout.startswith("borg 1.2.")


class Place:
    """A temporary folder with all that belongs to a run, Borg's own files too."""

    def __init__(self, root):
        self.root = root

    def path(self, *names):
        return os.path.join(self.root, *names)

    def environment(self, secret):
        kept = {name: value for name, value in os.environ.items() if not name.startswith("BORG_")}
        return {**kept, "LC_ALL": "C.UTF-8", "TZ": "UTC", "BORG_BASE_DIR": self.path("base"), "BORG_PASSPHRASE": SECRETS[secret]}

    def borg(self, secret, *words, cwd=None):
        """Runs Borg under a passphrase: its standard output. Status 0 is wanted."""
        ran = subprocess.run(["borg", *words], cwd=cwd, env=self.environment(secret), capture_output=True, stdin=subprocess.DEVNULL)
        judge(ran.returncode == 0, f"borg {words}: status {ran.returncode}: {ran.stderr.decode(errors='replace')[-400:]}")
        return ran.stdout

    def program(self, *words, other="source"):
        """Runs the program: its status and its standard output. SOURCE is opened by the passphrase `other`, TARGET by its own."""
        env = {**self.environment("target"), "BORG_OTHER_PASSPHRASE": SECRETS[other]}
        try:
            ran = subprocess.run([PROGRAM, *words], cwd=self.root, env=env, capture_output=True, stdin=subprocess.DEVNULL, timeout=600)
        except subprocess.TimeoutExpired:
            return "no answer", b""
        return ran.returncode, ran.stdout


# ---- the source


def write(path, content, mode=0o644, ns=None):
    """Writes a file of this mode and time."""
    with open(path, "wb") as file:
        file.write(content)
    os.chmod(path, mode)
    os.utime(path, ns=(ns or 1577836800123456789,) * 2)


def write_sparse(path, size, *written):
    """Writes a file that has holes between the parts that are written, pairs of an offset and a text."""
    with open(path, "wb") as file:
        for at, text in written:
            file.seek(at)
            file.write(text)
        file.truncate(size)
    os.utime(path, ns=(1577836801999999999,) * 2)


def mark(path, name, value):
    """Sets an extended attribute, where the file system takes it: whether it did."""
    try:
        os.setxattr(path, name, value, follow_symlinks=False)
    except OSError:
        return False
    return True


def make_files(top, numbers):
    """Makes plain files: empty and large ones, those whose size is that of pieces, and sparse ones."""
    os.makedirs(top + b"/files")
    sizes = {b"empty": 0, b"one": 1, b"64": 64, b"65": 65, b"65536": 65536, b"large": 5000001, b"2 MiB": DEFAULT_BLOCK, b"twice": 2 * DEFAULT_BLOCK + 1}
    for at, (name, size) in enumerate(sizes.items()):
        write(top + b"/files/" + name, numbers.randbytes(size), ns=1577836800000000000 + 1000000007 * at)
    write(top + b"/files/same as 65536", open(top + b"/files/65536", "rb").read())
    write(top + b"/files/zeros", bytes(300000), mode=0o600)
    write_sparse(top + b"/files/sparse", 4000000, (0, b"begin"), (2500000, b"middle"))
    write_sparse(top + b"/files/all hole", 1500000)


def make_links(top):
    """Makes links, hard links to one file, and special files."""
    os.makedirs(top + b"/links/inside")
    write(top + b"/links/linked", b"three names\n", mode=0o640)
    os.link(top + b"/links/linked", top + b"/links/again")
    os.link(top + b"/links/linked", top + b"/links/inside/third")
    for name, to in {b"to file": b"linked", b"to folder": b"inside", b"to nothing": b"no such \xff", b"up": b"../files/large"}.items():
        os.symlink(to, top + b"/links/" + name)
        os.utime(top + b"/links/" + name, ns=(1577836802000000001,) * 2, follow_symlinks=False)
    os.mkfifo(top + b"/links/fifo", 0o620)
    os.utime(top + b"/links/fifo", ns=(946684800000000003,) * 2)
    try:
        os.mknod(top + b"/links/null", stat.S_IFCHR | 0o666, os.makedev(1, 3))
    except OSError:
        print("no device file may be made here: none is compared", flush=True)


def make_names(top):
    """Makes files and folders with odd names, modes, times and attributes."""
    os.makedirs(top + b"/names")
    odd = [b"byte \xff", b"line\nfeed", b"back\\slash", "\u00e9t\u00e9".encode(), b" ", b"--", b"n" * 200, b"tab\there", b"bell\x07"]
    for name in odd:
        write(top + b"/names/" + name, b"content of " + name)
    for mode in (0o4755, 0o2755, 0o400, 0o000):
        write(top + b"/names/mode %o" % mode, b"%o" % mode, mode=mode)
    write(top + b"/names/before 1970", b"old", ns=-1000000001)
    marked = mark(top + b"/names/byte \xff", b"user.note", b"any \x00\xff bytes")
    write(top + b"/names/many notes", b"notes")
    marked = marked and all(mark(top + b"/names/many notes", b"user.note %d" % number, b"v" * number) for number in range(20))
    os.mkdir(top + b"/names/folder", 0o750)
    mark(top + b"/names/folder", b"user.folder", b"of a folder")
    os.utime(top + b"/names/folder", ns=(1234567890123456789,) * 2)
    os.mkdir(top + b"/names/sticky")
    os.chmod(top + b"/names/sticky", 0o1777)
    if not marked:
        print("the file system takes no extended attributes: none are compared", flush=True)


def change(top, numbers):
    """Changes a tree so that most of its data stays: a file grows in front, one at its end, one goes, and so many come that the items have several chunks."""
    large = open(top + b"/files/large", "rb").read()
    write(top + b"/files/large", b"in front" + large)
    with open(top + b"/files/twice", "ab") as file:
        file.write(b"at the end")
    os.remove(top + b"/names/bell\x07")
    os.mkdir(top + b"/files/many")
    for number in range(1500):
        write(top + b"/files/many/small %d" % number, numbers.randbytes(number % 40 * 97))


def make_source(place):
    """Makes the source. Answers the names of its archives, in the order of their bytes."""
    source, top, numbers = place.path("source"), os.fsencode(place.path("tree")), random.Random(1)
    buzhash, fixed = ("--chunker-params", "buzhash,12,20,15,4095"), ("--chunker-params", "fixed,65536")
    create = lambda name, *words: place.borg("source", "create", "--compression", "none", *words, f"{source}::{name}", "tree", cwd=place.root)
    place.borg("source", "init", "-e", "repokey", source)
    place.borg("source", "config", source, "max_segment_size", "4000000")
    for make in (lambda: make_files(top, numbers), lambda: make_links(top), lambda: make_names(top)):
        make()
    create("first", *buzhash, "--comment", "with a comment")
    create("old 1", *buzhash)
    change(top, numbers)
    create("old 2", *buzhash)
    place.borg("source", "prune", "--glob-archives", "old *", "--keep-last", "1", source)
    place.borg("source", "compact", "--threshold", "0", source)
    create("fixed", *fixed)
    shutil.rmtree(top + b"/files")
    create("\u00e9t\u00e9", *fixed, "--timestamp", "2020-02-29T12:00:00")
    shutil.rmtree(top)
    os.mkdir(top)
    write(top + b"/last", b"a" * 64)
    write(top + b"/next", b"b" * 65)
    write(top + b"/none", b"")
    create("small", *buzhash)
    return sorted(["first", "old 2", "fixed", "\u00e9t\u00e9", "small"], key=os.fsencode)


# ---- what is compared


def contents(folder):
    """Each file of a folder with its bytes."""
    names = (os.path.join(at, name) for at, _, files in os.walk(folder) for name in files)
    return {name: hashlib.sha256(open(name, "rb").read()).digest() for name in names}


def attributes(path):
    """The extended attributes of a path."""
    try:
        return {name: os.getxattr(path, name, follow_symlinks=False) for name in os.listxattr(path, follow_symlinks=False)}
    except OSError:
        return {}


def tree(top):
    """All that an extracted archive has, by path: kind and mode, owner, time, content or what it links to, attributes, and its hard links' first path."""
    found, first, top = {}, {}, os.fsencode(top)
    for folder, folders, files in os.walk(top):
        folders.sort()
        for name in sorted(folders + files):
            path = folder + b"/" + name
            of = os.lstat(path)
            content = b""
            if stat.S_ISLNK(of.st_mode):
                content = os.readlink(path)
            elif stat.S_ISREG(of.st_mode):
                content = hashlib.sha256(open(path, "rb").read()).digest()
            inside = path[len(top) :]
            linked = first.setdefault(of.st_ino, inside) if of.st_nlink > 1 and not stat.S_ISDIR(of.st_mode) else None
            found[inside] = (of.st_mode, of.st_uid, of.st_gid, of.st_mtime_ns, of.st_rdev, content, attributes(path), linked)
    return found


def pieces(top, block):
    """The digests of the pieces that the files of a tree are cut into, each with its length."""
    found = {}
    for folder, _, files in os.walk(os.fsencode(top)):
        for path in (folder + b"/" + name for name in files):
            if stat.S_ISREG(os.lstat(path).st_mode):
                content = open(path, "rb").read()
                parts = (content[at : at + block] for at in range(0, len(content), block))
                found.update((hashlib.sha256(part).digest(), len(part)) for part in parts)
    return found


def extract(place, secret, repository, name):
    """The folder into which Borg extracts an archive."""
    out = place.path("out", repository, str(len(os.listdir(place.path("out")))), name)
    os.makedirs(out)
    place.borg(secret, "extract", f"{place.path(repository)}::{name}", cwd=out)
    return out


class Source:
    """The source, with what Borg extracts of each archive."""

    def __init__(self, place):
        self.place, self.names = place, make_source(place)
        os.makedirs(place.path("out"))
        self.folders = {name: extract(place, "source", "source", name) for name in self.names}
        self.trees = {name: tree(folder) for name, folder in self.folders.items()}
        judge(all(len(self.trees[name]) > 3 for name in self.names), f"the source's trees: {[len(it) for it in self.trees.values()]}")

    def listing(self, name):
        return self.place.borg("source", "list", "--format", FORMAT, f"{self.place.path('source')}::{name}")


# ---- transfers


class Target:
    """A target that the program made, and what was transferred into it."""

    def __init__(self, source, name):
        self.source, self.place, self.name = source, source.place, name
        self.held, self.pieces, self.live = [], {}, 0
        status, out = self.place.program("-", name, "init", "--iterations", "10")
        judge(status == 0 and re.fullmatch(rb"initialized [0-9a-f]{64}\n", out), f"{name}: init ends with {status}: {out}")

    def transfer(self, *options, names=None, block=DEFAULT_BLOCK):
        """Runs `transfer` of names, None for all, and looks at its lines, at what is put, and at the source."""
        place, chosen = self.place, self.source.names if names is None else names
        before, data = contents(place.path("source")), contents(place.path(self.name, "data"))
        status, out = place.program("source", self.name, "transfer", *options, *(names or ()))
        what = f"{self.name}: transfer {options} {names}"
        judge(status == 0, f"{what}: status {status}: {out[-300:]}")
        judge(contents(place.path("source")) == before, f"{what}: the source was changed")
        lines, new, put = [], [], {}
        for name in chosen:
            is_new = name not in self.held and name not in new
            lines.append(b"%s %s\n" % (b"transferred" if is_new else b"present", escaped(name.encode())))
            new.extend([name] * is_new)
            put.update(pieces(self.source.folders[name], block) if is_new else {})
        self.judge_lines(what, out, lines, new, {digest: length for digest, length in put.items() if digest not in self.pieces})
        if not new:
            judge(contents(place.path(self.name, "data")) == data, f"{what}: something was put")
        self.held.extend(new)
        self.pieces.update(put)

    def judge_lines(self, what, out, lines, new, put):
        """The lines of a transfer that puts these pieces: one for each name, and the numbers."""
        told = out.splitlines(keepends=True)
        judge(told[:-1] == lines, f"{what}: {told[:-1]} for {lines}")
        total = TOTAL.fullmatch(told[-1]) if told else None
        numbers = tuple(map(int, total.groups())) if total else ()
        wanted = (len(new), len(lines) - len(new), len(put), sum(put.values()))
        judge(numbers[:4] == wanted, f"{what}: {told[-1:]} for {wanted}")
        # Archives of one tree have the same items in the target, however the source had cut it, and put them once.
        judge(bool(numbers) and (numbers[4] > 0) == bool(new), f"{what}: {told[-1:]}: meta")
        # Beside the pieces each archive that is new has put its record.
        self.live += numbers[2] + numbers[4] + len(new) if numbers else 0

    def check(self, archives=None, chunks=None, untagged=rb"0"):
        """The program's `check` of the target, whose numbers are those of what was put."""
        status, out = self.place.program(self.name, "-", "check", other="target")
        wanted = rb"ok archives %d chunks %s orphans 0 untagged %s\n" % (archives or len(self.held), chunks or b"%d" % self.live, untagged)
        judge(status == 0 and re.fullmatch(wanted, out), f"{self.name}: check ends with {status}: {out} for {wanted}")

    def read_by_borg(self):
        """Borg finds the target whole, and lists and extracts the archives as it does those of the source."""
        place, repository = self.place, self.place.path(self.name)
        place.borg("target", "check", "--verify-data", repository)
        form = ("list", "--sort-by", "name", "--format", "{archive} {time} {comment} {hostname} {username}{NL}")
        is_held = lambda line: line.decode().startswith(tuple(f"{name} " for name in self.held))
        lines = [line for line in place.borg("source", *form, place.path("source")).splitlines() if is_held(line)]
        judge(place.borg("target", *form, repository).splitlines() == lines, f"{self.name}: borg list differs")
        for name in self.held:
            listing = place.borg("target", "list", "--format", FORMAT, f"{repository}::{name}")
            judge(listing == self.source.listing(name), f"{self.name}: borg list of {name} differs")
            out = extract(place, "target", self.name, name)
            got, want = tree(out), self.source.trees[name]
            other = sorted(path for path in got.keys() | want.keys() if got.get(path) != want.get(path))
            judge(not other, f"{self.name}: {name} is extracted with other {other[:3]}: {[(got.get(path), want.get(path)) for path in other[:1]]}")
            shutil.rmtree(out)

    def go_on(self):
        """Borg makes a further archive in the target; the program opens it, and what it transferred is there."""
        place, repository = self.place, self.place.path(self.name)
        os.makedirs(place.path("more"), exist_ok=True)
        write(os.fsencode(place.path("more", "file")), random.Random(2).randbytes(100000))
        place.borg("target", "create", "--compression", "none", f"{repository}::more", "more", cwd=place.root)
        self.check(len(self.held) + 1, rb"\d+", rb"[01]")
        self.transfer()
        place.borg("target", "check", "--verify-data", repository)


def refusals(source):
    """Names that aren't there and names that are taken, and words that are wrong: nothing is put."""
    target = Target(source, "refusing")
    place, more = source.place, source.place.path("other")
    os.makedirs(more)
    write(os.fsencode(os.path.join(more, "file")), b"another content")
    place.borg("target", "create", "--compression", "none", f"{place.path('refusing')}::first", "other", cwd=place.root)
    table = [
        (("--block", "63", "first"), 2, b"usage: word 3\n"),
        (("--block", "8388609"), 2, b"usage: word 3\n"),
        (("--checkpoint", "0", "first"), 2, b"usage: word 3\n"),
        (("small", "no such"), 11, b"not found: no such\n"),
        (("--", "--block"), 11, b"not found: --block\n"),
        (("first",), 10, b"name taken: first\n"),
    ]
    before = contents(place.path("refusing", "data"))
    for words, wanted, line in table:
        status, out = place.program("source", target.name, "transfer", *words)
        judge((status, out) == (wanted, line), f"transfer {words}: {status} {out} for {wanted} {line}")
        judge(contents(place.path("refusing", "data")) == before, f"transfer {words}: something was put")


def transfers(source):
    """Transfers of all archives, of some, of one twice, by several block sizes, and with commits between."""
    cases = [
        ("default", [((), None, DEFAULT_BLOCK)]),
        ("blocks", [(("--block", "65536"), None, 65536)]),
        ("odd", [(("--checkpoint", "7", "--block", "100003"), None, 100003)]),
        ("greatest", [(("--block", "8388608", "--checkpoint", "1"), ["old 2", "first"], 8388608), ((), ["small", "first", "small"], DEFAULT_BLOCK)]),
        ("least", [(("--block", "64", "--timestamp", "2030-01-01T00:00:00.000000", "--"), ["small"], 64)]),
    ]
    for name, runs in cases:
        target = Target(source, name)
        for options, names, block in runs:
            target.transfer(*options, names=names, block=block)
        target.check()
        target.transfer(names=list(target.held))
        target.transfer(*runs[0][0], names=list(reversed(target.held)))
        target.check()
        target.read_by_borg()
        if name in ("default", "odd"):
            target.go_on()


def main():
    if not has_borg():
        skip("transfers out of a repository that Borg wrote: there is no Borg of 1.2")
        finish()
    with tempfile.TemporaryDirectory() as root:
        source = Source(Place(root))
        transfers(source)
        refusals(source)
    finish()


main()
