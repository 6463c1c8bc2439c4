#!/usr/bin/env python3
"""Transfers that are killed: kills.py PROGRAM [COUNT [RANDOM [SEED [COMMAND ..]]]]

A plain program of this folder makes a source of three archives. A transfer of them runs under strace, and is killed as it makes one of its calls of the
system; COUNT calls are taken, 50 where it isn't given, evenly spread over all that there are, one of each name among them, or all where COUNT is at least
so many, and none, of the other commands neither, where it is 0; the status has to be that of a kill. After each kill:
`list` and `check` of the target end well; the names that were told are there; those that are there are a front of the chosen ones; `list NAME` and
`extract` print of them what the plain program has put into the source; and the same words run again end with 0 and leave all three, each told once. The
same is looked at where a file may not grow beyond a size, where the target's folder can't be written, and where nobody reads standard output; there the
status is that of the device that failed. An `init`, a compaction, a deletion of an archive and a `tag-archives` are killed at each of their calls, and done again: what is
live stays behind a compaction; the archive is there as it was or is gone, and each other one is there, behind a deletion; each archive is there, and all records have
their tags or those that had none have none, behind a `tag-archives`.
Where RANDOM is given, each command is killed so many times besides at a random time between its first change of the target and its last, as SEED has it: a line for each
says how many runs that took, and it is a failure where more than half of them ended by themselves or had changed nothing yet. Where Borg is installed the source of all is one that
Borg wrote, with its key sealed anew by one iteration, and each hundredth target is checked with `borg check --verify-data`. And where file systems may be mounted, and COUNT isn't 0,
the target lies on one that is too small, and on one that becomes read only. Where commands are named, of `transfer`, `init`, `compact`, `delete` and
`tag-archives`, only those are killed.
One line for each thing that differs, then what can't be tried here (no strace, no other user, no mounts, no Borg), and at the end
'N passed, M failed, K skipped'; status 1 where M isn't 0.
"""
import base64
import glob
import os
import random
import re
import resource
import shutil
import signal
import subprocess
import sys
import tempfile
import time

sys.dont_write_bytecode = True
import segments
import tracing
from chance import Chance
from counting import finish, judge, skip
from repositories import Archive, Item, Keys, escaped, fields, key_of, repository, resealed
from tags import OLDER, interpreter
from users import give, other_user

PROGRAM = os.path.abspath(sys.argv[1])
COUNT = int(sys.argv[2]) if len(sys.argv) > 2 else 50
RANDOM = int(sys.argv[3]) if len(sys.argv) > 3 else 0
SEED = sys.argv[4] if len(sys.argv) > 4 else "1"
COMMANDS = ("transfer", "init", "compact", "delete", "tag-archives")
CHOSEN = sys.argv[5:] or COMMANDS
SECRETS = {"BORG_OTHER_PASSPHRASE": "source passphrase", "BORG_PASSPHRASE": "target passphrase"}
NAMES = ("first", "second", "third")
# Those of the source whose records have no tag.
UNTAGGED = NAMES[1:]
WORDS = ("source", "target", "transfer", "--block", "4096", "--checkpoint", "3", *NAMES)


def items_of_archives():
    """The items of three archives: the second shares half of its contents with the first."""
    some = random.Random(7)
    contents = [[some.randbytes(some.randrange(1, 9000)) for _ in range(some.randrange(1, 4))] for _ in range(8)]
    files = [Item(b"file %d" % number, content) for number, content in enumerate(contents)]
    others = [Item(b"folder"), Item(b"link", source=b"file 0"), Item(b"empty", [])]
    return {"first": files[:6] + others, "second": files[3:] + others[:1], "third": others}


def content_of(item):
    return b"".join(item.contents)


def make_source(root):
    """Writes the source; answers of each archive what `list NAME` has to print, and the content of each path that has one."""
    keys = Keys()
    items = items_of_archives()
    made = {name: Archive(keys, name.encode(), those, length=100, how={"tam": "none"} if name in UNTAGGED else {}) for name, those in items.items()}
    listed = [entry for name, archive in made.items() for entry in archive.named(name.encode())]
    chunks = dict(pair for archive in made.values() for pair in archive.chunks())
    for place, content in repository(keys, SECRETS["BORG_OTHER_PASSPHRASE"].encode(), keys.blob(keys.tagged(fields(listed))), *chunks.items()).items():
        path = os.path.join(root, "source", place)
        os.makedirs(os.path.dirname(path), exist_ok=True)
        with open(path, "wb") as file:
            file.write(content)
    files = {name: {item.path: content_of(item) for item in those if item.contents is not None} for name, those in items.items()}
    return {name: (made[name].lines(), files[name]) for name in NAMES}


def older(name):
    """Borg, but for these names one that writes no tags."""
    return [interpreter(), "-c", OLDER] if name in UNTAGGED else ["borg"]


def run_borg(root, *words, program=("borg",)):
    """Runs Borg in a folder, with the secret of the source or the target, whichever the words name."""
    secret = SECRETS["BORG_PASSPHRASE" if "target" in words else "BORG_OTHER_PASSPHRASE"]
    settings = {"BORG_PASSPHRASE": secret, "BORG_BASE_DIR": os.path.join(root, "borg"), "BORG_RELOCATED_REPO_ACCESS_IS_OK": "yes"}
    return subprocess.run([*program, *words], cwd=root, env={**os.environ, **settings}, capture_output=True)


def listed_by_borg(root, name):
    """What `list NAME` has to print of an archive, by what Borg lists of it."""
    lines = []
    for line in run_borg(root, "list", "--format", "{type} {size} {path}{NL}", f"source::{name}").stdout.splitlines():
        kind, size, path = line.split(b" ", 2)
        shown = {b"-": b"f " + size, b"l": b"l 0"}.get(kind, b"- 0")
        lines.append(b"%s %s\n" % (shown, escaped(path.split(b" -> ")[0])))
    return b"".join(lines)


def with_few_iterations(root):
    """Seals the source's key with one iteration, so that a run doesn't spend its time on opening it."""
    path = os.path.join(root, "source/config")
    with open(path, "rb") as file:
        settings = file.read()
    secret = SECRETS["BORG_OTHER_PASSPHRASE"].encode()
    key = base64.b64encode(resealed(key_of(settings), secret, 1))
    with open(path, "wb") as file:
        file.write(re.sub(rb"(?m)^key *=.*\n(?:[ \t]+.*\n?)*", b"key = " + key + b"\n", settings))


def make_borg_source(root):
    """The same of a source that Borg writes, with the contents of the other one."""
    wanted = {}
    for name, items in items_of_archives().items():
        folder = os.path.join(root, "tree", name)
        os.makedirs(folder)
        wanted[name] = {}
        for item in items:
            if item.contents is not None:
                wanted[name][b"tree/%s/%s" % (name.encode(), item.path)] = content_of(item)
                with open(os.path.join(folder, item.path.decode()), "wb") as file:
                    file.write(content_of(item))
        os.symlink("file 0", os.path.join(folder, "symbolic"))
    run_borg(root, "init", "--encryption=repokey", "source")
    for name in NAMES:
        ran = run_borg(root, "create", "--compression=none", "--chunker-params=fixed,3000", f"source::{name}", f"tree/{name}", program=older(name))
        judge(ran.returncode == 0, f"borg create {name} ends with {ran.returncode}: {ran.stderr}")
    with_few_iterations(root)
    return {name: (listed_by_borg(root, name), wanted[name]) for name in NAMES}


class Trial:
    """A folder with a source and a target, which begins as it was made."""

    def __init__(self, root, wanted, is_of_borg):
        self.root, self.wanted, self.is_of_borg = root, wanted, is_of_borg
        made = self.run("-", "target", "init", "--iterations", "1")
        judge(made.returncode == 0, f"init ends with {made.returncode}")
        shutil.copytree(self.path("target"), self.path("made"))
        self.same("the source", "source", NAMES, self.paths())

    def path(self, name):
        return os.path.join(self.root, name)

    def paths(self):
        """The paths with content of each archive."""
        return {name: list(files) for name, (_, files) in self.wanted.items()}

    def begin(self):
        shutil.rmtree(self.path("target"))
        shutil.copytree(self.path("made"), self.path("target"))

    def start(self, *words, prefix=(), **others):
        secrets = {**SECRETS, "BORG_OTHER_PASSPHRASE": SECRETS["BORG_PASSPHRASE"]} if words[0] == "target" else SECRETS
        pipes = {"stdin": subprocess.DEVNULL, "stderr": subprocess.DEVNULL}
        return subprocess.Popen([*prefix, PROGRAM, *words], cwd=self.root, env={**os.environ, **secrets}, **pipes, **others)

    def run(self, *words):
        process = self.start(*words, stdout=subprocess.PIPE)
        out, _ = process.communicate()
        return subprocess.CompletedProcess(words, process.returncode, out)

    def reads(self, folder, *words):
        """What a command says of a folder."""
        ran = self.run(folder, "-", *words)
        return ran.returncode, ran.stdout

    def transfer(self, meanwhile=None, **others):
        """Runs the transfer, and something meanwhile: its status, and the names that it told."""
        with open(self.path("told"), "wb") as out:
            process = self.start(*WORDS, **{"stdout": out, **others})
            if meanwhile is not None:
                meanwhile(process)
            process.wait()
        return process.returncode, self.told()

    def told(self):
        """The names that a transfer told."""
        with open(self.path("told"), "rb") as told:
            lines = [line for line in told.read().split(b"\n")[:-1]]
        words = (b"transferred ", b"present ")
        return [line.split(b" ", 1)[1].decode() for line in lines if line.startswith(words)]

    def look(self, what, told, paths=None):
        """Looks at what is there after a transfer that didn't end, and extracts these paths of each archive."""
        paths = paths or self.paths()
        status, listed = self.reads("target", "list")
        judge(status == 0, f"{what}: list ends with {status}")
        names = [line.split(b" ")[2].decode() for line in listed.splitlines()] if status == 0 else []
        judge(tuple(names) == NAMES[: len(names)], f"{what}: {names} are there")
        judge(set(told) <= set(names), f"{what}: {told} were told, and {names} are there")
        status, said = self.reads("target", "check")
        judge(status == 0 and said.startswith(b"ok archives %d " % len(names)), f"{what}: check ends with {status}: {said}")
        self.same(what, "target", names, paths)
        status, told = self.transfer()
        judge((status, tuple(told)) == (0, NAMES), f"{what}: the next transfer ends with {status}, and tells {told}")
        self.same(what, "target", NAMES, paths)
        status, said = self.reads("target", "check")
        judge(status == 0 and said.startswith(b"ok archives 3 "), f"{what}: check after it ends with {status}: {said}")

    def same(self, what, folder, names, paths):
        """Whether these archives have the items that they have to have, and the files of these paths their contents."""
        for name in names:
            lines, files = self.wanted[name]
            judge(self.reads(folder, "list", name) == (0, lines), f"{what}: list {name} differs")
            for path in paths[name]:
                judge(self.reads(folder, "extract", name, path) == (0, files[path]), f"{what}: extract {name} {path} differs")


def calls_of(trial):
    """The calls of the system that a transfer makes from the first one on that is about its target: each by its name, and its number among those of it."""
    trial.begin()
    log = trial.path("calls")
    status, told = trial.transfer(prefix=tracing.tracing(log))
    judge((status, tuple(told)) == (0, NAMES), f"a transfer ends with {status}, and tells {told}")
    return tracing.places(log, "target")


def spread(calls, count):
    """So many of these, evenly spread over all, the first and the last among them, and one of each name at least."""
    count = min(count, len(calls))
    chosen = {place * (len(calls) - 1) // max(count - 1, 1) for place in range(count)}
    names = [name for name, _ in calls]
    return [(place + 1, calls[place]) for place in sorted(chosen | {names.index(name) for name in names})]


def kills_at_calls(trial):
    """Transfers that are killed at calls of the system."""
    if COUNT == 0:
        return
    if shutil.which("strace") is None:
        skip("kills at calls of the system: there is no strace")
        return
    calls = calls_of(trial)
    judge(len(calls) > 50, f"a transfer makes {len(calls)} calls")
    for number, place in spread(calls, COUNT):
        trial.begin()
        status, told = trial.transfer(prefix=tracing.tracing(trial.path("calls"), *tracing.killing(place)))
        what = f"killed at call {number} of {len(calls)}, the {place[0]} of number {place[1]}"
        judge(status == -signal.SIGKILL, f"{what}: status {status}")
        trial.look(what, told)


def small_files(trial):
    """Files that may not grow beyond a size, those of the target and the one that is told into."""
    for size in (100, 1000, 9000):
        trial.begin()

        def small():
            signal.signal(signal.SIGXFSZ, signal.SIG_IGN)
            resource.setrlimit(resource.RLIMIT_FSIZE, (size, size))

        status, told = trial.transfer(preexec_fn=small)
        judge(status == 5, f"files of {size} bytes at most: status {status}")
        trial.look(f"files of {size} bytes at most", told)


def closed_folder(trial):
    """A folder of the target that can't be written."""
    what = "a folder that can't be written"
    other = other_user(PROGRAM, trial.root)
    if other is None:
        skip(f"{what}: no other user can be taken")
        return
    trial.begin()
    give(trial.path("source"))
    give(trial.path("target"))
    os.chmod(trial.path("target/data/0"), 0o500)
    status, told = trial.transfer(prefix=other)
    os.chmod(trial.path("target/data/0"), 0o700)
    judge(status == 5, f"{what}: status {status}")
    trial.look(what, told)


def unread_output(trial):
    """A pipe as standard output that nobody reads."""
    trial.begin()
    reading, writing = os.pipe()
    os.close(reading)
    status, told = trial.transfer(stdout=writing)
    os.close(writing)
    judge(status in (5, 7), f"standard output closed: status {status}")
    trial.look("standard output closed", told)


def borg_checks(trial, what, folder="target", secret="BORG_PASSPHRASE"):
    """Whether Borg, which knows nothing of it yet, finds a repository right, where it is installed. Its own files there are removed before, as a person is told."""
    if shutil.which("borg") is None:
        return
    for path in [path for kind in ("index.*", "hints.*", "integrity.*") for path in glob.glob(trial.path(os.path.join(folder, kind)))]:
        os.remove(path)
    settings = {"BORG_PASSPHRASE": SECRETS[secret], "BORG_BASE_DIR": tempfile.mkdtemp(dir=trial.root), "BORG_RELOCATED_REPO_ACCESS_IS_OK": "yes"}
    ran = subprocess.run(["borg", "check", "--verify-data", folder], cwd=trial.root, env={**os.environ, **settings}, capture_output=True)
    judge(ran.returncode == 0, f"{what}: borg check ends with {ran.returncode}: {ran.stderr}")


def random_kills(trial):
    """Transfers that are killed at random times."""
    some = random.Random(SEED)

    def start():
        with open(trial.path("told"), "wb") as out:
            return trial.start(*WORDS, stdout=out)

    chance = Chance("a transfer", SEED, trial.path("target"), trial.begin, start, lambda: contents_of(trial.path("target")))
    for number, what in enumerate(chance.kills(RANDOM)):
        trial.look(what, trial.told(), {name: [some.choice(paths)] if paths else [] for name, paths in trial.paths().items()})
        if number % 100 == 0:
            borg_checks(trial, what)


def contents_of(folder):
    """The files and folders of a target, with their bytes."""
    found = {}
    for place, folders, files in os.walk(folder):
        found.update((os.path.join(place, name), None) for name in folders)
        for name in files:
            with open(os.path.join(place, name), "rb") as file:
                found[os.path.join(place, name)] = file.read()
    return found, os.path.exists(folder)


def mounted(trial, options):
    """The target on a file system of its own: whether one could be mounted."""
    trial.begin()
    shutil.rmtree(trial.path("target"))
    os.mkdir(trial.path("target"))
    if shutil.which("mount") is None:
        return False
    if subprocess.run(["mount", "-t", "tmpfs", "-o", options, "tmpfs", trial.path("target")], stderr=subprocess.DEVNULL).returncode != 0:
        return False
    shutil.copytree(trial.path("made"), trial.path("target"), dirs_exist_ok=True)
    return True


def unmounted(trial):
    """The target back in its folder, as it was left."""
    shutil.copytree(trial.path("target"), trial.path("kept"))
    subprocess.run(["umount", trial.path("target")], check=True)
    shutil.rmtree(trial.path("target"))
    os.rename(trial.path("kept"), trial.path("target"))


def small_systems(trial):
    """Targets on file systems that become full, and on one that becomes read only."""
    for size in range(32, 300, 4):
        if not mounted(trial, f"size={size}k"):
            skip("file systems that are full or read only: none can be mounted")
            return
        status, told = trial.transfer()
        unmounted(trial)
        judge(status in (0, 5), f"a file system of {size} KiB: status {status}")
        trial.look(f"a file system of {size} KiB", told)
    for wait in range(20):

        def close(process):
            time.sleep(wait / 2000)
            while process.poll() is None:
                if subprocess.run(["mount", "-o", "remount,ro", trial.path("target")], stderr=subprocess.DEVNULL).returncode == 0:
                    break

        mounted(trial, "size=10m")
        status, told = trial.transfer(close)
        unmounted(trial)
        judge(status in (0, 5), f"a file system that becomes read only: status {status}")
        trial.look("a file system that becomes read only", told)


class Command:
    """A command that writes a target, run in an environment, and how it is killed: at each of its calls of the system, and at random times.

    `make` lays the target as it is before the command.
    """

    def __init__(self, called, target, words, make, secrets=None):
        self.called, self.target, self.words, self.make, self.secrets = called, target, words, make, {**os.environ, **(secrets or {})}
        self.calls = target + ".calls"

    def start(self, *prefix, stdout=subprocess.PIPE):
        words = [*prefix, PROGRAM, "-", self.target, *self.words]
        return subprocess.Popen(words, env=self.secrets, stdin=subprocess.DEVNULL, stdout=stdout, stderr=subprocess.DEVNULL)

    def run(self, *prefix):
        process = self.start(*prefix)
        told, _ = process.communicate()
        return process.returncode, told

    def killed(self):
        """What to call each killed run, once it was made and killed. The first are those at the calls of the system, as a run to its end shows them."""
        if COUNT > 0:
            yield from self.killed_at_calls()
        yield from self.killed_by_chance()

    def killed_at_calls(self):
        self.make()
        self.run(*tracing.tracing(self.calls))
        places = tracing.places(self.calls, self.target)
        judge(len(places) > 15, f"{self.called} makes {len(places)} calls")
        for place in places:
            self.make()
            status, _ = self.run(*tracing.tracing(self.calls, *tracing.killing(place)))
            what = f"{self.called} that is killed at the {place[0]} of number {place[1]}"
            judge(status == -signal.SIGKILL, f"{what}: status {status}")
            yield what

    def killed_by_chance(self):
        if RANDOM > 0:
            start = lambda: self.start(stdout=subprocess.DEVNULL)
            yield from Chance(self.called, SEED, self.target, self.make, start, lambda: contents_of(self.target)).kills(RANDOM)


def kills_of_making(root):
    """A new repository that is killed at any moment: the next `init` makes it, or finds that it is there."""
    target = os.path.join(root, "new")
    command = Command("an init", target, ("init", "--iterations", "1"), lambda: shutil.rmtree(target, ignore_errors=True), {"BORG_PASSPHRASE": "new"})
    secrets = {**os.environ, "BORG_OTHER_PASSPHRASE": "new"}
    for what in command.killed():
        status, told = command.run()
        judge(status == 0 and told.startswith(b"initialized ") or (status, told) == (9, b"target refused: committed\n"), f"behind {what}: {status} {told!r}")
        ran = subprocess.run([PROGRAM, target, "-", "check"], env=secrets, stdin=subprocess.DEVNULL, capture_output=True)
        said = (ran.returncode, ran.stdout)
        judge(said == (0, b"ok archives 0 chunks 0 orphans 0 untagged 0\n"), f"behind {what} and made again: check says {said}")


def kills_of_compaction(root):
    """A compaction that is killed at any moment leaves each key its object, and no other; the same words then end well."""
    target = os.path.join(root, "compacted")
    gone, moved, kept = (bytes([number]) * 32 for number in (1, 2, 3))
    contents = [
        segments.segment(segments.put(gone, b"x" * 900), segments.put(kept, b"y" * 5000)),
        segments.segment(segments.put(moved, b"z" * 100), segments.put(gone, b"x" * 900)),
        segments.segment(segments.delete(gone)),
        segments.COMMIT_SEGMENT,
    ]

    def make():
        shutil.rmtree(target, ignore_errors=True)
        os.makedirs(os.path.join(target, "data/0"))
        for name, content in {"config": b"[repository]\nversion = 1\nid = %s\n" % (b"00" * 32), **{f"data/0/{number}": it for number, it in enumerate(contents)}}.items():
            with open(os.path.join(target, name), "wb") as file:
                file.write(content)

    command = Command("a compaction", target, ("compact", "--threshold", "20"), make)
    make()
    live = segments.keys(target)
    judge(command.run() == (0, b"compacted 3\n"), "a compaction isn't done")
    judge(segments.keys(target) == live, "a compaction has changed what is live")
    for what in command.killed():
        judge(segments.keys(target) == live, f"{what} has changed what is live")
        status, told = command.run()
        judge(status == 0 and told.startswith(b"compacted "), f"behind {what}: {status} {told!r}")
        judge(segments.keys(target) == live, f"behind {what} and done again something else is live")


def laid_anew(made, target):
    """A copy of a repository as a target, which has a number for its first blob where it had none."""
    shutil.rmtree(target, ignore_errors=True)
    shutil.copytree(made, target)
    if not os.path.exists(os.path.join(target, "nonce")):
        with open(os.path.join(target, "nonce"), "wb") as file:
            file.write(b"00000000000f4240")


class Looked:
    """What is looked at of a target beside a command: what `check` says, and the archives that are there, one file of each extracted."""

    def __init__(self, trial, target):
        self.trial, self.target = trial, target
        self.some = {name: those[:1] for name, those in trial.paths().items()}

    def check(self):
        return self.trial.reads(self.target, "check")

    def names(self, what):
        status, listed = self.trial.reads(self.target, "list")
        names = [line.split(b" ")[2].decode() for line in listed.splitlines()] if status == 0 else []
        self.trial.same(what, self.target, names, self.some)
        return names


DELETED = "second"


def kills_of_deletion(trial):
    """A deletion that is killed at any moment leaves each other archive, and the one of its name as it was or not at all."""
    target = trial.path("lessened")
    secrets = {"BORG_PASSPHRASE": SECRETS["BORG_OTHER_PASSPHRASE"]}
    command = Command("a deletion", target, ("delete", DELETED), lambda: laid_anew(trial.path("source"), target), secrets)
    looked = Looked(trial, target)
    others = [name for name in NAMES if name != DELETED]
    command.make()
    before = looked.check()
    status, told = command.run()
    judge(status == 0 and told.startswith(b"deleted second chunks "), f"a deletion ends with {status}: {told}")
    judge(looked.names("a deletion") == others, "a deletion leaves its archive, or not another")
    done = looked.check()
    judge(done[0] == 0 and b" orphans 0 " in done[1], f"check behind a deletion says {done}")
    for number, what in enumerate(command.killed()):
        names = looked.names(what)
        judge([name for name in names if name != DELETED] == others, f"{what}: {names} are there")
        is_there = DELETED in names
        said = looked.check()
        judge(said == (before if is_there else done), f"{what}: check says {said}")
        again = command.run()
        judge(again == ((0, told) if is_there else (11, b"not found: second\n")), f"behind {what}: {again}")
        said = looked.check()
        judge(said == done, f"behind {what} and done again: check says {said}")
        if trial.is_of_borg and number % 100 == 0:
            borg_checks(trial, what, target, "BORG_OTHER_PASSPHRASE")


def kills_of_tagging(trial):
    """Records that get their tags, killed at any moment: each archive is as it was, and either none of the records that had no tag has one, or each; the
    same words then give it to those that have none."""
    target, lacking = trial.path("target tagged"), len(UNTAGGED)
    command = Command("a tagging", target, ("tag-archives",), lambda: laid_anew(trial.path("source"), target), {"BORG_PASSPHRASE": SECRETS["BORG_OTHER_PASSPHRASE"]})
    looked = Looked(trial, target)
    command.make()
    before = looked.check()
    judge(before[0] == 0 and before[1].endswith(b" untagged %d\n" % lacking), f"check before a tagging says {before}")
    judge(command.run() == (0, b"tagged %d\n" % lacking), "a tagging isn't done")
    done = looked.check()
    judge(done[0] == 0 and done[1].endswith(b" untagged 0\n"), f"check behind a tagging says {done}")
    for number, what in enumerate(command.killed()):
        judge(tuple(looked.names(what)) == tuple(sorted(NAMES)), f"{what}: not all archives are there")
        said = looked.check()
        judge(said in (before, done), f"{what}: check says {said}")
        again = command.run()
        judge(again == (0, b"tagged %d\n" % (lacking if said == before else 0)), f"behind {what}: {again}")
        judge(tuple(looked.names(what)) == tuple(sorted(NAMES)), f"behind {what} and done again: not all archives are there")
        said = looked.check()
        judge(said == done, f"behind {what} and done again: check says {said}")
        if trial.is_of_borg and number % 100 == 0:
            borg_checks(trial, what, target, "BORG_OTHER_PASSPHRASE")


def kills_of_transfer(trial):
    """Transfers that are killed, and those whose target or output fails."""
    kills_at_calls(trial)
    if COUNT > 0:
        small_files(trial)
        closed_folder(trial)
        unread_output(trial)
    if RANDOM > 0 and COUNT > 0:
        small_systems(trial)
    if RANDOM > 0:
        random_kills(trial)


def main():
    unknown = set(CHOSEN) - set(COMMANDS)
    if unknown:
        sys.exit(f"kills.py: no command {' '.join(sorted(unknown))}")
    is_of_borg = RANDOM > 0 and shutil.which("borg") is not None
    with tempfile.TemporaryDirectory() as root:
        trial = Trial(root, make_borg_source(root) if is_of_borg else make_source(root), is_of_borg)
        if "transfer" in CHOSEN:
            kills_of_transfer(trial)
        others = (("init", kills_of_making, root), ("compact", kills_of_compaction, root), ("delete", kills_of_deletion, trial), ("tag-archives", kills_of_tagging, trial))
        for command, kills, made in others:
            if command in CHOSEN and (COUNT == 0 or shutil.which("strace") is not None):
                kills(made)
        if RANDOM > 0 and not is_of_borg:
            skip("a source that Borg wrote: there is no Borg")
    finish()


main()
