"""Cases of checks/devices.py: calls of the system on the target and on a restored folder, in their order, with their modes, and where they are refused, interrupted or take nothing."""
import itertools
import os
import re
import shutil
import signal
import subprocess

import tracing
from counting import judge, skip
from repositories import Item
from running import DELETE, INIT, ITEM, PROGRAM, TRANSFER, ended, environment, injected, make_archive, make_source, make_target, run, state, write

LEFT = b"BORG_SEG" + b"\0" * 9
KEYS = ("source", "-", "keys")
RESTORE = ("source", "folder", "restore", "a")
# What tells that there is nothing wrong in the target, with the archive and without it; in front of that a transfer that didn't end leaves chunks that nothing uses yet.
CHECKED = (b"ok archives 1 chunks 4 orphans 0 untagged 0\n", b"ok archives 0 chunks 0 orphans 0 untagged 0\n")
OPENS = re.compile(rb"ok archives [01] chunks \d+ orphans \d+ untagged 0\n")
# How long a command may last that is traced, in seconds. One that doesn't end tries something again for ever.
LIMIT = 60


class Trial:
    """A folder in which a command is run over what was laid there, as often as it takes, with calls of the system changed."""

    def __init__(self, root, words, make):
        self.root, self.words, self.laid = root, words, os.path.join(root, "laid")
        make(self.laid)

    def path(self, name):
        return os.path.join(self.root, "trial", name)

    def begin(self):
        shutil.rmtree(self.path(""), ignore_errors=True)
        shutil.copytree(self.laid, self.path(""), symlinks=True)

    def run(self, names, *rules):
        """Runs the command with these calls traced, and with these rules for them: its status, or `None` where it doesn't end."""
        self.begin()
        words = [*injected(self.root, "-y", "-e", f"trace={','.join(names)}", *itertools.chain(*(("-e", rule) for rule in rules))), PROGRAM, *self.words]
        pipes = {"stdin": subprocess.DEVNULL, "stdout": subprocess.PIPE, "stderr": subprocess.STDOUT}
        running = subprocess.Popen(words, cwd=self.path(""), env=environment(), start_new_session=True, **pipes)
        try:
            self.said, _ = running.communicate(timeout=LIMIT)
            return running.returncode
        except subprocess.TimeoutExpired:
            os.killpg(running.pid, signal.SIGKILL)
            running.communicate()
            return None

    def calls(self, names):
        """The calls of these names on the folders of the run, and those that write a stream: the name of each, its number among those of it, and its line."""
        status = self.run(names)
        judge(status == 0, f"{' '.join(self.words)} ends with {status}: {self.said!r}")
        counts, found = {}, []
        for line in tracing.lines_of(os.path.join(self.root, "calls")):
            name = re.match(r"^(\w+)\(", line)
            if name:
                counts[name[1]] = counts.get(name[1], 0) + 1
                is_own = self.path("") in line.split(" = ")[0] or re.search(r'"(source|target|folder)[/"]', line) or "/dev/urandom" in line or line.startswith("write(1")
                if is_own:
                    found.append((name[1], counts[name[1]], line))
        return found

    def was_injected(self, what):
        judge(any("INJECTED" in line for line in tracing.lines_of(os.path.join(self.root, "calls"))), f"{what}: no call is changed")

    def goes_on(self, what):
        """Whether the target opens as it was or as it is to be, and the command, run again, ends well."""
        start = {TRANSFER: (), DELETE: (11,), INIT: (9,)}[self.words]
        if self.words != INIT:
            ran = run(self.path(""), "target", "-", "check")
            is_right = OPENS.fullmatch(ran.stdout) if self.words == TRANSFER else ran.stdout in CHECKED
            judge(ran.returncode == 0 and is_right, f"{what}: check behind it: {ran.returncode} {ran.stdout!r}")
        again = run(self.path(""), *self.words)
        judge(again.returncode in (0, *start), f"{what}: the command again ends with {again.returncode}: {again.stdout!r}")
        ran = run(self.path(""), "target", "-", "check")
        judge((ran.returncode, ran.stdout) == (0, CHECKED[self.words != TRANSFER]), f"{what}: check behind that: {ran.returncode} {ran.stdout!r}")


def few(calls, about):
    """The first and the last of the calls that are about the same."""
    groups = {}
    for call in calls:
        groups.setdefault(about(call), []).append(call)
    return [call for those in groups.values() for call in ([those[0], those[-1]] if len(those) > 1 else those)]


def path_of(call):
    """The name of a call, and the path that it is about."""
    name, _, line = call
    return name, *re.findall(r'<([^<>]*)>, ""|\((?!AT_FDCWD)\d+<([^<>]*)>|"([^"]*)"', line)[:1]


def laid_for_init(folder):
    os.makedirs(folder)


def laid_for_transfer(folder):
    """A source, and a new target with a segment that isn't committed."""
    make_source(folder, contents=2)
    ended("init", run(folder, *INIT), 0)
    write(os.path.join(folder, "target/data/0/2"), LEFT)


def laid_for_deletion(folder):
    """A target with the archive, and a segment that isn't committed."""
    make_target(folder)
    write(os.path.join(folder, "target/README"), b"This is a Borg Backup repository.\n")
    write(os.path.join(folder, "target/data/0/2"), LEFT)


WRITING = ((INIT, laid_for_init), (TRANSFER, laid_for_transfer), (DELETE, laid_for_deletion))


def is_folder(line):
    """Whether a call is about a folder. Files have numbers or names here, and so have numbered folders, which lie right below data."""
    return re.search(r"<[^<>]*/(trial|target|data|data/\d+)>", line)


def invalid_syncs(root):
    """A sync of a file that the system calls not valid is a failure; one of a folder is passed over."""
    for number, (words, make) in enumerate(WRITING):
        trial = Trial(os.path.join(root, str(number)), words, make)
        syncs = trial.calls(("fsync",))
        judge(len(syncs) > 5, f"{words[2]} makes {len(syncs)} syncs")
        for name, count, line in syncs:
            what = f"{words[2]}: {line} that isn't valid"
            status = trial.run(("fsync",), f"inject=fsync:error=EINVAL:when={count}")
            trial.was_injected(what)
            judge(status == (0 if is_folder(line) else 5), f"{what}: status {status}: {trial.said!r}")
            trial.goes_on(what)


# Looks at a target that the command itself doesn't need: at what it was, and whether Borg has a lock or files there.
OWN_LOOKS = re.compile(r'"target"|"source"|lock\.(exclusive|roster)|"target/"|target>')
LOOKS = ("statx", "newfstatat", "fstat", "lseek", "getdents64")


def looks_of(trial):
    """The looks at the target in front of a command, and those of the command itself, which lists the target anew and looks at its settings for that."""
    looks = [(name, count, line) for name, count, line in trial.calls(LOOKS) if "target" in line and not OWN_LOOKS.search(line.split(", AT_")[0])]
    listings = [at for at, (_, _, line) in enumerate(looks) if '"target/config"' in line and "NOFOLLOW" in line]
    judge(len(listings) > 1, f"{trial.words[2]} lists the target {len(listings)} times")
    return looks[: listings[1]], looks[listings[1] :]


def refused_looks(root):
    """A look at a file or a folder of the target that is refused ends the command, and is taken for no absence. One in front of the command may be left to it."""
    for number, (words, make) in enumerate(WRITING[1:]):
        trial = Trial(os.path.join(root, str(number)), words, make)
        before, own = looks_of(trial)
        judge(len(own) > 20, f"{words[2]} makes {len(own)} looks")
        for (name, count, line), wanted in [(look, (0, 5)) for look in few(before, lambda look: look[0])] + [(look, (5,)) for look in few(own, path_of)]:
            what = f"{words[2]}: {line[:90]} refused"
            status = trial.run(LOOKS, f"inject={name}:error=EACCES:when={count}")
            trial.was_injected(what)
            judge(status in wanted, f"{what}: status {status}: {trial.said!r}")
            trial.goes_on(what)


# What is made again where a signal interrupts it. The others, and the opening of a folder to list it, end a command with the status of a device.
AGAIN = ("read", "write", "fsync", "ftruncate", "fchmod")
OTHERS = ("openat", "statx", "lseek", "getdents64", "rename", "unlink", "mkdir")
EXTRACT = ("source", "-", "extract", "a", "file")


def interrupted(root):
    """Calls that signals interrupt: reads, writes, syncs and openings of files are made again, and of none anything is lost."""
    for number, (words, make) in enumerate(WRITING + ((RESTORE, laid_for_transfer), (EXTRACT, laid_for_transfer))):
        trial = Trial(os.path.join(root, str(number)), words, make)
        calls = trial.calls(AGAIN + OTHERS)
        firsts = {name: count for name, count, _ in reversed(calls)}
        # Files are opened in a few ways, which the flags tell apart.
        ways = {re.findall(r"O_\w+", line)[0] + str("O_CREAT" in line) + str("O_APPEND" in line): count for name, count, line in calls if name == "openat" and "O_DIRECTORY" not in line}
        said, wanted = trial.said, state(trial.path("folder"))
        each = [(name, f"{first}+2", name in AGAIN) for name, first in firsts.items()] + [("openat", count, True) for count in ways.values()]
        for name, when, is_again in each:
            what = f"{words[2]}: {name} of number {when} interrupted"
            status = trial.run(AGAIN + OTHERS, f"inject={name}:error=EINTR:when={when}")
            trial.was_injected(what)
            judge(status in ((0,) if is_again else (0, 4, 5, 13)), f"{what}: status {status}: {trial.said!r}")
            judge(status != 0 or words == INIT or trial.said == said, f"{what}: {trial.said!r} is told")
            judge(status != 0 or state(trial.path("folder")) == wanted, f"{what}: {state(trial.path('folder'))} is restored")
            if words in (INIT, TRANSFER, DELETE):
                trial.goes_on(what)


def nothing_taken(root):
    """A write of which nothing is taken, or that would have to wait, has failed."""
    for number, (words, make, wanted) in enumerate([(*one, 5) for one in WRITING] + [(RESTORE, laid_for_transfer, 13), (EXTRACT, laid_for_transfer, 7), (KEYS, laid_for_transfer, 7)]):
        trial = Trial(os.path.join(root, str(number)), words, make)
        writes = trial.calls(("write",))
        judge(writes, f"{words[2]} writes nothing")
        for _, count, line in few(writes, path_of):
            is_output = line.startswith("write(1")
            for rule in (f"retval=0:when={count}", f"error=EAGAIN:when={count}..{count + 2}"):
                what = f"{words[2]}: {line[:60]}: {rule}"
                status = trial.run(("write",), f"inject=write:{rule}")
                trial.was_injected(what)
                # The one line of a restored archive goes to standard output.
                judge(status == (7 if is_output and words == RESTORE else wanted), f"{what}: status {status}: {trial.said!r}")
                if words in (TRANSFER, DELETE) or (words == INIT and not is_output):
                    trial.goes_on(what)


def made_of(log, root):
    """What a run has made below a folder, by the traced call: its path, and the mode that the call names."""
    found = []
    for line in tracing.lines_of(log):
        made = re.match(r'^(openat|mkdir|mkdirat)\((.*), (0[0-7]*)\) += \d', line)
        if made and (made[1] != "openat" or "O_CREAT" in line):
            found.append((re.findall(r'"([^"]*)"', made[2])[0], int(made[3], 8)))
    return found


def modes_of_calls(root):
    """No file and no folder that is made is open to others for a moment, whatever the mask: the call that makes it names the mode."""
    items = [Item(b"file", [b"a" * 64], more=ITEM), Item(b"folder", more={**ITEM, b"mode": 0o40755}), Item(b"folder/file", [b"b" * 64], more=ITEM), Item(b"new/file", [b"c" * 64], more=ITEM)]
    make_archive(root, "source", items)
    for words, count in ((INIT, 8), (TRANSFER, 3), (DELETE, 2), (("-", "target", "compact", "--threshold", "0"), 1), (RESTORE, 6)):
        calls = injected(root, "-e", f"trace=openat,mkdir,mkdirat,{','.join(CHANGES)}")
        ended(words[2], run(root, *words, prefix=calls, preexec_fn=lambda: os.umask(0)), 0)
        made = made_of(os.path.join(root, "calls"), root)
        judge(len(made) >= count, f"{words[2]} makes {made}")
        for path, mode in made:
            judge(mode in (0o600, 0o700), f"{words[2]}: {path} is made with the mode {mode:o}")
        wrong = [line for line in tracing.lines_of(os.path.join(root, "calls")) if re.match(r"^f?chmod", line) and not re.search(r", 0(100)?[67]00\)", line)]
        judge(not wrong, f"{words[2]}: {wrong}")
    for folder, folders, files in [*os.walk(os.path.join(root, "target")), *os.walk(os.path.join(root, "folder"))]:
        loose = [name for name in [".", *folders, *files] if os.stat(os.path.join(folder, name)).st_mode & 0o77]
        judge(not loose, f"{loose} in {folder} are open to others")


CHANGES = ("chmod", "fchmod", "fchmodat")


def two_a_folder(folder):
    """The same as for a transfer, but for a folder of data for each two segments."""
    laid_for_transfer(folder)
    os.remove(os.path.join(folder, "target/data/0/2"))
    path = os.path.join(folder, "target/config")
    with open(path, encoding="ascii") as file:
        text = file.read()
    write(path, re.sub(r"segments_per_dir = \d+", "segments_per_dir = 2", text).encode())


def front_of(made):
    """The calls in front of the first that changes something."""
    return list(itertools.takewhile(lambda call: call[0] == "fsync", made))


def folders_of_two(root):
    """A folder of data that is made later is synced where its name is, once its first segment is synced; each numbered folder is settled."""
    trial = Trial(root, TRANSFER, two_a_folder)
    trial.run(tracing.CALLS)
    made = tracing.changes(os.path.join(root, "calls"), trial.path(""), "target")
    later = [call for call in made if call[0] == "mkdir"]
    judge([path for _, path in later] == [f"data/{number}" for number in range(1, len(later) + 1)] and len(later) >= 3, f"the folders {later} are made")
    for number in range(1, len(later) + 1):
        at, first = made.index(("mkdir", f"data/{number}")), f"data/{number}/{2 * number}"
        wanted = [("write", first), ("fsync", first), ("fsync", f"data/{number}"), ("fsync", "data"), ("fsync", ".")]
        judge(made[at + 1 : at + 6] == wanted, f"behind the folder data/{number} come {made[at + 1 : at + 6]}")
    # What is settled by a next command: first all files, then all folders.
    numbers = sorted(int(name) for name in os.listdir(trial.path("target/data")))
    judge(numbers == list(range(len(later) + 1)), f"the folders {numbers} are there")
    settled(root, trial.path(""), numbers, lambda number: f"data/{number // 2}/{number}", 2 * len(numbers))


def settled(root, folder, numbers, place, count):
    """Whether a command that begins on a target makes each of so many segments stable, each numbered folder, and what is above them."""
    ran = run(folder, *DELETE, prefix=tracing.tracing(os.path.join(root, "calls")))
    ended("a deletion", ran, 0)
    front = [path for _, path in front_of(tracing.changes(os.path.join(root, "calls"), folder, "target"))]
    files = [name for name in ("config", "nonce", "README") if os.path.exists(os.path.join(folder, "target", name))]
    segments = [path for path in (place(number) for number in range(count)) if path in front]
    judge(front[: len(files) + len(segments)] == [*files, *segments], f"a deletion begins with the syncs {front}")
    judge(len(segments) >= count - 3, f"a deletion begins with the syncs of {segments} alone")
    rest = front[len(files) + len(segments) :]
    judge(sorted(rest[: len(numbers)]) == sorted(f"data/{number}" for number in numbers) and rest[len(numbers) :] == ["data", ".", ".."], f"a deletion settles the folders {rest}")


def two_files(root):
    """Of two files of one number, found in either order, the one that counts is settled, and is removed last, each removal made stable in its folder."""
    seen = set()
    for number, (counts, spare) in enumerate([*((0, other) for other in range(1, 9)), *((one, other) for one in (3, 5) for other in (7, 12, 20, 33)), *((one, None) for one in (0, 4))]):
        folder = os.path.join(root, str(number))
        laid_for_deletion(folder)
        os.remove(os.path.join(folder, "target/data/0/2"))
        names = ["data/2" if inner is None else f"data/{inner}/2" for inner in (counts, spare)]
        for name, content in zip(names, (LEFT, LEFT + b"\0")):
            write(os.path.join(folder, "target", name), content)
        listed = [entry.name for entry in os.scandir(os.path.join(folder, "target/data"))]
        first, other = (listed.index(name.split("/")[1]) for name in names)
        seen.add(first < other)
        what = f"{names[0]} counts beside {names[1]}, found {'first' if first < other else 'last'}"
        ended(what, run(folder, *DELETE, prefix=tracing.tracing(os.path.join(root, "calls"))), 0)
        made = tracing.changes(os.path.join(root, "calls"), folder, "target")
        judge(("fsync", names[0]) in front_of(made), f"{what}: it isn't settled: {front_of(made)}")
        removed = [call for call in made[len(front_of(made)) :]][:4]
        wanted = [call for name in reversed(names) for call in (("unlink", name), ("fsync", os.path.dirname(name)))]
        judge(removed == wanted, f"{what}: what is removed is {removed} and not {wanted}")
        ended(f"{what}: check", run(folder, "target", "-", "check"), 0, CHECKED[1])
        compacted(root, folder)
    if len(seen) < 2:
        skip("two files of one number in either order: this file system lists them in one")


def compacted(root, folder):
    """Whether a compaction behind a deletion removes of each segment that goes the file that doesn't count first, of which there is one here."""
    write(os.path.join(folder, "target/data/9/0"), LEFT)
    ended("a compaction", run(folder, "-", "target", "compact", "--threshold", "0", prefix=tracing.tracing(os.path.join(root, "calls"))), 0)
    made = tracing.changes(os.path.join(root, "calls"), folder, "target")
    at = made.index(("unlink", "data/9/0")) if ("unlink", "data/9/0") in made else 0
    wanted = [("unlink", "data/9/0"), ("fsync", "data/9"), ("unlink", "data/0/0"), ("fsync", "data/0")]
    judge(made[at : at + 4] == wanted, f"a compaction removes {[call for call in made if call[0] == 'unlink']} and not, one behind the other, {wanted}")
    ended("check behind a compaction", run(folder, "target", "-", "check"), 0, CHECKED[1])


CLOSED = {"standard input": "<&-", "standard output": ">&-", "standard error": "2>&-"}


def numbers(root):
    """Where standard streams are closed no file of a repository, and none that is drawn from, gets the number of one."""
    make_source(root, contents=2)
    for count in (1, 2, 3):
        for streams in itertools.combinations(CLOSED, count):
            shell = ["sh", "-c", f'exec "$@" {" ".join(CLOSED[stream] for stream in streams)}', ""]
            for words in (INIT, TRANSFER, DELETE, KEYS, RESTORE):
                what = f"{words[2]} with {', '.join(streams)} closed"
                log = os.path.join(root, "calls")
                run(root, *words, prefix=["strace", "-y", "-e", "trace=openat", "-o", log, *shell])
                opened = re.findall(r"= (\d+)<([^>]*)>$", "\n".join(line for line in tracing.lines_of(log) if re.search(r'"(source|target|folder|/dev/urandom)', line)), re.M)
                judge(opened, f"{what}: no file is opened")
                judge(all(int(number) > 2 for number, _ in opened), f"{what}: {[one for one in opened if int(one[0]) < 3]}")
            for name in ("target", "folder"):
                shutil.rmtree(os.path.join(root, name), ignore_errors=True)


CASES = ()
NEED_STRACE = (invalid_syncs, refused_looks, interrupted, nothing_taken, modes_of_calls, folders_of_two, two_files, numbers)
