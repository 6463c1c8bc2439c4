#!/usr/bin/env python3
"""What the program makes of the system that it runs on: system.py PROGRAM [CASE ..]

No proof speaks of folders, of the random bytes of the system, of standard output and of variables; the cases here do, each by what a user would lose: random
bytes that fail, end early or come in parts; a folder or a segment that can't be read; modes of files; parents that aren't there; links; a config that is too large; an output
that takes a part; streams that are closed; passphrases; where segments lie; the line of progress; the memory that heads take which claim more than is there. With names of cases, those alone are tried. One line for each
thing that differs, then what can't be tried here (no strace, no Borg, no other user), and at the end 'N passed, M failed, K skipped'; status 1 where M isn't 0.
"""
import itertools
import os
import pty
import re
import resource
import shutil
import signal
import subprocess
import sys
import tempfile
import threading
import tty

sys.dont_write_bytecode = True
import tracing
from counting import finish, judge, skip
from repositories import Archive, Item, Keys, config, fields, repository
from running import DELETE, INIT, ITEM, PROGRAM, RECORD, VARIABLES, ended, injected, make_source, run, state, write
from users import give, other_user

PROGRESS = re.compile(rb"\r(?:[^\r\n\x1b]*: )?read (\d+) MB, written (\d+) MB, \d+ s\x1b\[K")
OPENING = re.compile(rb"\rreading the log: (\d+) MB, \d+ s\x1b\[K")


# What a stopped `init` may leave.
LEFT = {"config": b"[repository]\n", "README": b"This is a Borg Backup repository.\n", "nonce": b"0000000000000000"}


def random_bytes(root):
    """Where they can't be had nothing is made; where they come in parts all of them are drawn."""
    of_urandom = ("-P", "/dev/urandom", "-e", "trace=openat,read", "-e")
    for what, rule in {
        "random bytes that can't be opened": "inject=openat:error=EACCES",
        "random bytes that fail": "inject=read:error=EIO",
        "random bytes that end": "inject=read:retval=0",
        "random bytes that end later": "inject=read:retval=0:when=2+",
    }.items():
        ran = run(root, *INIT, prefix=injected(root, *of_urandom, rule))
        ended(what, ran, 6, b"entropy failed\n")
        judge(not os.path.exists(os.path.join(root, "target")), f"{what}: {state(root)} is there")
    ran = run(root, *INIT, prefix=injected(root, *of_urandom, "inject=read:retval=20:when=1"))
    ended("random bytes in parts", ran, 0)
    first = [re.search(r", (\d+)\) += (\d+)", line) for line in tracing.lines_of(os.path.join(root, "calls")) if "read(" in line][:2]
    asked = [tuple(map(int, found.groups())) for found in first if found]
    judge(len(asked) == 2 and asked[0][1] == 20 and asked[1][0] == asked[0][0] - 20, f"random bytes in parts: {asked} were asked and came")
    make_source(root)
    ended("a transfer", run(root, "source", "target", "transfer"), 0)
    for rule in ("inject=openat:error=EACCES", "inject=read:error=EIO", "inject=read:retval=0"):
        ended(f"delete: {rule}", run(root, *DELETE, prefix=injected(root, *of_urandom, rule)), 6, b"entropy failed\n")
        ended(f"check behind that: {rule}", run(root, "target", "-", "check"), 0, b"ok archives 1 chunks 3 orphans 0 untagged 0\n")
    shutil.rmtree(os.path.join(root, "target"))


def drawn(root):
    """Two repositories have two ids, and none of what is drawn is zeros for a half of it."""
    ids = set()
    for _ in range(2):
        ran = run(root, *INIT)
        ended("init", ran, 0)
        ids.add(ran.stdout)
        shutil.rmtree(os.path.join(root, "target"))
    judge(len(ids) == 2, f"two repositories have the ids {ids}")
    for line in ids:
        bytes_of = bytes.fromhex(line.split()[-1].decode())
        judge(bytes_of.count(0) < 16, f"an id is {bytes_of.hex()}")


DEVICE = b"source device failed\n"
LISTED = ("source", "-", "keys")


def segment_of(root):
    """The place of the source's segment that has its objects."""
    return next(name for name in sorted(state(os.path.join(root, "source"))) if re.fullmatch(r"data/0/\d+", name))


def unreadable(root):
    """What can't be read is told as a failed device, and isn't taken for nothing or for damage."""
    make_source(root)
    segment = segment_of(root)
    of = lambda place, call, rule: injected(root, *(["-P", f"source/{place}"] if place else []), "-e", f"trace={call}", "-e", f"inject={call}:{rule}")
    for what, prefix in {
        "the entries of a folder": of("", "getdents64", "error=EIO"),
        "the entries of a folder below": of("", "getdents64", "error=EIO:when=2"),
        "the opening of a folder": of("data/", "openat", "error=EACCES"),
        "the opening of a folder below": of("data/0/", "openat", "error=EMFILE"),
        "the look at a folder": of("data/0", "statx", "error=EACCES"),
        "the look at a segment": of(segment, "statx", "error=EIO"),
        "the second look at a segment": of(segment, "statx", "error=EIO:when=2"),
        "the last look at a segment": of(segment, "statx", "error=EIO:when=3"),
        "the opening of a segment": of(segment, "openat", "error=EACCES"),
        "the opening of one file too many": of(segment, "openat", "error=EMFILE"),
        "the opening of a segment on a broken disk": of(segment, "openat", "error=EIO"),
        "the place in a segment": of(segment, "lseek", "error=EIO"),
        "the bytes of a segment": of(segment, "read", "error=EIO"),
        "the look at config": of("config", "statx", "error=EACCES"),
        "the opening of config": of("config", "openat", "error=EACCES"),
        "the bytes of config": of("config", "read", "error=EIO"),
    }.items():
        for words in (LISTED, ("source", "-", "list")):
            ran = run(root, *words, prefix=prefix)
            was_refused = any("INJECTED" in line for line in tracing.lines_of(os.path.join(root, "calls")))
            judge(was_refused, f"{what}: {words[2]} isn't refused a call")
            ended(f"{what}: {words[2]}", ran, 4, DEVICE)
    whole = injected(root, "-P", f"source/{segment}", "-e", "trace=read", "-e", "inject=read:error=EINTR:when=1")
    ended("a read that is interrupted", run(root, *LISTED, prefix=whole), 0)


def closed_by_mode(root):
    """A folder or a file that its mode closes is a failed device, and no absence."""
    other = other_user(PROGRAM, root)
    if other is None:
        skip("modes that close folders and files: no other user can be taken")
        return
    make_source(root)
    judge(run(root, *LISTED, prefix=other).returncode == 0, "another user can't read the source")
    # Of a folder of mode 444 the names can be listed, and what they are can't be looked at.
    for name, mode in [*((name, 0) for name in ("", "config", "data", "data/0", "data/0/0")), ("data", 0o444), ("data/0", 0o444)]:
        place = os.path.join(root, "source", name)
        before = os.stat(place).st_mode
        os.chmod(place, mode)
        ended(f"{name or 'the folder itself'} of mode {mode:o}", run(root, *LISTED, prefix=other), 4, DEVICE)
        os.chmod(place, before)


def modes(root):
    """The key is for its owner alone, whatever the mask, and whoever could read a config that is replaced; a nonce and a README keep their modes."""
    ended("init", run(root, *INIT, preexec_fn=lambda: os.umask(0)), 0)
    for folder, folders, files in os.walk(os.path.join(root, "target")):
        for name in [".", *folders]:
            mode = os.stat(os.path.join(folder, name)).st_mode & 0o777
            judge(mode == 0o700, f"the folder {name} has the mode {mode:o}")
        for name in files:
            mode = os.stat(os.path.join(folder, name)).st_mode & 0o777
            judge(mode == 0o600, f"the file {name} has the mode {mode:o}")
    shutil.rmtree(os.path.join(root, "target"))
    for before, after in ((0o644, 0o600), (0o640, 0o600), (0o755, 0o600), (0o600, 0o600), (0o400, 0o400)):
        for name in ("config", "README", "nonce"):
            write(os.path.join(root, "target", name), LEFT[name])
            os.chmod(os.path.join(root, "target", name), before)
        ended(f"init over files of mode {before:o}", run(root, *INIT), 0)
        for name, wanted in (("config", after), ("README", before), ("nonce", before)):
            mode = os.stat(os.path.join(root, "target", name)).st_mode & 0o777
            judge(mode == wanted, f"a {name} of mode {before:o} has {mode:o} and not {wanted:o}")
        shutil.rmtree(os.path.join(root, "target"))


def places(root):
    """No parent is made, and nothing is written through a link."""
    ended("a place without its parent", run(root, "-", "a/b/c", "init", "--iterations", "1"), 5, b"target device failed\n")
    judge(not os.path.exists(os.path.join(root, "a")), "a place without its parent: a is there")
    for link in ("data/0/0", "data/0/1", "config.borgferry-new", "nonce.borgferry-new"):
        folder = os.path.join(root, "target")
        os.makedirs(os.path.join(folder, "data/0"))
        os.symlink(os.path.join(root, "outside"), os.path.join(folder, link))
        ran = run(root, *INIT)
        judge(ran.returncode in (0, 5, 17), f"init over the link {link}: status {ran.returncode}")
        judge(not os.path.lexists(os.path.join(root, "outside")), f"init over the link {link}: a file is made outside")
        shutil.rmtree(folder)


def unsynced(root):
    """A sync that the system doesn't know, and that of a folder above which nobody may look into, are passed over; others that fail are told."""

    def synced(what, call, place, error, wanted, is_new):
        if not is_new:
            write(os.path.join(root, "target/data/0/0"), b"BORG_SEG")
        rule = ("-P", place, "-e", f"trace={call}", "-e", f"inject={call}:error={error}")
        ran = run(root, *INIT, prefix=injected(root, *rule))
        judge(any("INJECTED" in line for line in tracing.lines_of(os.path.join(root, "calls"))), f"{what}: no call is refused")
        ended(what, ran, wanted)
        shutil.rmtree(os.path.join(root, "target"))

    os.mkdir(os.path.join(root, "target"))
    synced("no sync of a folder is known", "fsync", "target", "EINVAL", 0, False)
    synced("a sync of a folder fails", "fsync", "target", "EIO", 5, False)
    synced("the folder above may not be looked into", "openat", "target/..", "EACCES", 0, False)
    synced("the folder above can't be opened", "openat", "target/..", "EIO", 5, False)
    synced("the folder above a new one may not be looked into", "openat", "target/..", "EACCES", 5, True)
    for name, wanted in {"README": 5, "config": 5, "nonce": 5}.items():
        os.makedirs(os.path.join(root, "target"))
        write(os.path.join(root, "target", name), LEFT[name])
        synced(f"no sync of {name} is known", "fsync", f"target/{name}", "EINVAL", wanted, False)


def limited(size):
    """What lets files grow up to a size."""

    def limit():
        signal.signal(signal.SIGXFSZ, signal.SIG_IGN)
        resource.setrlimit(resource.RLIMIT_FSIZE, (size, size))

    return limit


def outputs(root):
    """An output that takes a part is one that failed."""
    make_source(root)
    whole = run(root, "source", "-", "keys").stdout
    judge(len(whole) > 100, f"keys prints {whole!r}")
    for size in (0, 1, 40, len(whole) - 20, len(whole) - 1):
        with open(os.path.join(root, "out"), "wb") as out:
            ended(f"keys into {size} bytes", run(root, "source", "-", "keys", stdout=out, preexec_fn=limited(size)), 7)
        with open(os.path.join(root, "out"), "rb") as out:
            judge(out.read() == whole[:size], f"keys into {size} bytes: something else is there")
    ended("init", run(root, *INIT), 0)
    # Segments are larger than the lines, so the lines alone go into a file that is nearly full already. The last line ends in it, too.
    tell = ("source", "target", "transfer", "--block", "64", "a")
    told = b"present a\ntotal 0 transferred 1 present 0 chunks 0 bytes 0 meta\n"
    limit = 1 << 20
    for room in (0, 5, 9, 10, 20, len(told) - 1):
        with open(os.path.join(root, "out"), "wb") as out:
            out.truncate(limit - room)
            out.seek(limit - room)
            ended(f"a transfer told into {room} bytes", run(root, *tell, stdout=out, preexec_fn=limited(limit)), 5)
    ended("the next transfer", run(root, *tell), 0, told)
    # The four chunks of the file, the items and the record. What isn't told is done.
    told = b"deleted a chunks 6\n"
    for room in (0, 5, len(told) - 1):
        with open(os.path.join(root, "out"), "wb") as out:
            out.truncate(limit - room)
            out.seek(limit - room)
            ended(f"a deletion told into {room} bytes", run(root, *DELETE, stdout=out, preexec_fn=limited(limit)), 5)
        ended(f"the next deletion, told into {room} bytes", run(root, *DELETE), 11, b"not found: a\n")
        ended("a transfer behind it", run(root, *tell), 0)
    ended("a deletion that is told", run(root, *DELETE), 0, told)


CLOSED = {"standard input": "<&-", "standard output": ">&-", "standard error": "2>&-"}


def closed(root):
    """Where streams are closed, no line goes into a file that is opened in the place of one."""
    make_source(root)
    before = state(os.path.join(root, "source"))
    transfer = ("source", "target", "transfer", "--block", "64", "--checkpoint", "1", "a")
    # The passphrase of the target is the empty one, so that `init` tells a line on standard error.
    empty = {**VARIABLES, "BORG_PASSPHRASE": ""}
    for count in (1, 2, 3):
        for streams in itertools.combinations(CLOSED, count):
            shell = ["sh", "-c", f'exec "$@" {" ".join(CLOSED[stream] for stream in streams)}', ""]
            wanted = (5, 7) if "standard output" in streams else (0,)
            for words, earlier in ((INIT, ()), (transfer, (INIT,)), (DELETE, (INIT, transfer))):
                what = f"{words[2]} with {', '.join(streams)} closed"
                for one in earlier:
                    ended(f"{one[2]} before {what}", run(root, *one, variables=empty), 0)
                ran = run(root, *words, prefix=shell, variables=empty)
                judge(ran.returncode in wanted, f"{what} ends with {ran.returncode}: {ran.stderr!r}")
                looked = run(root, "target", "-", "check", variables={})
                ended(f"check after {what}", looked, 0)
                has_all = looked.stdout.startswith(b"ok archives %d " % (words == transfer))
                judge(has_all or ran.returncode != 0, f"{what}: check prints {looked.stdout!r}")
                judge(state(os.path.join(root, "source")) == before, f"{what}: the source has changed")
                shutil.rmtree(os.path.join(root, "target"))


def passphrases(root):
    """Each side has its own variable, and no byte of it is dropped."""
    key = ("target", "-", "key")
    ended("init with the other variable alone", run(root, *INIT, variables={"BORG_OTHER_PASSPHRASE": "other"}), 0)
    ended("the empty passphrase", run(root, *key, variables={}), 0)
    ended("the other passphrase", run(root, *key, variables={"BORG_OTHER_PASSPHRASE": "other"}), 8, b"source refused: key 5\n")
    shutil.rmtree(os.path.join(root, "target"))
    for text in ("ends with a blank ", " begins with one", "a\ttab", "line\n", "gr\u00fc\u00df e", ""):
        ended(f"init with {text!r}", run(root, *INIT, variables={"BORG_PASSPHRASE": text}), 0)
        ended(f"the passphrase {text!r}", run(root, *key, variables={"BORG_OTHER_PASSPHRASE": text}), 0)
        for other in {text.strip(), text + " ", text.upper()} - {text}:
            ended(f"the passphrase {other!r} for {text!r}", run(root, *key, variables={"BORG_OTHER_PASSPHRASE": other}), 8)
        shutil.rmtree(os.path.join(root, "target"))


def borders(root):
    """A segment lies in the folder of its number, at borders too; Borg finds it there."""
    make_source(root, contents=9)
    ended("init", run(root, *INIT), 0)
    path = os.path.join(root, "target/config")
    with open(path, encoding="ascii") as file:
        text = file.read()
    write(path, re.sub(r"segments_per_dir = \d+", "segments_per_dir = 2", text).encode())
    judge("segments_per_dir = 2\n" in open(path, encoding="ascii").read(), "segments_per_dir isn't in the config")
    words = ("source", "target", "transfer", "--block", "64", "--checkpoint", "1", "a")
    ended("a transfer into folders of two segments", run(root, *words), 0)
    numbers = [name.split("/")[1:] for name in state(os.path.join(root, "target")) if re.fullmatch(r"data/\d+/\d+", name)]
    judge(len(numbers) >= 20, f"folders of two segments: {numbers}")
    judge(all(int(number) // 2 == int(folder) for folder, number in numbers), f"folders of two segments: {sorted(numbers)}")
    ended("check of folders of two segments", run(root, "target", "-", "check"), 0)
    if shutil.which("borg") is None:
        skip("borg check of folders of two segments: there is no Borg")
        return
    settings = {**os.environ, **VARIABLES, "BORG_BASE_DIR": os.path.join(root, "borg"), "BORG_RELOCATED_REPO_ACCESS_IS_OK": "yes"}
    ran = subprocess.run(["borg", "check", "--verify-data", "target"], cwd=root, env=settings, capture_output=True)
    judge(ran.returncode == 0, f"borg check of folders of two segments: {ran.stderr!r}")


def pieces(terminal):
    """What comes to a terminal until it is closed."""
    try:
        while piece := os.read(terminal, 65536):
            yield piece
    except OSError:
        return


def on_terminal(root, words, rule):
    """A run with both outputs on a terminal, and with a rule of strace that makes it slow: how it ended, all that was shown, and the numbers of the lines of progress."""
    control, terminal = pty.openpty()
    tty.setraw(terminal)
    shown = []
    listener = threading.Thread(target=lambda: shown.extend(pieces(control)))
    listener.start()
    call = rule.split(":")[0]
    try:
        ran = run(root, *words, prefix=injected(root, "-e", f"trace={call}", "-e", f"inject={rule}"), stdout=terminal, stderr=terminal)
    finally:
        os.close(terminal)
        listener.join()
        os.close(control)
    all_of_it = b"".join(shown)
    return ran, all_of_it, [tuple(map(int, numbers)) for numbers in PROGRESS.findall(all_of_it)]


def progress(root):
    """On a terminal the line of progress is erased before a line is told, and what the target moves is counted in it."""
    make_source(root, contents=20, size=100000)
    ended("init", run(root, *INIT), 0)
    words = ("source", "target", "transfer", "--block", "100000", "--checkpoint", "4", "a")
    # Each sync takes a while, so that a line of progress is there when the archive is told.
    ran, shown, lines = on_terminal(root, words, "fsync:delay_exit=60000")
    ended("a slow transfer", ran, 0)
    judge(lines and lines[-1][0] >= 2 and lines[-1][1] >= 2, f"the lines of progress are {lines}")
    judge(b"\ra: read " in shown, f"the archive on its way isn't named: {shown!r}")
    told = re.sub(rb"\r\x1b\[K", b"", OPENING.sub(b"", PROGRESS.sub(b"", shown)))
    judge(told == b"transferred a\ntotal 1 transferred 0 present 20 chunks 2000000 bytes 1 meta\n", f"beside the progress {told!r} is shown")
    for line in (b"transferred a", b"total 1"):
        judge(b"\r\x1b[K" + line in shown or b"\n" + line in shown, f"the line {line!r} stands behind a line of progress: {shown!r}")
    # Each repository has 2 MB, which are read twice, so that one alone doesn't come to 6 MB; the last line is of the last fifth of a second, in which few reads are made.
    ran, shown, lines = on_terminal(root, words, "lseek:delay_exit=40000")
    ended("a slow comparison", ran, 0)
    judge(lines and lines[-1][0] >= 6 and lines[-1][1] == 0, f"the lines of progress of a comparison are {lines}")
    judge(OPENING.search(shown) is not None, f"the reading of a log isn't told: {shown!r}")


def short_writes(root):
    """Where a file takes a part of what is written the rest is written too, or the call fails; nothing that was there is lost."""
    make_source(root)
    for size in (5, 16, 20, 100, 400):
        what = f"files of {size} bytes at most"
        ended(f"{what}: init", run(root, *INIT, preexec_fn=limited(size)), 5)
        left = [name for name in state(root) if name.endswith(".borgferry-new")]
        judge(not left, f"{what}: {left} stay")
        if os.path.exists(os.path.join(root, "target")):
            shutil.rmtree(os.path.join(root, "target"))
    ended("init", run(root, *INIT), 0)
    # Each chunk has a segment of 156 bytes for itself, whose last write is cut, and its commit another one.
    words = ("source", "target", "transfer", "--block", "64", "--checkpoint", "1", "a")
    for size in (10, 17, 50, 100, 155, 300, 500):
        ended(f"files of {size} bytes at most: transfer", run(root, *words, stdout=subprocess.DEVNULL, preexec_fn=limited(size)), 5)
    ended("the next transfer", run(root, *words), 0)
    contents = run(root, "source", "-", "extract", "a", "file").stdout
    judge(len(contents) == 256, f"the file has {len(contents)} bytes")
    ended("its file", run(root, "target", "-", "extract", "a", "file"), 0, contents)
    ended("check after it", run(root, "target", "-", "check"), 0)
    # The number of the cipher's counter, the DELETEs, and the manifest behind them are cut.
    for size in (10, 17, 100, 300, 500):
        ended(f"files of {size} bytes at most: delete", run(root, *DELETE, preexec_fn=limited(size)), 5)
        ended(f"files of {size} bytes at most: its file", run(root, "target", "-", "extract", "a", "file"), 0, contents)
    ended("the next delete", run(root, *DELETE), 0)
    ended("check after that", run(root, "target", "-", "check"), 0, b"ok archives 0 chunks 0 orphans 0 untagged 0\n")


def restored(root):
    """A folder that takes a part of what is restored has a front of it; one that can't be written stays as it is."""
    make_source(root)
    words, folder = ("source", "folder", "restore", "a"), os.path.join(root, "folder")
    contents = run(root, "source", "-", "extract", "a", "file").stdout
    for size in (0, 1, 63, 64, 100, 255):
        what = f"files of {size} bytes at most: restore"
        ended(what, run(root, *words, preexec_fn=limited(size)), 13, b"tree failed\n")
        judge(state(folder) == {"file": contents[:size]}, f"{what}: {state(folder)}")
        ended(f"{what}, and again", run(root, *words), 14, b"not empty\n")
        judge(state(folder) == {"file": contents[:size]}, f"{what}, and again: {state(folder)}")
        shutil.rmtree(folder)
    ended("restore", run(root, *words, preexec_fn=lambda: os.umask(0)), 0, b"restored 1 files 0 folders 0 links 0 skipped\n")
    judge(state(folder) == {"file": contents}, f"restore: {state(folder)}")
    judge(os.stat(folder).st_mode & 0o777 == 0o700, "the folder of a restoring isn't its owner's alone")
    shutil.rmtree(folder)
    for mode in (0o777, 0o775, 0o702):
        os.mkdir(folder)
        os.chmod(folder, mode)
        ended(f"restore in a folder of mode {mode:o}", run(root, *words), 17, b"withheld: folder\n")
        judge(state(folder) == {}, f"restore in a folder of mode {mode:o}: {state(folder)}")
        os.rmdir(folder)
    other = other_user(PROGRAM, root)
    if other is None:
        skip("a folder that another user can't write: no other user can be taken")
        return
    os.makedirs(folder, mode=0o755)
    if other:
        ended("restore in another user's folder", run(root, *words, prefix=other), 17, b"withheld: folder\n")
    give(folder)
    for mode, what in ((0o500, "a folder that can't be written"), (0o300, "a folder that can't be listed")):
        os.chmod(folder, mode)
        ended(what, run(root, *words, prefix=other), 13, b"tree failed\n")
        judge(state(folder) == {}, f"{what}: {state(folder)}")
    if other:
        ended("restore by root in another user's folder", run(root, *words), 17, b"withheld: folder\n")


COUNT = b"\xff\xff\xff\xff"
# A front of a value whose head claims 2^32 - 1 bytes or entries, of which none are there.
CLAIMS = {
    "a raw value": b"\xdb" + COUNT, "an array": b"\xdd" + COUNT, "a map": b"\xdf" + COUNT, "a map's key": b"\x81\xdb" + COUNT, "arrays in one another": (b"\xdd" + COUNT) * 64,
    "chunks": b"\x81\xa6chunks\xdd" + COUNT, "a chunk's id": b"\x81\xa6chunks\x91\x93\xdb" + COUNT, "item ids": b"\x82\xa7version\x01\xa5items\xdd" + COUNT,
    "archives": b"\x82\xa7version\x01\xa8archives\xdf" + COUNT, "item fields": b"\x82\xa7version\x01\xa9item_keys\xdd" + COUNT,
}


def limited_to(kib):
    return lambda: resource.setrlimit(resource.RLIMIT_AS, (kib * 1024, kib * 1024))


def least_memory(root, *words):
    """The least of the address space, in KiB, in which a command ends well."""
    too_little, enough = 0, 1 << 20
    while enough - too_little > 64:
        middle = (too_little + enough) // 2
        if run(root, *words, preexec_fn=limited_to(middle)).returncode == 0:
            enough = middle
        else:
            too_little = middle
    return enough


def claimed_counts(root):
    """Heads that claim 2^32 - 1 bytes or entries, in a key text, a manifest, a record and a stream of items, take at most 1 MiB more than what is right."""
    make_source(root, size=4096)
    needed = {words: least_memory(root, "source", "-", *words) + 1024 for words in (("list",), ("list", "a"), ("check",))}
    for claim, front in CLAIMS.items():
        keys = Keys()
        bad = Archive(keys, b"a", [], behind=front, how=RECORD)
        record = Archive(keys, b"a", [], how={**RECORD, "packed": lambda _, front=front: front})
        manifest = lambda archive, keys=keys: keys.blob(keys.tagged(fields(archive.named(b"a"))))
        sources = {
            "a stream": (repository(keys, b"passphrase", manifest(bad), *dict(bad.chunks()).items()), {("list", "a"): b"source refused: items 5 ", ("check",): b"bad items 5 "}),
            "a record": (repository(keys, b"passphrase", manifest(record), *dict(record.chunks()).items()), {("list", "a"): b"source refused: record 1 ", ("check",): b"bad record 1 "}),
            "a manifest": (repository(keys, b"passphrase", keys.blob(front)), {("list",): b"source refused: manifest 1\n"}),
            "a key text": ({**repository(keys, b"passphrase", manifest(bad)), "config": config(front)}, {("list",): b"source refused: key 1\n"}),
        }
        for place, (files, wanted) in sources.items():
            shutil.rmtree(os.path.join(root, "claims"), ignore_errors=True)
            for path, content in files.items():
                write(os.path.join(root, "claims", path), content)
            for words, line in wanted.items():
                ran = run(root, "claims", "-", *words, preexec_fn=limited_to(needed[words]))
                judge(ran.stdout.startswith(line), f"{place} with {claim} that claims more than is there: {' '.join(words)}: {ran.returncode} {ran.stdout!r}")


LINKED = ("data", "data/0", "data/0/0", "data/0/1", "config", "nonce", "README", "config.borgferry-new", "nonce.borgferry-new", "README.borgferry-new")
# `init` over a folder without a commit, and what writes a target that has one.
WRITING = (INIT, ("source", "target", "transfer"), DELETE, ("-", "target", "compact"), ("-", "target", "tag-archives"))


def links(root):
    """In a target no link is followed, written over or removed, and the repository that it leads to stays as it is; the target itself may be one, and in a source links are followed."""
    make_source(root)
    for place in ("kept", "other"):
        ended(f"init of {place}", run(root, "-", place, "init", "--iterations", "1"), 0)
        ended(f"transfer to {place}", run(root, "source", place, "transfer"), 0)
    before = state(os.path.join(root, "other"))
    for link in LINKED:
        for words in WRITING:
            # A deletion alone writes the nonce anew, and no other file beside.
            if link.endswith("-new") and words is not INIT and (words is not DELETE or "nonce" not in link):
                continue
            what = f"{words[2]} over the link {link}"
            target = os.path.join(root, "target")
            if words is INIT:
                os.makedirs(os.path.dirname(os.path.join(target, link)))
            else:
                shutil.copytree(os.path.join(root, "kept"), target)
            path = os.path.join(target, link)
            if os.path.isdir(path):
                shutil.rmtree(path)
            elif os.path.exists(path):
                os.remove(path)
            outside = os.path.join(root, "other", link.removesuffix(".borgferry-new"))
            os.symlink(outside, path)
            # What a stopped init leaves under these names is written anew; a link under another name is somebody's.
            is_other = words is INIT and not link.startswith("nonce") and not link.endswith("-new")
            ended(what, run(root, *words), *((17, b"withheld: other files\n") if is_other else (5, b"target device failed\n")))
            judge(os.path.islink(path) and os.readlink(path) == outside, f"{what}: the link is gone")
            judge(state(os.path.join(root, "other")) == before, f"{what}: the other repository has changed")
            shutil.rmtree(target)
    listed = run(root, "other", "-", "check").stdout
    for link in ("data", "data/0", "data/0/0", "config"):
        shutil.copytree(os.path.join(root, "other"), os.path.join(root, "linked"))
        path = os.path.join(root, "linked", link)
        shutil.rmtree(path) if os.path.isdir(path) else os.remove(path)
        os.symlink(os.path.join(root, "other", link), path)
        ended(f"a source with the link {link}", run(root, "linked", "-", "check"), 0, listed)
        shutil.rmtree(os.path.join(root, "linked"))
    os.symlink("kept", os.path.join(root, "target"))
    ended("a target that is a link", run(root, *DELETE), 0)
    os.remove(os.path.join(root, "target"))


def foreign_segments(root):
    """A target with a key and a commit of its own whose folder of segments is another repository's: `compact`, which asks for no key, leaves that one alone."""
    make_source(root)
    for place in ("other", "target"):
        ended(f"init of {place}", run(root, "-", place, "init", "--iterations", "1"), 0)
        ended(f"transfer to {place}", run(root, "source", place, "transfer"), 0)
    ended("a deletion in other", run(root, "-", "other", "delete", "a"), 0)
    before = state(os.path.join(root, "other"))
    shutil.rmtree(os.path.join(root, "target/data/0"))
    os.symlink("../../other/data/0", os.path.join(root, "target/data/0"))
    ended("compact", run(root, "-", "target", "compact", "--threshold", "0"), 5, b"target device failed\n")
    judge(state(os.path.join(root, "other")) == before, "compact: the other repository has changed")


def large_config(root):
    """A config of more than 1 MiB isn't read, in a source and in a target, and one of 1 MiB is."""
    make_source(root)
    ended("init", run(root, *INIT), 0)
    for place, words, status in (("source", LISTED, 4), ("target", ("source", "target", "transfer"), 5), ("target", ("-", "target", "compact"), 5), ("target", INIT, 5)):
        path = os.path.join(root, place, "config")
        with open(path, "rb") as file:
            text = file.read()
        for size, wanted in ((1 << 20, None), ((1 << 20) + 1, status), (1 << 22, status)):
            what = f"{words[2]} with a {place}'s config of {size} bytes"
            write(path, text + b"#" * (size - len(text) - 1) + b"\n")
            ran = run(root, *words)
            if wanted is None:
                judge(ran.returncode in (0, 9), f"{what}: status {ran.returncode}: {ran.stdout!r}")
            else:
                ended(what, ran, wanted, b"%s device failed\n" % place.encode())
        write(path, text)


def looks_before(root, *rules):
    """How many looks at a target that isn't there `init` makes in front of making it."""
    ended("init", run(root, *INIT, prefix=injected(root, *rules)), 0)
    shutil.rmtree(os.path.join(root, "target"))
    return [line.startswith("mkdir(") for line in tracing.lines_of(os.path.join(root, "calls"))].index(True)


def refused_looks(root):
    """Where a look at a target's folder is refused, each or one alone, that isn't taken for its absence: nothing is made, and the device has failed."""
    place = "target"
    rules = ("-P", place, "-e", "trace=statx,mkdir")
    # The first look is that of main itself, which asks whether both places are one.
    alone = [f":when={number}" for number in range(2, looks_before(root, *rules) + 1)]
    judge(alone, "init looks at the target once")
    for is_there, whens in ((False, ["", *alone]), (True, [""])):
        if is_there:
            os.mkdir(os.path.join(root, place))
        for error, when in itertools.product(("EACCES", "EIO"), whens):
            what = f"a look at a target that {'is' if is_there else 'isn' + chr(39) + 't'} there, refused by {error}{when}"
            ran = run(root, *INIT, prefix=injected(root, *rules, "-e", f"inject=statx:error={error}{when}"))
            calls = tracing.lines_of(os.path.join(root, "calls"))
            judge(any("INJECTED" in line for line in calls), f"{what}: no look is refused")
            judge(not any(line.startswith("mkdir(") for line in calls), f"{what}: a folder is made")
            ended(what, ran, 5, b"target device failed\n")
            judge(os.path.isdir(os.path.join(root, place)) == is_there and not state(root).get("target/README"), f"{what}: {state(root)}")


def open_files(root):
    """A file whose chunks lie in six segments by turns is read with each of them opened few times."""
    keys = Keys()
    rows = [[b"%d %2d " % (row, number) * 16 for number in range(20)] for row in range(6)]
    by_turns = [chunk for column in zip(*rows) for chunk in column]
    named, chunks = [], {}
    for name, contents in [(b"%d" % row, contents) for row, contents in enumerate(rows)] + [(b"all", by_turns)]:
        archive = Archive(keys, name, [Item(b"file", contents, more=ITEM)], length=100000, how=RECORD)
        named += archive.named(name)
        chunks.update(dict(archive.chunks()))
    for place, content in repository(keys, b"passphrase", keys.blob(keys.tagged(fields(named))), *chunks.items()).items():
        write(os.path.join(root, "source", place), content)
    ended("init", run(root, *INIT), 0)
    # Each archive is a commit, so that the chunks of each are in a segment of their own.
    ended("a transfer", run(root, "source", "target", "transfer", "--block", "80", *(name.decode() for name, _, _ in named)), 0)
    ran = run(root, "target", "-", "extract", "all", "file", prefix=injected(root, "-e", "trace=openat"))
    ended("extract", ran, 0, b"".join(by_turns))
    opened = [line for line in tracing.lines_of(os.path.join(root, "calls")) if re.search(r'"target/data/0/\d+"', line)]
    segments = len(os.listdir(os.path.join(root, "target/data/0")))
    judge(len(opened) <= 3 * segments, f"{segments} segments are opened {len(opened)} times")


NEED_STRACE = (random_bytes, unreadable, unsynced, progress, refused_looks, open_files)
CASES = (*NEED_STRACE, closed_by_mode, drawn, modes, places, outputs, short_writes, restored, closed, passphrases, borders, claimed_counts, links, foreign_segments, large_config)


def main(chosen):
    for case in CASES:
        if chosen and case.__name__ not in chosen:
            continue
        if case in NEED_STRACE and shutil.which("strace") is None:
            skip(f"{case.__name__}: there is no strace")
            continue
        with tempfile.TemporaryDirectory() as root:
            # Of a link in its path a trace has the other path.
            case(os.path.realpath(root))
    finish()


main(sys.argv[2:])
