"""Cases of plain.py in which the script is stopped, refuses or leaves something: kills, signals, full disks, quotas, damage, modes, words."""
import os
import random
import re
import shutil
import signal
import subprocess
import sys
import time

import borgs
from borgs import borg, facts, files, run, trees
from counting import judge, skip
from plain_tools import SCRIPT, goes_on, make_tree, many, plain, reads, segments, writes

DEAR = "dear" in sys.argv[2:]


def kills(root):
    """Killed at moments by chance behind its first write, the script leaves a repository that Borg finds whole, and the same words go on."""
    many(root, files_of=60)
    before, trees_before = facts(root, "old"), trees(root, "old")
    shutil.copytree(f"{root}/old", f"{root}/killed")
    process, at = writes(root, "killed", "--transaction", "0.05"), time.monotonic()
    process.communicate()
    # The interpreter's own end takes a part of it.
    lasts, counts = 0.6 * (time.monotonic() - at), {"killed": 0, "ended": 0}
    some = random.Random(os.environ.get("SEED", "7"))
    for number in range(100 if DEAR else 4):
        shutil.rmtree(f"{root}/killed")
        shutil.copytree(f"{root}/old", f"{root}/killed")
        # The same folder each time, as Borg knows the repository; one run in three is killed a second time.
        for _ in range(2 if number % 3 == 2 else 1):
            process = writes(root, "killed", "--transaction", "0.05")
            time.sleep(some.uniform(0, lasts))
            counts["ended" if process.poll() is not None else "killed"] += 1
            process.kill()
            process.communicate()
        ran = run(root, "borg", "check", "killed")
        judge(ran.returncode == 0, f"kill {number}: borg check of what is left says {ran.stderr!r}")
        judge(facts(root, "killed") == before, f"kill {number}: Borg says another thing of what is left")
        ran = plain(root, "killed", "--unchecked", "--transaction", "0.05")
        judge(ran.returncode == 0, f"kill {number}: the script behind it: {ran.returncode} {ran.stdout!r} {ran.stderr!r}")
        judge(facts(root, "killed") == before, f"kill {number}: Borg says another thing behind it")
        if number % 10 == 3:
            judge(trees(root, "killed") == trees_before, f"kill {number}: what Borg extracts isn't as before")
            reads(root, "killed", f"kill {number}")
    print(f"kills: {counts['killed']} runs were killed behind the first write, {counts['ended']} had ended")
    judge(counts["killed"] >= counts["ended"], f"kills: {counts}")
    goes_on(root, "killed", "kills", trees_before)


def signals(root):
    """A signal that asks for an end gives Borg's lock back and is told, and the same words go on."""
    many(root)
    before = facts(root, "old")
    for number in (signal.SIGINT, signal.SIGTERM, signal.SIGHUP):
        process = writes(root, "old", "--transaction", "0.05")
        process.send_signal(number)
        said = process.communicate()[0]
        judge(process.returncode == 128 + number, f"{number.name}: {process.returncode} {said!r}")
        judge("committed, if not more" in said and number.name in said, f"{number.name}: {said!r}")
        judge(not os.path.exists(f"{root}/old/lock.exclusive"), f"{number.name}: the lock is there")
    ran = plain(root, "old", "--unchecked")
    judge((ran.returncode, facts(root, "old")) == (0, before), f"signals: behind them {ran.stdout!r} {ran.stderr!r}")
    reads(root, "old", "signals")


# The script, but that it ends where Borg would write its index behind the first commit, as a machine that stops.
STOPPED = """
import os, runpy, sys
from borg.repository import Repository
Repository.write_index = lambda self: os._exit(9)
sys.argv = sys.argv[1:]
runpy.run_path(sys.argv[0], run_name="__main__")
"""


def afterwards(root):
    """Behind the script, and behind a run that was stopped between a commit and Borg's index, an archive is deleted and compacted as ever, and is so in an index made anew."""
    for number, words in enumerate([[SCRIPT], [borgs.interpreter(), "-c", STOPPED, SCRIPT]]):
        folder = f"old{number}"
        borgs.init(root, folder)
        make_tree(root, 1, 1)
        # Of the segment that has it less than a tenth is put again, and it stays in use, so that Borg doesn't compact that segment.
        with open(f"{root}/tree/random", "wb") as file:
            file.write(random.Random(2).randbytes(90000))
        borg(root, "create", f"{folder}::a", "tree")
        ran = run(root, *words, "--unchecked", folder)
        judge(ran.returncode == (9 if number else 0), f"afterwards: {ran.returncode} {ran.stdout!r} {ran.stderr!r}")
        judge(plain(root, folder, "--unchecked").returncode == 0, "afterwards: the same words again")
        for command in (["create", f"{folder}::b", "tree/random"], ["prune", "--keep-last", "1", folder], ["compact", folder], ["check", folder]):
            ran = run(root, "borg", *command)
            judge(ran.returncode == 0, f"afterwards: borg {command[0]}: {ran.stdout!r} {ran.stderr!r}")
        for name in os.listdir(f"{root}/{folder}"):
            if name.startswith(("index.", "hints.", "integrity.")):
                os.remove(f"{root}/{folder}/{name}")
        ran = run(root, "borg", "check", folder)
        judge(ran.returncode == 0, f"afterwards: with an index made anew: {ran.stdout!r} {ran.stderr!r}")


class Disk:
    """A file system of its own of so many MB, where root can make one."""

    def __init__(self, root, size):
        self.place = f"{root}/disk"
        os.makedirs(self.place)
        self.is_there = os.geteuid() == 0 and subprocess.run(["mount", "-t", "tmpfs", "-o", f"size={size}m", "tmpfs", self.place], capture_output=True, check=False).returncode == 0

    def __enter__(self):
        return self

    def __exit__(self, *_):
        if self.is_there:
            subprocess.run(["umount", "-l", self.place], check=True)

    def fill(self, left=0):
        """Takes all of the disk but so many bytes."""
        with open(f"{self.place}/filler", "ab") as file:
            while (free := shutil.disk_usage(self.place).free - left) > 0:
                try:
                    os.posix_fallocate(file.fileno(), file.tell(), free)
                except OSError:
                    # The script took some of it meanwhile.
                    continue
                file.seek(0, os.SEEK_END)


def full(root):
    """Where the disk lacks the space nothing is written; where it fills meanwhile the repository stays whole, and behind that the script goes on."""
    with Disk(root, 100) as disk:
        if not disk.is_there:
            skip("a full disk: none can be mounted")
            return
        many(root, "disk/old")
        before, trees_before, there = facts(root, "disk/old"), trees(root, "disk/old"), files(f"{root}/disk/old")
        for left in (0, 1000000, 20000000):
            disk.fill(left)
            ran = plain(root, "disk/old")
            # Without a byte that is free Borg can't even lock.
            judge(ran.returncode == 2 and ("lacks the space" in ran.stderr or "is full" in ran.stderr), f"a full disk: {ran.returncode} {ran.stdout!r} {ran.stderr!r}")
            judge(files(f"{root}/disk/old") == there, f"a full disk with {left} bytes: something was written")
            os.remove(f"{disk.place}/filler")
        shutil.copytree(f"{root}/disk/old", f"{root}/old")
        for left in (0, 200000, 2000000):
            shutil.rmtree(f"{root}/disk/old")
            shutil.copytree(f"{root}/old", f"{root}/disk/old")
            fills(root, disk, left, before)
        ran = plain(root, "disk/old")
        judge(ran.returncode == 0, f"a disk that was full: {ran.returncode} {ran.stdout!r} {ran.stderr!r}")
        judge((facts(root, "disk/old"), trees(root, "disk/old")) == (before, trees_before), "a disk that was full: it isn't as before")


def fills(root, disk, left, before):
    """The disk is filled but for so many bytes once the script writes. What it needs behind that may fit into these bytes, but not into none."""
    process = writes(root, "disk/old", "--transaction", "0.05")
    disk.fill(left)
    said = process.communicate()[0]
    stopped = process.returncode == 2 and "committed, if not more" in said and ("disk is full" in said or "Insufficient free space" in said)
    judge(stopped or left and process.returncode == 0, f"a disk that fills, {left}: {process.returncode} {said!r}")
    os.remove(f"{disk.place}/filler")
    ran = run(root, "borg", "check", "disk/old")
    judge((ran.returncode, facts(root, "disk/old")) == (0, before), f"a disk that fills, {left}: Borg says {ran.stderr!r}")


# Run by the interpreter that runs Borg: one content is replaced by a blob that doesn't hold it, one by what doesn't decompress, and their ids are printed.
SPOIL = """
import sys
from borg.helpers import Manifest, bin_to_hex
from borg.logger import setup_logging
from borg.repository import Repository
setup_logging()
with Repository(sys.argv[1], exclusive=True) as repository:
    manifest, key = Manifest.load(repository, Manifest.NO_OPERATION_CHECK)
    large = sorted(id for id in repository.list() if len(repository.get(id)) > 1500)
    changed = bytearray(repository.get(large[0]))
    changed[100] ^= 1
    repository.put(large[0], bytes(changed))
    repository.put(large[1], key.encrypt(b"another content"))
    key.compressor = type("Wrong", (), {"compress": lambda self, data: bytes([1, 0]) + b"no lz4" * 50})()
    repository.put(large[2], key.encrypt(b""))
    repository.commit(compact=False)
    print(*map(bin_to_hex, large[:3]))
"""


def spoiled(root):
    """Objects that don't authenticate, have another content, or don't decompress are told and stay, byte for byte; all others become plain."""
    many(root)
    bad = run(root, borgs.interpreter(), "-c", SPOIL, f"{root}/old").stdout.split()
    blobs = object_blobs(root, bad)
    judge(len(bad) == 3 and all(blobs), f"spoiled: {bad}")
    ran = plain(root, "old")
    judge(ran.returncode == 1, f"spoiled: {ran.returncode} {ran.stdout!r} {ran.stderr!r}")
    told = re.findall(r"left as it is: ([0-9a-f]{64}):", ran.stderr)
    judge(sorted(told) == sorted(bad), f"spoiled: these are told: {told}, of {bad}")
    judge(object_blobs(root, bad) == blobs, "spoiled: an object that doesn't open was changed")
    judge("not well, status 1: borg check --verify-data" in ran.stdout, f"spoiled: {ran.stdout!r}")
    ran = plain(root, "old", "--dry-run")
    judge(ran.returncode == 1 and " 0 to be written again" in ran.stdout, f"spoiled: behind it {ran.stdout!r}")


BLOBS = """
import hashlib, sys
from borg.logger import setup_logging
from borg.repository import Repository
setup_logging()
with Repository(sys.argv[1], exclusive=True) as repository:
    print(*(hashlib.sha256(repository.get(bytes.fromhex(id))).hexdigest() for id in sys.argv[2:]))
"""


def object_blobs(root, identifiers):
    return run(root, borgs.interpreter(), "-c", BLOBS, f"{root}/old", *identifiers).stdout.split()


PLACE = """
import sys
from borg.logger import setup_logging
from borg.repository import Repository
setup_logging()
with Repository(sys.argv[1], exclusive=True) as repository:
    id = max(repository.list(), key=lambda id: len(repository.get(id)))
    print(*repository.index[id][:2])
"""


def broken(root):
    """A segment with an entry that doesn't read: its object is told, nothing is compacted, all others become plain, and each segment stays."""
    many(root)
    segment, offset = map(int, run(root, borgs.interpreter(), "-c", PLACE, f"{root}/old").stdout.split())
    with open(f"{root}/old/data/{segment // 10}/{segment}", "r+b") as file:
        file.seek(offset + 100)
        byte = file.read(1)
        file.seek(offset + 100)
        file.write(bytes([byte[0] ^ 1]))
    before = segments(f"{root}/old")
    ran = plain(root, "old", "--unchecked", "--transaction", "0.05")
    judge(ran.returncode == 1 and "nothing is compacted" in ran.stdout, f"broken: {ran.returncode} {ran.stdout!r} {ran.stderr!r}")
    judge(len(re.findall(r"left as it is: [0-9a-f]{64}: ", ran.stderr)) == 1, f"broken: {ran.stderr!r}")
    judge(before <= segments(f"{root}/old"), "broken: a segment is gone")
    ran = plain(root, "old", "--dry-run")
    judge(" 0 to be written again" in ran.stdout, f"broken: behind it {ran.stdout!r}")


def configure(folder, name, value):
    """Sets a number of `config`, as an editor would: Borg's own command takes no quota below 10 MB."""
    with open(f"{folder}/config", encoding="ascii") as file:
        lines = re.sub(rf"(?m)^{name} = .*$", f"{name} = {value}", file.read())
    with open(f"{folder}/config", "w", encoding="ascii") as file:
        file.write(lines)


def kept(root):
    """Where append_only is set nothing is removed; where storage_quota lacks the space nothing is written."""
    many(root)
    used = sum(len(it) for name, it in files(f"{root}/old").items() if name.startswith("data/"))
    configure(f"{root}/old", "storage_quota", used + 1000)
    before = files(f"{root}/old")
    ran = plain(root, "old")
    judge(ran.returncode == 2 and "storage_quota lacks the space" in ran.stderr, f"a quota: {ran.returncode} {ran.stdout!r} {ran.stderr!r}")
    judge(files(f"{root}/old") == before, "a quota: something was written")
    configure(f"{root}/old", "storage_quota", 0)
    configure(f"{root}/old", "append_only", 1)
    before = files(f"{root}/old")
    ran = plain(root, "old")
    judge(ran.returncode == 0 and "append_only is set" in ran.stdout, f"append_only: {ran.returncode} {ran.stdout!r} {ran.stderr!r}")
    behind = files(f"{root}/old")
    judge(all(behind.get(name) == it for name, it in before.items() if name.startswith("data/")), "append_only: a segment was changed or removed")
    reads(root, "old", "append_only")


def others(root):
    """What isn't for the script is refused in plain words, and nothing is written."""
    make_tree(root, 1)
    for mode in ("repokey-blake2", "keyfile-blake2", "authenticated", "none"):
        borgs.init(root, mode, mode)
        borg(root, "create", f"{mode}::a", "tree")
        is_left(root, mode, "has another mode", own={"BORG_PASSPHRASE": "wrong"})
    borgs.init(root, "old")
    borg(root, "create", "old::a", "tree")
    is_left(root, "old", "is incorrect", own={"BORG_PASSPHRASE": "wrong"})
    for words, said in ((["ssh://host/old"], "another machine"), (["host:old"], "another machine"), (["old::a"], "names an archive"), (["absent"], "does not exist"), (["tree"], "not a valid repository"), (["--transaction", "0", "old"], "above 0"), ([], "usage")):
        ran = run(root, SCRIPT, *words)
        judge(ran.returncode == 2 and said in ran.stderr and "Traceback" not in ran.stderr, f"{words}: {ran.returncode} {ran.stdout!r} {ran.stderr!r}")
    with open(os.devnull, "rb") as nothing:
        holding = subprocess.Popen(["borg", "with-lock", "old", "sleep", "60"], cwd=root, env=borgs.variables(root), stdin=nothing)
    while not os.path.exists(f"{root}/old/lock.exclusive") and holding.poll() is None:
        time.sleep(0.05)
    ran = plain(root, "old")
    judge(ran.returncode == 2 and "lock" in ran.stderr, f"a lock: {ran.returncode} {ran.stderr!r}")
    holding.terminate()
    holding.wait()


def is_left(root, folder, said, own):
    before = files(f"{root}/{folder}")
    ran = plain(root, folder, own=own)
    judge(ran.returncode == 2 and said in ran.stderr, f"{folder}: {ran.returncode} {ran.stdout!r} {ran.stderr!r}")
    judge(files(f"{root}/{folder}") == before, f"{folder}: something was written")


def interpreters(root):
    """Another Python than Borg's starts Borg's; where none has the modules, that is told."""
    if borgs.interpreter() != "/usr/bin/python3":
        skip("another interpreter: Borg isn't that of the system")
        return
    ran = run(root, "/usr/bin/python3", "-S", SCRIPT, "old")
    judge(ran.returncode == 2 and "borgbackup==1.2.*" in ran.stderr, f"no modules: {ran.returncode} {ran.stderr!r}")
    if run(root, "/usr/bin/python3", "-m", "venv", "--without-pip", "other").returncode != 0:
        skip("another interpreter: no virtual environment can be made")
        return
    borgs.init(root, "old")
    ran = run(root, "other/bin/python", SCRIPT, "--dry-run", "old")
    judge(ran.returncode == 0 and "1 to be written again" in ran.stdout, f"another interpreter: {ran.returncode} {ran.stdout!r} {ran.stderr!r}")


CASES = (afterwards, kills, signals, full, spoiled, broken, kept, others, interpreters)
