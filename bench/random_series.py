#!/usr/bin/env python3
"""Random series of archives, carried by two programs: random_series.py OLD NEW [ROUNDS [SEED]]

A person starts it, with two builds of borgferry of which the newer has to do what the older does. Each round makes a small source without Borg: one to
eight archives, whose items' contents are shared, changed in place, appended to, cut, joined, have the same chunk again, or are empty, and items without
chunks. About each fourth round has something wrong: an item that states a wrong size of a chunk, or a chunk that is damaged or missing, mostly in an
archive behind the first. Both programs then get a target each, copies of one that OLD's `init` made: `plan`, `transfer` of all archives or of some, `transfer`
and `plan` of all, and `check` of the target, in blocks of 64 to 4096 bytes, a commit after one to five chunks, under a fixed timestamp.

Compared behind each run are the status, the lines, the target's nonce, and its segments, entry by entry: contents and pieces of item lists by id and
blob, records and manifests by their size alone, for a record has a random salt. ROUNDS is 60 and SEED 1 where they aren't given. The rounds are the same for
a seed, but for the target's key. One line for each thing that differs, of segments for the first entry, then how many runs ended with each status, and at the end
'N rounds, M differ'; status 1 where M isn't 0.
"""
import collections
import itertools
import os
import random
import shutil
import subprocess
import sys
import tempfile

sys.dont_write_bytecode = True
sys.path.insert(0, os.path.join(os.path.dirname(os.path.abspath(__file__)), "..", "checks"))
import repositories
import segments
from repositories import ZERO, Archive, Item, Keys, ctr, fields, key_of, repository, unpack, unsealed

PASSPHRASE = b"passphrase"
VARIABLES = {"BORG_PASSPHRASE": PASSPHRASE.decode(), "BORG_OTHER_PASSPHRASE": PASSPHRASE.decode()}
BEFORE, BEHIND = "2020-01-01T00:00:00.000000", "2021-01-01T00:00:00.000000"
FAULTS = (None,) * 9 + ("misstated", "damaged", "missing")
# How many chunks an item has at most.
MOST = 16
# How long one run may last, in seconds.
LIMIT = 600
# All texts are encrypted by libcrypto, where it is there.
repositories.LONG = 1


class Misstated(Item):
    """An item that states this size of a content, wherever it has that."""

    def __init__(self, path, contents, wrong, size):
        super().__init__(path, contents)
        self.wrong, self.other = wrong, size

    def stated(self, content):
        return self.other if content == self.wrong else len(content)


# ---- a random source


class Series:
    """Archives that follow on each other: `tree` has the contents of each path now, None where an item has no chunks."""

    def __init__(self, some, block):
        self.some, self.block, self.tree, self.made = some, block, {}, 0
        for _ in range(some.randrange(1, 9)):
            self.add()

    def chunk(self, size=None):
        """A new chunk, most of random bytes; sizes at a block's borders come often."""
        some, block = self.some, self.block
        if size is None:
            around = (1, block - 1, block, block + 1, 2 * block, some.randrange(1, 100), some.randrange(1, 600))
            size = min(some.choice((*around, some.randrange(1, 3 * block + 1))), 5000)
        return bytes(size) if some.random() < 0.1 else some.randbytes(size)

    def full(self):
        """The paths that have chunks."""
        return [path for path, contents in self.tree.items() if contents]

    def new(self):
        """The contents of a new item."""
        some, kind, full = self.some, self.some.random(), self.full()
        if kind < 0.08:
            return None
        if kind < 0.16:
            return []
        if full and kind < 0.4:
            return list(self.tree[some.choice(full)])
        chunks = [self.chunk() for _ in range(some.choice((1, 1, 2, 3, some.randrange(1, 10))))]
        return [some.choice(chunks) for _ in range(2 * len(chunks))] if some.random() < 0.15 else chunks

    def add(self):
        self.made += 1
        self.tree[b"folder %d/file %d" % (self.made % 3, self.made)] = self.new()

    def changed(self, chunks):
        """Other contents, made of these; not many chunks, for some builds of the program take seconds for 50 kB."""
        some, at = self.some, self.some.randrange(len(chunks))
        other = self.tree[some.choice(self.full())]
        return some.choice((
            [*chunks[:at], self.chunk(len(chunks[at])), *chunks[at + 1 :]],
            [*chunks[:at], self.chunk(), *chunks[at + 1 :]],
            [*chunks, self.chunk()],
            [*chunks, *other],
            [*other[:1], *chunks],
            [*chunks, chunks[at]],
            [*chunks[:at], chunks[at], *chunks[at:]],
            chunks[:at],
            chunks[at + 1 :],
            chunks[::-1],
        ))[:MOST]

    def goes_on(self):
        """What changes from one archive to the next."""
        some = self.some
        for path in self.full():
            if some.random() < 0.3:
                self.tree[path] = self.changed(self.tree[path])
        for path in some.sample(sorted(self.tree), len(self.tree) // 8):
            del self.tree[path]
        for _ in range(some.randrange(3)):
            self.add()

    def items(self, is_misstated):
        """The items of an archive now. One that is misstated has a new list of chunks, or that of an item, in its place or in front of it."""
        some, items = self.some, [Item(path, contents) for path, contents in sorted(self.tree.items())]
        if is_misstated:
            path = some.choice(self.full() or sorted(self.tree))
            contents = (self.tree[path] if some.random() < 0.7 else None) or [self.chunk(), self.chunk()]
            wrong = some.choice(contents)
            size = some.choice((len(wrong) - 1, len(wrong) + 1, 0, 2 * len(wrong) + self.block))
            at = sorted(self.tree).index(path)
            items[at : at + some.randrange(2)] = [Misstated(path, contents, wrong, size)]
        if some.random() < 0.3:
            items.append(Item(b"link", source=b"folder 0/file 3"))
        return items


def damaged(some, keys, content):
    """A blob that isn't right: one of another content, of a compressed one, or with another byte."""
    blob = bytearray(keys.blob(content))
    blob[some.randrange(len(blob))] ^= 1 << some.randrange(8)
    return some.choice((keys.blob(b"other"), keys.blob(content, b"\1\0"), bytes(blob)))


def make_source(root, some, block):
    """Makes the source. Answers its names, and what is wrong in it."""
    keys, series, archives, fault = Keys(), Series(some, block), [], some.choice(FAULTS)
    count = some.randrange(1, 9)
    at_fault = some.randrange(max(count - 1, 1)) + (count > 1)
    for number in range(count):
        items = series.items(fault == "misstated" and number == at_fault)
        archives.append(Archive(keys, b"a%d" % number, items, length=some.choice((150, 1000, 100000))))
        series.goes_on()
    contents, ids = {}, []
    for number, archive in enumerate(archives):
        more = {keys.id(content): content for item in archive.items for content in item.contents or []}
        if number >= at_fault:
            ids += [id for id in more if id not in contents]
        contents.update({**dict([(archive.id, archive.record), *archive.pieces]), **more})
    at = some.choice(ids) if ids else archives[-1].id
    blobs = [(id, damaged(some, keys, content) if (fault, id) == ("damaged", at) else keys.blob(content)) for id, content in contents.items()]
    put = [(id, blob) for id, blob in blobs if (fault, id) != ("missing", at)]
    named = [archive.named(b"a%d" % number)[0] for number, archive in enumerate(archives)]
    manifest = keys.blob(keys.tagged(fields(named)))
    for name, content in repository(keys, PASSPHRASE, manifest, *put).items():
        os.makedirs(os.path.dirname(os.path.join(root, "source", name)), exist_ok=True)
        with open(os.path.join(root, "source", name), "wb") as file:
            file.write(content)
    return [f"a{number}" for number in range(count)], fault


# ---- what a target has


def read(*path):
    with open(os.path.join(*path), "rb") as file:
        return file.read()


def sealed_in(folder):
    """What opens a blob of a repository."""
    _, inside = unsealed(key_of(read(folder, "config")), PASSPHRASE)
    key = unpack(inside)[0][b"enc_key"]
    return lambda blob: ctr(key, int.from_bytes(blob[33:41], "big"), blob[41:])[2:]


def entries_of(folder):
    """The entries of each segment by its number, or where it doesn't read."""
    split = {number: segments.split(read(path)) for number, path in segments.segments(folder).items()}
    return {number: (entries or [], bad) for number, (entries, bad) in split.items()}


def contained(folder):
    """What a target has: its nonce, and by segment each entry, as far as it is the same in each target of its key, and where one doesn't read."""
    found, opened = entries_of(folder), sealed_in(folder)
    manifests = [unpack(opened(blob))[0] for entries, _ in found.values() for tag, id, blob, _ in entries if (tag, id) == (segments.PUT, ZERO)]
    records = {archive[b"id"] for manifest in manifests for archive in manifest[b"archives"].values()}

    def told(tag, id, blob, _):
        if tag == segments.PUT and (id == ZERO or id in records):
            return tag, "manifest" if id == ZERO else "record", len(blob)
        return tag, id.hex(), blob.hex()

    nonce = read(folder, "nonce") if os.path.exists(os.path.join(folder, "nonce")) else None
    return nonce, {number: ([told(*entry) for entry in entries], bad) for number, (entries, bad) in found.items()}


# ---- a round


def start(root, program, *words):
    env = {name: value for name, value in os.environ.items() if not name.startswith("BORG_")}
    pipes = {"stdin": subprocess.DEVNULL, "stdout": subprocess.PIPE, "stderr": subprocess.DEVNULL}
    return subprocess.Popen([program, *words], cwd=root, env={**env, **VARIABLES}, **pipes)


def ended(process):
    """The status and the lines of a run."""
    try:
        out, _ = process.communicate(timeout=LIMIT)
    except subprocess.TimeoutExpired:
        process.kill()
        process.communicate()
        return "no answer", b""
    return process.returncode, out


def steps(some, names, block):
    """The runs of a round by name: the words of each, `target` for the folder."""
    cut, put = ("--block", str(block)), ("--checkpoint", str(some.randrange(1, 6)), "--timestamp", BEHIND)
    first = names if some.random() < 0.6 else some.sample(names, some.randrange(1, len(names) + 1))
    yield "plan", ("source", "target", "plan", *cut, *first)
    yield "transfer", ("source", "target", "transfer", *cut, *put, *first)
    yield "transfer again", ("source", "target", "transfer", *cut, *put)
    yield "plan again", ("source", "target", "plan", *cut)
    yield "check", ("target", "-", "check")


def short(entry):
    """The begin of an entry as a line has it."""
    return "none" if entry is None else " ".join(str(part)[:80] for part in entry)


def differences(old, new):
    """Lines on what differs between two targets, of segments the first entry."""
    if old[0] != new[0]:
        yield f"nonce {old[0]} and {new[0]}"
    numbers = [number for number in sorted({*old[1], *new[1]}) if old[1].get(number) != new[1].get(number)]
    if numbers:
        (left, bad), (right, other) = (them[1].get(numbers[0], ([], None)) for them in (old, new))
        pairs = [pair for pair in itertools.zip_longest(left, right) if pair[0] != pair[1]] or [((bad,), (other,))]
        yield f"segment {numbers[0]}, the first of {len(numbers)}: {short(pairs[0][0])} and {short(pairs[0][1])}"


def differs(root, programs, some, statuses):
    """One round: what differs, as lines."""
    block = some.choice((64, 64, 65, 100, 256, 700, some.randrange(64, 1000), some.randrange(64, 4097)))
    names, fault = make_source(root, some, block)
    made = ended(start(root, programs[0], "-", "target 0", "init", "--iterations", "1", "--timestamp", BEFORE))
    if made[0] != 0:
        raise SystemExit(f"init ends with {made}")
    shutil.copytree(os.path.join(root, "target 0"), os.path.join(root, "target 1"))
    for name, words in steps(some, names, block):
        in_folder = lambda folder: [folder if word == "target" else word for word in words]
        processes = [start(root, program, *in_folder(f"target {number}")) for number, program in enumerate(programs)]
        ran_old, ran_new = map(ended, processes)
        old, new = (contained(os.path.join(root, f"target {number}")) for number in range(2))
        statuses.update((ran_old[0], ran_new[0]))
        of = f"{name} ({len(names)} archives, {fault or 'nothing'} wrong, {' '.join(words[2:])})"
        if ran_old != ran_new:
            yield f"{of}: {ran_old} and {ran_new}"
        yield from (f"{of}: {line}" for line in differences(old, new))


def main(old, new, rounds="60", seed="1"):
    programs, wrong, statuses = [os.path.abspath(old), os.path.abspath(new)], 0, collections.Counter()
    for number in range(int(rounds)):
        with tempfile.TemporaryDirectory(prefix="borgferry-series-") as root:
            lines = list(differs(root, programs, random.Random(f"{seed} {number}"), statuses))
        for line in lines:
            print(f"round {number} of seed {seed}: {line}", flush=True)
        wrong += bool(lines)
    print("runs by status: " + ", ".join(f"{status}: {count}" for status, count in sorted(statuses.items(), key=str)))
    print(f"{rounds} rounds, {wrong} differ")
    return wrong > 0


if __name__ == "__main__":
    if len(sys.argv) not in (3, 4, 5):
        sys.exit(__doc__.splitlines()[0])
    sys.exit(main(*sys.argv[1:]))
