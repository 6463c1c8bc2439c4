#!/usr/bin/env python3
"""The program's own cases: program.py PROGRAM [CASES ..]

Each case makes a folder, runs the program in the folder above it with the words and variables given, and compares status and
output. What a repository has to print stands in the case, or comes from segments.keys; the help is that of checks/help.txt. What standard error has
to say beside it comes from the table in docs/FORMATS.md: which row it is follows from the run, and each row is met. Where a case doesn't say what is
written nothing may be: the folder is compared before and after. With names of cases, those alone are tried. One line for each case that differs, then
what can't be tried here (no strace, no libcrypto, no repositories of Borg), and at the end 'N passed, M failed, K skipped'; status 1 where M isn't 0.
"""
import base64
import concurrent.futures
import hashlib
import os
import pty
import random
import re
import shutil
import stat
import subprocess
import sys
import tempfile
import threading
import time
import tty

sys.dont_write_bytecode = True
import counting
import libcrypto
import repositories
import segments
import tracing
import trees
from counting import finish, skip
from explaining import OUTPUT_ROW, PLAIN, TOLD_ROW, explained, filled, met, untried
from repositories import Archive, Item, Keys, fields, pack, repository
from segments import COMMIT, COMMIT_SEGMENT, MAGIC, delete, put, sealed, segment

PROGRAM = os.path.abspath(sys.argv[1])
K, L = b"\x11" * 32, b"\x22" * 32
NO_COMMIT = (8, b"source refused: no commit\n")
DEVICE = (4, b"source device failed\n")
USAGE = (2, b"usage\n")
# The level of processors stands in the program's text, where ./build writes it.
VERSION = re.search(rb"borgferry 0\.1\.0 for x86-64-v[23]\n", open(PROGRAM, "rb").read()).group()
NOTHING = (0, b"")
GREATEST = 2**64 - 1
TEN_A_FOLDER = b"[repository]\nversion = 1\nid = %s\nsegments_per_dir = 10" % (b"00" * 32)
KEYS = ("source", "-", "keys")
COMPRESSED = b"archives and manifest: borgferry-plain %s puts what is compressed there again without"
TAG = b"borgferry-plain --tag-archives %s writes the right one"
# How long one run may last, in seconds: what has no end fails.
LIMIT = 600


def line(*pairs):
    return 0, b"".join(b"%s %d\n" % (key.hex().encode(), size) for key, size in pairs)


def damaged(number, at):
    return 8, b"source refused: damaged segment %d at %d\n" % (number, at)


def wrong_word(number):
    return 2, b"usage: word %d\n" % number


def make(root, files):
    """Makes files in a folder by name: bytes are a file, a text is a symbolic link, None a folder, and a number a special file."""
    for name, content in files.items():
        path = os.fsencode(root) + b"/" + os.fsencode(name)
        os.makedirs(os.path.dirname(path), exist_ok=True)
        if content is None:
            os.makedirs(path, exist_ok=True)
        elif isinstance(content, int):
            os.mknod(path, content | 0o644)
        elif isinstance(content, str):
            os.symlink(content, path)
        else:
            with open(path, "wb") as file:
                file.write(content)


def state(root):
    """All that a folder holds: names, kinds, times and contents."""
    all_of_it = {}
    for folder, folders, files in os.walk(os.fsencode(root)):
        for name in folders + files:
            path = folder + b"/" + name
            of = os.lstat(path)
            content = open(path, "rb").read() if stat.S_ISREG(of.st_mode) else b""
            all_of_it[path] = (of.st_mode, of.st_mtime_ns, of.st_size, hashlib.sha256(content).digest())
    return all_of_it


def environment(variables):
    """The variables of a run: those of this one without Borg's, and these."""
    return {**{name: value for name, value in os.environb.items() if not name.startswith(b"BORG_")}, **variables}


def start(words, cwd, variables=None, stdout=subprocess.PIPE, stderr=subprocess.PIPE, prefix=()):
    """One run: its status, its output, and what it says on standard error."""
    command = [*prefix, PROGRAM, *words]
    try:
        ran = subprocess.run(command, cwd=cwd, env=environment(variables or {}), stdin=subprocess.DEVNULL, stdout=stdout, stderr=stderr, timeout=LIMIT)
    except subprocess.TimeoutExpired:
        return "no answer", b"", b""
    return ran.returncode, ran.stdout or b"", ran.stderr or b""


def run(words, cwd, variables=None, says=b"", prefix=(), foreign=""):
    """The status and the output of one run, whose standard error is the line of its row, and has this text in it.

    `foreign` is the printed path that isn't UTF-8, or whose link leads to none that is; nobody sees that from outside.
    """
    status, out, err = start(words, cwd, variables, prefix=prefix)
    explained(holds, words, cwd, status, out, err, variables or {}, says, foreign)
    return status, out


def judge(name, got, want):
    """Looks whether a status and an output are those that are wanted."""
    counting.judge(got == want, f"{name}: {got[0]} {got[1][:400]!r} for {want[0]} {want[1][:400]!r}")


def holds(is_right, what):
    """Looks whether something is so."""
    counting.judge(is_right, what)


def case(name, files, want=None, words=KEYS, beside=None, **how):
    """One run in a folder that holds a folder `source` of these files (none: no such folder), and others beside it.

    Without `want` the run has to print what segments.keys says; with it, segments.keys has to say the same of a source that can
    be read.
    """
    with tempfile.TemporaryDirectory() as root:
        make(root, beside or {})
        source = os.path.join(root, "source")
        if files is not None:
            os.makedirs(source)
            make(source, files)
        before = state(root)
        got = run(words, root, **how)
        plain = segments.keys(source)
        judge(name, got, plain if want is None else want)
        if want is not None and words == KEYS and not how and want != DEVICE:
            judge(f"{name}: the plain reading", plain, want)
        holds(state(root) == before, f"{name}: the folder has changed")


def log(*contents):
    """The files of a repository with these segments, from 0 on, at their places."""
    return {f"data/0/{number}": content for number, content in enumerate(contents)}


def inside(folder, files):
    """These files in a folder."""
    return {f"{folder}/{name}": content for name, content in files.items()}


def folders():
    good = log(segment(put(K, b"abc")), COMMIT_SEGMENT)
    case("a folder that isn't there", None, NO_COMMIT)
    case("an empty folder", {}, NO_COMMIT)
    case("a folder without data", {"config": b"", "README": b""}, NO_COMMIT)
    case("an empty data", {"data": None}, NO_COMMIT)
    case("an empty folder in data", {"data/0": None}, NO_COMMIT)
    case("a file where the folder should be", None, DEVICE, beside={"source": b"text"})
    case("a folder in a file", None, DEVICE, ("file/source", "-", "keys"), {"file": b"text"})
    case("data is a file", {"data": b"text"}, DEVICE)
    case("data leads to itself", {"data": "data"}, DEVICE)
    case("data leads nowhere", {"data": "nowhere"}, NO_COMMIT)
    case("data leads elsewhere", {"elsewhere/0/0": COMMIT_SEGMENT, "data": "elsewhere"}, NOTHING)
    case("the source is a link", None, line((K, 3)), beside={**inside("there", good), "source": "there"})
    case("a path with a slash at its end", good, line((K, 3)), ("source/", "-", "keys"))
    case("a path that leaves and comes back", good, line((K, 3)), ("./source/../source/.", "-", "keys"))
    case("a path of other letters", None, line((K, 3)), ("gr\u00fc\u00df e", "-", "keys"), inside("gr\u00fc\u00df e", good))
    case("a path that is too long", good, DEVICE, ("s" * 5000, "-", "keys"))
    case("no folder", good, NO_COMMIT, ("-", "source", "keys"))
    case("no folder twice", good, NO_COMMIT, ("-", "-", "keys"))
    case("an empty path", good, NO_COMMIT, ("", "-", "keys"), good)
    case("a folder of the name -", None, line((K, 3)), ("./-", "-", "keys"), inside("-", good))
    case("a target that isn't there", good, line((K, 3)), ("source", "target", "keys"))
    case("a target that is a file", good, line((K, 3)), ("source", "target", "keys"), {"target": b"text"})


def logs():
    one, commit = segment(put(K, b"abc")), COMMIT_SEGMENT
    case("a commit alone", log(commit), NOTHING)
    case("one key", log(one, commit), line((K, 3)))
    case("an empty blob", log(segment(put(K, b"")), commit), line((K, 0)))
    case("put, deleted, put again", log(one, segment(delete(K)), segment(put(K, b"abcde")), commit), line((K, 5)))
    case("put and deleted", log(one, segment(delete(K)), commit), NOTHING)
    case("put, deleted and put without a commit", log(one, segment(delete(K)), segment(put(K, b"abcde"))), NO_COMMIT)
    case("a put above the commit", log(one, commit, segment(put(K, b"abcde"))), line((K, 3)))
    case("a segment that commits itself", log(segment(put(K, b"abc"), COMMIT)), line((K, 3)))
    case("two commits at the end", log(segment(put(K, b"abc"), COMMIT, COMMIT)), line((K, 3)))
    case("an entry behind a commit", log(segment(put(K, b"abc"), COMMIT, put(L, b"x"))), NO_COMMIT)
    case("an entry between commits", log(segment(put(K, b"abc"), COMMIT, put(L, b"x"), COMMIT)), NO_COMMIT)
    case("an entry between commits below the transaction", log(segment(put(K, b"abc"), COMMIT, put(L, b"x"), COMMIT), commit), line((K, 3), (L, 1)))
    case("the magic alone", log(MAGIC, commit), NOTHING)
    case("bytes like a commit in a blob", log(segment(put(K, COMMIT))), NO_COMMIT)
    far = {"data/0/3": one, "data/1/1000": segment(put(L, b"x")), f"data/{GREATEST // 1000}/{GREATEST}": commit}
    case("gaps up to the greatest number", far, line((K, 3), (L, 1)))
    numbers = random.Random(4)
    names = [bytes([numbers.randrange(256)]) + b"\x33" * 30 + bytes([numbers.randrange(256)]) for _ in range(1600)]
    entries = [put(name, b"x" * numbers.randrange(300)) if numbers.randrange(3) else delete(name) for name in names * 2]
    many = {f"data/{number // 10}/{number}": segment(*entries[number * 32 : number * 32 + 32]) for number in range(100)}
    case("many keys", {**many, "data/10/100": commit})


def damage():
    one, two, commit = put(K, b"abc"), put(L, b"xyz"), COMMIT_SEGMENT
    noise = random.Random(1).randbytes(500)
    case("a segment of random bytes", log(noise), NO_COMMIT)
    case("a segment of random bytes below a commit", log(noise, commit), damaged(0, 0))
    case("random bytes behind the magic", log(MAGIC + noise, commit), damaged(0, 8))
    case("random bytes behind an entry", log(segment(one) + noise, commit), damaged(0, 52))
    case("an empty segment", log(b"", commit), damaged(0, 0))
    case("the first of two damaged segments", log(segment(one), segment(two) + b"\0", noise, commit), damaged(1, 52))
    case("a damaged segment in another folder", {"data/0/0": segment(one), "data/9/3": MAGIC + noise, "data/0/4": commit}, damaged(3, 8))
    both = segment(one, two)
    for cut in range(len(both)):
        want = {8: NOTHING, 52: line((K, 3))}.get(cut, damaged(0, 0 if cut < 8 else 8 if cut < 52 else 52))
        case(f"a segment cut after {cut} bytes", log(both[:cut], commit), want)
    for cut in range(len(commit)):
        case(f"a commit cut after {cut} bytes", log(segment(one), commit[:cut]), NO_COMMIT)
    own = segment(one, COMMIT)
    for at in range(len(own)):
        case(f"a committed segment with byte {at} changed", log(own[:at] + bytes([own[at] ^ 0x40]) + own[at + 1 :]), NO_COMMIT)
    for at in range(len(both)):
        want = damaged(0, 0 if at < 8 else 8 if at < 52 else 52)
        case(f"a segment with byte {at} changed", log(both[:at] + bytes([both[at] ^ 1]) + both[at + 1 :], commit), want)
    for name, bad in {"random": noise, "empty": b"", "the magic alone": MAGIC, "cut": both[:60], "random behind the magic": MAGIC + noise}.items():
        case(f"above the transaction: {name}", log(segment(one), commit, bad), line((K, 3)))
    for name, bad in {
        "size 8": sealed(8, 2, b""),
        "a put of size 40": sealed(40, 0, b"x" * 31),
        "a delete with a blob": sealed(42, 1, K + b"x"),
        "a commit with a key": sealed(41, 2, K),
        "tag 3": sealed(41, 3, K),
        "size 2^32 - 1": sealed(2**32 - 1, 0, K),
    }.items():
        case(f"below a commit: {name}", log(segment(one, bad), commit), damaged(0, 52))
    largest = b"\0" * (segments.LARGEST - 41)
    case("an entry of the greatest size", log(segment(put(K, largest)), commit), line((K, len(largest))))
    case("an entry that is too large", log(segment(put(K, largest + b"\0")), commit), damaged(0, 8))


# The calls by which a program asks the system for memory, and what they answer where there is none.
MEMORY = {"brk": "retval=0", "mmap": "error=ENOMEM", "mremap": "error=ENOMEM"}


def refusals(log):
    """What refuses memory, in words of strace: from each call on by which a traced run asks for some, once it has opened a folder `source`."""
    counts, has_begun = dict.fromkeys(MEMORY, 1), False
    for line in tracing.lines_of(log):
        name = line.partition("(")[0]
        has_begun = has_begun or "source" in line
        if name in counts:
            if has_begun:
                yield [word for other, number in counts.items() for word in ("-e", f"inject={other}:{MEMORY[other]}:when={number}+")]
            counts[name] += 1


def memory():
    """Memory that is refused from some call of the system on: each run prints what it should, or as much of it and the line of want of memory; both come."""
    with open(PROGRAM, "rb") as program:
        is_sanitized = b"__asan_init" in program.read()
    if is_sanitized or shutil.which("strace") is None:
        skip(f"want of memory: {'a program with a sanitizer ends without memory' if is_sanitized else 'there is no strace'}")
        untried.add(("memory", ""))
        return
    with tempfile.TemporaryDirectory() as root:
        keys = [number.to_bytes(32, "big") for number in range(60000)]
        make(root, inside("source", log(segment(*(put(key, b"") for key in keys)), COMMIT_SEGMENT)))
        want = segments.keys(os.path.join(root, "source"))
        strace = ["strace", "-o", os.path.join(root, "calls"), "-e", f"trace=openat,{','.join(MEMORY)}"]
        judge("memory that isn't refused", run(KEYS, root, prefix=strace), want)
        statuses = set()
        for rules in list(refusals(os.path.join(root, "calls"))):
            status, out = run(KEYS, root, prefix=[*strace, *rules])
            is_front = status == 3 and out.endswith(b"memory\n") and want[1].startswith(out.removesuffix(b"memory\n"))
            holds((status, out) == want or is_front, f"memory is refused: {' '.join(rules)}: {status} {out[-200:]!r}")
            statuses.add(status)
        holds(statuses == {0, 3}, f"memory is refused: the statuses are {statuses}")


def names():
    one, other, commit = segment(put(K, b"abc")), segment(put(K, b"abcde")), COMMIT_SEGMENT
    wrong = [b"x", b"00", b"01", b"+1", b"-1", b" 1", b"1 ", b"1.tmp", b"0x1", b"1e1", "\uff11".encode(), b"18446744073709551616", b"99999999999999999999", b"\xff1", b"\xff"]
    for name in wrong:
        case(f"a segment named {name!r}", {b"data/0/0": one, b"data/0/1": commit, b"data/0/" + name: commit, b"data/" + name: b"text"}, line((K, 3)))
        case(f"a folder named {name!r}", {b"data/0/0": one, b"data/0/1": commit, b"data/" + name + b"/2": segment(delete(K)), b"data/" + name + b"/3": commit}, line((K, 3)))
    case("names all through a folder", {**{b"data/0/" + name: b"text" for name in wrong}, b"data/0/1": commit}, NOTHING)
    case("a file beside data", {"data/0/0": one, "data/0/1": commit, "2": commit, "0": b"text"}, line((K, 3)))
    case("a folder below a folder", {"data/0/0": one, "data/0/1": commit, "data/0/0x/2": commit, "data/0/5/2": other, "data/0/5/3": commit}, line((K, 3)))
    case("a segment in a wrong folder", {"data/7/0": one, "data/3/1": commit}, line((K, 3)))
    case("a segment right below data", {"data/0": one, "data/1": commit}, line((K, 3)))
    case("right below data, beside its folder", {"data/0/0": one, "data/1": commit}, line((K, 3)))
    case("its own place counts before a lower folder", {"data/1/1000": one, "data/0/1000": other, "data/0/1001": commit, "data/1000x": b"text"}, line((K, 3)))
    case("its own place counts before a higher folder", {"data/0/0": one, "data/5/0": other, "data/0/1": commit}, line((K, 3)))
    case("the lower of two wrong folders", {"data/2/0": one, "data/10/0": other, "data/0/1": commit}, line((K, 3)))
    case("a wrong folder counts before data itself", {"data/2/5": one, "data/5": other, "data/0/6": commit}, line((K, 3)))
    case("its own place, of ten segments a folder", {"config": TEN_A_FOLDER, "data/2/20": one, "data/0/20": other, "data/2/21": commit}, line((K, 3)))
    case("a config that doesn't read", {"config": TEN_A_FOLDER + b"x", "data/2/20": other, "data/0/20": one, "data/2/21": commit}, line((K, 3)))
    case("a folder where a segment should be", {"data/0/0": one, "data/0/1": commit, "data/0/2": None}, line((K, 3)))
    case("a folder at its place and a file elsewhere", {"data/0/0": None, "data/7/0": one, "data/0/1": commit}, line((K, 3)))
    case("a pipe where a segment should be", {"data/0/0": one, "data/0/1": commit, "data/0/2": stat.S_IFIFO, "data/3": stat.S_IFIFO}, line((K, 3)))
    case("a link to a segment", {"elsewhere": one, "data/0/0": "../../elsewhere", "data/0/1": commit}, line((K, 3)))
    case("a link to nowhere", {"data/0/0": one, "data/0/1": commit, "data/0/2": "nowhere"}, line((K, 3)))
    case("a link to itself", {"data/0/0": one, "data/0/1": commit, "data/0/2": "2"}, DEVICE)
    case("a link to a folder of segments", {"elsewhere/0": one, "data/0": "../elsewhere", "data/0/1": commit}, line((K, 3)))


def words():
    good = log(segment(put(K, b"abc")), COMMIT_SEGMENT)
    for given in [[], ["source"], ["source", "-"], ["source", "source", "keys"], ["", "", "keys"], ["--help", "x"], ["--version", "--version"]]:
        case(f"words {given}", good, USAGE, given)
    for given, number in {
        ("nothing",): 1, ("",): 1, ("KEYS",): 1, ("keys ",): 1, ("--help",): 1, ("--",): 1,
        ("keys", "x"): 2, ("keys", ""): 2, ("keys", "--x"): 2, ("keys", "-h"): 2, ("keys", "-"): 2, ("nothing", "--help"): 1,
        ("keys", "--", "x"): 3, ("keys", "--", "--"): 3,
    }.items():
        case(f"command {given}", good, wrong_word(number), ("source", "-", *given))
    case("words come before the source", None, wrong_word(1), ("source", "-", "nothing"), {"source": b"text"})
    case("keys --", good, line((K, 3)), ("source", "-", "keys", "--"))
    case("--version", good, (0, VERSION), ["--version"])
    case("a source of the name --version", good, NO_COMMIT, ("--version", "-", "keys"))
    helps(good)
    for at in range(3):
        given = [b"source", b"-", b"keys"]
        given[at] = b"\xff"
        case(f"word {at + 1} isn't UTF-8", good, USAGE, given)
    case("a further word isn't UTF-8", good, USAGE, [b"source", b"-", b"keys", b"\xc3"], says=b"isn't UTF-8: an archive or a path of other bytes is listed, and can't be named")
    places(good)


def helps(good):
    """The help as a whole, which `-h` prints too, and the lines of each command, which no folder and no variable is looked at for."""
    with open(os.path.join(os.path.dirname(os.path.abspath(__file__)), "help.txt"), "rb") as file:
        text = file.read()
    judge("--help", run(["--help"], "/"), (0, text))
    judge("-h", run(["-h"], "/"), (0, text))
    judge("help", run(["help"], "/"), (0, text))
    holds(max(map(len, text.decode().splitlines())) <= 80, "--help: a line is wider than 80 columns")
    lines = {}
    for part in re.split(rb"(?m)^(?=  [a-z])", text.split(b"\ncommands:\n")[1].split(b"\nvariables")[0])[1:]:
        command = re.match(rb"  ([a-z-]+)", part)[1].decode()
        lines[command] = lines.get(command, b"") + part
    holds(len(lines) == 14, f"--help: the commands are {list(lines)}")
    for command, part in lines.items():
        for given in [("help", command), ("--help", command), ("-h", command), (command, "--help"), ("source", "source", command, "--help"), ("u@h:p", "-", command, "--help", "x")]:
            case(f"words {given}", good, (0, part), given, variables={b"BORG_PASSPHRASE": b"\xff"})


def places(good):
    """Places that are none of this machine, and two that are one folder: nothing is made, and nothing is removed."""
    for place in ("user@host:path", "host:path", "host:", "ssh://user@host/path", "ssh://host:22/path", "file:///path", "source::a"):
        case(f"the source {place}", good, USAGE, (place, "-", "keys"), says=b"a place is a folder of this machine")
        case(f"the target {place}", good, USAGE, ("-", place, "init", "--iterations", "1"), says=b"a place is a folder of this machine")
    case("a colon behind a slash", None, line((K, 3)), ("./a:b", "-", "keys"), inside("a:b", good))
    above = {**good, "data/0/2": segment(delete(K))}
    for other in ("./source", "source/", "source/.", "source/data/..", "other", "other/"):
        for words in [("source", other, "transfer"), (other, "source", "transfer"), (other, "source", "init"), ("source", other, "keys")]:
            case(f"one folder: {words}", above, USAGE, words, {"other": "source"}, says=b"SOURCE and TARGET are one folder")
    case("two folders that aren't there", None, NO_COMMIT, ("there", "./there", "keys"))


def raw(content):
    """A msgpack raw, up to 255 bytes."""
    return (bytes([0xA0 + len(content)]) if len(content) < 32 else b"\xd9" + bytes([len(content)])) + content


def table(fields):
    return bytes([0x80 + len(fields)]) + b"".join(raw(name.encode()) + value for name, value in fields.items())


ENVELOPE = {
    "version": b"\x01", "algorithm": raw(b"sha256"), "iterations": b"\x01",
    "salt": raw(bytes(32)), "hash": raw(bytes(32)), "data": raw(b"sealed"),
}


def config(sealed, **lines):
    """The text of a `config` with a key text."""
    values = {"version": "1", "id": "00" * 32, "key": base64.b64encode(sealed).decode(), **lines}
    return "[repository]\n" + "".join(f"{name} = {value}\n" for name, value in values.items() if value is not None)


def keys_of_configs():
    """What `key` says of a `config`: its faults come before those of the key, and each has its number."""
    words = ("source", "-", "key")

    def refused(name, text, part, number):
        want = (8, b"source refused: %s %d\n" % (part.encode(), number))
        case(f"key: {name}", None if text is None else {"config": text if isinstance(text, bytes) else text.encode()}, want, words)

    good = table(ENVELOPE)
    refused("no folder", None, "config", 1)
    for text in [b"", b"\xff\xfe", b"[repository]", b"[repository]\nid\n", b"[repository]\n" * 2]:
        refused(f"config {text!r}", text, "config", 2 if text == b"[repository]" else 1)
    for name, changed, number in [("version", "2", 2), ("version", None, 2), ("id", "00", 3), ("id", None, 3), ("key", "***", 4), ("segments_per_dir", "0", 5), ("max_segment_size", "2M", 5), ("max_segment_size", "4294967296", 5)]:
        refused(f"{name} = {changed}", config(good, **{name: changed}), "config", number)
    refused("an id twice", config(good) + "id = " + "00" * 32 + "\n", "config", 6)
    refused("another passphrase", config(good), "key", 5)
    refused("lines that end with CR LF", config(good).replace("\n", "\r\n"), "key", 5)
    refused("bytes behind", config(good + b"\x01"), "key", 1)
    refused("no map", config(raw(b"text")), "key", 1)
    for front in range(1, len(good)):
        refused(f"the first {front} bytes", config(good[:front]), "key", 1)
    for name in ENVELOPE:
        refused(f"{name} is missing", config(table({other: value for other, value in ENVELOPE.items() if other != name})), "key", 2)
        refused(f"{name} of another kind", config(table({**ENVELOPE, name: b"\xc0"})), "key", 2)
    for name, value, number in [("salt", raw(bytes(31)), 2), ("hash", raw(bytes(33)), 2), ("version", b"\x02", 2), ("algorithm", raw(b"sha1"), 3), ("iterations", b"\x00", 4), ("iterations", b"\xff", 4), ("iterations", b"\xce\x00\x98\x96\x81", 4)]:
        refused(f"{name} {value.hex()}", config(table({**ENVELOPE, name: value})), "key", number)
    with tempfile.TemporaryDirectory() as root:
        make(root, {"source/config": config(good).encode()})
        judge("key: words", run(("source", "-", "key", "x"), root), wrong_word(2))
        judge("key: a passphrase that isn't UTF-8", run(words, root, {b"BORG_OTHER_PASSPHRASE": b"\xff"}), (2, b"BORG_OTHER_PASSPHRASE isn't UTF-8\n"))
    for place in ("-", ""):
        case(f"key: the place {place!r}", {"config": config(good).encode()}, (8, b"source refused: config 1\n"), (place, "source", "key"))
    case("key: a folder as config", {"config": None}, (8, b"source refused: config 1\n"), words)


PASSPHRASE = b"source passphrase"
OPEN = {b"BORG_OTHER_PASSPHRASE": PASSPHRASE}
LIST = ("source", "-", "list")
ZERO_ID = b"00" * 32


def refused(reason):
    return 8, b"source refused: %s\n" % reason


def listing(name, manifest, want, words=LIST, variables=OPEN, **files):
    """`list` of a repository whose manifest has this blob, and whose files are these beside."""
    made = repository(Keys(), PASSPHRASE, manifest)
    made.update({place.replace("_", "/"): content for place, content in files.items()})
    case(f"list: {name}", {place: content for place, content in made.items() if content is not None}, want, words, variables=variables)


def listings():
    """What `list` says of manifests, good and bad; a plain program of this folder made them."""
    keys = Keys()
    good = keys.blob(keys.tagged(fields()))
    listing("no archives", good, NOTHING)
    archives = [(b"b", K, b"2020-01-01T00:00:00.000000"), (b"a\n", L, b""), (b"A", K, b"x y"), (b"\xff\\\x7f \x1f", L, b"\n"), (b"", K, b"t")]
    listing("archives in byte order of names", keys.blob(keys.tagged(fields(archives))), (0, repositories.listing(archives)))
    many = [(b"archive %05d" % number, K, b"2020-01-01T00:00:00.000000") for number in range(3000)]
    listing("many archives", keys.blob(keys.tagged(fields(many))), (0, repositories.listing(many)))
    loose = fields(archives[:1])
    del loose[b"timestamp"], loose[b"config"], loose[b"item_keys"]
    loose[b"archives"][b"b"][b"more"] = [1, -2, None, True]
    listing("fields that are absent, and others", keys.blob(keys.tagged({**loose, b"other": {b"x": b"y"}})), (0, repositories.listing(archives[:1])))
    listing("no segment is committed", good, NO_COMMIT, data_0_1=None, config=None)
    listing("a damaged segment comes before config", good, damaged(0, 0), data_0_0=b"", config=b"")
    listing("config comes before the key", good, refused(b"config 1"), config=None)
    listing("another passphrase", good, refused(b"key 5"), variables={})
    listing("the target's passphrase", good, refused(b"key 5"), variables={b"BORG_PASSPHRASE": PASSPHRASE})
    listing("no manifest", None, refused(b"missing " + ZERO_ID))
    listing("no folder", good, NO_COMMIT, ("-", "source", "list"))
    listing("a word too many", good, wrong_word(2), LIST + ("--x",))
    listing("--", good, NOTHING, LIST + ("--",))
    for name, blob, number in [
        ("42 bytes", good[:42], 2), ("no bytes", b"", 2), ("the type 02", b"\x02" + good[1:], 1), ("the type 02 and 42 bytes", b"\x02" + good[1:42], 2),
        ("a byte of the MAC changed", good[:9] + bytes([good[9] ^ 1]) + good[10:], 3), ("its last byte changed", good[:-1] + bytes([good[-1] ^ 1]), 3),
        ("another MAC key", Keys(b"other").blob(keys.tagged(fields())), 3), ("the header 01 00", keys.blob(keys.tagged(fields()), b"\1\0"), 4), ("the header 00 01", keys.blob(b"", b"\0\1"), 4),
    ]:
        listing(f"a manifest's blob with {name}", blob, refused(b"blob %d %s" % (number, ZERO_ID)))
    tagged = keys.tagged(fields(archives))
    bad = {
        "no bytes": (b"", 1), "a byte behind": (tagged + b"\0", 1), "a byte less": (tagged[:-1], 1), "no map": (pack([1]), 1),
        "no authentication tag": (pack(fields()), 3), "another info": (keys.tagged(fields(), b"borg-metadata-authentication-archive"), 4),
        "a bit of the tag changed": (tagged.replace(bytes([0xDB, 0, 0, 0, 64]), bytes([0xDA, 0, 64]), 1), 4),
        "a time changed": (tagged.replace(b"x y", b"x z"), 4), "the tag of other keys": (Keys(b"other").tagged(fields()), 4),
        "a salt of 63 bytes": (keys.tagged(fields(), salt=b"\x55" * 63), 2),
    }
    without = lambda name: {key: value for key, value in fields(archives).items() if key != name}
    for name, packed in {
        "the version 2": {**fields(), b"version": 2}, "no version": without(b"version"), "no archives": without(b"archives"), "a version that is raw": {**fields(), b"version": b"1"},
        "a timestamp that is nil": {**fields(), b"timestamp": None}, "a config that is an array": {**fields(), b"config": []},
        "item keys that are a map": {**fields(), b"item_keys": {}}, "an item key that is a number": {**fields(), b"item_keys": [b"path", 1]}, "archives that are an array": {**fields(), b"archives": []},
        "an id of 31 bytes": fields([(b"a", K[1:], b"t")]), "an archive without its time": {**fields(), b"archives": {b"a": {b"id": K}}}, "an archive that is nil": {**fields(), b"archives": {b"a": None}},
        "no version and no tag": None,
    }.items():
        bad[name] = (pack(without(b"version")) if packed is None else keys.tagged(packed), 2)
    for name, tam in {"a tag that is raw": b"x", "a tag without a salt": {b"type": b"HKDF_HMAC_SHA512", b"hmac": bytes(64)}, "a tag of another type": {b"type": b"HMAC", b"hmac": bytes(64), b"salt": bytes(64)}, "a tag of 63 bytes": {b"type": b"HKDF_HMAC_SHA512", b"hmac": bytes(63), b"salt": bytes(64)}}.items():
        bad[name] = (pack({**fields(), b"tam": tam}), 2)
    for name, (content, number) in bad.items():
        listing(f"a manifest with {name}", keys.blob(content), refused(b"manifest %d" % number))


def archives():
    """What `list NAME` and `extract` say of archives, good and bad; a plain program of this folder made them."""
    keys = Keys()

    def showing(name, archive, want, *command, says=b"", **changed):
        made = repository(keys, PASSPHRASE, keys.blob(keys.tagged(fields(archive.named(b"a")))), *archive.chunks(**changed))
        case(f"{' '.join(map(repr, command))}: {name}", made, want, ("source", "-", *command), variables=OPEN, says=says)

    files = [Item(b"."), Item(b"empty", []), Item(b"f", [b"hello", b"", b" and more"]), Item(b"l", None, b"f"), Item(b"f", [b"another"]), Item(b"h", [b"x"], b"f")]
    odd = [Item(b"a\nb\\\x7f", [b"odd"]), Item(b"\xff\xfe", [b"\0" * 70000]), Item(b"", [b"none"])]
    good = Archive(keys, b"a", files + odd)
    showing("kinds, sizes and odd paths", good, (0, good.lines()), "list", "a")
    for length in (1, 40, 100, 1000):
        showing(f"pieces of {length} bytes", Archive(keys, b"a", files + odd, length), (0, good.lines()), "list", "a")
    for path in (b"empty", b"f", b"a\nb\\\x7f", b"\xc3\xa9"):
        there = Archive(keys, b"a", [*files, *odd, Item(b"\xc3\xa9", [b"accent"])])
        showing("a file", there, (0, there.content(path)), "extract", "a", path)
    missing = lambda what: (11, b"not found: %s\n" % what)
    record, stream, content = good.id, good.pieces[0][0], keys.id(b" and more")
    reason = lambda text, id: refused(b"%s %s" % (text, id.hex().encode()))
    for words, want in {
        ("list", "b"): missing(b"b"), ("list", "b\n"): missing(b"b\\x0a"), ("list", "--", "--b"): missing(b"--b"), ("extract", "b", "f"): missing(b"b"),
        ("extract", "a", "x"): missing(b"x"), ("extract", "a", "."): missing(b"."), ("extract", "a", "l"): missing(b"l"), ("extract", "a", "f/"): missing(b"f/"),
        ("list", "a", "b"): wrong_word(3), ("extract",): wrong_word(2), ("extract", "a"): wrong_word(3), ("extract", "a", "f", "x"): wrong_word(4), ("list", "--x"): wrong_word(2),
    }.items():
        showing("words", good, want, *words, says=b"a link (l) has no content of its own" if want == missing(b"l") else b"")
    showing("its stream is compressed", good, reason(b"blob 4", stream), "list", "a", says=COMPRESSED % b"SOURCE", compressed=stream)
    none = Archive(keys, b"a", [])
    showing("no items", none, NOTHING, "list", "a")
    showing("no items", none, missing(b"x"), "extract", "a", "x")
    paths = [Item(b"folder/file %06d" % number, [b"x"] if number % 3 else None) for number in range(20000)]
    many = Archive(keys, b"a", paths, 50000)
    showing("many items", many, (0, many.lines()), "list", "a")
    cut = Archive(keys, b"a", paths, 50000, b"\xc1")
    status, line = reason(b"items 1", cut.id)
    showing("many items and no value", cut, (status, cut.lines() + line), "list", "a")
    large = Archive(keys, b"a", [Item(b"large", [bytes([number]) * 30000 for number in range(20)])])
    showing("a file of 20 chunks", large, (0, large.content(b"large")), "extract", "a", "large")
    for name, changed, text, id in [
        ("its record isn't there", {"without": record}, b"missing", record), ("its stream isn't there", {"without": stream}, b"missing", stream),
        ("its record is compressed", {"compressed": record}, b"blob 4", record), ("its stream has another id", {"other": stream}, b"blob 5", stream),
    ]:
        says = {b"blob 4": COMPRESSED % b"SOURCE"}.get(text, b"")
        showing(name, good, reason(text, id), "list", "a", says=says, **changed)
        showing(name, good, reason(text, id), "extract", "a", "f", says=says, **changed)
    for name, changed, text in [("a chunk isn't there", {"without": content}, b"missing"), ("a chunk is compressed", {"compressed": content}, b"blob 4"), ("a chunk has another id", {"other": content}, b"blob 5")]:
        status, line = reason(text, content)
        says = COMPRESSED % b"SOURCE" if text == b"blob 4" else b""
        showing(name, good, (status, b"hello" + line), "extract", "a", "f", says=says, **changed)
        showing(f"{name}, which isn't looked at", good, (0, good.lines()), "list", "a", **changed)
        showing(f"{name}, which isn't the file's", good, (0, b"x"), "extract", "a", "h", **changed)
    sized = Archive(keys, b"a", [Item(b"f", [b"hello"], size=6)])
    showing("a stated size that is wrong", sized, reason(b"size", keys.id(b"hello")), "extract", "a", "f")
    showing("a stated size that is wrong", sized, (0, b"f 6 f\n"), "list", "a")
    zero = Archive(keys, b"a", [Item(b"f", [b"hello"], ids=[repositories.ZERO])])
    showing("the zero id as a chunk", zero, reason(b"missing", repositories.ZERO), "extract", "a", "f")
    for name, spelled, number in [
        ("no value", b"\xc1", 1), ("no map", b"\x90", 1), ("a map in 64 arrays and a map", b"\x81\xa4path" + b"\x91" * 64 + b"\x01", 1), ("no path", b"\x80", 2), ("a path that is a number", b"\x81\xa4path\x01", 2),
        ("chunks that are true", b"\x82\xa4path\xa1a\xa6chunks\xc3", 3), ("a chunk of two", b"\x82\xa4path\xa1a\xa6chunks\x91\x92\xa0\x01", 3),
        ("a chunk of 20971437 bytes", b"\x82\xa4path\xa1a\xa6chunks\x91\x93\xda\x00\x20" + K + b"\xce\x01\x3f\xff\xad\x01", 3),
        ("a healed item", b"\x82\xa4path\xa1a\xaechunks_healthy\xc0", 4), ("the front of an item", b"\x81\xa4p", 5), ("a count of 2^32 - 1 and no more", b"\xdf\xff\xff\xff\xff", 5),
    ]:
        bad = Archive(keys, b"a", files, behind=spelled)
        status, line = reason(b"items %d" % number, bad.id)
        showing(f"a stream with {name}", bad, (status, bad.lines() + line), "list", "a")
        showing(f"a stream with {name}", bad, (status, bad.content(b"f") + line), "extract", "a", "f")
    for name, how, number in [
        ("bytes behind", {"packed": lambda text: text + b"\0"}, 1), ("no map", {"packed": lambda text: pack([1])}, 1), ("no items", {b"items": None}, 2), ("the version 2", {b"version": 2}, 2), ("a name that is a number", {b"name": 1}, 2),
        ("an item's id of 31 bytes", {b"items": [K[1:]]}, 2), ("a tag of another info", {"info": b"borg-metadata-authentication-manifest"}, 4), ("a tag that is nil", {"tam": None}, 2),
        ("a tag of 63 bytes", {"tam": {b"type": b"HKDF_HMAC_SHA512", b"hmac": bytes(63), b"salt": bytes(64)}}, 2), ("a byte that was changed", {"packed": lambda text: text.replace(b"plain", b"place")}, 4),
    ]:
        bad = Archive(keys, b"a", files, how=how)
        showing(f"a record with {name}", bad, reason(b"record %d" % number, bad.id), "list", "a")
    showing("a record without a tag", Archive(keys, b"a", files, how={"tam": "none"}), (0, Archive(keys, b"a", files).lines()), "list", "a")


def checked():
    """What `check` says of whole repositories, and of those in which one thing is wrong."""
    keys = Keys()
    files = [Item(b"."), Item(b"empty", []), Item(b"f", [b"hello", b"", b" and more"]), Item(b"l", None, b"f"), Item(b"g", [b"hello", b"x"])]
    reason = lambda text, id: b"%s %s" % (text, id.hex().encode())

    def checking(name, archives, want, *behind, **changed):
        """`check` of archives of these names, with chunks behind them that no archive uses."""
        chunks = [chunk for archive in archives.values() for chunk in archive.chunks(**changed)]
        named = [entry for name, archive in archives.items() for entry in archive.named(name)]
        made = repository(keys, PASSPHRASE, keys.blob(keys.tagged(fields(named))), *chunks, *behind)
        case(f"check: {name}", made, want, ("source", "-", "check"), variables=OPEN)

    good = lambda *counts: (0, b"ok archives %d chunks %d orphans %d untagged %d\n" % counts)
    bad = lambda reason: (1, b"bad %s\n" % reason)
    one, plain = Archive(keys, b"a", files), Archive(keys, b"a", files, 40, how={"tam": "none"})
    pieces = len({id for id, _ in plain.pieces})
    orphan = [(keys.id(content), keys.blob(content)) for content in (b"1", b"2")]
    checking("no archives", {}, good(0, 0, 0, 0))
    checking("one archive", {b"a": one}, good(1, 6, 0, 0))
    checking("a record without a tag, in pieces", {b"a": plain}, good(1, 5 + pieces, 0, 1))
    checking("two archives that share contents", {b"a": one, b"b": plain}, good(2, 7 + pieces, 0, 1))
    checking("two names of one record", {b"a": one, b"b": one}, good(2, 6, 0, 0))
    checking("chunks that no archive uses", {b"a": one}, good(1, 8, 2, 0), *orphan)
    checking("a record that is a chunk of another", {b"a": Archive(keys, b"a", [Item(b"f", [one.record])])}, good(1, 3, 0, 0))
    content, stream = keys.id(b" and more"), one.pieces[0][0]
    for id in (one.id, stream, content):
        checking("a chunk isn't there", {b"a": one}, bad(reason(b"missing", id)), without=id)
        checking("a chunk is compressed", {b"a": one}, bad(reason(b"blob 4", id)), compressed=id)
        checking("a chunk has another id", {b"a": one}, bad(reason(b"blob 5", id)), other=id)
    changed = [(id, blob[:-1] + bytes([blob[-1] ^ 1])) for id, blob in orphan]
    checking("two chunks are changed that no archive uses", {b"a": one}, bad(reason(b"blob 3", min(id for id, _ in changed))), *changed)
    checking("a changed chunk comes before a missing one", {b"a": one}, bad(reason(b"blob 3", changed[0][0])), changed[0], without=content)
    checking("a stated size that is wrong", {b"a": Archive(keys, b"a", [Item(b"f", [b"hello"], size=6)])}, bad(reason(b"size", keys.id(b"hello"))))
    checking("the zero id as a chunk", {b"a": Archive(keys, b"a", [Item(b"f", [b"hello"], ids=[repositories.ZERO])])}, bad(reason(b"missing", repositories.ZERO)))
    ends = Archive(keys, b"b", files, behind=b"\x80")
    checking("an item without a path in the second archive", {b"a": one, b"b": ends}, bad(reason(b"items 2", ends.id)))
    first, last = Archive(keys, b"a", files, how={b"version": 2}), Archive(keys, b"z", files, how={b"version": 3})
    checking("two records with a wrong field", {b"z": last, b"a": first}, bad(reason(b"record 2", first.id)))
    tag = Archive(keys, b"a", files, how={"info": b"borg-metadata-authentication-manifest"})
    checking("a tag of another info", {b"a": tag}, bad(reason(b"record 4", tag.id)))
    many = Archive(keys, b"a", [Item(b"%d" % number, [b"x%d" % (number % 700)]) for number in range(2000)], 5000)
    checking("many items", {b"a": many}, good(1, 701 + len(many.pieces), 0, 0))
    made = repository(keys, PASSPHRASE, keys.blob(keys.tagged(fields())))
    check = ("source", "-", "check")
    case("check: another passphrase", made, refused(b"key 5"), check)
    case("check: no manifest", repository(keys, PASSPHRASE, None), refused(b"missing " + ZERO_ID), check, variables=OPEN)
    case("check: a compressed manifest", repository(keys, PASSPHRASE, keys.blob(keys.tagged(fields()), b"\1\0")), refused(b"blob 4 " + ZERO_ID), check, variables=OPEN)
    case("check: no folder", made, NO_COMMIT, ("-", "source", "check"), variables=OPEN)
    case("check: a word too many", made, wrong_word(2), (*check, "x"), variables=OPEN)


def every_byte():
    """A small repository with each of its bytes changed, each byte of a blob changed or the blob cut there under a right checksum: what each command says."""
    keys = Keys()
    archive = Archive(keys, b"a", [Item(b"f", [b"hello"])])
    chunks = [(repositories.ZERO, keys.blob(keys.tagged(fields(archive.named(b"a"))))), *archive.chunks()]
    files = repository(keys, PASSPHRASE, None, *chunks)
    good = {"list": (0, repositories.listing(archive.named(b"a"))), "list a": (0, archive.lines()), "extract a f": (0, b"hello"), "check": (0, b"ok archives 1 chunks 3 orphans 0 untagged 0\n")}
    reads = {"list": 1, "list a": 3, "extract a f": 4, "check": 4}

    def refusing(place, number):
        """What each command says where the blob of a chunk breaks this rule."""
        reason = b"blob %d %s" % (number, chunks[place][0].hex().encode())
        return lambda command: good[command] if place >= reads[command] else (1, b"bad %s\n" % reason) if place and command == "check" else refused(reason)

    def damages():
        """What is damaged, the segment with that, and what each command says of it."""
        data, at, places = files["data/0/0"], 8, [0] * 8
        for _, blob in chunks:
            places += [at] * (41 + len(blob))
            at += 41 + len(blob)
        for byte, at in enumerate(places):
            yield f"byte {byte} of the segment is changed", data[:byte] + bytes([data[byte] ^ 1]) + data[byte + 1 :], lambda command, at=at: damaged(0, at)
        for place, (id, blob) in enumerate(chunks):
            for byte in range(len(blob)):
                changed, cut = blob[:byte] + bytes([blob[byte] ^ 1]) + blob[byte + 1 :], blob[:byte]
                for name, other, number in [("changed", changed, 3 if byte else 1), ("the end", cut, 2 if byte < 43 else 3)]:
                    entries = [put(*chunk) for chunk in [*chunks[:place], (id, other), *chunks[place + 1 :]]]
                    yield f"byte {byte} of blob {place} is {name}", segment(*entries), refusing(place, number)

    def answers(damage):
        """What the program says to each command."""
        with tempfile.TemporaryDirectory() as root:
            make(root, inside("source", {**files, "data/0/0": damage[1]}))
            return [start(("source", "-", *command.split()), root, OPEN) for command in reads]

    all_of_them = list(damages())
    with concurrent.futures.ThreadPoolExecutor(os.cpu_count()) as pool:
        for (name, _, want), those in zip(all_of_them, pool.map(answers, all_of_them)):
            for command, (status, out, err) in zip(reads, those):
                judge(f"{command}: {name}", (status, out), want(command))
                explained(holds, ("source", "-", *command.split()), "/", status, out, err, OPEN, b"")


def key_files():
    """What `list` and `key` say of a `config` without a key, and of files that the variables name."""
    keys = Keys()
    bare = b"[repository]\nversion = 1\nid = %s\n" % ZERO_ID
    line_of = lambda id: b"BORG_KEY %s\n" % id
    body = base64.b64encode(keys.text(PASSPHRASE))
    good = line_of(ZERO_ID) + body

    def under(name, file, want, words=LIST, config=bare, kind=0, **variables):
        """A run with this text in the file `file`, which the source's variable names unless others are said."""
        made = {**repository(keys, PASSPHRASE, keys.blob(keys.tagged(fields()), kind=kind)), "config": config}
        named = variables or {"BORG_OTHER_KEY_FILE": b"file"}
        case(f"key file: {name}", made, want, words, beside={"file": file}, variables={**OPEN, **{name.encode(): value for name, value in named.items()}})

    unreadable = (16, b"key file unreadable\n")
    under("one long line", good, NOTHING)
    under("CR LF, blanks and odd lines", line_of(ZERO_ID)[:-1] + b"\r\n " + body[:5] + b"\r\n\t" + body[5:] + b"\n\n", NOTHING)
    under("objects of the other mode", good, NOTHING, kind=3)
    under("an empty key", good, NOTHING, config=bare + b"key =\n")
    under("a config with a key", b"***", NOTHING, config=repositories.config(keys.text(PASSPHRASE)))
    under("the key", good, (0, b"%s 1\n" % ZERO_ID), ("source", "-", "key"))
    under("none", good, refused(b"no key"), BORG_OTHER_KEY_FILE=b"")
    under("an empty file", b"", refused(b"no key"))
    under("a short id", b"BORG_KEY 12", refused(b"key file 1"))
    under("no body", line_of(ZERO_ID), refused(b"key file 2"))
    under("no base64", line_of(ZERO_ID) + b"***\n", refused(b"key file 2"))
    under("another id", line_of(b"11" * 32) + body, refused(b"key file of " + b"11" * 32))
    under("an absent file", good, unreadable, BORG_OTHER_KEY_FILE=b"absent")
    under("a folder", None, unreadable)
    under("the target's is absent, whatever the command", good, unreadable, ("source", "-", "nothing"), BORG_KEY_FILE=b"absent")
    for variable in ("BORG_OTHER_KEY_FILE", "BORG_KEY_FILE"):
        under(f"{variable} isn't UTF-8", good, (2, b"%s isn't UTF-8\n" % variable.encode()), **{variable: b"\xff"})


def targets():
    """What `init` says of a target that it refuses, and of a key file; it writes nothing then."""
    words = ("-", "target", "init", "--iterations", "1")
    good = table(ENVELOPE)

    def told(name, want, beside, file=None):
        """A run over these files of the target, with this text as its key file."""
        named = {} if file is None else {b"BORG_KEY_FILE": b"file"}
        case(f"init: {name}", None, want, words, beside={**beside, **({} if file is None else {"file": file})}, variables=named)

    def of_file(name, file, reason):
        told(name, (9, b"target refused: %s\n" % reason), {}, file)

    told("a repository", (9, b"target refused: committed\n"), {"target/data/0/0": COMMIT_SEGMENT})
    told("a nonce that is no number", (9, b"target refused: nonce 2\n"), {"target/nonce": b"12"})
    case("init: no folder", None, (5, b"target device failed\n"), ("-", "-", "init"))
    told("a file where the folder should be", (5, b"target device failed\n"), {"target": b"text"})
    key = lambda sealed: b"BORG_KEY %s\n" % ZERO_ID + base64.b64encode(sealed)
    of_file("a short id", b"BORG_KEY 12", b"key file 1")
    of_file("no key", b"BORG_KEY %s\n" % ZERO_ID, b"key file 2")
    for number, sealed in [(1, good[:-1]), (2, table({})), (3, table({**ENVELOPE, "algorithm": raw(b"sha1")})), (4, table({**ENVELOPE, "iterations": b"\x00"})), (5, good)]:
        of_file(f"a key that breaks rule {number}", key(sealed), b"key %d" % number)
    for command, bad in [("init", ("--iterations", "0")), ("make-key", ("--timestamp", "x"))]:
        case(f"{command}: a wrong word", None, wrong_word(2 if command == "make-key" else 3), ("-", "target", command, *bad))


def transfers():
    """What `transfer` says where it copies nothing: of wrong words, of names that the source lacks or the target has, and of a target that doesn't open."""
    keys, others = Keys(), Keys(b"other")

    def made(keys, content):
        """A repository with one archive, a file of this content."""
        archive = Archive(keys, b"a", [Item(b"f", [content])])
        return repository(keys, PASSPHRASE, keys.blob(keys.tagged(fields(archive.named(b"a")))), *archive.chunks())

    def told(name, want, target, *words, **changed):
        """A run over this target, with a file `nonce` above all its blocks."""
        files = {**target, "nonce": b"00000000000003e8", **changed}
        beside = inside("target", {name: content for name, content in files.items() if content is not None})
        how = {**OPEN, b"BORG_PASSPHRASE": PASSPHRASE}
        case(f"transfer: {name}", made(keys, b"hello"), want, ("source", "target", "transfer", *words), beside=beside, variables=how)

    same, another = made(others, b"hello"), made(others, b"hullo")
    total = b"total 0 transferred %d present 0 chunks 0 bytes 0 meta\n"
    told("an archive that is there", (0, b"present a\n" + total % 1), same)
    told("a name that stands twice", (0, b"present a\npresent a\n" + total % 2), same, "a", "a")
    told("a name that is taken", (10, b"name taken: a\n"), another)
    told("a name that the source lacks", (11, b"not found: b\n"), same, "a", "b")
    told("a target without a nonce", (9, b"target refused: nonce 1\n"), same, nonce=None)
    told("a nonce that is no number", (9, b"target refused: nonce 2\n"), same, nonce=b"12")
    for words, number in [(("--block", "63"), 3), (("--checkpoint", "0", "a"), 3), (("--block", "64", "--block", "64"), 4), (("--x",), 2)]:
        told("a wrong word", wrong_word(number), same, *words)
    empty = {folder: repository(of, PASSPHRASE, of.blob(of.tagged(fields()))) for folder, of in (("source", keys), ("target", others))}
    beside, how = inside("target", {**empty["target"], "nonce": b"00000000000003e8"}), {**OPEN, b"BORG_PASSPHRASE": PASSPHRASE}
    case("transfer: a source without archives", empty["source"], (0, total % 0), ("source", "target", "transfer"), beside=beside, variables=how)
    # One more piece than an item may have: 13108 chunks of 20971436 bytes, as they are stated, in pieces of 64 bytes.
    long = Archive(keys, b"a", [Item(b"f", [b"hello"] * 13108, size=20971436)])
    files = repository(keys, PASSPHRASE, keys.blob(keys.tagged(fields(long.named(b"a")))), *long.chunks())
    words = ("source", "target", "transfer", "--block", "64", "a")
    case("transfer: an item is too long", files, (12, b"limit: item\n"), words, beside=beside, variables=how)


def plans():
    """What `plan` prints, which writes nothing, and what it says where it makes no plan."""
    keys, others = Keys(), Keys(b"other")
    variables = {**OPEN, b"BORG_PASSPHRASE": PASSPHRASE}
    files = lambda of, content: Archive(of, b"a", [Item(b"f", [content]), Item(b"e", [])])

    def made(of, content=None):
        """A repository with one archive, whose file has this content, or without any."""
        archive = files(of, content) if content is not None else None
        named = [archive.named(b"a")] if archive else []
        return repository(of, PASSPHRASE, of.blob(of.tagged(fields(*named))), *(archive.chunks() if archive else []))

    def told(name, want, target, *words, source=made(keys, b"x" * 65), how=variables):
        beside = inside("target", target)
        case(f"plan: {name}", source, want, ("source", "target", "plan", *words), beside=beside, variables=how)

    told("all is new", (0, b"1 chunks 65 bytes 1 meta\n"), made(others))
    told("a name twice, cut into two", (0, b"2 chunks 65 bytes 1 meta\n"), made(others), "--block", "64", "a", "a")
    told("all is there", (0, b"0 chunks 0 bytes 0 meta\n"), made(others, b"x" * 65))
    told("another archive of the name", (10, b"name taken: a\n"), made(others, b"x" * 64))
    told("a name that the source lacks, before the target is opened", (11, b"not found: b\n"), {}, "a", "b")
    told("a target without a commit", (9, b"target refused: no commit\n"), {"config": b""})
    told("another passphrase", (9, b"target refused: key 5\n"), made(others), how={**OPEN, b"BORG_PASSPHRASE": b"Passphrase"})
    for words, number in [(("--block", "63"), 3), (("--checkpoint", "1"), 2), (("--block",), 3)]:
        told("a wrong word", wrong_word(number), made(others), *words)


class Deletion:
    """A target with these archives by name, from which some are deleted; and what each command has to say of it, by the plain program."""

    def __init__(self, root, archives, behind=(), **changed):
        self.root, self.keys, self.archives = root, next(iter(archives.values())).keys, dict(archives)
        named = [entry for name, archive in archives.items() for entry in archive.named(name)]
        chunks = dict([chunk for archive in archives.values() for chunk in archive.chunks(**changed)] + list(behind))
        self.live = set(chunks) | {repositories.ZERO}
        made = repository(self.keys, PASSPHRASE, self.keys.blob(self.keys.tagged(fields(named))), *chunks.items())
        make(root, inside("target", {**made, "nonce": b"00000000000f4240"}))

    def ids(self, archive):
        """The ids that an archive uses."""
        of = {archive.id, *(id for id, _ in archive.pieces)}
        for item in archive.items:
            of.update(item.ids or [self.keys.id(content) for content in item.contents or []])
        return of

    def going(self, name):
        """The chunks that go with the archive of a name."""
        stays = {id for other, archive in self.archives.items() if other != name for id in self.ids(archive)}
        return {id for id in self.ids(self.archives[name]) - stays - {repositories.ZERO} if id in self.live}

    def delete(self, what, name, *options, says=b""):
        """Deletes an archive; then what is live, listed and read is looked at."""
        gone = self.going(name)
        words = ("-", "target", "delete", *options, os.fsdecode(name))
        told = b"deleted %s chunks %d\n" % (repositories.escaped(name), len(gone))
        before = state(os.path.join(self.root, "target/data/0"))
        judge(f"delete: {what}", run(words, self.root, {b"BORG_PASSPHRASE": PASSPHRASE}, says=says), (0, told))
        del self.archives[name]
        self.live -= gone
        left = state(os.path.join(self.root, "target/data/0"))
        holds(all(left.get(path) == of for path, of in before.items()), f"delete: {what}: a segment that was there has changed")
        holds(self.deletes() == sorted(gone), f"delete: {what}: the DELETE entries aren't those of the ids that go, in their order")
        self.reads(what)

    def deletes(self):
        """The ids of the DELETE entries of the segment before the last one."""
        files = segments.segments(os.path.join(self.root, "target"))
        with open(files[max(files) - 1], "rb") as file:
            entries, _ = segments.split(file.read())
        return [key for tag, key, _, _ in entries if tag == segments.DELETE]

    def reads(self, what):
        """What is live, and what each other archive has, is as it was."""
        live = segments.keys(os.path.join(self.root, "target"))[1]
        holds({bytes.fromhex(line.split()[0].decode()) for line in live.splitlines()} == self.live, f"delete: {what}: something else is live")
        named = [entry for name, archive in self.archives.items() for entry in archive.named(name)]
        judge(f"delete: {what}: list", run(("target", "-", "list"), self.root, OPEN), (0, repositories.listing(named)))
        for name, archive in self.archives.items():
            judge(f"delete: {what}: list {name}", run(("target", "-", "list", "--", os.fsdecode(name)), self.root, OPEN), (0, archive.lines()))
            for path in {item.path for item in archive.items if item.contents is not None}:
                words = ("target", "-", "extract", "--", os.fsdecode(name), os.fsdecode(path))
                judge(f"delete: {what}: extract {name} {path}", run(words, self.root, OPEN), (0, archive.content(path)))


def restored(name, items, folder=None, archive="a", words=None, want=None, left=None, other=None, foreign=""):
    """An archive of these items, restored: status, line and what is in the folder are those of the plain program, or, where `want` is given, that and
    the tree of the items `left`. `folder` are files that are there before, `other` a content in whose place another one is stored, `foreign` the path that
    standard error names since it or its link's target isn't UTF-8."""
    keys = Keys()
    whole = Archive(keys, b"a", items)
    chunks = whole.chunks(other=None if other is None else keys.id(other))
    with tempfile.TemporaryDirectory() as root:
        place = os.path.join(root, "folder")
        make(root, inside("source", repository(keys, PASSPHRASE, keys.blob(keys.tagged(fields(whole.named(b"a")))), *chunks)))
        make(root, {} if folder is None else {"folder": None, **inside("folder", folder)})
        source, kept = state(os.path.join(root, "source")), state(place)
        got = run(words or ("source", "folder", "restore", archive), root, OPEN, foreign=foreign)
        tree, answer = trees.tree_of(items if left is None else left)
        judge(f"restore: {name}", got, answer if want is None else want)
        if want is None or left is not None:
            found = trees.found_in(place)
            holds(found == trees.as_found(tree.nodes), f"restore: {name}: {found} for {tree.nodes}")
            modes = {stat.S_IMODE(os.lstat(path).st_mode) for path in state(place) if not os.path.islink(path)}
            holds(modes <= {0o600, 0o700}, f"restore: {name}: modes {modes}")
        else:
            holds(state(place) == kept, f"restore: {name}: the folder has changed")
        holds(state(os.path.join(root, "source")) == source, f"restore: {name}: the source has changed")


def item(path, contents=None, mode=0o100644, source=None, more=None):
    """An item of this mode, which is left out where that is None."""
    return Item(path, contents, source, more={**({} if mode is None else {b"mode": mode}), **(more or {})})


def restores():
    """Archives that are restored in a folder, whole and with items that have no place."""
    folder, link, pipe = 0o040755, 0o120777, 0o010644
    row = [item(b"d", mode=folder), item(b"d/f", [b"hello"]), item(b"g", [b"", b"x" * 5000]), item(b"e", []), item(b"s", mode=link, source=b"/etc"), item(b"h", source=b"d/f")]
    restored("files, a folder and links", row)
    restored("zeros in one chunk", [item(b"z", [bytes(8193)])])
    restored("zeros behind a byte", [item(b"z", [b"x" + bytes(4095), bytes(4096) + b"y"])])
    restored("no items", [])
    keys = Keys()
    with tempfile.TemporaryDirectory() as root:
        make(root, {**inside("source", repository(keys, PASSPHRASE, keys.blob(keys.tagged(fields())))), "folder": None})
        os.chmod(os.path.join(root, "folder"), 0o777)
        judge("restore in a folder that others may write", run(("source", "folder", "restore", "a"), root, OPEN), withheld(b"folder"))
    restored("no folders above", [item(b"a/b/c", [b"x"]), item(b"a", mode=folder), item(b"a/b/d", mode=link, source=b"c")])
    restored("a path twice", [item(b"f", [b"1"]), item(b"f", [b"2"]), item(b"f", mode=folder), item(b"s", mode=link, source=b"f"), item(b"s", [b"3"])])
    restored("the root", [item(b".", mode=pipe), item(b".", [b"x"]), item(b".", mode=folder), item(b"f", [b"1"])])
    restored("pipes", [item(b"p", mode=pipe), item(b"q/r", [b"x"], mode=0o020644), item(b"p", [b"1"])])
    restored("a folder with content", [item(b"d", [b"lost"], mode=folder), item(b"d/f", [b"x"])])
    restored("a link of a link", [item(b"f", [b"1"]), item(b"g", source=b"f"), item(b"h", source=b"g")])
    restored("a file with content and a source", [item(b"f", [b"1"], source=b"nothing")])
    restored("names", [item(b"\xc3\xa4 b", [b"1"]), item(b"-- \n\\", [b"2"]), item(b"\x01", mode=link, source=b"\xc3\xa4 b"), item(b"x" * 255, [b"3"])])
    restored("behind a link", [item(b"a", mode=link, source=b"/etc"), item(b"a/x", [b"1"])])
    restored("behind a file", [item(b"f", [b"1"]), item(b"f/x", mode=folder), item(b"g", [b"2"])])
    restored("behind a hard link", [item(b"f", [b"1"]), item(b"g", source=b"f"), item(b"g/x/y", [b"2"])])
    for path in (b"../x", b"/x", b"x/", b"a//b", b"a/./b", b"..", b"", b"./x", b"a/..", b"x\0"):
        restored(f"the path {path}", [item(b"before", [b"1"]), item(path, [b"2"]), item(b"behind", [b"3"])])
    for mode in (None, 65536, -1, b"x", True):
        restored(f"the mode {mode}", [item(b"before", [b"1"]), item(b"f", [b"2"], mode)] if mode is not None else [no_mode(b"f")])
    restored("a mode of the root", [item(b".", mode=65536)])
    restored("a link without a target", [item(b"s", mode=link)])
    restored("a link to a number", [item(b"s", mode=link, more={b"source": 7})])
    restored("a link to nil", [item(b"s", mode=link, more={b"source": None})])
    restored("a hard link in front", [item(b"h", source=b"f"), item(b"f", [b"1"])])
    restored("a hard link to nil", [item(b"f", [b"1"]), item(b"h", more={b"source": None})])
    restored("a hard link to a folder", [item(b"d", mode=folder), item(b"h", source=b"d")])
    restored("a hard link to a skipped item", [item(b"p", mode=pipe), item(b"h", source=b"p")])
    restored("a hard link to a symbolic one", [item(b"s", mode=link, source=b"f"), item(b"h", source=b"s")])
    restored("the order of the rules", [item(b"../x", mode=65536)])
    restored("a pipe behind a link", [item(b"a", mode=link, source=b"/etc"), item(b"a/p", mode=pipe), item(b"b", [b"1"])])
    restored("a name that is none", row, archive="b", want=(11, b"not found: b\n"))
    restored("an empty folder", row, folder={})
    restored("a folder that isn't empty", row, folder={"x": b"kept"}, want=(14, b"not empty\n"))
    restored("a folder that isn't empty and no name", row, folder={"x": b"kept"}, archive="b", want=(11, b"not found: b\n"))
    restored("a file for a folder", row, words=("source", "source/config", "restore", "a"), want=(13, b"tree failed\n"))
    restored("no folder", row, words=("source", "-", "restore", "a"), want=(13, b"tree failed\n"))
    restored("no folder above", row, words=("source", "no/where", "restore", "a"), want=(13, b"tree failed\n"))
    first, last = item(b"a", [b"1"]), item(b"b", [b"3"])
    restored("a long name", [first, item(b"x" * 256, [b"2"]), last], want=(13, b"tree failed\n"), left=[first])
    foreign = item(b"d/\xff\xc3\xa4\n", [b"2"])
    restored("a path that isn't UTF-8", [first, foreign, last], want=(13, b"tree failed\n"), left=[first, item(b"d", mode=folder)], foreign=r"d/\xffä\x0a")
    restored("a target that isn't UTF-8", [first, item(b"s", mode=link, source=b"\xff"), last], want=(13, b"tree failed\n"), left=[first], foreign="s")
    lost = 8, b"source refused: blob 5 %s\n" % Keys().id(b"22").hex().encode()
    restored("a content that is another", [first, item(b"f", [b"2", b"22", b"222"]), last], want=lost, left=[first, item(b"f", [b"2"])], other=b"22")
    restored("the content of a pipe that is another", [first, item(b"p", [b"22"], mode=pipe), last], want=lost, left=[first], other=b"22")
    restored("a place before a content", [first, item(b"../f", [b"22"]), last], want=(8, b"source refused: place 1 ../f\n"), left=[first], other=b"22")
    for words, number in ((("restore",), 2), (("restore", "a", "b"), 3), (("restore", "--a"), 2), (("restore", "--"), 3), (("restore", "--", "a", "b"), 4)):
        restored(f"the words {words}", row, words=("source", "folder", *words), want=(2, b"usage: word %d\n" % number))
    restored("a name behind --", row, words=("source", "folder", "restore", "--", "a"))


def no_mode(path):
    """An item without a mode."""
    bare = Item(path, [b"1"])
    bare.spelled = lambda keys: pack({b"path": path, b"chunks": [[keys.id(b"1"), 1, 44]]})
    bare.more = {b"mode": None}
    return bare


def deletions():
    """What `delete` takes out of a target: an archive and each chunk that no other uses, and nothing else."""
    keys = Keys(b"other")
    files = [Item(b"f", [b"hello", b"", b" and more"]), Item(b"e", []), Item(b"g", [b"hello"])]
    one, own = Archive(keys, b"a", files), Archive(keys, b"b", [Item(b"f", [b"hello"]), Item(b"h", [b"own"])], 40)
    orphan = (keys.id(b"orphan"), keys.blob(b"orphan"))

    def deleted(what, archives, *names, options=(), says=b"", files=(), **how):
        with tempfile.TemporaryDirectory() as root:
            made = Deletion(root, archives, **how)
            make(root, inside("target", dict(files)))
            for name in names:
                made.delete(f"{what}: {name}", name, *options, says=says)

    deleted("the only archive", {b"a": one}, b"a")
    deleted("two that share chunks", {b"a": one, b"b": own}, b"a", b"b")
    deleted("two that share chunks, the other first", {b"a": one, b"b": own}, b"b", b"a")
    deleted("two of the same items", {b"a": one, b"b": Archive(keys, b"b", files)}, b"a", b"b")
    deleted("two names of one record", {b"a": one, b"b": one}, b"b", b"a")
    deleted("a chunk that no archive uses", {b"a": one}, b"a", behind=[orphan])
    deleted("a chunk that is a piece of another's items", {b"a": Archive(keys, b"a", [Item(b"f", [own.pieces[0][1]])]), b"b": own}, b"a", b"b")
    deleted("a record that is another's content", {b"a": Archive(keys, b"a", [Item(b"f", [own.record])]), b"b": own}, b"b", b"a")
    deleted("the zero id as a chunk", {b"a": Archive(keys, b"a", [Item(b"f", [b"hello"], ids=[repositories.ZERO])]), b"b": own}, b"a")
    deleted("a content that isn't there", {b"a": one, b"b": own}, b"a", without=keys.id(b" and more"))
    odd = {b"--x": one, b"a\n": own, b"\\": Archive(keys, b"z", files[:1])}
    deleted("odd names", odd, b"a\n", b"\\", options=("--timestamp", "noon"))
    deleted("a name that begins with --", odd, b"--x", options=("--",))
    deleted("a lock of Borg", {b"a": one}, b"a", files=[("lock.exclusive", b"")], says=b"TARGET has a lock of Borg")
    deleted("an index of Borg", {b"a": one}, b"a", files=[("index.1", b""), ("hints.1", b"")], says=b"remove them before a Borg command")
    many = Archive(keys, b"a", [Item(b"%d" % number, [b"x%d" % (number % 700)]) for number in range(2000)], 5000)
    deleted("many items", {b"a": many, b"b": Archive(keys, b"b", many.items[500:600])}, b"a")
    times()
    undeleted()
    cut_short()


def times():
    """The manifest's time behind a deletion is that of the words, or else the old one."""
    keys = Keys(b"other")
    archives = {name: Archive(keys, name, [Item(b"f", [name])]) for name in (b"a", b"b")}
    with tempfile.TemporaryDirectory() as root:
        made = Deletion(root, archives)
        for options, name, time in [((), b"a", b"2020-01-01T00:00:00.000000"), (("--timestamp", "noon"), b"b", b"noon")]:
            made.delete(f"the time {time}", name, *options)
            holds(raw(b"timestamp") + raw(time) in made_manifest(root, keys), f"delete: the manifest hasn't the time {time}")


def made_manifest(root, keys):
    """The packed manifest of a target, as it lies in the last of its segments that puts one."""
    files = segments.segments(os.path.join(root, "target"))
    blobs = []
    for path in files.values():
        with open(path, "rb") as file:
            blobs += [blob for tag, key, blob, _ in segments.split(file.read())[0] if tag == segments.PUT and key == repositories.ZERO]
    return repositories.ctr(keys.enc_key, int.from_bytes(blobs[-1][33:41], "big"), blobs[-1][41:])[2:]


def telling(command, keys):
    """A case of a command of the target alone, over archives of which chunks may be changed, with files removed."""
    def told(name, want, archives, *words, says=b"", passphrase=PASSPHRASE, nonce=b"00000000000f4240", removed=(), **changed):
        named = [entry for of, archive in archives.items() for entry in archive.named(of)]
        chunks = dict(chunk for archive in archives.values() for chunk in archive.chunks(**changed))
        made = repository(keys, PASSPHRASE, keys.blob(keys.tagged(fields(named))), *chunks.items())
        made.update({} if nonce is None else {"nonce": nonce})
        beside = inside("target", {place: content for place, content in made.items() if place not in removed})
        case(f"{command}: {name}", None, want, ("-", "target", command, *words), beside=beside, variables={b"BORG_PASSPHRASE": passphrase}, says=says)

    return told


def undeleted():
    """What `delete` says where it deletes nothing, and that it writes nothing then."""
    keys = Keys(b"other")
    files = [Item(b"f", [b"hello"]), Item(b"l", None, b"f")]
    good, other = Archive(keys, b"a", files), Archive(keys, b"b", [Item(b"g", [b"own"])])

    told = telling("delete", keys)

    both = {b"a": good, b"b": other}
    told("a name that isn't there", (11, b"not found: c\n"), both, "c", says=b"no archive of TARGET has this name")
    told("an odd name that isn't there", (11, b"not found: --\\x0a\n"), both, "--", "--\n")
    told("another passphrase", (9, b"target refused: key 5\n"), both, "a", passphrase=b"x")
    told("no nonce", (9, b"target refused: nonce 1\n"), both, "a", nonce=None)
    told("a nonce that is no number", (9, b"target refused: nonce 2\n"), both, "a", nonce=b"12")
    told("no commit", (9, b"target refused: no commit\n"), both, "a", removed=("data/0/1",))
    told("no config", (9, b"target refused: config 1\n"), both, "a", removed=("config",))
    for words, number in [((), 2), (("a", "b"), 3), (("--timestamp",), 3), (("--timestamp", "", "a"), 3), (("--timestamp", "x"), 4), (("--block", "64", "a"), 2), (("--",), 3), (("--", "a", "b"), 4), (("--timestamp", "x", "--timestamp", "x", "a"), 4)]:
        told(f"words {words}", wrong_word(number), both, *words)
    in_the_way = b"TARGET has an archive that doesn't read, and while it has one none is deleted"
    reason = lambda text, id: (9, b"target refused: %s %s\n" % (text, id.hex().encode()))
    for id in (good.id, good.pieces[0][0]):
        for name in ("a", "b"):
            told(f"{name} where something of a isn't there", reason(b"missing", id), both, name, says=in_the_way, without=id)
            told(f"{name} where something of a is compressed", reason(b"blob 4", id), both, name, says=COMPRESSED % b"TARGET", compressed=id)
            told(f"{name} where something of a has another id", reason(b"blob 5", id), both, name, says=in_the_way, other=id)
    for text, how in [(b"record 1", {"packed": lambda text: text + b"\0"}), (b"record 2", {b"version": 2}), (b"record 4", {"info": b"other"})]:
        bad = Archive(keys, b"a", files, how=how)
        told(f"an archive with {text}", reason(text, bad.id), {b"a": bad, b"b": other}, "b", says=TAG % b"TARGET" if text == b"record 4" else in_the_way)
    for number, behind in [(1, b"\xc1"), (2, b"\x80"), (3, b"\x82\xa4path\xa1a\xa6chunks\xc3"), (4, b"\x82\xa4path\xa1a\xaechunks_healthy\xc0"), (5, b"\x81\xa4p")]:
        bad = Archive(keys, b"a", files, behind=behind)
        told(f"an archive with items {number}", reason(b"items %d" % number, bad.id), {b"a": bad, b"b": other}, "b", says=in_the_way)
    case("delete: no folder", None, (9, b"target refused: no commit\n"), ("-", "-", "delete", "a"), says=b"TARGET is - or empty")
    case("delete: a folder that isn't there", None, (9, b"target refused: no commit\n"), ("-", "target", "delete", "a"))
    case("delete: a file where the folder should be", None, (5, b"target device failed\n"), ("-", "target", "delete", "a"), beside={"target": b"text"})


def cut_short():
    """Where the cipher has no numbers left for the manifest, DELETEs that aren't committed may be written, and all that was there stays."""
    keys = Keys(b"other")
    with tempfile.TemporaryDirectory() as root:
        made = Deletion(root, {b"a": Archive(keys, b"a", [Item(b"f", [b"hello"])])})
        make(root, {"target/nonce": b"f" * 16})
        judge("delete: no numbers left", run(("-", "target", "delete", "a"), root, {b"BORG_PASSPHRASE": PASSPHRASE}), (12, b"limit: nonce\n"))
        made.reads("no numbers left")


class Tagging:
    """A target with these archives by name, whose records get tags; and what each command has to say of it, by the plain program."""

    def __init__(self, root, archives, behind=(), **files):
        self.root, self.keys, self.archives = root, next(iter(archives.values())).keys, archives
        named = [entry for name, archive in archives.items() for entry in archive.named(name)]
        chunks = dict([chunk for archive in archives.values() for chunk in archive.chunks()] + list(behind))
        self.live = set(chunks) | {repositories.ZERO}
        made = repository(self.keys, PASSPHRASE, self.keys.blob(self.keys.tagged(fields(named))), *chunks.items())
        make(root, inside("target", {**made, "nonce": b"00000000000f4240", **files}))

    def untagged(self):
        """The names of the archives whose record has no tag."""
        return [name for name, archive in sorted(self.archives.items()) if b"tam" not in archive.record]

    def freed(self):
        """The ids of old records that nothing uses any more: no archive as its content, as a piece of its items or as a record that has a tag."""
        old = {self.archives[name].id for name in self.untagged()}
        used = {archive.id for archive in self.archives.values()} - old
        for archive in self.archives.values():
            used.update(id for id, _ in archive.pieces)
            for item in archive.items:
                used.update(item.ids or [self.keys.id(content) for content in item.contents or []])
        return old - used

    def tag(self, what, *options, says=b""):
        """Tags the records; then what is live, listed and read is looked at, and a second run, which writes nothing."""
        names, freed = self.untagged(), self.freed()
        words = ("-", "target", "tag-archives", *options)
        before = state(os.path.join(self.root, "target/data/0"))
        told = run(words, self.root, {b"BORG_PASSPHRASE": PASSPHRASE}, says=says)
        judge(f"tag-archives: {what}", told, (0, b"tagged %d\n" % len(names)))
        left = state(os.path.join(self.root, "target/data/0"))
        holds(all(left.get(path) == of for path, of in before.items()), f"tag-archives: {what}: a segment that was there has changed")
        listed = self.listed(what)
        new = {listed[name] for name in names}
        holds(len(new) == len(names), f"tag-archives: {what}: two archives share a new record")
        holds(self.now_live() == self.live - freed | new, f"tag-archives: {what}: something else is live")
        holds(all(listed[name] == archive.id for name, archive in self.archives.items() if name not in names), f"tag-archives: {what}: a record with a tag was written again")
        for name in names:
            self.is_tagged(what, name, listed[name])
        self.reads(what)
        judge(f"tag-archives: {what}: again", run(words, self.root, {b"BORG_PASSPHRASE": PASSPHRASE}), (0, b"tagged 0\n"))
        holds(self.listed(what) == listed, f"tag-archives: {what}: a second run has written a record")
        return listed

    def now_live(self):
        return {bytes.fromhex(line.split()[0].decode()) for line in segments.keys(os.path.join(self.root, "target"))[1].splitlines()}

    def listed(self, what):
        """The ids of the records by name, where the names and times are as they were."""
        status, out = run(("target", "-", "list"), self.root, OPEN)
        lines = [line.split(b" ", 2) for line in out.splitlines()]
        want = [[repositories.escaped(time), repositories.escaped(name)] for of, archive in sorted(self.archives.items()) for name, _, time in archive.named(of)]
        holds((status, [line[1:] for line in lines]) == (0, want), f"tag-archives: {what}: the names or times are others")
        return {name: bytes.fromhex(line[0].decode()) for name, line in zip(sorted(self.archives), lines)}

    def content(self, id):
        """What the newest live chunk of an id has, as it lies in the segments."""
        blobs = []
        for _, path in sorted(segments.segments(os.path.join(self.root, "target")).items()):
            with open(path, "rb") as file:
                blobs += [blob for tag, key, blob, _ in segments.split(file.read())[0] if tag == segments.PUT and key == id]
        return repositories.ctr(self.keys.enc_key, int.from_bytes(blobs[-1][33:41], "big"), blobs[-1][41:])[2:]

    def is_tagged(self, what, name, id):
        """The new record of an archive has a tag, which is that of its bytes under its salt, and its name, comment and items."""
        content, archive = self.content(id), self.archives[name]
        behind = (content.index(word) + len(word) for word in (b"\xa4hmac", b"\xa4salt"))
        tag, salt = (at + {0xD9: 2, 0xDA: 3, 0xDB: 5}[content[at]] for at in behind)
        secrets = self.keys.id_key + self.keys.enc_key + self.keys.enc_hmac_key
        key = repositories.mac(repositories.mac(content[salt : salt + 64], secrets, hashlib.sha512), b"borg-metadata-authentication-archive\x01", hashlib.sha512)
        right = repositories.mac(key, content[:tag] + bytes(64) + content[tag + 64 :], hashlib.sha512)
        holds(self.keys.id(content) == id and content[tag : tag + 64] == right, f"tag-archives: {what}: the tag of {name} is wrong")
        said = (b"\xa5plain", *(of for of, _ in archive.pieces))
        holds(all(part in content for part in said), f"tag-archives: {what}: the record of {name} doesn't say what the old one said")

    def reads(self, what):
        """What each archive has is as it was, and none is without a tag."""
        for name, archive in self.archives.items():
            judge(f"tag-archives: {what}: list {name}", run(("target", "-", "list", "--", os.fsdecode(name)), self.root, OPEN), (0, archive.lines()))
            for path in {item.path for item in archive.items if item.contents is not None}:
                words = ("target", "-", "extract", "--", os.fsdecode(name), os.fsdecode(path))
                judge(f"tag-archives: {what}: extract {name} {path}", run(words, self.root, OPEN), (0, archive.content(path)))
        status, out = run(("target", "-", "check"), self.root, OPEN)
        holds(status == 0 and out.endswith(b" untagged 0\n"), f"tag-archives: {what}: check says {out!r}")


def taggings():
    """What `tag-archives` writes: each record without a tag again with one, and no other; each archive is as it was."""
    keys = Keys(b"other")
    files = [Item(b"f", [b"hello", b"", b" and more"]), Item(b"e", [])]
    plain = lambda name, items=files, length=2**20: Archive(keys, name, items, length, how={"tam": "none"})
    one, other, good = plain(b"a"), plain(b"b", [Item(b"f", [b"hello"]), Item(b"h", [b"own"])], 40), Archive(keys, b"c", files)
    orphan = (keys.id(b"orphan"), keys.blob(b"orphan"))

    def tagged(what, archives, options=(), says=b"", behind=(), **files):
        with tempfile.TemporaryDirectory() as root:
            return Tagging(root, archives, behind, **files).tag(what, *options, says=says)

    tagged("one", {b"a": one})
    tagged("none", {b"c": good})
    tagged("two of three", {b"a": one, b"b": other, b"c": good})
    tagged("two names of one record", {b"a": one, b"z": one, b"c": good})
    tagged("a record that is another's content", {b"a": one, b"b": Archive(keys, b"b", [Item(b"f", [one.record])])})
    tagged("a record that is the content of another without a tag", {b"a": one, b"b": plain(b"b", [Item(b"f", [one.record])])})
    tagged("a chunk that no archive uses", {b"a": one}, behind=[orphan])
    tagged("odd names", {b"--x": one, b"a\n": other, b"\\": plain(b"z", files[:1])}, ("--timestamp", "noon"))
    tagged("a lock of Borg", {b"a": one}, says=b"TARGET has a lock of Borg", **{"lock.roster": b'{"exclusive": [["host@1", 2, 0]]}'})
    tagged("an index of Borg", {b"a": one}, says=b"remove them before a Borg command", **{"index.1": b""})
    with tempfile.TemporaryDirectory() as root:
        made = Tagging(root, {b"a": one})
        made.tag("the time", "--timestamp", "noon")
        holds(raw(b"timestamp") + raw(b"noon") in made_manifest(root, keys), "tag-archives: the manifest hasn't the time of the words")
    not_tagged(keys, one, plain(b"b", [Item(b"g", [b"own"])]))


def not_tagged(keys, good, other):
    """What `tag-archives` says where it tags nothing, and that it writes nothing then."""
    told = telling("tag-archives", keys)

    both = {b"a": good, b"b": other}
    told("another passphrase", (9, b"target refused: key 5\n"), both, passphrase=b"x")
    told("no nonce", (9, b"target refused: nonce 1\n"), both, nonce=None)
    told("a nonce that is no number", (9, b"target refused: nonce 2\n"), both, nonce=b"12")
    told("a nonce that is used up", (12, b"limit: nonce\n"), both, nonce=b"f" * 16)
    told("no commit", (9, b"target refused: no commit\n"), both, removed=("data/0/1",))
    told("no config", (9, b"target refused: config 1\n"), both, removed=("config",))
    for words, number in [(("a",), 2), (("--timestamp",), 3), (("--timestamp", ""), 3), (("--timestamp", "x", "a"), 4), (("--block", "64"), 2), (("--", "a"), 3)]:
        told(f"words {words}", wrong_word(number), both, *words)
    in_the_way = b"TARGET has an archive that doesn't read, and while it has one no record gets a tag"
    reason = lambda text, id: (9, b"target refused: %s %s\n" % (text, id.hex().encode()))
    for id in (good.id, other.pieces[0][0]):
        told("something isn't there", reason(b"missing", id), both, says=in_the_way, without=id)
        told("something is compressed", reason(b"blob 4", id), both, says=COMPRESSED % b"TARGET", compressed=id)
        told("something has another id", reason(b"blob 5", id), both, says=in_the_way, other=id)
    bad = Archive(keys, b"a", good.items, how={"info": b"borg-metadata-authentication-manifest"})
    told("a tag of a manifest", reason(b"record 4", bad.id), {b"a": bad, b"b": other}, says=TAG % b"TARGET")
    bad = Archive(keys, b"a", good.items, behind=b"\xc1")
    told("items that don't read", reason(b"items 1", bad.id), {b"a": bad, b"b": other}, says=in_the_way)


def compactions():
    """What `compact` leaves: each live key with its bytes, and no other; where nothing is to be gained all stays, and Borg's own files are told."""
    config = {"config": TEN_A_FOLDER}
    dead = {**log(segment(put(K, b"abc")), COMMIT_SEGMENT, segment(delete(K)), COMMIT_SEGMENT), **config}
    stays = {**log(segment(put(K, b"abc"), put(L, b"x" * 100)), COMMIT_SEGMENT, segment(delete(K)), COMMIT_SEGMENT), **config}
    moved = {**log(segment(put(K, b"abc"), put(L, b"x" * 100), put(K, b"abcde")), segment(put(K, b"abcdef")), COMMIT_SEGMENT), **config}
    for name, files, words, want, left in [
        ("all is dead", dead, ("--threshold", "0"), b"compacted 4\n", [4]),
        ("a DELETE stays", stays, ("--threshold", "100"), b"compacted 3\n", [0, 4, 5]),
        ("PUTs are moved", moved, (), b"compacted 3\n", [3, 4]),
        ("a commit alone", {**log(segment(put(K, b"abc")), COMMIT_SEGMENT), **config}, ("--threshold", "100"), b"compacted 0\n", [0, 1]),
        ("a lock of Borg", {**dead, "lock.exclusive": b""}, (), b"compacted 4\n", [4]),
        ("an index of Borg", {**dead, "index.3": b"", "hints.3": b"", "integrity.3": b""}, (), b"compacted 4\n", [4]),
    ]:
        with tempfile.TemporaryDirectory() as root:
            make(root, inside("target", files))
            live = segments.keys(os.path.join(root, "target"))
            judge(f"compact: {name}", run(("-", "target", "compact", *words), root), (0, want))
            judge(f"compact: {name}: what is live", segments.keys(os.path.join(root, "target")), live)
            numbers = sorted(int(file) for _, _, names in os.walk(os.path.join(root, "target/data")) for file in names)
            holds(numbers == left, f"compact: {name}: the segments {numbers} are there and not {left}")
    for name, files, want in [
        ("no folder", None, (9, b"target refused: no commit\n")),
        ("no settings", log(segment(put(K, b"abc")), COMMIT_SEGMENT), (9, b"target refused: config 1\n")),
        ("damaged", {**log(segment(put(K, b"abc"))[:-1] + b"d", COMMIT_SEGMENT), **config}, (9, b"target refused: damaged segment 0 at 8\n")),
        ("the greatest number", {**log(segment(put(K, b"abc"))), "data/429496729/4294967295": COMMIT_SEGMENT, **config}, (12, b"limit: segment\n")),
    ]:
        case(f"compact: {name}", None, want, ("-", "target", "compact", "--threshold", "0"), beside=inside("target", files) if files else None)
    case("compact: a wrong word", None, wrong_word(3), ("-", "target", "compact", "--threshold", "101"), beside=inside("target", dead))


def locks():
    """A lock of Borg in a target that is to be written is told in one line, and changes nothing; elsewhere nothing is said of it."""
    keys, others = Keys(), Keys(b"other")
    made = lambda keys: repository(keys, PASSPHRASE, keys.blob(keys.tagged(fields())))
    total = (0, b"total 0 transferred 0 present 0 chunks 0 bytes 0 meta\n")
    nobody, somebody = b'{"exclusive": [], "shared": []}', b'{"exclusive": [], "shared": [["host@1", 2, 0]]}'
    told = b"TARGET has a lock of Borg"
    for name, lock, says in [
        ("a file lock.exclusive", {"lock.exclusive": b""}, told), ("a folder lock.exclusive", {"lock.exclusive/host@1.2-3": b""}, told), ("a link lock.exclusive", {"lock.exclusive": "nowhere"}, told),
        ("a roster of somebody", {"lock.roster": somebody}, told), ("a roster with blanks", {"lock.roster": b'{"shared": [\n  ["host@1", 2, 0]]}'}, told),
        ("a roster of nobody", {"lock.roster": nobody}, b""), ("an empty roster", {"lock.roster": b""}, b""), ("a pipe as roster", {"lock.roster": stat.S_IFIFO}, b""), ("another file", {"lock": b""}, b""),
    ]:
        beside = inside("target", {**made(others), "nonce": b"00000000000003e8", **lock})
        how = {"variables": {**OPEN, b"BORG_PASSPHRASE": PASSPHRASE}, "beside": beside}
        case(f"transfer: {name}", made(keys), total, ("source", "target", "transfer"), says=says, **how)
        case(f"init: {name}", None, withheld(b"other files") if "lock" in lock else (9, b"target refused: committed\n"), ("-", "target", "init"), says=b"" if "lock" in lock else says, **how)
        case(f"keys: {name}", None, segments_of(made(others)), ("target", "-", "keys"), **{**how, "says": says.replace(b"TARGET", b"SOURCE")})
        case(f"restore: {name}", None, (11, b"not found: a\n"), ("target", "folder", "restore", "a"), **{**how, "says": says.replace(b"TARGET", b"SOURCE")})
        case(f"list: {name} in a target that isn't used", made(keys), NOTHING, ("source", "target", "list"), **how)


def segments_of(files):
    """What `keys` prints of these files."""
    with tempfile.TemporaryDirectory() as root:
        make(root, files)
        return segments.keys(root)


def refused_targets():
    """What `transfer` says of a target that doesn't open: the same as of a source, with its words. An archive of a target that doesn't read is one that is taken."""
    keys, others = Keys(), Keys(b"other")
    files = [Item(b"f", [b"hello"]), Item(b"l", None, b"f")]
    source = Archive(keys, b"a", files)
    made = lambda of, archive, **changed: repository(of, PASSPHRASE, of.blob(of.tagged(fields(archive.named(b"a")))), *archive.chunks(**changed))
    good = made(others, Archive(others, b"a", files))
    other = others.repository.hex()
    bare = b"[repository]\nversion = 1\nid = %s\n" % other.encode()

    def told(name, reason, target, says=b"", key_file=None, passphrase=PASSPHRASE, words=("source", "target", "transfer")):
        """A run over this target, None for a folder that isn't there."""
        beside = {} if target is None else inside("target", {"nonce": b"00000000000003e8", **target})
        beside.update({} if key_file is None else {"file": key_file})
        variables = {**OPEN, b"BORG_PASSPHRASE": passphrase, **({} if key_file is None else {b"BORG_KEY_FILE": b"file"})}
        case(f"a target with {name}", made(keys, source), (9, b"target refused: %s\n" % reason), words, beside=beside, variables=variables, says=says)

    told("no folder", b"no commit", None, b"the folder TARGET isn't there")
    told("no name", b"no commit", None, b"TARGET is - or empty", words=("source", "-", "transfer"))
    told("no segment", b"no commit", {"config": good["config"]}, b"borgferry - TARGET init makes a repository there")
    told("a damaged segment", b"damaged segment 0 at 0", {**good, "data/0/0": b""})
    changed = lambda **lines: {**good, "config": config(table(ENVELOPE), **{"id": other, **lines}).encode()}
    told("no config", b"config 1", {name: content for name, content in good.items() if name != "config"})
    for number, target in enumerate([changed(version="2"), changed(id="00"), changed(key="***"), changed(max_segment_size="2M")], 2):
        told(f"config {number}", b"config %d" % number, target, b"TARGET/config")
    told("an id twice", b"config 6", {**good, "config": good["config"] + b"id = %s\n" % ZERO_ID})
    envelopes = [table(ENVELOPE)[:-1], table({}), table({**ENVELOPE, "algorithm": raw(b"sha1")}), table({**ENVELOPE, "iterations": b"\x00"})]
    for number, envelope in enumerate(envelopes, 1):
        told(f"key {number}", b"key %d" % number, {**good, "config": repositories.config(envelope, others.repository)}, b"-blake2" if number == 2 else b"")
    told("another passphrase", b"key 5", good, b"set the variable BORG_PASSPHRASE to that of the repository which is TARGET", passphrase=b"x")
    told("no key", b"no key", {**good, "config": bare}, b"--encryption none has no key and isn't read")
    body = base64.b64encode(others.text(PASSPHRASE))
    for name, file, reason in [("a short id", b"BORG_KEY 12", b"key file 1"), ("no body", b"BORG_KEY %s\n" % other.encode(), b"key file 2"), ("another id", b"BORG_KEY %s\n" % (b"11" * 32) + body, b"key file of " + b"11" * 32)]:
        told(f"a key file of {name}", reason, {**good, "config": bare}, key_file=file)
    manifest = lambda blob: repository(others, PASSPHRASE, blob)
    blob = others.blob(others.tagged(fields()))
    told("no manifest", b"missing " + ZERO_ID, manifest(None), b"borg check --repair makes it anew, and borgferry-plain makes that plain")
    changed_mac = blob[:9] + bytes([blob[9] ^ 1]) + blob[10:]
    for number, bad in [(1, b"\x02" + blob[1:]), (2, blob[:42]), (3, changed_mac), (4, others.blob(others.tagged(fields()), b"\1\0"))]:
        says = COMPRESSED % b"TARGET" if number == 4 else b""
        told(f"a manifest's blob {number}", b"blob %d %s" % (number, ZERO_ID), manifest(bad), says)
    untagged = b"borg create --compression none TARGET::NAME FOLDER writes one with its tag"
    for number, content in [(1, b""), (2, pack({b"version": 2})), (3, pack(fields())), (4, others.tagged(fields(), b"borg-metadata-authentication-archive"))]:
        told(f"manifest {number}", b"manifest %d" % number, manifest(others.blob(content)), untagged if number == 3 else b"")
    for number, content, header in [(4, b"hello", b"\1\0"), (5, b"hullo", b"\0\0")]:
        with tempfile.TemporaryDirectory() as root:
            id, blob = others.id(b"hello"), others.blob(content, header)
            target = {**repository(others, PASSPHRASE, others.blob(others.tagged(fields())), (id, blob)), "nonce": b"00000000000003e8"}
            make(root, {**inside("source", made(keys, source)), **inside("target", target)})
            got = run(("source", "target", "transfer"), root, {**OPEN, b"BORG_PASSPHRASE": PASSPHRASE}, says=COMPRESSED % b"TARGET" if number == 4 else b"")
            judge(f"a target with a content that breaks rule {number}", got, (9, b"target refused: blob %d %s\n" % (number, id.hex().encode())))
    there = Archive(others, b"a", files)
    for name, archive, changed in [
        ("without its stream", there, {"without": there.pieces[0][0]}), ("with a compressed record", there, {"compressed": there.id}), ("with a tag of another info", Archive(others, b"a", files, how={"info": b"other"}), {}),
        ("with a healed item", Archive(others, b"a", files, behind=b"\x82\xa4path\xa1a\xaechunks_healthy\xc0"), {}), ("with a wrong stated size", Archive(others, b"a", [Item(b"f", [b"hello"], size=6), files[1]]), {}),
    ]:
        beside = inside("target", {**made(others, archive, **changed), "nonce": b"00000000000003e8"})
        case(f"a target's archive {name}", made(keys, source), (10, b"name taken: a\n"), ("source", "target", "transfer"), beside=beside, variables={**OPEN, b"BORG_PASSPHRASE": PASSPHRASE}, says=b"that differs, or that doesn't read, as check of TARGET tells")


def of_borg():
    """What is said of repositories that Borg wrote in ways that aren't read, where they lie beside this one."""
    there = os.path.join(os.path.dirname(os.path.abspath(__file__)), "..", "..", "shared", "fixtures")
    compressed = COMPRESSED % b"SOURCE"
    for words, status, says in [
        (("recreated", "-", "list", "packed"), 8, TAG % b"SOURCE"), (("recreated", "-", "check"), 1, b"borgferry-plain SOURCE cures it"),
        (("renamed", "-", "list", "after"), 8, compressed), (("mixed", "-", "list", "old"), 8, compressed), (("lz4", "-", "list"), 8, compressed), (("anew", "-", "check"), 0, b""),
        (("blake2", "-", "key"), 8, b"one of a -blake2 mode isn't read"), (("none", "-", "key"), 8, b"a repository of --encryption none has no key and isn't read"),
    ]:
        if os.path.isdir(os.path.join(there, words[0])):
            judge(f"Borg's {words}", (run(words, there, OPEN, says=says)[0], b""), (status, b""))
        else:
            skip(f"Borg's {words}: there is no ../shared/fixtures/{words[0]}")


def written():
    """What `transfer` leaves where a later chunk of the source isn't there, and where a chunk of the target is damaged that it needs or doesn't need."""
    keys, others = Keys(), Keys(b"other")
    variables = {**OPEN, b"BORG_PASSPHRASE": PASSPHRASE}
    words = ("source", "target", "transfer", "--block", "64", "a")

    def source_of(*contents, without=None):
        """A repository with one archive, a file of these contents."""
        archive = Archive(keys, b"a", [Item(b"f", list(contents))])
        return inside("source", repository(keys, PASSPHRASE, keys.blob(keys.tagged(fields(archive.named(b"a")))), *archive.chunks(without=without)))

    first, second = b"x" * 64, b"y" * 64
    with tempfile.TemporaryDirectory() as root:
        make(root, source_of(first, second, without=keys.id(second)))
        judge("transfer: a target is made", run(("-", "target", "init", "--iterations", "1"), root, variables)[0:1] + (b"",), (0, b""))
        judge("transfer: the second chunk isn't there", run(words, root, variables), refused(b"missing %s" % keys.id(second).hex().encode()))
        # The magic, and the PUT of the first piece: a head of 41 bytes, that of a blob of 43, and 64 bytes.
        holds(os.path.getsize(os.path.join(root, "target/data/0/2")) == 8 + 41 + 43 + 64, "transfer: the first piece isn't written")
    id, blob = others.id(b"hello"), others.blob(b"hello")
    damaged = (id, blob[:-1] + bytes([blob[-1] ^ 1]))
    target = inside("target", {**repository(others, PASSPHRASE, others.blob(others.tagged(fields())), damaged), "nonce": b"00000000000003e8"})
    reason = b"blob 3 %s\n" % id.hex().encode()
    with tempfile.TemporaryDirectory() as root:
        make(root, {**source_of(b"hello"), **target})
        judge("transfer: a damaged chunk is needed", run(words, root, variables), (9, b"target refused: " + reason))
    with tempfile.TemporaryDirectory() as root:
        make(root, {**source_of(b"hullo"), **target})
        lines = b"transferred a\ntotal 1 transferred 0 present 1 chunks 5 bytes 1 meta\n"
        judge("transfer: a damaged chunk isn't needed", run(words, root, variables), (0, lines))
        judge("transfer: it is bad after that", run(("target", "-", "check"), root, variables), (1, b"bad " + reason))


def foreseen():
    """Contents whose pieces are prepared side by side before they come: several of an item, equal ones, of items behind one another, behind small ones."""
    keys, numbers, block = Keys(), random.Random(9), 8192
    variables = {**OPEN, b"BORG_PASSPHRASE": PASSPHRASE}
    several, large = [numbers.randbytes(size) for size in (20000, 30000, 17000)], numbers.randbytes(300000)
    contents = {
        b"several": several,
        b"one": [numbers.randbytes(40000)],
        b"again": several,
        b"tiny": [b"tiny"],
        b"empty": [],
        b"whole": [numbers.randbytes(2 * block)],
        b"zeros": [bytes(50000)],
        b"large": [large],
        b"large again": [large[:block], large[block:]],
        **{b"small %d" % number: [numbers.randbytes(20000 + number)] for number in range(12)},
    }
    archive = Archive(keys, b"a", [Item(path, chunks) for path, chunks in contents.items()])
    manifest = keys.blob(keys.tagged(fields(archive.named(b"a"))))
    whole = {path: b"".join(chunks) for path, chunks in contents.items()}
    pieces = {content[at : at + block] for content in whole.values() for at in range(0, len(content), block)}
    total = b"transferred a\ntotal 1 transferred 0 present %d chunks %d bytes 1 meta\n" % (len(pieces), sum(map(len, pieces)))
    with tempfile.TemporaryDirectory() as root:
        make(root, inside("source", repository(keys, PASSPHRASE, manifest, *archive.chunks())))
        judge("foreseen: a target is made", run(("-", "target", "init", "--iterations", "1"), root, variables)[0:1] + (b"",), (0, b""))
        judge("foreseen: transfer", run(("source", "target", "transfer", "--block", str(block), "a"), root, variables), (0, total))
        judge("foreseen: the target verifies", run(("target", "-", "check"), root, variables)[0:1] + (b"",), (0, b""))
        for path, content in whole.items():
            judge(f"foreseen: {path.decode()}", run(("target", "-", "extract", "a", path.decode()), root, variables), (0, content))


def changed(chunks, block, numbers):
    """Contents that have most of these chunks, by what was done: in place, in other chunks, at other bytes, at an end."""
    other = lambda *places: [numbers.randbytes(len(chunk)) if place in places else chunk for place, chunk in enumerate(chunks)]
    last = len(chunks) - 1
    return {
        **{f"changed at {', '.join(map(str, places))}".encode(): other(*places) for places in [(0,), (3,), (last,), (1, 6), (0, 2, 4, last), range(1, last)]},
        b"in other chunks": [chunks[0], numbers.randbytes(100), numbers.randbytes(len(chunks[1]) - 100), *chunks[2:]],
        b"the same in one": [*chunks[:2], chunks[2] + chunks[3], *chunks[4:]],
        b"a byte more": [*chunks[:3], b"x", *chunks[3:]],
        b"a block more": [*chunks[:3], numbers.randbytes(block), *chunks[3:]],
        b"less": [*chunks[:2], *chunks[3:]],
        b"more": [*chunks, numbers.randbytes(1000)],
        b"cut": chunks[:5],
        b"without the first": chunks[1:],
        b"thrice": [*chunks[:3], *chunks[:3], *chunks[:3]],
        b"one alone": chunks[1:2],
    }


def changed_in_place():
    """Contents that share chunks with others, at the same bytes and at others, in one archive and in the next: the target has them as they are."""
    variables = {**OPEN, b"BORG_PASSPHRASE": PASSPHRASE}
    for block, sizes in [(512, (5000, 3000, 1200, 512, 7, 4000, 2048, 1000)), (8192, (70000, 30000, 9000, 8192, 20000, 40000, 16384, 24576)), (8192, (16384,) * 9)]:
        keys, numbers = Keys(), random.Random(block + len(sizes))
        chunks = [numbers.randbytes(size) for size in sizes]
        first, second = changed(chunks, block, numbers), changed(chunks, block, numbers)
        contents = {b"a": {b"first": chunks, **first}, b"b": {**second, b"last": chunks}}
        archives = [Archive(keys, name, [Item(path, parts) for path, parts in named.items()]) for name, named in contents.items()]
        manifest = keys.blob(keys.tagged(fields([entry for archive, name in zip(archives, contents) for entry in archive.named(name)])))
        whole = [b"".join(parts) for named in contents.values() for parts in named.values()]
        pieces = {content[at : at + block] for content in whole for at in range(0, len(content), block)}
        told = b"transferred a\ntransferred b\ntotal 2 transferred 0 present %d chunks %d bytes " % (len(pieces), sum(map(len, pieces)))
        with tempfile.TemporaryDirectory() as root:
            make(root, inside("source", repository(keys, PASSPHRASE, manifest, *{id: blob for archive in archives for id, blob in archive.chunks()}.items())))
            judge("changed: a target is made", run(("-", "target", "init", "--iterations", "1"), root, variables)[0:1] + (b"",), (0, b""))
            words = ("source", "target", "transfer", "--block", str(block), "--checkpoint", "7")
            status, text = run(words, root, variables)[0:2]
            judge(f"changed: transfer in pieces of {block}", (status, text[: len(told)]), (0, told))
            for name, named in contents.items():
                for path, parts in named.items():
                    got = run(("target", "-", "extract", name.decode(), path.decode()), root, variables)
                    judge(f"changed: {name.decode()}, {path.decode()}, in pieces of {block}", got, (0, b"".join(parts)))
            judge("changed: the target verifies", run(("target", "-", "check"), root, variables)[0:1] + (b"",), (0, b""))
            status, text = run(words, root, variables)[0:2]
            judge("changed: again", (status, text[:19]), (0, b"present a\npresent b"))


def drills():
    """The drill: its line, that it uses neither folder and no passphrase, and numbers that aren't one of its."""
    done = lambda count: (0, b"drill %d: transferred %d chunks %d bytes %d check ok\n" % (count, count, 280 * count + 8, 512 * (280 * count + 8)))
    for count in (1, 3, 64):
        case(f"drill {count}", None, done(count), ("-", "-", "drill", str(count)))
    good = log(segment(put(K, b"abc")), COMMIT_SEGMENT)
    case("drill beside repositories", good, done(2), ("source", "target", "drill", "2"), inside("target", good), variables=OPEN)
    case("drill beside what isn't there", None, done(1), ("source", "target", "drill", "1"), {"target": b"text"})
    for number in ("0", "65", "01", "+1", "1 ", "x", "", "18446744073709551617"):
        case(f"drill {number!r}", None, wrong_word(2), ("-", "-", "drill", number))
    case("drill behind the end of its options", None, done(1), ("-", "-", "drill", "--", "1"))
    case("drill without a number", None, wrong_word(2), ("-", "-", "drill"))
    case("drill without a number behind that end", None, wrong_word(3), ("-", "-", "drill", "--"))
    case("drill with a word more", None, wrong_word(3), ("-", "-", "drill", "1", "1"))


def variables():
    good = log(segment(put(K, b"abc")), COMMIT_SEGMENT)
    bad, text = b"\xff\xfe", "gr\u00fc\u00df e".encode()
    source, target = b"BORG_OTHER_PASSPHRASE", b"BORG_PASSPHRASE"
    not_text = lambda name: (2, name + b" isn't UTF-8\n")
    case("passphrases", good, line((K, 3)), variables={source: text, target: b"x" * 5000})
    case("empty passphrases", good, line((K, 3)), variables={source: b"", target: b""})
    case("the source's passphrase isn't UTF-8", good, not_text(source), variables={source: bad, target: bad})
    case("the target's passphrase isn't UTF-8", good, not_text(target), variables={source: text, target: bad})
    with tempfile.TemporaryDirectory() as root:
        for words in [("-", "t", "init", "--iterations", "1"), ("-", "-", "make-key", "--iterations", "1")]:
            for given, says in [({}, b"the new key gets an empty passphrase"), ({target: b""}, b"the new key gets an empty passphrase"), ({target: b"x"}, b"")]:
                words = (words[0], words[1] + "t" if words[2] == "init" else "-", *words[2:])
                status, out = run(words, root, given, says=says)
                judge(f"{words[2]}: a passphrase {given}", (status, b"" if out.startswith((b"initialized ", b"BORG_KEY ")) else out), (0, b""))
    case("wrong words come before a passphrase", good, USAGE, ["source"], variables={source: bad})
    case("--version needs no passphrase", good, (0, VERSION), ["--version"], variables={source: bad})

BORG_README = b"This is a Borg Backup repository.\nSee https://borgbackup.readthedocs.io/\n"
INIT = ("-", "target", "init", "--iterations", "1")


def withheld(cause):
    return 17, b"withheld: %s\n" % cause


def other_files():
    """`init` writes over nothing and removes nothing but what a stop of it, or Borg, leaves; the line names the first other file."""
    own = {
        "a README of one's own": ("README", b"my notes\n"), "a README with more behind": ("README", BORG_README + b"and my notes\n"), "an empty README": ("README", b""),
        "a config of another program": ("config", b"[core]\nbare = true\n"), "a config of no text": ("config", b""), "a file beside": ("notes", b"text"), "a folder beside": ("photos", None),
        "a hidden file": (".notes", b""), "a link as README": ("README", "nowhere"), "a link as config": ("config", "nowhere"), "a folder as README": ("README", None),
        "a file of a number in data": ("data/2023", b"BORG_SEG"), "a file in a folder of a number": ("data/2024/7", b"a text of my own"), "a short file there": ("data/2024/7", b"hello"),
        "the segment of another program": ("data/0/0", b"ATTICSEG" + bytes(9)), "a folder in a folder": ("data/0/1", None), "a link in a folder": ("data/0/1", "nowhere"),
        "a name in data": ("data/notes", None), "a name in a folder of a number": ("data/0/notes", b"BORG_SEG"), "a number with a zero in front": ("data/01", None), "data as a file": ("data", b"text"),
        "data as a link": ("data", "nowhere"), "a folder of restic": ("data/4f", None), "a temporary file of another program": ("config.new", b""),
    }
    for name, (path, content) in own.items():
        case(f"init: {name}", None, withheld(b"other files"), INIT, beside={f"target/{path}": content}, says=b"TARGET has %s, which is no file" % path.encode())
    case("init: a name that isn't UTF-8", None, withheld(b"other files"), INIT, beside={b"target/\xff": b"x"}, says=b"TARGET has a file whose name isn't UTF-8")
    restic = {"config": b"sealed", "data/4f/4f00": b"x", "index/00": b"x", "keys/00": b"x", "locks/00": b"x", "snapshots/00": b"x"}
    git = {"HEAD": b"ref: refs/heads/main\n", "config": b"[core]\n\tbare = true\n", "description": b"x", "objects/info": None, "refs/heads": None}
    attic = {"README": b"This is an Attic repository\n", "config": b"[repository]\nversion = 1\n", **{f"data/0/{number}": b"ATTICSEG" + bytes(9) for number in range(14)}}
    for name, files in {"restic": restic, "bare git": git, "Attic": attic}.items():
        case(f"init: a repository of {name}", None, withheld(b"other files"), INIT, beside=inside("target", files))
    # What is left by a stop, or by Borg.
    left = {
        "README": BORG_README, "config": b"[repository]\nversion = 1\n", "nonce": b"0000000000000000", "lock.roster": b"{}", "lock.exclusive/host@1.2-3": b"", "index.5": b"x", "hints.5": b"x",
        "integrity.5": b"x", "config.borgferry-new": b"[rep", "nonce.borgferry-new": b"", "README.borgferry-new": b"", "data/0/0": b"BORG_SEG", "data/0/1": b"BORG", "data/0/2": b"",
        "data/1/1000": bytes(5), "data/7/5": MAGIC + b"torn",
    }
    with tempfile.TemporaryDirectory() as root:
        for number, (path, content) in enumerate([*left.items(), (None, left)]):
            folder = f"target{number}"
            make(root, {f"{folder}/{path}": content} if path else inside(folder, left))
            status, out = run(("-", folder, *INIT[2:]), root, says=b"")
            holds(status == 0, f"init over what a stop leaves: {path}: {status} {out!r}")
        make(root, {"empty": None})
        holds(run(("-", "empty", *INIT[2:]), root)[0] == 0, "init in an empty folder fails")
        make(root, {"here/notes": b"mine"})
        judge("init in the current folder", run(("-", ".", *INIT[2:]), os.path.join(root, "here")), withheld(b"other files"))
        for name, words in {"git": ("git", "init", "--quiet", "--bare", "theirs"), "restic": ("restic", "--quiet", "init", "--repo", "theirs")}.items():
            if shutil.which(name) is None:
                skip(f"init in a repository of {name}: there is none")
                continue
            place = os.path.join(root, f"of {name}")
            make(place, {})
            os.makedirs(place, exist_ok=True)
            subprocess.run(words, cwd=place, env={**os.environ, "RESTIC_PASSWORD": "x"}, check=True, stdout=subprocess.DEVNULL, stderr=subprocess.DEVNULL)
            before = state(place)
            judge(f"init in a repository of {name}", run(("-", "theirs", *INIT[2:]), place), withheld(b"other files"))
            holds(state(place) == before, f"init in a repository of {name}: it has changed")


def lone_key():
    """`init` writes over no key whose segments aren't there, as where `data` isn't mounted; what a stop of `init` itself leaves has its own README."""
    says = b"TARGET/config has the key of a repository whose segments aren't in TARGET/data"
    config, keyless = repository(Keys(), PASSPHRASE, None)["config"], b"[repository]\nversion = 1\nkey = \n"
    own = BORG_README.splitlines(keepends=True)[0]
    for readme in (BORG_README, b"This is a Borg repository\n", None):
        for data in ({}, {"data": None}):
            files = {"config": config, **({"README": readme} if readme else {}), **data}
            case(f"init over a key beside {readme} and {len(data)} folders", None, withheld(b"other files"), INIT, beside=inside("target", files), says=says)
    with tempfile.TemporaryDirectory() as root:
        left = [
            {"config": config, "README": own}, {"config": config, "README": own, "data": None}, {"config": config, "README": BORG_README, "data/0/0": b"BORG"}, {"config": keyless, "README": BORG_README},
        ]
        for number, files in enumerate(left):
            make(root, inside(f"target{number}", files))
            status, out = run(("-", f"target{number}", *INIT[2:]), root, says=b"")
            holds(status == 0, f"init over a config beside {files['README']} and {sorted(files)}: {status} {out!r}")


def one_key():
    """Where both repositories have one key nothing is made or copied."""
    keys, others = Keys(), Keys(b"other")
    made = lambda of: {**repository(of, PASSPHRASE, of.blob(of.tagged(fields()))), "nonce": b"00000000000003e8"}
    how = {"variables": {**OPEN, b"BORG_PASSPHRASE": PASSPHRASE}}
    case("transfer: one key", made(keys), withheld(b"one key"), ("source", "target", "transfer"), beside=inside("target", made(Keys())), **how)
    file = lambda of: b"BORG_KEY %s\n" % of.repository.hex().encode() + base64.b64encode(of.text(PASSPHRASE))
    named = {**how["variables"], b"BORG_KEY_FILE": b"file"}
    case("init: the source's key file", made(keys), withheld(b"one key"), ("source", *INIT[1:]), beside={"file": file(keys)}, variables=named)
    with tempfile.TemporaryDirectory() as root:
        make(root, {**inside("source", made(keys)), "file": file(others)})
        judge("init: another key file", run(("source", *INIT[1:]), root, named, says=b"TARGET's key is that of the key file file, which"), (0, b"initialized %s\n" % others.repository.hex().encode()))
        status, _ = run(("source", "other", *INIT[2:]), root, how["variables"], says=b"TARGET's key is new and lies in TARGET/config")
        holds(status == 0, "init without a key file fails")


def rolled_back():
    """A file `nonce` that was put back is told before anything is written by it; one that isn't below the objects' numbers is right."""
    keys, others = Keys(), Keys(b"other")
    archive = Archive(others, b"a", [Item(b"f", [b"x" * 100])])
    target = repository(others, PASSPHRASE, others.blob(others.tagged(fields(archive.named(b"a")))), *archive.chunks())
    source = repository(keys, PASSPHRASE, keys.blob(keys.tagged(fields())))
    end = others.nonce
    how = {**OPEN, b"BORG_PASSPHRASE": PASSPHRASE}
    words = {"transfer": ("source", "target", "transfer"), "delete": ("-", "target", "delete", "a"), "tag-archives": ("-", "target", "tag-archives")}
    beside = lambda number, files=target, end=b"": inside("target", {**files, "nonce": b"%016x" % number + end})
    for command, of in words.items():
        for name, number in [("by one block", end - 1), ("to 0", 0)]:
            says = b"printf %016x > TARGET/nonce" % (end + (1 << 40))
            case(f"{command}: a nonce rolled back {name}", source, withheld(b"nonce"), of, beside=beside(number), variables=how, says=says)
        case(f"{command}: a nonce with a line feed", source, withheld(b"nonce"), of, beside=beside(end - 1, end=b"\n"), variables=how)
    total = (0, b"total 0 transferred 0 present 0 chunks 0 bytes 0 meta\n")
    case("transfer: a nonce behind the last block", source, total, words["transfer"], beside=beside(end), variables=how)
    case("compact: a nonce rolled back", None, (0, b"compacted 0\n"), ("-", "target", "compact"), beside=beside(0))
    # Objects that the committed log doesn't have count too; what is no object of this cipher doesn't.
    blob = bytes([3]) + bytes(32) + (10**6).to_bytes(8, "big") + bytes(17)
    behind = {"data/0/2": segment(put(K, blob)) + b"torn"}
    case("transfer: a nonce below an object behind the last commit", source, withheld(b"nonce"), words["transfer"], beside=beside(10**6 + 1, {**target, **behind}), variables=how)
    others_behind = {"of another type": bytes([2]) + blob[1:], "shorter than its head": blob[:42], "of a keyed hash": bytes([5]) + blob[1:]}
    for name, number, other in [("with lower numbers", 10**6 + 2, blob), *((name, end, other) for name, other in others_behind.items())]:
        with tempfile.TemporaryDirectory() as root:
            make(root, {**inside("source", source), **beside(number, {**target, "data/0/2": segment(put(K, other))})})
            judge(f"transfer: an object {name}", run(words["transfer"], root, how), total)
    last = bytes([0]) + bytes(32) + b"\xff" * 8 + bytes(2)
    case("transfer: the last numbers", source, withheld(b"nonce"), words["transfer"], beside=beside(end, {**target, "data/0/2": segment(put(K, last))}), variables=how, says=b"the last numbers of its cipher")
    left = {"data/0/0": segment(put(K, blob)), "nonce": b"%016x" % 5}
    case("init: a nonce below what a stop left", None, withheld(b"nonce"), INIT, beside=inside("target", left))
    case("init: no nonce beside what a stop left", None, withheld(b"nonce"), INIT, beside={"target/data/0/0": left["data/0/0"]})


def streams():
    """A passphrase may come from a stream; where a program is to print it, or the stream doesn't have it, nothing is done without it."""
    key = ("source", "-", "key")
    keys = Keys()
    good = repository(keys, PASSPHRASE, keys.blob(keys.tagged(fields())))
    told = (0, b"%s 1\n" % keys.repository.hex().encode())
    number = {b"BORG_OTHER_PASSPHRASE_FD": b"3"}
    for name, text in {"as it is": PASSPHRASE, "a line": PASSPHRASE + b"\n", "lines": PASSPHRASE + b"\n\n", "CR LF": PASSPHRASE + b"\r\n"}.items():
        case(f"a stream: {name}", good, told, key, beside={"pass": text}, variables=number, prefix=["sh", "-c", 'exec "$@" 3<pass', ""])
        case(f"a pipe: {name}", good, told, key, beside={"pass": text}, variables=number, prefix=["sh", "-c", 'cat pass | { exec "$@" 3<&0; }', ""])
    for name, text in {"another passphrase": PASSPHRASE + b" ", "an empty stream": b""}.items():
        case(f"a stream: {name}", good, refused(b"key 5"), key, beside={"pass": text}, variables=number, prefix=["sh", "-c", 'exec "$@" 3<pass', ""])
    for name, text in {"not UTF-8": b"\xff", "too long": b"x" * 65537}.items():
        case(f"a stream: {name}", good, withheld(b"passphrase"), key, beside={"pass": text}, variables=number, prefix=["sh", "-c", 'exec "$@" 3<pass', ""], says=b"BORG_OTHER_PASSPHRASE_FD names a stream")
    case("a stream that isn't open", good, withheld(b"passphrase"), key, variables={b"BORG_OTHER_PASSPHRASE_FD": b"17"})
    case("a stream without a number", good, refused(b"key 5"), key, variables={b"BORG_OTHER_PASSPHRASE_FD": b"x"})
    case("a stream beside a passphrase", good, told, key, variables={**OPEN, b"BORG_OTHER_PASSPHRASE_FD": b"17"})
    case("a program", good, withheld(b"passphrase"), key, variables={b"BORG_OTHER_PASSCOMMAND": b"echo x"}, says=b"BORG_OTHER_PASSCOMMAND is set, and this program starts no other")
    case("a program beside a passphrase", good, told, key, variables={**OPEN, b"BORG_OTHER_PASSCOMMAND": b"false"})
    others = Keys(b"other")
    target = {**repository(others, b"another", others.blob(others.tagged(fields()))), "nonce": b"00000000000003e8"}
    of_both = {**number, b"BORG_PASSPHRASE_FD": b"4"}
    beside = {**inside("target", target), "one": PASSPHRASE, "other": b"another\n"}
    total = (0, b"total 0 transferred 0 present 0 chunks 0 bytes 0 meta\n")
    case("streams of both", good, total, ("source", "target", "transfer"), beside=beside, variables=of_both, prefix=["sh", "-c", 'exec "$@" 3<one 4<other', ""])
    case("the stream of a target", None, (11, b"not found: b\n"), ("-", "target", "delete", "b"), beside=beside, variables=of_both, prefix=["sh", "-c", 'exec "$@" 4<other', ""])
    case("the other's program", good, told, key, variables={**OPEN, b"BORG_PASSCOMMAND": b"false", b"BORG_PASSPHRASE_FD": b"17"})
    case("a command that needs none", good, segments_of(good), KEYS, variables={b"BORG_OTHER_PASSCOMMAND": b"false", b"BORG_PASSCOMMAND": b"false"})
    case("restore: a program", good, withheld(b"passphrase"), ("source", "folder", "restore", "a"), variables={b"BORG_OTHER_PASSCOMMAND": b"echo x"})
    for words in (INIT, ("-", "-", "make-key", "--iterations", "1")):
        case(f"{words[2]}: a program", None, withheld(b"passphrase"), words, variables={b"BORG_PASSCOMMAND": b"echo x"}, says=b"BORG_PASSCOMMAND is set")
    launcher = os.path.join(os.path.dirname(os.path.abspath(__file__)), "..", "tools", "borgferry-passcommand")
    with tempfile.TemporaryDirectory() as root:
        make(root, inside("source", good))
        os.symlink(PROGRAM, os.path.join(root, "borgferry"))
        shutil.copy(launcher, os.path.join(root, "borgferry-passcommand"))
        for name, command, want in [
            ("prints it", b"echo '%s'" % PASSPHRASE, told), ("prints another", b"echo x", refused(b"key 5")), ("fails", b"false", withheld(b"passphrase")),
            ("isn't there", b"./none", withheld(b"passphrase")), ("has an open quote", b"echo 'x", withheld(b"passphrase")),
        ]:
            env = environment({b"BORG_OTHER_PASSCOMMAND": command})
            ran = subprocess.run([os.path.join(root, "borgferry-passcommand"), *key], cwd=root, env=env, capture_output=True, timeout=LIMIT)
            judge(f"borgferry-passcommand: a program that {name}", (ran.returncode, ran.stdout), want)


def large_files():
    """Key files and locks are read up to a bound, which no right one meets."""
    keys = Keys()
    good = repository(keys, PASSPHRASE, keys.blob(keys.tagged(fields())))
    bare = {**good, "config": b"[repository]\nversion = 1\nid = %s\n" % ZERO_ID}
    file = b"BORG_KEY %s\n" % ZERO_ID + base64.b64encode(keys.text(PASSPHRASE))
    told, key = (0, b"%s 1\n" % ZERO_ID), ("source", "-", "key")
    for size, want in [(65536, told), (65537, (16, b"key file unreadable\n"))]:
        text = file + b"\n" * (size - len(file))
        case(f"a key file of {size} bytes", bare, want, key, beside={"file": text}, variables={**OPEN, b"BORG_OTHER_KEY_FILE": b"file"}, says=b"" if want == told else b"BORG_OTHER_KEY_FILE names file, which can't be read (has more than 65536 bytes)")
    for name, path in {"that isn't there": b"none", "that is a folder": b"source"}.items():
        case(f"a key file {name}", bare, (16, b"key file unreadable\n"), key, variables={**OPEN, b"BORG_KEY_FILE": path}, says=b"BORG_KEY_FILE names " + path)
    roster = b" " * 65537
    case("a large lock of the source", {**good, "lock.roster": roster}, DEVICE, KEYS, says=b"source/lock.roster has more than 65536 bytes")
    others = Keys(b"other")
    target = {**repository(others, PASSPHRASE, others.blob(others.tagged(fields()))), "lock.roster": roster}
    case("a large lock of the target", None, (5, b"target device failed\n"), ("-", "target", "compact"), beside=inside("target", target), says=b"target/lock.roster has more than 65536 bytes")


def told_before():
    """What is told in front of a command that goes on: timestamps that Borg doesn't read or refuses, and a log that it takes nothing out of."""
    keys = Keys(b"other")
    archive = Archive(keys, b"a", [Item(b"f", [b"x"])])
    text = b"2020-01-01T00:00:00.000000"
    made = repository(keys, PASSPHRASE, keys.blob(keys.tagged(fields(archive.named(b"a")))), *archive.chunks())
    how = {b"BORG_PASSPHRASE": PASSPHRASE}
    times = {
        "2020-01-01T00:00:00.000000": b"", "2020-01-01T00:00:00": b"before that of TARGET's manifest", "2026-12-31T23:59:59.5": b"", "2019-12-31T23:59:59.000000": b"before that of TARGET's manifest",
        "yesterday": b"isn't of the form", "2026-02-29T00:00:00": b"isn't of the form", "2026-13-01T00:00:00": b"isn't of the form", "2026-01-01T24:00:00": b"isn't of the form",
        "2026-01-01T00:00:60": b"isn't of the form", "2026-01-01T00:00:00.": b"isn't of the form", "2026-01-01T00:00:00.1234567": b"isn't of the form", "2026-01-01 00:00:00": b"isn't of the form",
        "2026-01-01T00:00:00Z": b"isn't of the form", "0000-01-01T00:00:00": b"isn't of the form", "2024-02-29T00:00:00.000001": b"",
    }
    for time, says in times.items():
        with tempfile.TemporaryDirectory() as root:
            make(root, inside("target", {**made, "nonce": b"00000000000003e8"}))
            words = ("-", "target", "tag-archives", "--timestamp", time)
            status, out, err = start(words, root, how)
            explained(holds, words, root, status, out, err, how, says)
            holds(status == 0 and (says or not err), f"the time {time}: {status} {out!r} {err!r}")
    for line, is_told in {b"append_only = 1": True, b"append_only=yes": True, b"append_only = 0": False, b"; append_only = 1": False, b"[other]\nappend_only = 1": False}.items():
        files = {**made, "config": made["config"] + line + b"\n", "nonce": b"00000000000003e8"}
        for words, want in [(("-", "target", "compact"), (0, b"compacted 0\n")), (("-", "target", "delete", "b"), (11, b"not found: b\n"))]:
            case(f"{words[2]}: {line}", None, want, words, beside=inside("target", files), variables=how, says=b"TARGET/config says append_only" if is_told else b"")
    # Where nothing was written Borg's files aren't out of date.
    files = {**repository(keys, PASSPHRASE, keys.blob(keys.tagged(fields()))), "nonce": b"00000000000003e8", "index.1": b"x", "hints.1": b"x"}
    for words, want in [(("-", "target", "tag-archives"), (0, b"tagged 0\n")), (("-", "target", "compact"), (0, b"compacted 0\n"))]:
        with tempfile.TemporaryDirectory() as root:
            make(root, inside("target", files))
            status, out, err = start(words, root, how)
            judge(f"{words[2]} with nothing to do", (status, out), want)
            holds(err == b"", f"{words[2]} with nothing to do says {err!r}")


def parents():
    """Where the folder isn't there in which another is to be made, the line names it."""
    case("init: no parent", None, (5, b"target device failed\n"), ("-", "a/b/c/target", "init", "--iterations", "1"), says=b"the folder a/b/c isn't there, in which TARGET is to be made")
    case("init: a ~ in quotes", None, (5, b"target device failed\n"), ("-", "~/target", "init", "--iterations", "1"), says=b"the folder ~ isn't there")
    keys = Keys()
    archive = Archive(keys, b"a", [Item(b"f", [b"x"])])
    good = repository(keys, PASSPHRASE, keys.blob(keys.tagged(fields(archive.named(b"a")))), *archive.chunks())
    case("restore: no parent", good, (13, b"tree failed\n"), ("source", "a/folder", "restore", "a"), variables=OPEN, says=b"the folder a isn't there, in which FOLDER is to be made")


def named_archives():
    """The line in plain words names the archive that doesn't read, and what was copied before it."""
    keys, others = Keys(), Keys(b"other")
    made = {name: Archive(keys, name, [Item(b"f", [name * 70])]) for name in (b"a", b"b", b"c\n")}
    lost = made[b"c\n"].keys.id(b"c\n" * 70)

    def source(without=(), **changed):
        chunks = dict(chunk for archive in made.values() for chunk in archive.chunks(**changed))
        named = [entry for name, archive in made.items() for entry in archive.named(name)]
        return repository(keys, PASSPHRASE, keys.blob(keys.tagged(fields(named))), *((id, blob) for id, blob in chunks.items() if id not in without))

    target = {**repository(others, PASSPHRASE, others.blob(others.tagged(fields()))), "nonce": b"00000000000003e8"}
    how = {**OPEN, b"BORG_PASSPHRASE": PASSPHRASE}
    of_c = b"; what doesn't read is of the archive c\\x0a"
    case("check: the archive is named", source([lost]), (1, b"bad missing %s\n" % lost.hex().encode()), ("source", "-", "check"), variables=OPEN, says=of_c)
    with tempfile.TemporaryDirectory() as root:
        make(root, {**inside("source", source([lost])), **inside("target", target)})
        status, out = run(("source", "target", "transfer"), root, how, says=of_c + b"; 2 archives were copied before that and stay, the last of them b, and the same words go on behind it\n")
        judge("transfer: what was copied is named", (status, out.splitlines()[-1]), (8, b"source refused: missing %s" % lost.hex().encode()))
    with tempfile.TemporaryDirectory() as root:
        make(root, {**inside("source", source([lost])), **inside("target", target)})
        says = of_c + b"; one archive was copied before that and stays, b, and the same words go on behind it\n"
        judge("transfer: one was copied", (run(("source", "target", "transfer", "b", "c\n"), root, how, says=says)[0], b""), (8, b""))
    stream = made[b"b"].pieces[0][0]
    broken = inside("target", {**source([stream]), "nonce": b"00000000000003e8"})
    of_b = b"; what doesn't read is of the archive b\n"
    case("delete: the archive is named", None, (9, b"target refused: missing %s\n" % stream.hex().encode()), ("-", "target", "delete", "a"), beside=broken, variables={b"BORG_PASSPHRASE": PASSPHRASE}, says=of_b)


def outputs():
    """Output that isn't taken: a full device, a closed one, and a pipe that nobody reads."""
    with tempfile.TemporaryDirectory() as root:
        make(root, inside("source", log(segment(put(K, b"abc")), COMMIT_SEGMENT)))
        for words, status in {("source", "-", "keys"): 7, ("-", "-", "keys"): 8, ("source", "-", "nothing"): 2, ("source",): 2, ("--help",): 7, ("-", "-", "drill", "1"): 7}.items():
            # Where the line of standard output says why, the one on standard error is the same whether that is taken or not.
            says = filled(OUTPUT_ROW, "source") if status == 7 else re.escape(start(words, root)[2])
            with open("/dev/full", "wb") as full:
                given, _, err = start(words, root, stdout=full)
            holds(given == status and re.fullmatch(says, err) and (status != 7 or b"(ENOSPC)" in err), f"a full output: {words}: {given} {err!r}")
            read, write = os.pipe()
            os.close(read)
            given, _, err = start(words, root, stdout=write)
            os.close(write)
            holds(given == status and re.fullmatch(says, err) and (status != 7 or b"(EPIPE)" in err), f"a pipe that nobody reads: {words}: {given} {err!r}")
        met.add((OUTPUT_ROW, "source"))
        keys, others = Keys(), Keys(b"other")
        copied = Archive(keys, b"a", [Item(b"f", [b"hello"])])
        make(root, inside("whole", repository(keys, PASSPHRASE, keys.blob(keys.tagged(fields(copied.named(b"a")))), *copied.chunks())))
        make(root, inside("target", {"nonce": b"00000000000003e8", **repository(others, PASSPHRASE, others.blob(others.tagged(fields())))}))
        with open("/dev/full", "wb") as full:
            given, _, err = start(("whole", "target", "transfer"), root, {**OPEN, b"BORG_PASSPHRASE": PASSPHRASE}, stdout=full)
        holds(given == 5 and re.fullmatch(filled(TOLD_ROW, "target"), err) and b"(ENOSPC)" in err, f"a full output: transfer: {given} {err!r}")
        met.add((TOLD_ROW, "target"))
        for words in (("-", "-", "keys"), ("source", "-", "nothing"), ("source",)):
            want = run(words, root)
            with open("/dev/full", "wb") as full:
                judge(f"a full standard error: {words}", start(words, root, stderr=full)[:2], want)
            closed = start(words, root, prefix=["sh", "-c", 'exec "$@" 2>&-', ""])
            judge(f"a closed standard error: {words}", closed[:2], want)


def lasting(words, cwd, pause=0.0, most=None, is_shared=False, is_terminal=True):
    """One run with standard error on a terminal, or in a pipe, and with standard output on the same where that is shared.

    Else standard output is a pipe that is read with a pause after each 64 KiB, so that the run lasts, and is closed once `most`
    bytes have come. Answers the status, standard output, what came to standard error, and the seconds.
    """
    reads, error = pty.openpty() if is_terminal else os.pipe()
    if is_terminal:
        tty.setraw(error)
    began, shown, out = time.monotonic(), [], b""
    output = error if is_shared else subprocess.PIPE
    running = subprocess.Popen([PROGRAM, *words], cwd=cwd, env=environment(OPEN), stdin=subprocess.DEVNULL, stdout=output, stderr=error)
    os.close(error)
    listener = threading.Thread(target=lambda: shown.extend(pieces(reads)))
    listener.start()
    while not is_shared and (most is None or len(out) < most) and (piece := running.stdout.read(65536)):
        out += piece
        time.sleep(pause)
    if not is_shared:
        running.stdout.close()
    status = running.wait(LIMIT)
    listener.join()
    os.close(reads)
    return status, out, b"".join(shown), time.monotonic() - began


def pieces(reads):
    """What comes to a terminal or a pipe until the program has ended."""
    try:
        while piece := os.read(reads, 65536):
            yield piece
    except OSError:
        return


# A log that is read to its end has a line of its own.
PROGRESS = re.compile(rb"\r(?:reading the log: (\d+) MB|read (\d+) MB, written (\d+) MB), (\d+) s\x1b\[K")


def iterations_of(seconds, root, files, keys):
    """How many iterations of a key's seal this machine does in so many seconds, by what it needs for less and less few."""
    for iterations in (4**power for power in range(6, 12)):
        make(root, inside("measured", {**files, "config": repositories.config(keys.text(PASSPHRASE, iterations))}))
        began = time.monotonic()
        judge(f"progress: a key of {iterations} iterations", run(("measured", "-", "key"), root, OPEN), (0, b"%s %d\n" % (ZERO_ID, iterations)))
        took = time.monotonic() - began
        if took > seconds / 4:
            break
    return min(int(iterations * seconds / took), 10000000)


def progress():
    """The line of a long run: its form, how often it is written, that it is gone behind the run, and that a terminal alone has it."""

    def shows(name, got, status, behind, least=(0, 0)):
        """The terminal has lines of progress, at most ten a second, whose numbers grow, the last at least to these; the line is erased; then a text of the form `behind` comes."""
        ended, _, shown, seconds = got
        lines = [(int(log or read), int(written or 0), int(lasted)) for log, read, written, lasted in PROGRESS.findall(shown)]
        left = PROGRESS.sub(b"", shown)
        holds(ended == status and re.fullmatch(re.escape(b"\r\x1b[K") + behind, left), f"progress: {name}: {ended} {left!r}")
        holds(PROGRESS.match(shown), f"progress: {name}: {shown[:200]!r} is shown first")
        holds(1 <= len(lines) <= 10 * seconds, f"progress: {name}: {len(lines)} lines in {seconds:.1f} s")
        grows = all(left <= right for one, after in zip(lines, lines[1:]) for left, right in zip(one, after))
        read, written, lasted = lines[-1] if lines else (0, 0, 0)
        holds(grows and read >= least[0] and written >= least[1] and lasted <= seconds, f"progress: {name}: {lines}")

    keys = Keys()
    contents = [b"%d" % number for number in range(1000)]
    whole = repository(keys, PASSPHRASE, keys.blob(keys.tagged(fields([(b"a", K, b"2020")]))), *((keys.id(content), keys.blob(content)) for content in contents))
    entries = [put(number.to_bytes(32, "big"), b"") for number in range(30000)] + [put(K, bytes(3000000))]
    check, bad = ("slow", "-", "check"), b"bad missing %s\n" % K.hex().encode()
    with tempfile.TemporaryDirectory() as root, concurrent.futures.ThreadPoolExecutor() as pool:
        make(root, inside("source", log(segment(*entries), COMMIT_SEGMENT)))
        make(root, inside("small", log(segment(put(K, b"abc")), COMMIT_SEGMENT)))
        iterations = iterations_of(1.5, root, whole, keys)
        make(root, inside("slow", {**whole, "config": repositories.config(keys.text(PASSPHRASE, iterations))}))
        want = run(KEYS, root)
        runs = [
            pool.submit(lasting, KEYS, root, 0.04), pool.submit(lasting, KEYS, root, 0.08, 10 * 65536),
            pool.submit(lasting, KEYS, root, 0.03, is_terminal=False), pool.submit(lasting, check, root, is_shared=True),
            pool.submit(lasting, check, root, is_shared=True, is_terminal=False),
        ]
        slow, ends, piped, both, neither = [one.result() for one in runs]
        judge("progress: standard output", slow[:2], want)
        shows("a slow output", slow, 0, b"", (4, 0))
        shows("an output that ends", ends, 7, filled(OUTPUT_ROW, "source"))
        of_archive = re.escape(bad) + filled(("bad REASON", ""), "source").removesuffix(b"\n") + re.escape(b"; what doesn't read is of the archive a\n")
        shows("a terminal for both", both, 1, of_archive)
        judge("progress: standard error is a pipe", piped[:3], (*want, b""))
        holds(neither[0] == 1 and re.fullmatch(of_archive, neither[2]), f"progress: a pipe for both: {neither[0]} {neither[2]!r}")
        holds(min(piped[3], neither[3]) >= 0.6, f"progress: the runs in pipes lasted {piped[3]:.1f} and {neither[3]:.1f} s")
        short = lasting(("small", "-", "keys"), root, is_shared=True)
        judge("progress: a short run", (short[0], short[2]), line((K, 3)))


def entropy():
    """Random bytes that the system doesn't hand out."""
    if shutil.which("strace") is None:
        skip("entropy failed: there is no strace")
        untried.add(("entropy failed", ""))
        return
    with tempfile.TemporaryDirectory() as root:
        strace = ["strace", "-o", os.path.join(root, "calls"), "-P", "/dev/urandom", "-e", "trace=openat", "-e", "inject=openat:error=EACCES"]
        judge("no random bytes", run(("-", "target", "init"), root, prefix=strace), (6, b"entropy failed\n"))


# The greatest content of an object: an entry of 20971520 bytes without its head and what a blob has in front of the content.
LARGEST_CONTENT = segments.LARGEST - 41 - 43


def limits():
    """What `transfer` says where a limit of the target is met."""
    keys, others = Keys(), Keys(b"other")
    variables = {**OPEN, b"BORG_PASSPHRASE": PASSPHRASE}
    files = [Item(b"f", [b"hello"])]

    def source_of(archive, item_keys=(b"path",)):
        manifest = keys.tagged({**fields(archive.named(b"a")), b"item_keys": list(item_keys)})
        return inside("source", repository(keys, PASSPHRASE, keys.blob(manifest), *archive.chunks()))

    # The number lies above the blocks of a manifest that is as large as one may be.
    def target_of(nonce=b"0000000010000001", item_keys=(b"path",), commit="data/0/1"):
        made = repository(others, PASSPHRASE, others.blob(others.tagged({**fields(), b"item_keys": list(item_keys)})))
        return inside("target", {"nonce": nonce, commit: made.pop("data/0/1"), **made})

    def met_limit(name, source, target):
        with tempfile.TemporaryDirectory() as root:
            make(root, {**source, **target})
            got = run(("source", "target", "transfer", "--block", "64", "a"), root, variables)
            judge(f"limit: {name}", got, (12, b"limit: %s\n" % name.encode()))

    plain = source_of(Archive(keys, b"a", files))
    met_limit("nonce", plain, target_of(nonce=b"f" * 16))
    # The commit has the greatest number that a segment of a target may have.
    met_limit("segment", plain, target_of(commit="data/4294967/4294967295"))
    if libcrypto.NAME is None:
        skip("limits of the manifest and of a record: there is no libcrypto")
        untried.update({("limit: manifest", ""), ("limit: record", "")})
        return
    holds(libcrypto.ctr(K, 7, bytes(100)) == repositories.ctr(K, 7, bytes(100)), "libcrypto and the plain program differ")
    # Each manifest has an item key of its own, and both together are too long for one.
    long = lambda letter: [b"path", letter * (LARGEST_CONTENT // 2)]
    met_limit("manifest", source_of(Archive(keys, b"a", files), long(b"x")), target_of(item_keys=long(b"y")))
    # A record without a tag that is as long as a content may be is longer with its tag.
    untagged = lambda comment: Archive(keys, b"a", files, how={"tam": "none", b"comment": comment})
    met_limit("record", source_of(untagged(b"x" * (LARGEST_CONTENT - len(untagged(b"").record)))), target_of())


def rows():
    """Each row of the table of plain words was met, one that serves both repositories for each of them."""
    for row in PLAIN:
        sides = sorted(side for of, side in met if of == row)
        if row not in untried:
            holds(sides == ["source", "target"] if row[0].startswith("refused: ") or "{place}" in row[1] else len(sides) == 1, f"plain words: {row} is met for {sides}")


READING = (folders, logs, damage, memory, names, words, keys_of_configs, listings, archives, checked, every_byte)
CASES = (*READING, key_files, targets, refused_targets, transfers, foreseen, changed_in_place, plans, restores, deletions, taggings, compactions, locks, written, drills, limits, entropy, variables, of_borg, other_files, lone_key, one_key, rolled_back, streams, large_files, told_before, parents, named_archives, outputs, progress)


def main(chosen):
    for cases in CASES:
        if not chosen or cases.__name__ in chosen:
            cases()
    if not chosen:
        rows()
    finish()


main(sys.argv[2:])
