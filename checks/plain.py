#!/usr/bin/env python3
"""What tools/borgferry-plain makes of repositories that real Borg wrote: plain.py PROGRAM [dear] [CASE ..]

Each case makes repositories by Borg, most of them compressed, and looks that the program refuses them before. Then the script makes them plain; ids, names, times,
comments and the trees that Borg extracts have to be as before, `borg check --verify-data` and the program's `check` have to end well, and then the next command of
both programs. With names of cases those alone are tried. With the word `dear` 100 runs are killed in place of 4, which takes some
minutes. What can't be tried here is told: without Borg 1.2 nothing can, without root no disk can be filled. Where the variable TIMES is set, each case's seconds are told.
One line for each thing that differs, and at the end 'N passed, M failed, K skipped'; status 1 where M isn't 0.
"""
import os
import random
import re
import subprocess
import sys
import tempfile
import time

sys.dont_write_bytecode = True
import borgs
import plain_stops
from borgs import borg, files, names, run
from counting import finish, judge, skip
from plain_tools import PROGRAM, SCRIPT, becomes_plain, check, goes_on, is_refused, make_tree, plain, reads, words_of, write

ZERO = "0" * 64
OLD_RECIPE = ("recreate", "--recompress", "--compression", "none", "--chunker-params", "fixed,65536", "--target")


def make_odd_tree(root):
    """What a tree can have beside files: an empty file and folder, links of both kinds, attributes, a hole, a pipe, names, modes."""
    make_tree(root, 99)
    write(f"{root}/tree/empty", b"")
    os.makedirs(f"{root}/tree/empty folder")
    os.symlink("nowhere", f"{root}/tree/link")
    os.link(f"{root}/tree/random", f"{root}/tree/second")
    os.mkfifo(f"{root}/tree/pipe")
    write(f"{root}/tree/n\u00e4me", b"x")
    os.chmod(f"{root}/tree/n\u00e4me", 0o4711)
    os.utime(f"{root}/tree/empty", ns=(1, 1234567890123456789))
    with open(f"{root}/tree/hole", "wb") as file:
        file.truncate(100000)
    try:
        os.setxattr(f"{root}/tree/folder/0", "user.name", b"value \0 of bytes")
    except OSError:
        skip("extended attributes: this file system has none")


COMPRESSIONS = ("lz4", "zstd", "zstd,19", "auto,zstd", "zlib", "lzma", "auto,lzma,6", "obfuscate,1,lz4", "none")


def compressions(root):
    """An archive by each compression of Borg, with odd files, comments and a checkpoint."""
    borgs.init(root, "old")
    for number, compression in enumerate(COMPRESSIONS):
        make_tree(root, number)
        borg(root, "create", "--compression", compression, "--comment", f"by {compression}\n\u00e4", f"old::{number}", "tree")
    make_odd_tree(root)
    borg(root, "create", "--timestamp", "2001-02-03T04:05:06", "old::odd", "tree")
    borg(root, "create", "old::odd.checkpoint", "tree")
    goes_on(root, "old", "compressions", becomes_plain(root, "old", "compressions"))


def renamed(root):
    """Behind `borg rename`, and `borg recreate` without a new name, the record is compressed and has the tag of before: that is told, and written where it is asked for."""
    borgs.init(root, "old")
    for name in ("a", "b", "c"):
        make_tree(root, ord(name))
        borg(root, "create", "--compression", "none", "--comment", name, f"old::{name}", "tree")
    borg(root, "rename", "old::a", "renamed")
    borg(root, "recreate", "--comment", "another", "old::b")
    is_refused(root, "old", "renamed")
    before, trees_before = without_ids(borgs.facts(root, "old")), borgs.trees(root, "old")
    ran = plain(root, "old")
    told = re.findall(r"archive (\S+): its record's tag is that of another text", ran.stdout)
    judge((ran.returncode, sorted(told)) == (1, ["b", "renamed"]) and "bad record 4" in ran.stdout, f"renamed: {ran.returncode} {ran.stdout!r} {ran.stderr!r}")
    ran = plain(root, "old", "--tag-archives")
    judge(ran.returncode == 0 and "\ntagged 2\n" in ran.stdout, f"renamed: {ran.returncode} {ran.stdout!r} {ran.stderr!r}")
    behind = without_ids(borgs.facts(root, "old"))
    judge((behind, borgs.trees(root, "old")) == (before, trees_before), f"renamed: behind it Borg says {behind}, and said {before}")
    goes_on(root, "old", "renamed", trees_before)


def without_ids(known):
    """What Borg says of each archive, but for the ids of records, and the numbers that come from their sizes."""
    return {kind: [{name: it for name, it in archive.items() if name not in ("id", "stats", "limits")} for archive in archives] for kind, archives in known.items()}


def interrupted(root):
    """An archive at which Borg was stopped: its checkpoint and part files stay as they are."""
    borgs.init(root, "old")
    words = ["borg", "create", "--checkpoint-interval", "1", "--chunker-params", "fixed,65536", "old::a", "-"]
    making = subprocess.Popen(words, cwd=root, env=borgs.variables(root), stdin=subprocess.PIPE)
    for number in range(3):
        making.stdin.write(words_of(number, 70000))
        making.stdin.flush()
        time.sleep(2)
    making.kill()
    making.communicate()
    if not any(".checkpoint" in name for name in names(root, "old")):
        skip("an archive at which Borg was stopped: it made no checkpoint in time")
        return
    goes_on(root, "old", "interrupted", becomes_plain(root, "old", "interrupted"))


def links(root):
    """3,000 symbolic links and one file by Borg's default, then the recipe that recreates each archive: the list of items stays compressed."""
    borgs.init(root, "old")
    write(f"{root}/tree/file", b"one\n")
    for number in range(3000):
        os.symlink(f"target-{number}", f"{root}/tree/{number}")
    stuck(root, "links", "lz4")


def small(root):
    """2,500 files of 300 bytes by auto,zstd, then the same recipe."""
    borgs.init(root, "old")
    for number in range(2500):
        write(f"{root}/tree/{number % 50}/{number}", random.Random(number).randbytes(300))
    stuck(root, "small", "auto,zstd")


def stuck(root, what, compression):
    borg(root, "create", "--compression", compression, "--comment", "kept", "old::a", "tree")
    borg(root, *OLD_RECIPE, "a.plain", "old::a")
    borg(root, "delete", "old::a")
    os.makedirs(f"{root}/none")
    borg(root, "create", "--compression", "none", "old::last", "none")
    judge(ZERO not in check(root, "old").stdout, f"{what}: the manifest isn't plain by the recipe")
    goes_on(root, "old", what, becomes_plain(root, "old", what))


def new(root):
    """A target of before in which Borg made an archive by its default: no archive can be deleted until it is plain."""
    borgs.init(root, "old")
    for number in range(2):
        make_tree(root, number)
        borg(root, "create", "--compression", "none", f"old::{number}", "tree")
    ran = run(root, PROGRAM, "-", "new", "init", "--iterations", "1000")
    judge(ran.returncode == 0, f"new: init says {ran.stdout!r}")
    # The manifest that Borg's init and config leave is plain here, since create wrote it last.
    judge(run(root, PROGRAM, "old", "new", "transfer").returncode == 0, "new: transfer")
    for number in range(500):
        os.symlink(f"target-{number}", f"{root}/tree/{number}")
    borg(root, "create", "new::compressed", "tree")
    borg(root, "create", "--compression", "none", "new::plain", "tree")
    ran = run(root, PROGRAM, "-", "new", "delete", "0")
    judge(ran.returncode != 0 and "blob 4" in ran.stdout, f"new: delete before says {ran.stdout!r}")
    becomes_plain(root, "new", "new")
    ran = run(root, PROGRAM, "-", "new", "delete", "0")
    judge((ran.returncode, ran.stdout[:10]) == (0, "deleted 0 "), f"new: delete behind says {ran.stdout!r} {ran.stderr!r}")
    judge(run(root, PROGRAM, "old", "new", "transfer").returncode == 0, "new: a transfer behind that")
    judge(run(root, PROGRAM, "-", "new", "compact").returncode == 0, "new: compact")
    out_of_date(root)


def out_of_date(root):
    """Borg's files that are out of date behind the program's `compact` are told, and nothing is written; without them the script goes on."""
    before = files(f"{root}/new")
    ran = plain(root, "new", "--unchecked")
    if ran.returncode != 0:
        judge(ran.returncode == 2 and "Remove index.*" in ran.stderr, f"out of date: {ran.returncode} {ran.stdout!r} {ran.stderr!r}")
        judge({name: it for name, it in files(f"{root}/new").items() if name.startswith("data/")} == {name: it for name, it in before.items() if name.startswith("data/")}, "out of date: segments changed")
    for name in os.listdir(f"{root}/new"):
        if name.startswith(("index.", "hints.", "integrity.")):
            os.remove(f"{root}/new/{name}")
    borg(root, "create", "new::compressed again", "tree")
    becomes_plain(root, "new", "new behind compact")


def keyfile(root):
    """A key in a file: the program is told which, and with which passphrase, though the variables of before name others."""
    borgs.init(root, "old", "keyfile")
    make_tree(root, 1)
    borg(root, "create", "old::a", "tree")
    key = os.path.join(f"{root}/base/.config/borg/keys", os.listdir(f"{root}/base/.config/borg/keys")[0])
    own = {"BORG_OTHER_KEY_FILE": key}
    is_refused(root, "old", "keyfile", own)
    ran = plain(root, "old", own={"BORG_OTHER_PASSPHRASE": "another", "BORG_PASSCOMMAND": "false"})
    judge(ran.returncode == 0 and "\nwell: borgferry " in ran.stdout, f"keyfile: {ran.returncode} {ran.stdout!r} {ran.stderr!r}")
    reads(root, "old", "keyfile", own)
    borg(root, "create", "old::b", "tree")
    without = {"BORG_PASSPHRASE": "p", "BORG_KEY_FILE": key}
    ran = run(root, "sh", "-c", f"unset BORG_PASSPHRASE; exec {SCRIPT} old", own={**without, "BORG_PASSCOMMAND": "echo p"})
    judge(ran.returncode == 0, f"keyfile and a passphrase by a command: {ran.returncode} {ran.stdout!r} {ran.stderr!r}")
    reads(root, "old", "keyfile", own)


CASES = (compressions, renamed, interrupted, links, small, new, keyfile, *plain_stops.CASES)


def main():
    if borgs.interpreter() is None:
        skip("all of borgferry-plain: there is no Borg 1.2")
        finish()
    wanted = [name for name in sys.argv[2:] if name != "dear"]
    for case in CASES:
        if wanted and case.__name__ not in wanted:
            continue
        with tempfile.TemporaryDirectory(prefix="borgferry-plain-") as root:
            os.makedirs(f"{root}/bin")
            os.symlink(PROGRAM, f"{root}/bin/borgferry")
            at = time.monotonic()
            case(root)
            if "TIMES" in os.environ:
                print(f"{case.__name__}: {time.monotonic() - at:.1f} s, {borgs.spent} s by program", flush=True)
                borgs.spent.clear()
    finish()


if __name__ == "__main__":
    main()
