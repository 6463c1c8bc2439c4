"""Cases of checks/devices.py: folders with many entries, hidden ones and ones that can't be listed to their end, and folders where an archive is restored."""
import os
import shutil
import subprocess
import threading
import time

import segments
import tracing
from counting import judge, skip
from repositories import Item, Keys
from running import DELETE, INIT, ITEM, TRANSFER, ended, injected, make_archive, make_source, make_target, run, state, write

KEYS = ("source", "-", "keys")
RESTORE = ("source", "folder", "restore", "a")
RESTORED = b"restored 1 files 0 folders 0 links 0 skipped\n"
SETTINGS = b"[repository]\nversion = 1\nid = %s\nsegments_per_dir = %d\n"


def many(root):
    """Of more than 1,000 numbered folders, and of more than 1,000 segments in one, each is found."""
    count = 1100
    for name, per_folder, place in (("folders", 1, lambda number: number), ("segments in one folder", 2000, lambda _: 0), ("segments in a folder that isn't theirs", 1000, lambda _: 7)):
        shutil.rmtree(os.path.join(root, "source"), ignore_errors=True)
        write(os.path.join(root, "source/config"), SETTINGS % (b"00" * 32, per_folder))
        for number in range(count):
            content = segments.segment(segments.put(number.to_bytes(32, "big"), b"content"))
            write(os.path.join(root, f"source/data/{place(number)}/{number}"), content if number < count - 1 else segments.COMMIT_SEGMENT)
        status, wanted = segments.keys(os.path.join(root, "source"))
        ended(f"{count} {name}", run(root, *KEYS), status, wanted)
        judge(wanted.count(b"\n") == count - 1, f"{count} {name}: {wanted.count(bytes([10]))} keys")


HIDDEN = (".7", "data/.7", "data/0/.7", "data/.1/2", "data/0/.hidden", ".borgferry-new")


def hidden(root):
    """Names that begin with a dot are no segments and no numbered folders, and stay; a folder that has one isn't empty."""
    make_source(root)
    make_target(root)
    wanted = segments.keys(os.path.join(root, "source"))
    for name in HIDDEN:
        for folder in ("source", "target"):
            write(os.path.join(root, folder, name), segments.segment(segments.put(bytes(32), b"hidden")) + segments.COMMIT)
    ended("keys beside hidden files", run(root, *KEYS), *wanted)
    for words in (("-", "target", "compact", "--threshold", "0"), DELETE):
        ended(f"{words[2]} beside hidden files", run(root, *words), 0)
        there = [name for name in HIDDEN if os.path.exists(os.path.join(root, "target", name))]
        judge(there == list(HIDDEN), f"{words[2]}: of the hidden files {there} are there")
    for name in (".hidden", "..hidden", ". "):
        folder = os.path.join(root, "folder")
        write(os.path.join(folder, name), b"kept")
        before = state(folder)
        ended(f"restore beside {name!r}", run(root, *RESTORE), 14, b"not empty\n")
        judge(state(folder) == before, f"restore beside {name!r}: {state(folder)}")
        shutil.rmtree(folder)


def add_names(root, folder):
    """Adds names of no segment to a repository, so many that the system lists them in parts."""
    for number in range(400):
        write(os.path.join(root, folder, f"data/0/{1000 + number}x"), b"")


def make_long_target(root):
    shutil.rmtree(os.path.join(root, "target"), ignore_errors=True)
    make_target(root)
    add_names(root, "target")


def refused_entries(root):
    """A folder whose entries can't be listed to their end is a failed device, of whichever part the system refuses. One that is listed in front of the command may be left to it."""
    make_source(root)
    add_names(root, "source")
    for words, folder, status in ((KEYS, "source", 4), (DELETE, "target", 5)):
        make_long_target(root)
        listing = injected(root, "-P", f"{folder}/data/0", "-e", "trace=getdents64", "-e")
        ended(words[2], run(root, *words, prefix=[*listing[:-1]]), 0)
        listed = [line for line in tracing.lines_of(os.path.join(root, "calls")) if "getdents64(" in line]
        # A deletion is preceded by a look at the numbers of its cipher, which lists the folder once.
        before = [line.endswith("= 0") for line in listed].index(True) + 1 if words == DELETE else 0
        judge(len(listed) >= before + 3, f"{words[2]}: the folder is listed in {len(listed) - before} parts")
        for part in range(1, len(listed) + 1):
            make_long_target(root)
            kept = state(os.path.join(root, folder))
            ran = run(root, *words, prefix=[*listing, f"inject=getdents64:error=EIO:when={part}"])
            what = f"{words[2]}: part {part} of a folder refused"
            if part > before or ran.returncode != 0:
                ended(what, ran, status, b"%s device failed\n" % folder.encode())
                judge(state(os.path.join(root, folder)) == kept, f"{what}: something has changed")
    os.mkdir(os.path.join(root, "folder"))
    ran = run(root, *RESTORE, prefix=injected(root, "-P", "folder", "-e", "trace=getdents64", "-e", "inject=getdents64:error=EIO"))
    judge(ran.returncode == 13 and not os.listdir(os.path.join(root, "folder")), f"restore in a folder that can't be listed: {ran.returncode} {ran.stdout!r}")


def into_source(root):
    """An archive that is restored in a folder of its own source leaves all that was there as it was."""
    make_source(root)
    source = os.path.join(root, "source")
    before = state(source)
    keys = run(root, *KEYS).stdout
    for place, status, out in [
        ("source", 2, b"usage\n"), ("./source/", 2, b"usage\n"), ("source/data/..", 2, b"usage\n"), ("source/data", 14, b"not empty\n"), ("source/data/0", 14, b"not empty\n"),
        ("source/config", 13, b"tree failed\n"), ("source/data/0/0", 13, b"tree failed\n"), ("source/x", 0, RESTORED), ("source/data/x", 0, RESTORED),
    ]:
        ended(f"restore in {place}", run(root, "source", place, "restore", "a"), status, out)
        now = state(source)
        judge({name: now.get(name) for name in before} == before, f"restore in {place} changes the source")
        judge(status == 0 or len(now) == len(before), f"restore in {place} makes {sorted(set(now) - set(before))}")
        ended(f"keys behind a restore in {place}", run(root, *KEYS), 0, keys)
        if status == 0:
            shutil.rmtree(os.path.join(root, place))


TREE = [
    Item(b"first", [b"first"], more=ITEM), Item(b"file", [b"content"], more=ITEM), Item(b"folder", more={**ITEM, b"mode": 0o40755}), Item(b"folder/file", [b"b" * 64], more=ITEM),
    Item(b"new/file", [b"c" * 64], more=ITEM), Item(b"same", source=b"first", more=ITEM), Item(b"link", source=b"first", more={**ITEM, b"mode": 0o120777}),
]


def behind_links(root):
    """Where a link comes to stand in the folder while an archive is restored there, nothing is made through it: each kind of item fails at its name."""
    make_archive(root, "source", TREE)
    outside = os.path.join(root, "outside")
    folder = os.path.join(root, "folder")
    for name in ("file", "folder", "new", "same", "link"):
        for is_there in (True, False):
            shutil.rmtree(outside, ignore_errors=True)
            os.mkdir(outside)
            leads = os.path.join(outside, name)
            if is_there:
                write(os.path.join(leads, "kept") if name in ("folder", "new") else leads, b"kept")
            before = state(outside)
            put = threading.Thread(target=link_in, args=(folder, name, leads))
            put.start()
            # The folder is made, and the link is put into it, before the program goes on.
            ran = run(root, *RESTORE, prefix=injected(root, "-e", "trace=mkdir", "-e", "inject=mkdir:delay_exit=300000:when=1"))
            put.join()
            what = f"restore over a link {name} to what is {'there' if is_there else 'absent'}"
            ended(what, ran, 13, b"tree failed\n")
            judge(state(outside) == before, f"{what}: outside is {sorted(state(outside))}")
            judge(os.path.islink(os.path.join(folder, name)), f"{what}: the link has gone")
            shutil.rmtree(folder)
    os.symlink("outside", folder)
    before = state(outside)
    ran = run(root, *RESTORE)
    judge(ran.returncode in (0, 13, 14, 17), f"restore in a link to a folder: {ran.returncode} {ran.stdout!r}")
    judge(ran.returncode == 0 or state(outside) == before, f"restore in a link to a folder: {sorted(state(outside))}")


def link_in(folder, name, leads):
    """Waits for a folder, for half a minute at most, and puts a link into it."""
    for _ in range(30000):
        if os.path.isdir(folder):
            return os.symlink(leads, os.path.join(folder, name))
        time.sleep(0.001)


def silent(root):
    """A long restoring shows nothing on standard error where that is no terminal."""
    make_source(root, contents=30)
    ran = run(root, *RESTORE, prefix=injected(root, "-e", "trace=lseek", "-e", "inject=lseek:delay_exit=50000"))
    ended("a slow restore", ran, 0, RESTORED)
    slow = sum("lseek(" in line for line in tracing.lines_of(os.path.join(root, "calls")))
    judge(slow >= 20, f"a slow restore makes {slow} slow calls")
    judge(ran.stderr == b"", f"a slow restore shows {ran.stderr!r}")


BLOCK = 4096


def is_sparse(path, size):
    """Whether a file of this size takes less than a quarter of it."""
    found = os.stat(path)
    return found.st_size == size and found.st_blocks * 512 < size / 4


def holes(root):
    """Zeros that are restored take no room, and are as many as they were, at the front, within and at the end of a file."""
    front, end = bytes(16 * BLOCK), bytes(32 * BLOCK)
    contents = {b"front": [front, b"behind"], b"end": [b"before", end], b"within": [b"before", front, b"between", end, b"behind"], b"all": [end], b"chunk": [b"x" * BLOCK + front + b"y"]}
    make_archive(root, "source", [Item(path, chunks, more=ITEM) for path, chunks in contents.items()])
    ended("restore", run(root, *RESTORE), 0, b"restored 5 files 0 folders 0 links 0 skipped\n")
    for path, chunks in contents.items():
        place, wanted = os.path.join(root, "folder", path.decode()), b"".join(chunks)
        with open(place, "rb") as file:
            judge(file.read() == wanted, f"the file {path.decode()} differs")
        judge(is_sparse(place, len(wanted)), f"the file {path.decode()} takes {os.stat(place).st_blocks * 512} bytes of {len(wanted)}")


def mounted(place):
    """Whether a file system in memory could be mounted at a place."""
    os.mkdir(place)
    return shutil.which("mount") is not None and subprocess.run(["mount", "-t", "tmpfs", "tmpfs", place], stderr=subprocess.DEVNULL).returncode == 0


def two_systems(root):
    """Two folders of one inode number on two file systems are two."""
    places = [os.path.join(root, name) for name in ("source", "target")]
    are_mounted = [mounted(place) for place in places]
    try:
        if not all(are_mounted):
            skip("one inode number on two file systems: none can be mounted")
        elif len({os.stat(place).st_ino for place in places}) == 2:
            skip("one inode number on two file systems: they number their folders apart")
        else:
            make_source(root)
            ended("init on another file system", run(root, *INIT), 0)
            ended("a transfer between file systems", run(root, *TRANSFER), 0)
            ended("check", run(root, "target", "-", "check"), 0, b"ok archives 1 chunks 6 orphans 0 untagged 0\n")
    finally:
        for place, is_mounted in zip(places, are_mounted):
            if is_mounted:
                subprocess.run(["umount", place], check=True)


MIB = 1 << 20
LARGE = 20 * MIB - 41


def places_behind(root, border):
    """What lies behind a border of a segment is found there: of a file that is a hole but for the heads of its entries."""
    make_source(root)
    place = os.path.join(root, "source/data/0/0")
    with open(place, "rb") as file:
        entries = file.read()[8:]
    size = min(LARGE, border)
    filler = segments.put(b"\xff" * 32, bytes(size))
    with open(place, "wb") as file:
        file.write(segments.MAGIC)
        for _ in range(border // len(filler) + 1):
            file.write(filler[:41])
            file.seek(size, os.SEEK_CUR)
        judge(border < file.tell() < 2 * border, f"the entries lie from byte {file.tell()} on")
        file.write(entries)
    judge(is_sparse(place, os.stat(place).st_size), "the segment isn't sparse")
    ended(f"extract behind {border} bytes", run(root, "source", "-", "extract", "a", "file"), 0, b"".join(bytes([65 + number]) * 64 for number in range(4)))


def holes_to(root, border):
    """A file of more bytes than a border, almost all of them zeros, is restored with its length, and takes no room."""
    zeros = bytes(min(8 * MIB, border // 2))
    count = border // len(zeros) + 1
    keys = Keys()
    ids = [keys.id(b"front"), *[keys.id(zeros)] * count, keys.id(b"end")]
    make_archive(root, "source", [Item(b"file", [b"front"] + [zeros] * count + [b"end"], ids=ids, more=ITEM)], keys)
    ended(f"restore of {border} zeros", run(root, *RESTORE), 0, RESTORED)
    place, size = os.path.join(root, "folder/file"), count * len(zeros) + 8
    judge(is_sparse(place, size), f"the file has {os.stat(place).st_size} bytes for {size} and takes {os.stat(place).st_blocks * 512}")
    with open(place, "rb") as file:
        ends = file.read(8), file.seek(-4, os.SEEK_END), file.read()
    judge((ends[0], ends[2]) == (b"front\0\0\0", b"\0end"), f"the file begins and ends with {ends}")


# A program that is built with a sanitizer reads too slowly for the far borders: its planted bugs lie at the near ones, over which the same is tried.
NEAR, FAR = 1 << 20, 1 << 32


def near_places(root):
    places_behind(root, NEAR)


def far_places(root):
    places_behind(root, FAR)


def near_holes(root):
    holes_to(root, NEAR)


def far_holes(root):
    holes_to(root, FAR)


CASES = (many, hidden, into_source, holes, near_places, near_holes, two_systems)
NEED_STRACE = (refused_entries, behind_links, silent)
OF_A_PERSON = (far_places, far_holes)
