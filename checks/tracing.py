"""The calls of the system that a program makes, as strace tells them, and how strace refuses one of them or kills the program at it.

strace counts `when=N` of each name of a call apart. So the Nth of all calls is named by its name and its number among those of that name, as a run
before it shows them.
"""
import os
import re

CALLS = (
    "mkdir", "mkdirat", "openat", "write", "pwrite64", "ftruncate", "fsync", "fdatasync", "rename", "renameat", "renameat2",
    "link", "linkat", "symlink", "symlinkat", "unlink", "unlinkat", "rmdir",
)
CALL = re.compile(r"^(?:\d+ +)?(\w+)\((.*)\) += (-?\d+)")


def tracing(log, *inject):
    """The words in front of those of a program whose calls are written to a file; with one of them injected, as `killing` and `refusing` say."""
    return ["strace", "-y", "-o", log, "-e", f"trace={','.join(CALLS)}", *inject]


def killing(place):
    """What kills the program as it makes the call of this place."""
    name, number = place
    return ["-e", f"inject={name}:signal=KILL:when={number}"]


def refusing(place, error):
    """What has the system refuse the call of this place."""
    name, number = place
    return ["-e", f"inject={name}:error={error}:when={number}"]


def lines_of(log):
    with open(log, encoding="utf-8", errors="replace") as file:
        return file.read().splitlines()


def places(log, folder):
    """The calls of a run from the first one on that names this folder, in order: the name of each, and its number among those of that name."""
    counts, found = {}, []
    for line in lines_of(log):
        name = re.match(r"^(?:\d+ +)?(\w+)\(", line)
        if name:
            counts[name[1]] = counts.get(name[1], 0) + 1
            if found or folder in line:
                found.append((name[1], counts[name[1]]))
    return found


def changes(log, root, folder):
    """What a run changed or made stable in a folder of `root`, in order: the name of each call that did and the paths that it is about, seen from the
    folder; many that are the same behind one another are one."""
    told = []
    for line in lines_of(log):
        call = CALL.match(line)
        if call and call[1] != "openat" and int(call[3]) >= 0:
            about = call[2].split(", ")[0] if call[1] == "write" else re.sub(r"AT_FDCWD<[^<>]*>, ", "", call[2])
            named = re.findall(r'<([^<>]*)>|"([^"]*)"', about)
            paths = [os.path.relpath(opened or os.path.join(root, word), os.path.join(root, folder)) for opened, word in named]
            one = (call[1].removesuffix("at2").removesuffix("at"), " ".join(paths))
            if paths and not paths[0].startswith("../") and told[-1:] != [one]:
                told.append(one)
    return told
