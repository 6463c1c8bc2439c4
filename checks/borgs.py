"""Real Borg in a folder of its own: its commands, keys of few iterations, what it says of each archive, and the trees that it extracts."""
import hashlib
import json
import os
import shutil
import stat
import subprocess
import tempfile
import time

# Borg, but that a new key has few iterations: each command that opens it is quick then.
QUICK = """
import borg.constants
borg.constants.PBKDF2_ITERATIONS = 1000
from borg.archiver import main
main()
"""

# The seconds that each program took.
spent = {}


def interpreter():
    """The Python that runs Borg, by the first line of its program: `None` where there is no Borg 1.2."""
    borg = shutil.which("borg")
    if borg is None or not subprocess.run([borg, "--version"], capture_output=True, text=True, check=False).stdout.startswith("borg 1.2."):
        return None
    with open(borg, encoding="utf-8", errors="replace") as file:
        words = file.readline().removeprefix("#!").split()
    return words[0] if words and os.access(words[0], os.X_OK) else None


def variables(root, **own):
    """The variables of a command: Borg's folders lie below `root`, and both passphrases are `p`."""
    kept = {name: value for name, value in os.environ.items() if not name.startswith(("BORG_", "PYTHON"))}
    kept["PATH"] = f"{root}/bin:{kept['PATH']}"
    fixed = {
        "LC_ALL": "C.UTF-8", "TZ": "UTC", "BORG_BASE_DIR": f"{root}/base", "BORG_PASSPHRASE": "p", "BORG_OTHER_PASSPHRASE": "p",
        "BORG_RELOCATED_REPO_ACCESS_IS_OK": "yes", "BORG_UNKNOWN_UNENCRYPTED_REPO_ACCESS_IS_OK": "yes", "PYTHONDONTWRITEBYTECODE": "1",
    }
    return {**kept, **fixed, **own}


def run(root, *words, cwd=None, own=None):
    at = time.monotonic()
    ran = subprocess.run(words, cwd=cwd or root, env=variables(root, **(own or {})), capture_output=True, text=True, errors="replace", check=False)
    name = os.path.basename(words[0])
    spent[name] = spent.get(name, 0) + time.monotonic() - at
    return ran


def borg(root, *words, cwd=None):
    """What a command of Borg prints. One that doesn't end with 0 ends the check: the case can't be made."""
    ran = run(root, "borg", *words, cwd=cwd)
    if ran.returncode != 0:
        raise RuntimeError(f"borg {' '.join(words)}: {ran.returncode} {ran.stderr}")
    return ran.stdout


def init(root, folder, mode="repokey"):
    made = run(root, interpreter(), "-c", QUICK, "init", "--encryption", mode, folder)
    if made.returncode != 0:
        raise RuntimeError(f"borg init: {made.stderr}")
    for name, value in (("segments_per_dir", "10"), ("max_segment_size", "100000")):
        borg(root, "config", folder, name, value)


def facts(root, folder):
    """What Borg says of each archive: name, id, times, comment, record and numbers."""
    listed = json.loads(borg(root, "list", "--json", "--consider-checkpoints", "--format", "{name}{id}{start}{end}{comment}{hostname}{username}", folder))["archives"]
    known = json.loads(borg(root, "info", "--json", "--glob-archives", "*", folder))["archives"] if listed else []
    return {"listed": listed, "known": known}


def attributes(path):
    return {name: os.getxattr(path, name, follow_symlinks=False) for name in os.listxattr(path, follow_symlinks=False)}


def one(path):
    """What one thing of a tree is: its kind and mode, owner, time, content or where it leads, and extended attributes."""
    found = os.lstat(path)
    content = None
    if stat.S_ISLNK(found.st_mode):
        content = os.readlink(path)
    elif stat.S_ISREG(found.st_mode):
        with open(path, "rb") as file:
            content = hashlib.sha256(file.read()).hexdigest()
    # A folder's time is that of what was made in it last, where Borg skipped a part; its own is set by Borg.
    return oct(found.st_mode), found.st_uid, found.st_gid, found.st_mtime_ns, content, attributes(path)


def tree(folder):
    """All of a tree by path, and which paths are one file."""
    found, links = {}, {}
    for place, folders, files in os.walk(folder):
        for name in folders + files:
            path = os.path.join(place, name)
            found[os.path.relpath(path, folder)] = one(path)
            if os.lstat(path).st_nlink > 1 and not os.path.isdir(path):
                links.setdefault(os.lstat(path).st_ino, set()).add(os.path.relpath(path, folder))
    return found, sorted(map(sorted, links.values()))


def extracted(root, folder, name):
    """The tree of an archive, as Borg extracts it."""
    with tempfile.TemporaryDirectory(dir=root) as out:
        borg(root, "extract", f"{os.path.join(root, folder)}::{name}", cwd=out)
        return tree(out)


def names(root, folder):
    return borg(root, "list", "--short", "--consider-checkpoints", folder).splitlines()


def trees(root, folder, of=None):
    """The trees of these archives, or of all."""
    return {name: extracted(root, folder, name) for name in of or names(root, folder)}


def files(folder):
    """All files of a repository with their contents, Borg's lock apart."""
    found = {}
    for place, _, inside in os.walk(folder):
        for name in inside:
            if not name.startswith("lock."):
                with open(os.path.join(place, name), "rb") as file:
                    found[os.path.relpath(os.path.join(place, name), folder)] = file.read()
    return found
