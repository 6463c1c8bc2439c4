#!/usr/bin/env python3
"""The tags of archive records by Borg's own code: tags.py [PROGRAM]

A person starts it; no part of the gate does. Borg makes a repository of three archives, the first two with records that have no tag, as old releases wrote them: its
`pack_and_authenticate_metadata` is told not to for these. `tag-archives` gives them their tags. Then Borg's own Python code opens the repository and its key, and runs
its verification of a manifest's tag over each record with the word `archive` in the place of `manifest`, which is what Borg 1.2.5 and later do with records: the first
two have no tag before, each has the right one behind, and it is refused where one bit is changed and under the manifest's word. Borg checks, lists and extracts the
repository before and behind, and makes a further archive.
Last line: 'N passed, M failed'; status 1 where M isn't 0.
"""
import glob
import os
import random
import shutil
import subprocess
import sys
import tempfile

sys.dont_write_bytecode = True
TOP = os.path.dirname(os.path.dirname(os.path.abspath(__file__)))
NAMES = ("a", "b", "c")
UNTAGGED = NAMES[:2]
# Borg, but that the records of archives get no tag.
OLDER = """
from borg.archiver import main
from borg.crypto.key import KeyBase
from borg.helpers import StableDict, msgpack
tagged = KeyBase.pack_and_authenticate_metadata

def packed(self, metadata_dict, context=b"manifest"):
    return msgpack.packb(StableDict(metadata_dict)) if context == b"archive" else tagged(self, metadata_dict, context)

KeyBase.pack_and_authenticate_metadata = packed
main()
"""
# Run by the interpreter that runs Borg: of each archive's record its name, and whether Borg's code finds a tag (`none`, `right` or the error), with the word of
# archives, with that of manifests, and with one bit of the record's comment changed.
READER = """
import sys
from borg.crypto.key import KeyBase
from borg.helpers import Location
from borg.helpers.manifest import Manifest
from borg.logger import setup_logging
from borg.repository import Repository

def verified(key, data, word):
    key._tam_key = lambda salt, context: KeyBase._tam_key(key, salt, word)
    key.tam_required = False
    try:
        return "right" if key.unpack_and_verify_manifest(data)[1] else "none"
    except Exception as error:
        return type(error).__name__

setup_logging()
with Repository(sys.argv[1], exclusive=True) as repository:
    repository._location = Location(sys.argv[1])
    manifest, key = Manifest.load(repository, (Manifest.Operation.CHECK,))
    for name, entry in sorted(manifest.archives._archives.items()):
        data = bytes(key.decrypt(entry[b"id"], repository.get(entry[b"id"])))
        at = data.index(b"comment") + len(b"comment") + 2
        changed = data[:at] + bytes([data[at] ^ 1]) + data[at + 1 :]
        print(name.decode() if isinstance(name, bytes) else name, verified(key, data, b"archive"), verified(key, data, b"manifest"), verified(key, changed, b"archive"))
"""
passed = failed = 0


def judge(holds, what):
    global passed, failed
    passed, failed = passed + bool(holds), failed + (not holds)
    if not holds:
        print(what, flush=True)


def run(root, *words, cwd=None):
    own = {
        "LC_ALL": "C.UTF-8", "TZ": "UTC", "BORG_BASE_DIR": f"{root}/base", "BORG_PASSPHRASE": "p", "BORG_OTHER_PASSPHRASE": "p",
        "BORG_RELOCATED_REPO_ACCESS_IS_OK": "yes", "PYTHONDONTWRITEBYTECODE": "1",
    }
    kept = {name: value for name, value in os.environ.items() if not name.startswith(("BORG_", "PYTHON"))}
    return subprocess.run(words, cwd=cwd or root, env={**kept, **own}, capture_output=True, text=True, check=False)


def interpreter():
    """The Python that runs Borg, by the first line of its program."""
    with open(shutil.which("borg"), encoding="utf-8") as file:
        return file.readline().removeprefix("#!").strip()


def tags(root):
    """What Borg's code finds of each record's tag."""
    ran = run(root, interpreter(), "-c", READER, f"{root}/repository")
    judge(ran.returncode == 0, f"Borg's code over the records: {ran.stderr}")
    return [line.split() for line in ran.stdout.splitlines()]


def make(root):
    some = random.Random(7)
    os.makedirs(f"{root}/tree")
    made = run(root, "borg", "init", "--encryption", "repokey", "repository")
    judge(made.returncode == 0, f"borg init: {made.stderr}")
    for name in NAMES:
        with open(f"{root}/tree/{name}", "wb") as file:
            file.write(some.randbytes(some.randrange(1, 300000)))
        borg = [interpreter(), "-c", OLDER] if name in UNTAGGED else ["borg"]
        made = run(root, *borg, "create", "--comment", "plain", "--compression", "none", f"repository::{name}", "tree")
        judge(made.returncode == 0, f"borg create: {made.stderr}")


def look(root, names):
    """Borg finds no fault, lists these archives, and extracts the last of the three as it was made."""
    checked = run(root, "borg", "check", "--verify-data", "repository")
    judge(checked.returncode == 0, f"borg check: {checked.stderr}")
    listed = run(root, "borg", "list", "--short", "repository")
    judge(listed.stdout.split() == list(names), f"borg list: {listed.stdout} {listed.stderr}")
    with tempfile.TemporaryDirectory(dir=root) as out:
        run(root, "borg", "extract", f"{root}/repository::{NAMES[-1]}", cwd=out)
        same = subprocess.run(["diff", "-r", f"{out}/tree", f"{root}/tree"], capture_output=True, check=False)
        judge(same.returncode == 0, f"borg extract: {same.stdout}")


def main(program):
    if shutil.which("borg") is None:
        print("skipped: there is no Borg\n0 passed, 0 failed")
        return 0
    with tempfile.TemporaryDirectory(prefix="borgferry-tags-") as root:
        make(root)
        look(root, NAMES)
        found, right = tags(root), ["right", "TAMInvalid", "TAMInvalid"]
        judge(found == [[name, *(3 * ["none"] if name in UNTAGGED else right)] for name in NAMES], f"before: {found}")
        ran = run(root, program, "-", "repository", "tag-archives")
        judge((ran.returncode, ran.stdout) == (0, "tagged 2\n"), f"tag-archives: {ran.returncode} {ran.stdout} {ran.stderr}")
        for path in [path for kind in ("index.*", "hints.*", "integrity.*") for path in glob.glob(f"{root}/repository/{kind}")]:
            os.remove(path)
        found = tags(root)
        judge(found == [[name, *right] for name in NAMES], f"behind: {found}")
        look(root, NAMES)
        made = run(root, "borg", "create", "--comment", "plain", "--compression", "none", "repository::d", "tree")
        judge(made.returncode == 0, f"borg create behind it: {made.stderr}")
        look(root, (*NAMES, "d"))
    print(f"{passed} passed, {failed} failed")
    return 1 if failed else 0


if __name__ == "__main__":
    sys.exit(main(sys.argv[1] if len(sys.argv) > 1 else f"{TOP}/target/borgferry"))
