#!/usr/bin/env python3
"""Deletions and compactions beside Borg's own reading: upkeep.py [PROGRAM] [ARCHIVES]

A person starts it; no part of the gate does. Borg makes a repository of that many archives (50) of files of uneven sizes, of which each archive shares a part with
the one before, stored plain; they are transferred. Then the archives of the target are deleted one by one, in an order by chance, and it is compacted in between,
behind each third with another threshold. After each step Borg's own files in the target are removed, as the line on standard error says, and `borg check
--verify-data` and `borg list` have to agree: no fault, and the archives that are left. Each second step one of these is extracted by Borg and compared with what
it was made of. At the end the target is empty and compacted, and Borg makes an archive in it. Last line: 'N passed, M failed'; status 1 where M isn't 0.
"""
import glob
import os
import random
import shutil
import subprocess
import sys
import tempfile

sys.dont_write_bytecode = True
TOP = os.path.dirname(os.path.dirname(os.path.abspath(__file__)))
passed = failed = 0


def judge(holds, what):
    global passed, failed
    passed, failed = passed + bool(holds), failed + (not holds)
    if not holds:
        print(what, flush=True)


def run(root, *words, **more):
    own = {"LC_ALL": "C.UTF-8", "TZ": "UTC", "BORG_BASE_DIR": f"{root}/base", "BORG_PASSPHRASE": "p", "BORG_OTHER_PASSPHRASE": "p"}
    kept = {name: value for name, value in os.environ.items() if not name.startswith("BORG_")}
    return subprocess.run(words, cwd=more.get("cwd", root), env={**kept, **own}, capture_output=True, text=True, check=False)


def make_archives(root, count):
    """Makes the archives, and folders with what is in each."""
    numbers = random.Random(7)
    run(root, "borg", "init", "-e", "repokey", "old")
    files = {}
    for archive in range(count):
        for name in random.Random(archive).sample(sorted(files), len(files) // 2):
            del files[name]
        for number in range(6):
            files[f"{archive}-{number}"] = numbers.randbytes(int(2 ** numbers.uniform(4, 18)))
        tree = f"{root}/trees/a{archive:02d}/tree"
        os.makedirs(tree)
        for name, content in files.items():
            with open(f"{tree}/{name}", "wb") as file:
                file.write(content)
        made = run(root, "borg", "create", "--compression", "none", "../../old::" + f"a{archive:02d}", "tree", cwd=f"{root}/trees/a{archive:02d}")
        judge(made.returncode == 0, f"borg create of a{archive:02d}: {made.stderr}")


def forget(root):
    """Removes Borg's own files in the target, as the program asks for."""
    for path in [path for kind in ("index.*", "hints.*", "integrity.*") for path in glob.glob(f"{root}/new/{kind}")]:
        os.remove(path)


def look(root, left, extracted):
    """Borg finds the target without fault, with the archives that are left, and extracts one of them as it was."""
    forget(root)
    checked = run(root, "borg", "check", "--verify-data", "new")
    judge(checked.returncode == 0, f"borg check: {checked.stderr}")
    listed = run(root, "borg", "list", "--short", "new")
    judge(listed.stdout.split() == sorted(left), f"borg list: {listed.stdout} {listed.stderr}")
    if extracted:
        os.makedirs(f"{root}/out")
        run(root, "borg", "extract", f"../new::{extracted}", cwd=f"{root}/out")
        same = subprocess.run(["diff", "-r", f"{root}/out/tree", f"{root}/trees/{extracted}/tree"], capture_output=True, check=False)
        judge(same.returncode == 0, f"borg extract of {extracted}: {same.stdout}")
        shutil.rmtree(f"{root}/out")


def main(program, count):
    with tempfile.TemporaryDirectory(prefix="borgferry-upkeep-") as root:
        make_archives(root, count)
        judge(run(root, program, "-", "new", "init", "--iterations", "1000").returncode == 0, "init")
        judge(run(root, program, "old", "new", "transfer", "--block", "65536").returncode == 0, "transfer")
        left = [f"a{archive:02d}" for archive in range(count)]
        look(root, left, left[-1])
        order = list(left)
        random.Random(8).shuffle(order)
        for step, name in enumerate(order):
            deleted = run(root, program, "-", "new", "delete", name)
            left.remove(name)
            judge(deleted.returncode == 0 and deleted.stdout.startswith(f"deleted {name} chunks "), f"delete {name}: {deleted.stdout} {deleted.stderr}")
            if step % 3 == 2:
                compacted = run(root, program, "-", "new", "compact", "--threshold", str((step * 7) % 101))
                judge(compacted.returncode == 0, f"compact: {compacted.stdout} {compacted.stderr}")
            look(root, left, left[step % len(left)] if left and step % 2 else None)
        judge(run(root, program, "-", "new", "compact", "--threshold", "0").returncode == 0, "compact at the end")
        forget(root)
        made = run(root, "borg", "create", "--compression", "none", "../../new::last", "tree", cwd=f"{root}/trees/a00")
        judge(made.returncode == 0, f"borg create: {made.stderr}")
        look(root, ["last"], None)
    print(f"{passed} passed, {failed} failed")
    return 1 if failed else 0


if __name__ == "__main__":
    sys.exit(main(sys.argv[1] if len(sys.argv) > 1 else f"{TOP}/target/borgferry", int(sys.argv[2]) if len(sys.argv) > 2 else 50))
