#!/usr/bin/env python3
"""Wrong bodies that the gate leaves out, which the prover has to refuse: edits.py [NAME ..]

A person starts it; no part of the gate does, since a crate is proved once more before its wrong bodies are tried. It copies crates/ into a temporary folder, with what
`rt check` or `./build` left in out/, without which all crates below are proved first; puts the edits of checks/edits/NAME in the place of those in
crates/NAME/must-fail; and runs `rt must-fail NAME` there: for the crates that are named, or for each that has a folder in checks/edits. A line for each edit, and at
the end 'N refused, M not'; status 1 where M isn't 0. checks/docs.sh looks whether each still fits the code.
"""
import glob
import os
import re
import shutil
import subprocess
import sys
import tempfile

CHECKS = os.path.dirname(os.path.abspath(__file__))
TOP = os.path.dirname(CHECKS)


def link_or_copy(one, other):
    """Gives a large file, which `rt` replaces and never writes into, a second name, and copies the others."""
    try:
        if os.path.getsize(one) > 65536:
            return os.link(one, other)
    except OSError:
        pass
    return shutil.copy2(one, other)


def copy_into(folder, names):
    """Copies what a proof reads into the folder, with the edits of these crates."""
    for name in ("crates.txt", "HANDLES"):
        shutil.copy2(f"{TOP}/{name}", folder)
    shutil.copytree(f"{TOP}/crates", f"{folder}/crates", ignore=shutil.ignore_patterns("must-fail"), copy_function=link_or_copy)
    for name in names:
        shutil.copytree(f"{CHECKS}/edits/{name}", f"{folder}/crates/{name}/must-fail")


def main(words):
    there = sorted(os.path.basename(path) for path in glob.glob(f"{CHECKS}/edits/*"))
    unknown = [word for word in words if word not in there]
    if unknown:
        print(f"edits: there are none of {', '.join(unknown)}", file=sys.stderr)
        return 2
    names = words or there
    with tempfile.TemporaryDirectory(prefix="borgferry-edits-") as folder:
        copy_into(folder, names)
        ran = subprocess.run(["rt", "must-fail", *names], cwd=folder, stdout=subprocess.PIPE, text=True, errors="replace", check=False)
    lines = [line for line in ran.stdout.splitlines() if re.search(r"must-fail \S+\.edit: ", line)]
    print("\n".join(line.replace("rt: must-fail ", "") for line in lines))
    refused = sum(": refused, as it must be" in line for line in lines)
    edits = sum(len(glob.glob(f"{CHECKS}/edits/{name}/*.edit")) for name in names)
    print(f"{refused} refused, {edits - refused} not")
    return 0 if refused == edits else 1


if __name__ == "__main__":
    sys.exit(main(sys.argv[1:]))
