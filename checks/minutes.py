"""Samples the processes of a `rt ci` and prints the processor minutes that each crate took: its proof, its tests, its must-fail edits.

`python3 checks/minutes.py [NAME ..]` starts `rt ci NAME ..` and samples what it starts, each half second; what an earlier run kept costs
nothing and has no figure. `python3 checks/minutes.py --beside FILE` starts nothing: until it is ended it samples each `rt ci` that runs on
the machine, whoever started it, and notes its processes in FILE, from which a later `--table FILE [SECONDS]` prints those that were begun
since then (seconds since 1970).
"""

import json
import os
import signal
import subprocess
import sys
import time

PAUSE = 0.5
TICKS = os.sysconf("SC_CLK_TCK")
KINDS = ["proof", "tests", "edits"]


def words_of(number):
    with open(f"/proc/{number}/cmdline", "rb") as file:
        return file.read().decode(errors="replace").split("\0")


def status_of(number):
    """The parent, the seconds of the processor, those of children that ended among them, and when it started."""
    with open(f"/proc/{number}/stat", encoding="utf-8", errors="replace") as file:
        fields = file.read().rpartition(")")[2].split()
    return int(fields[1]), sum(map(int, fields[11:15])) / TICKS, int(fields[19])


def kind_of(words):
    """Which part of the gate a call of the compiler is, and of which crate; None where it is no such call."""
    if len(words) < 4 or os.path.basename(words[0]) != "rattle" or "--crate-name" not in words:
        return None
    name = words[words.index("--crate-name") + 1]
    if "--test" in words:
        return name, "tests"
    if words[1] == "check" and not any(word.endswith("/checked") for word in words):
        return name, "edits"
    return name, "proof"


def is_gate(words):
    """Whether a process is a `rt ci`."""
    names = [os.path.basename(word) for word in words[:4]]
    return "rt" in names and names[names.index("rt") + 1 :][:1] == ["ci"]


def descends(number, parents, roots):
    while number in parents and number not in roots:
        number = parents[number]
    return number in roots


def sample(root, seen):
    """Notes what each process below the root, or below each gate where there is none, has taken up to now."""
    parents, found, gates = {}, {}, set()
    for name in os.listdir("/proc"):
        if name.isdigit():
            try:
                parent, seconds, start = status_of(name)
                words = words_of(name)
            except (OSError, IndexError, ValueError):
                continue
            parents[int(name)] = parent
            found[int(name)] = (seconds, start, kind_of(words))
            if is_gate(words):
                gates.add(int(name))
    for number, (seconds, start, kind) in found.items():
        if kind and descends(number, parents, gates if root is None else {root}):
            key = f"{number}.{start}"
            begun = seen[key][3] if key in seen else time.time()
            seen[key] = (*kind, seconds, begun)


def sums_of(seen, since=0):
    sums = {}
    for name, kind, seconds, begun in seen.values():
        if begun >= since:
            of = sums.setdefault(name, dict.fromkeys(KINDS, 0.0))
            of[kind] += seconds / 60
    return sums


def ordered(sums):
    """The crates in the order of crates.txt."""
    with open("crates.txt", encoding="utf-8") as file:
        names = [line.partition(":")[0].split()[0] for line in file if ":" in line and not line.startswith("#")]
    return [name for name in names if name in sums] + sorted(set(sums) - set(names))


def print_table(sums):
    def cell(minutes):
        return f"{minutes:.1f}" if minutes >= 0.05 else ""

    print("| Crate | Proof | Tests | Edits | All |\n|---|---|---|---|---|")
    for name in ordered(sums):
        of = sums[name]
        print(f"| {name} | {' | '.join(cell(of[kind]) for kind in KINDS)} | {cell(sum(of.values()))} |")
    whole = [sum(of[kind] for of in sums.values()) for kind in KINDS]
    print(f"| All | {' | '.join(cell(minutes) for minutes in whole)} | {cell(sum(whole))} |")


def beside(path):
    seen = {}

    def stop(*_):
        raise KeyboardInterrupt

    signal.signal(signal.SIGTERM, stop)
    try:
        while True:
            sample(None, seen)
            with open(f"{path}.new", "w", encoding="utf-8") as file:
                json.dump(seen, file)
            os.replace(f"{path}.new", path)
            time.sleep(PAUSE)
    except KeyboardInterrupt:
        return 0


def main(words):
    if words[:1] == ["--beside"]:
        return beside(words[1])
    if words[:1] == ["--table"]:
        with open(words[1], encoding="utf-8") as file:
            print_table(sums_of(json.load(file), float(words[2]) if words[2:] else 0))
        return 0
    seen = {}
    gate = subprocess.Popen(["rt", "ci", *words])
    while gate.poll() is None:
        sample(gate.pid, seen)
        time.sleep(PAUSE)
    print_table(sums_of(seen))
    return gate.returncode


if __name__ == "__main__":
    sys.exit(main(sys.argv[1:]))
