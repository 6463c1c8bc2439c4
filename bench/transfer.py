#!/usr/bin/env python3
"""Measures transfers beside Borg's own way: transfer.py [--program PATH] [--only PART] [--megabytes N] [--files N] [--small N] [--times N] [--rounds N] [--block B] [--folder PATH]

Borg makes a source of three archives of random bytes, of which each shares half with the one before, stored plain. Measured are the
transfer of all three into a new target, a second one that finds all present, and, for each archive in turn, `borg export-tar` with `borg import-tar`
behind it into a repository of Borg's; then transfers of an archive of small files, and of one that has TIMES as many. Each figure is one run:
seconds, processor time in user and in system mode, and the peak of memory, of two processes both. The processor time is what the system tells of the
child as it ends; the peak is the mark that it keeps of the process, asked for as long as it runs, for what it tells at the end has the peak of
this script in it. Without Borg 1.2 it says `skipped`. The disk needs five times the megabytes.

`mixed` is a source that Borg cut into chunks of uneven sizes: 95 % of the megabytes are text in small and large files, pictures (random bytes of some
megabytes), programs (random words between runs of zeros) and two files of 40 MB; `even` is one of files of 2 MiB each, and `tiny` one of files of 100
bytes, ten times SMALL of them. For these the medians of ROUNDS rounds are told, each round beside Borg, and how many times as long as Borg it takes.
"""
import argparse
import os
import random
import re
import shutil
import statistics
import subprocess
import sys
import tempfile
import time

TOP = os.path.join(os.path.dirname(os.path.abspath(__file__)), "..")
ARCHIVES = ("first", "second", "third")
PASSPHRASE = "passphrase"


def has_borg():
    """Whether a Borg of 1.2 is there."""
    if not shutil.which("borg"):
        return False
    said = subprocess.run(["borg", "--version"], capture_output=True, text=True)
    return said.stdout.startswith("borg 1.2.")


def environment(root):
    kept = {name: value for name, value in os.environ.items() if not name.startswith("BORG_")}
    own = {"LC_ALL": "C.UTF-8", "TZ": "UTC", "BORG_BASE_DIR": os.path.join(root, "base")}
    return {**kept, **own, "BORG_PASSPHRASE": PASSPHRASE, "BORG_OTHER_PASSPHRASE": PASSPHRASE}


def borg(root, *words):
    subprocess.run(["borg", *words], cwd=root, env=environment(root), check=True, capture_output=True)


# ---- measuring


def peak_of(process):
    """The greatest resident size in kB that a process has had, 0 where it has ended."""
    try:
        with open(f"/proc/{process.pid}/status", encoding="ascii", errors="replace") as status:
            marks = re.findall(r"VmHWM:\s*(\d+)", status.read())
    except OSError:
        return 0
    return max(map(int, marks), default=0)


def waited(processes, peaks):
    """Waits for processes, with their peaks of memory: what the system tells of each."""
    usages = {}
    while len(usages) < len(processes):
        for process in processes:
            if process.pid not in usages:
                peaks[process.pid] = max(peaks.get(process.pid, 0), peak_of(process))
                ended, status, usage = os.wait4(process.pid, os.WNOHANG)
                if ended:
                    process.returncode = os.waitstatus_to_exitcode(status)
                    usages[process.pid] = usage
        time.sleep(0.002)
    return [usages[process.pid] for process in processes]


def measured(root, *commands):
    """Runs commands, the output of each the input of the next: seconds, those in user and in system mode, peaks in MB, and the last one's lines."""
    begin, processes, before = time.perf_counter(), [], subprocess.DEVNULL
    with tempfile.TemporaryFile() as out, tempfile.TemporaryFile() as said:
        for number, words in enumerate(commands, 1):
            after = subprocess.PIPE if number < len(commands) else out
            processes.append(subprocess.Popen(words, cwd=root, env=environment(root), stdin=before, stdout=after, stderr=said))
            if before is not subprocess.DEVNULL:
                before.close()
            before = processes[-1].stdout
        peaks = {}
        usages = waited(processes, peaks)
        seconds = time.perf_counter() - begin
        if any(process.returncode for process in processes):
            said.seek(0)
            raise SystemExit(f"{commands}: {[process.returncode for process in processes]}: {said.read().decode(errors='replace')[-500:]}")
        out.seek(0)
        lines = out.read().decode(errors="replace").splitlines()
    user, system = sum(usage.ru_utime for usage in usages), sum(usage.ru_stime for usage in usages)
    return seconds, user, system, [peaks[process.pid] / 1e3 for process in processes], lines


def told(name, run):
    """Prints the figures of a run. Answers its processor time."""
    seconds, user, system, peaks, lines = run
    last, peak = f"; {lines[-1]}" if lines else "", " and ".join(f"{one:.1f}" for one in peaks)
    print(f"{name}: {seconds:.2f} s, {user:.2f} s in user and {system:.2f} s in system mode, peak {peak} MB{last}", flush=True)
    return user + system


# ---- what is measured


def make_source(root, megabytes, files):
    """Makes the source: three archives, of which each has half of its files from the one before, by this many megabytes in sum of files that differ."""
    numbers, tree = random.Random(1), os.path.join(root, "tree")
    os.makedirs(tree)
    # The first archive has two halves, and the second and third have each a new one beside the last of the one before.
    per_half, size = max(files // 4, 1), int(megabytes * 1e6 / 4 / max(files // 4, 1))
    borg(root, "init", "-e", "repokey", "source")
    halves = 0
    for name in ARCHIVES:
        while halves < 2 + ARCHIVES.index(name):
            for number in range(per_half):
                with open(os.path.join(tree, f"{halves} {number:05d}"), "wb") as file:
                    file.write(numbers.randbytes(numbers.randrange(size // 2, size * 3 // 2 + 1)))
            halves += 1
        for file in os.listdir(tree):
            if int(file.split()[0]) < halves - 2:
                os.remove(os.path.join(tree, file))
        borg(root, "create", "--compression", "none", f"source::{name}", "tree")
    shutil.rmtree(tree)


def make_small(root, repository, count):
    """Makes a repository with one archive of this many small files."""
    numbers, tree = random.Random(2), os.path.join(root, "tree")
    for number in range(count):
        folder = os.path.join(tree, f"folder {number // 1000}")
        os.makedirs(folder, exist_ok=True)
        with open(os.path.join(folder, f"file {number:07d}"), "wb") as file:
            file.write(numbers.randbytes(numbers.randrange(200)))
    borg(root, "init", "-e", "repokey", repository)
    borg(root, "create", "--compression", "none", f"{repository}::small", "tree")
    shutil.rmtree(tree)


def transfer(root, program, options, source, target, *names):
    return measured(root, [program, source, target, "transfer", "--block", str(options.block), *names])


def shared_archives(root, program, options):
    """Three archives that share half: transferred, transferred again, and by tar streams of Borg's."""
    make_source(root, options.megabytes, options.files)
    told("init", measured(root, [program, "-", "target", "init"]))
    told("transfer of three archives", transfer(root, program, options, "source", "target", *ARCHIVES))
    told("transfer of the same, all present", transfer(root, program, options, "source", "target", *ARCHIVES))
    borg(root, "init", "-e", "repokey", "imported")
    total, seconds = 0.0, 0.0
    for name in ARCHIVES:
        # Borg cuts there into pieces of the same size.
        cut = ("--compression", "none", "--chunker-params", f"fixed,{options.block}")
        run = measured(root, ["borg", "export-tar", f"source::{name}", "-"], ["borg", "import-tar", *cut, f"imported::{name}", "-"])
        total += told(f"borg export-tar | borg import-tar of {name}", run)
        seconds += run[0]
    print(f"borg export-tar | borg import-tar of three archives: {seconds:.2f} s, {total:.2f} s of processor time", flush=True)


def small_files(root, program, options):
    """The growth of the time with the number of small files."""
    times = []
    for count in (options.small, options.small * options.times):
        make_small(root, f"small {count}", count)
        measured(root, [program, "-", f"target {count}", "init"])
        times.append(told(f"transfer of {count} small files", transfer(root, program, options, f"small {count}", f"target {count}")))
        told(f"transfer of {count} small files, present", transfer(root, program, options, f"small {count}", f"target {count}"))
    print(f"{options.times} times as many small files take {times[1] / max(times[0], 0.001):.1f} times the processor time", flush=True)


def write(path, data):
    os.makedirs(os.path.dirname(path), exist_ok=True)
    with open(path, "wb") as file:
        file.write(data)


def text_of(numbers, size):
    """Lines of words, of about this many bytes."""
    words = ["".join(numbers.choice("etaoinshrdlu") for _ in range(numbers.randrange(1, 10))) for _ in range(2000)]
    lines = []
    while size > 0:
        line = " ".join(numbers.choices(words, k=12))
        lines.append(line)
        size -= len(line) + 1
    return ("\n".join(lines) + "\n").encode()


def program_of(numbers, size):
    """Random words between runs of zeros, of about this many bytes."""
    parts = []
    while size > 0:
        parts.append(numbers.randbytes(numbers.randrange(200, 20000)) + bytes(numbers.randrange(4000)))
        size -= len(parts[-1])
    return b"".join(parts)


def make_mixed(root, megabytes):
    """Makes a source whose one archive has text, pictures, programs and two files of 40 MB, 95 % of this many megabytes."""
    numbers, tree, scale = random.Random(3), os.path.join(root, "tree"), megabytes / 300
    for number in range(int(1500 * scale)):
        write(os.path.join(tree, "text", f"{number // 100}", f"{number:05d}.txt"), text_of(numbers, numbers.randrange(200, 40000)))
    for number in range(int(10 * scale)):
        write(os.path.join(tree, "text", f"large {number}.txt"), text_of(numbers, numbers.randrange(1000000, 5000000)))
    for number in range(int(30 * scale)):
        write(os.path.join(tree, "pictures", f"{number:03d}.jpg"), numbers.randbytes(numbers.randrange(1000000, 5000000)))
    for number in range(int(40 * scale)):
        write(os.path.join(tree, "programs", f"{number:03d}"), program_of(numbers, numbers.randrange(20000, 2500000)))
    for number in range(2):
        write(os.path.join(tree, "films", f"{number}.mp4"), numbers.randbytes(40000000))
    borg(root, "init", "-e", "repokey", "mixed")
    borg(root, "create", "--compression", "none", "mixed::a", "tree")
    shutil.rmtree(tree)


def make_even(root, megabytes):
    """Makes a source whose one archive has files of 2 MiB each."""
    numbers, tree = random.Random(4), os.path.join(root, "tree")
    for number in range(max(int(megabytes * 1e6 / 2097152), 1)):
        write(os.path.join(tree, f"{number:04d}"), numbers.randbytes(2097152))
    borg(root, "init", "-e", "repokey", "even")
    borg(root, "create", "--compression", "none", "--chunker-params", "fixed,2097152", "even::a", "tree")
    shutil.rmtree(tree)


def make_tiny(root, count):
    """Makes a source whose one archive has this many files of 100 bytes."""
    numbers, tree = random.Random(5), os.path.join(root, "tree")
    for number in range(count):
        write(os.path.join(tree, f"{number // 1000}", f"{number:07d}"), numbers.randbytes(100))
    borg(root, "init", "-e", "repokey", "tiny")
    borg(root, "create", "--compression", "none", "tiny::a", "tree")
    shutil.rmtree(tree)


def round_of(root, program, options, source, number):
    """One round over a source: what is measured, by name, of the program and then of Borg."""
    target, imported = f"target {source} {number}", f"imported {source} {number}"
    measured(root, [program, "-", target, "init"])
    borg(root, "init", "-e", "repokey", imported)
    cut = ("--compression", "none", "--chunker-params", f"fixed,{options.block}")
    runs = {
        "transfer": transfer(root, program, options, source, target, "a"),
        "transfer again": transfer(root, program, options, source, target, "a"),
        "check": measured(root, [program, source, "-", "check"]),
        "list": measured(root, [program, source, "-", "list", "a"]),
        "borg export-tar | borg import-tar": measured(
            root, ["borg", "export-tar", f"{source}::a", "-"], ["borg", "import-tar", *cut, f"{imported}::a", "-"]
        ),
        "borg check --verify-data": measured(root, ["borg", "check", "--verify-data", source]),
    }
    if source == "mixed":
        film = "tree/films/0.mp4"
        runs["extract of 40 MB"] = measured(root, [program, source, "-", "extract", "a", film])
        runs["borg extract of 40 MB"] = measured(root, ["borg", "extract", "--stdout", f"{source}::a", film])
    shutil.rmtree(os.path.join(root, target))
    shutil.rmtree(os.path.join(root, imported))
    return runs


BESIDE = {
    "transfer": "borg export-tar | borg import-tar",
    "transfer again": "borg export-tar | borg import-tar",
    "check": "borg check --verify-data",
    "extract of 40 MB": "borg extract of 40 MB",
}


def beside_borg(root, program, options, source):
    """Rounds over a source, and the medians of the processor time."""
    rounds = [round_of(root, program, options, source, number) for number in range(options.rounds)]
    times = {name: [run[name][1] + run[name][2] for run in rounds] for name in rounds[0]}
    for name, all_times in times.items():
        peak = max(max(run[name][3]) for run in rounds)
        own = ", ".join(f"{one:.2f}" for one in all_times)
        beside = ""
        if name in BESIDE:
            ratios = [mine / other for mine, other in zip(all_times, times[BESIDE[name]])]
            beside = f"; {statistics.median(ratios):.2f} of {BESIDE[name]}"
        print(f"{source}: {name}: {statistics.median(all_times):.2f} s of the processor ({own}), peak {peak:.1f} MB{beside}", flush=True)


def uneven(root, program, options):
    make_mixed(root, options.megabytes)
    beside_borg(root, program, options, "mixed")


def even(root, program, options):
    make_even(root, options.megabytes)
    beside_borg(root, program, options, "even")


def tiny(root, program, options):
    make_tiny(root, options.small * options.times)
    beside_borg(root, program, options, "tiny")


PARTS = {"shared": shared_archives, "mixed": uneven, "even": even, "tiny": tiny, "small": small_files}


def main():
    words = argparse.ArgumentParser(description=__doc__.splitlines()[0])
    words.add_argument("--program", default=os.path.join(TOP, "target", "borgferry"))
    words.add_argument("--megabytes", type=float, default=300)
    words.add_argument("--files", type=int, default=400)
    words.add_argument("--small", type=int, default=20000)
    words.add_argument("--times", type=int, default=10)
    words.add_argument("--rounds", type=int, default=3)
    words.add_argument("--block", type=int, default=2097152)
    words.add_argument("--only", choices=PARTS, help="the one part that is measured, all where it isn't given")
    words.add_argument("--folder", help="where the repositories are made, a temporary folder where it isn't given")
    options = words.parse_args()
    if not has_borg():
        print("skipped: there is no borg of 1.2")
        return 0
    with tempfile.TemporaryDirectory(dir=options.folder) as root:
        for part in [options.only] if options.only else PARTS:
            PARTS[part](root, os.path.abspath(options.program), options)
    return 0


if __name__ == "__main__":
    sys.exit(main())
