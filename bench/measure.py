#!/usr/bin/env python3
"""Measures a command over a folder: measure.py NAME FOLDER WORD ..

The command runs three times with its output thrown away. Printed are the seconds of the fastest run, the least processor time in
user mode, the folder's bytes by the seconds, and the greatest peak of memory: what /usr/bin/time says, or where it isn't installed,
the mark that the system keeps of the process, which is asked for as long as it runs.
"""
import os
import re
import subprocess
import sys
import time

TIME = "/usr/bin/time"


def size_of(folder):
    return sum(os.path.getsize(os.path.join(at, name)) for at, _, names in os.walk(folder) for name in names)


def timed(words):
    """Seconds, status, peak in kB and seconds in user mode, by /usr/bin/time."""
    begin = time.perf_counter()
    ran = subprocess.run([TIME, "-v", *words], stdout=subprocess.DEVNULL, stderr=subprocess.PIPE, text=True)
    seconds = time.perf_counter() - begin
    said = lambda what: re.search(rf"{what}: ([\d.]+)", ran.stderr)[1]
    return seconds, ran.returncode, int(said(r"Maximum resident set size \(kbytes\)")), float(said(r"User time \(seconds\)"))


def watched(words):
    """The same where that isn't there, by the system's own marks."""
    begin = time.perf_counter()
    peak, ran = 0, subprocess.Popen(words, stdout=subprocess.DEVNULL, stderr=subprocess.DEVNULL)
    while not (ended := os.wait4(ran.pid, os.WNOHANG))[0]:
        with open(f"/proc/{ran.pid}/status", encoding="ascii") as status:
            marks = re.findall(r"VmHWM:\s*(\d+)", status.read())
        peak = max([peak, *map(int, marks)])
        time.sleep(0.001)
    seconds, ran.returncode = time.perf_counter() - begin, os.waitstatus_to_exitcode(ended[1])
    return seconds, ran.returncode, peak, ended[2].ru_utime


def main(name, folder, *words):
    runs = [timed(words) if os.path.exists(TIME) else watched(words) for _ in range(3)]
    seconds = min(run[0] for run in runs)
    user, peak = min(run[3] for run in runs), max(run[2] for run in runs) / 1e3
    print(f"{name}: {seconds:.2f} s, {user:.2f} s in user mode, {size_of(folder) / 1e6 / seconds:.0f} MB/s, peak {peak:.1f} MB, status {runs[0][1]}")
    return max(run[1] for run in runs)


sys.exit(main(*sys.argv[1:]))
