#!/usr/bin/env bash
# Speeds and memory of the proved reader of item streams.
#
# usage: bash bench/items.sh
#
# A figure is the least processor time of three runs, each in a process of its own, whose peak of memory stands beside it: the
# stream that is fed among it: 8.4 MB for 200,000 chunk references, 0.1 MB for items. 1 MB is 10^6 bytes.
set -euo pipefail
. "$(dirname "$0")/program.sh"

# row PROGRAM LINE: the items, the least time and the greatest peak of three runs on the line; the peak is the system's mark of the
# process, asked for before its input ends
row() {
    python3 - "$1" "$2" <<'PYTHON'
import re, subprocess, sys

def measured(program, line):
    with subprocess.Popen([program], stdin=subprocess.PIPE, stdout=subprocess.PIPE, text=True, bufsize=1) as ran:
        ran.stdin.write(line + "\n")
        items, time = ran.stdout.readline().split()
        with open(f"/proc/{ran.pid}/status", encoding="ascii") as status:
            return items, int(time), int(re.search(r"VmHWM:\s*(\d+)", status.read())[1])

runs = [measured(*sys.argv[1:]) for _ in range(3)]
seconds, peak = min(run[1] for run in runs) / 1e9, max(run[2] for run in runs) / 1e3
print(f"{sys.argv[2]:27} {runs[0][0]:>7} items  {seconds:8.3f} s  peak {peak:6.1f} MB")
PYTHON
}

items=$(build_program ferry_item anyhow)

uptime
for length in 131072 4096; do
    row "$items" "time-chunks 200000 $length"
done
row "$items" "time-chunks 2000 1"
for length in 131072 4096; do
    row "$items" "time-items 300 $length"
done
row "$items" "time-items 3 1"
