#!/usr/bin/env bash
# Kills a transfer at fifty of its calls of the system, and a compaction at each of its own, and looks at what is there then, and at the run that goes on.
set -eu
cd "$(dirname "$0")/.."
. checks/built.sh
exec python3 checks/kills.py "$program"
