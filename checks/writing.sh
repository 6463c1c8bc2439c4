#!/usr/bin/env bash
# Looks at the calls of the system that `init` and `transfer` make: what is written, synced, renamed and removed, and in which order; and
# that they fail, and lose nothing, where the system refuses a write or a sync, or where they are killed.
set -eu
cd "$(dirname "$0")/.."
. checks/built.sh
exec python3 checks/writing.py "$program"
