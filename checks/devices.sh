#!/usr/bin/env bash
# Looks at what the devices and the program's own part do at the system, of which no proof speaks: each has been seen to fail with a bug planted.
set -eu
cd "$(dirname "$0")/.."
. checks/built.sh
exec python3 checks/devices.py "$program"
