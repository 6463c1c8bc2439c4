#!/usr/bin/env bash
# Runs the built program on a system that refuses, ends early, or holds what isn't expected: random bytes, folders, links, modes, outputs, passphrases.
set -eu
cd "$(dirname "$0")/.."
. checks/built.sh
exec python3 checks/system.py "$program"
