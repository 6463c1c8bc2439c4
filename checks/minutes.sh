#!/usr/bin/env bash
# Started by a person, and no part of the gate: runs `rt ci`, or `rt ci NAME ..`, and prints the processor minutes that each crate took.
set -eu
cd "$(dirname "$0")/.."
exec python3 checks/minutes.py "$@"
