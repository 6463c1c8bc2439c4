#!/usr/bin/env bash
# Runs the built program on folders that it makes, good and damaged, and on words and variables, right and wrong.
set -eu
cd "$(dirname "$0")/.."
. checks/built.sh
exec python3 checks/program.py "$program"
