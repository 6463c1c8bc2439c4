#!/usr/bin/env bash
# Runs the built program on the repositories that BorgBackup wrote, where their folder lies beside this one, for each command
# that is built, and compares output and status.
set -eu
cd "$(dirname "$0")/.."
commands="keys key list items extract check keyfile"
fixtures=../shared/fixtures
if [ ! -e "$fixtures/run.py" ]; then
    echo "skipped: repositories that Borg wrote: there is no $fixtures"
    echo "0 passed, 0 failed, 1 skipped"
    exit 0
fi
. checks/built.sh
# The words name the commands, one each.
# shellcheck disable=SC2086
python3 "$fixtures/run.py" "$program" $commands
