#!/usr/bin/env bash
# Tries tools/borgferry-plain on repositories that real Borg wrote, with the built program: the cases that take least. All of them are a person's, by
# checks/plain.py PROGRAM, and take some minutes.
set -eu
cd "$(dirname "$0")/.."
. checks/built.sh
exec python3 checks/plain.py "$program" links small new keyfile afterwards kills full kept interpreters
