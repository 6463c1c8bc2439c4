#!/usr/bin/env bash
# Holds the repository's papers to it: definitions, clauses, the table of crates, links, and the width of lines.
set -eu
cd "$(dirname "$0")/.."
exec python3 checks/docs.py
