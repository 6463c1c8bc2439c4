#!/usr/bin/env bash
# Random cases of the ciphers, compared with Python's `cryptography`.
#
# usage: bash bench/random_ciphers.sh [SEED]
#
# Streams of every length from 0 to 600 and of each length around 1024, 16384 and 65536, whose counters begin anywhere or
# pass 2^32, 2^64 or 2^128, and a thousand times sixteen blocks. Without a seed a new one is drawn, and told. The status
# is 1 where a case differs. To add a crate: a program in bench/programs/, its cases in random_ciphers.py, a line below.
set -euo pipefail
. "$(dirname "$0")/program.sh"

if ! command -v python3 >/dev/null || ! python3 -c 'import cryptography' 2>/dev/null; then
    echo "SKIPPED: random cases of the ciphers need Python 3 with its package cryptography"
    exit 0
fi

seed=${1:-$RANDOM$RANDOM}
cases=$top/bench/random_ciphers.py

aes=$(build_program ferry_aes anyhow hex)
python3 "$cases" ferry_aes "$aes" "$seed"
