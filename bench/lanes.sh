#!/usr/bin/env bash
# Speeds of the proved kernels over bytes, beside other bodies of the same.
#
# usage: bash bench/lanes.sh
#
# A figure is the best of 5000 turns, by processor time, and of five such runs. 1 MB is 10^6 bytes.
set -euo pipefail
. "$(dirname "$0")/program.sh"

# speed PROGRAM CALL LENGTH: the speed of a call on buffers of so many bytes, in MB a second
speed() {
    local time
    time=$(for _ in 1 2 3 4 5; do echo "time-$2 $3 5000" | "$1"; done | sort -n | head -n 1)
    awk -v len="$3" -v time="$time" 'BEGIN { printf "%.0f", len * 1000 / time }'
}

lanes=$(build_program ferry_lanes anyhow)

printf '%-20s %12s %12s\n' "MB a second" "16 KiB" "64 KiB"
for call in xor_into vector_xor_into zero_prefix plain_zero_prefix same vector_same; do
    printf '%-20s %12s %12s\n' "$call" "$(speed "$lanes" "$call" 16384)" "$(speed "$lanes" "$call" 65536)"
done
