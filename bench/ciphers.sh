#!/usr/bin/env bash
# Speeds of the proved ciphers, beside those of `openssl speed` on the same machine where it is installed.
#
# usage: [CPU=x86-64-v3] bash bench/ciphers.sh
#
# A figure is the best of 200 turns over 64 KiB, by processor time, and of five such runs; openssl's is what it tells of one
# second. 1 MB is 10^6 bytes. To add a crate: a program in bench/programs/ that answers lines `time-CALL ..` with
# nanoseconds, and its lines below.
set -euo pipefail
. "$(dirname "$0")/program.sh"

# least_time PROGRAM LINE: the least of five answers to the line
least_time() {
    for _ in 1 2 3 4 5; do
        echo "$2" | "$1"
    done | sort -n | head -n 1
}

# megabytes BYTES NANOSECONDS: how many MB a second
megabytes() {
    awk -v bytes="$1" -v time="$2" 'BEGIN { printf "%.1f", bytes * 1000 / time }'
}

# speed PROGRAM CALL LENGTH TIMES: the MB a second of the fastest of so many turns over a buffer of so many bytes
speed() {
    megabytes "$3" "$(least_time "$1" "time-$2 $3 $4")"
}

# openssl_megabytes ARGUMENT..: what `openssl speed` tells of buffers of 64 KiB, in MB a second of processor time
openssl_megabytes() {
    if command -v openssl >/dev/null; then
        openssl speed -seconds 1 -bytes 65536 "$@" 2>/dev/null | awk 'END { sub("k$", "", $NF); printf "%.1f", $NF / 1000 }'
    else
        echo "not installed"
    fi
}

# row NAME FIGURE
row() {
    printf '%-52s %12s\n' "$1" "$2"
}

aes=$(build_program ferry_aes anyhow hex)

row "MB a second, buffers of 64 KiB" ""
row "keystream, ferry_aes, in bit planes" "$(speed "$aes" keystream 65536 200)"
row "the same block by block, byte by byte" "$(speed "$aes" bytewise 65536 40)"
row "Schedule::sixteen, ferry_aes" "$(speed "$aes" sixteen 65536 200)"
row "AES-256-CTR, openssl" "$(openssl_megabytes -evp aes-256-ctr)"
# the bit of AES-NI taken away: openssl's code in bit planes, on vectors
row "AES-256-CTR, openssl without AES instructions" \
    "$(OPENSSL_ia32cap='~0x200000200000000' openssl_megabytes -evp aes-256-ctr)"
# the bit of SSSE3 too: openssl's code in plain instructions
row "AES-256-CTR, openssl in plain instructions" \
    "$(OPENSSL_ia32cap='~0x200020200000000' openssl_megabytes -evp aes-256-ctr)"
row "keystream of 16 bytes, nanoseconds" "$(least_time "$aes" 'time-keystream 16 20000')"
row "the same block by block, byte by byte" "$(least_time "$aes" 'time-bytewise 16 20000')"
row "keystream of 128 bytes, nanoseconds" "$(least_time "$aes" 'time-keystream 128 20000')"
row "the same block by block, byte by byte" "$(least_time "$aes" 'time-bytewise 128 20000')"
